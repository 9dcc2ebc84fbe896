//! Lengths of the old memory and of the buffer.
use super::super::places::{OLD, PRESENT};
use super::super::Checked;
use super::{old_memory, Migrations, NONE};

const LONGER: [usize; 6] = [1024, 1232, 1616, 4096, 65_536 + 616, 65_536 + 808];
const EDGES: [usize; 12] = [0, 1, 96, 104, 288, 296, 615, 616, 617, 807, 808, 809];

pub fn check(migrations: &mut Migrations) -> Checked {
    let start = migrations.made;
    for held in [NONE, 1] {
        let right = old_memory(3, held);
        for len in (0..=900).chain(LONGER) {
            one(migrations, &right, len, PRESENT.size)?;
            one(migrations, &right, OLD.size, len)?;
        }
        for old_len in EDGES {
            EDGES.into_iter().try_for_each(|len| one(migrations, &right, old_len, len))?;
        }
    }
    Ok(format!("lengths: {} migrations", migrations.made - start))
}

/// A memory that is cut or goes on in zeros, and a buffer, of these lengths.
fn one(migrations: &mut Migrations, right: &[u8], old_len: usize, len: usize) -> Result<(), String> {
    let mut old = right.to_vec();
    old.resize(old_len, 0);
    migrations.expect(&old, len, if old_len == OLD.size && len == PRESENT.size { 0 } else { 1 })
}

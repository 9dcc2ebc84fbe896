//! Request Q-7 of document 02: an old box's memory becomes a present one's, written from the papers alone.
use super::memory::{Memory, OLD, PRESENT};

/// Fills the memory with the fields of the old one, which is to be valid: 0, or 1 and no byte is changed.
pub fn migrate(old: &[u8], memory: &mut [u8]) -> u32 {
    let old = Memory::<OLD>::of(old).filter(|old| old.valid());
    let (Some(old), Some(memory)) = (old, Memory::<PRESENT>::of_mut(memory)) else {
        return 1;
    };
    *memory = old.widened();
    0
}

#[cfg(test)]
mod tests {
    use super::super::{command, format, Command, OwnDigest, INCREMENT, OLD, PAGE, PRESENT, WRITE};
    use super::migrate;

    /// Three groups at 1000, of which group 1's page is held after nine updates.
    fn held() -> [u8; 616] {
        let mut old = [0; 616];
        (0..32).for_each(|i| old[i] = i as u8 + 1);
        old[32..44].copy_from_slice(&[5, 0, 0, 0, 4, 3, 2, 1, 0, 0, 0, 0x80]);
        old[96..104].copy_from_slice(&[0xE8, 0x03, 0, 0, 3, 1, 9, 0]);
        (0..512).for_each(|i| old[104 + i] = (i % 251) as u8);
        old
    }

    /// Sixteen groups at the latest time, none held.
    fn none_held() -> [u8; 616] {
        let mut old = [0; 616];
        old[32..96].fill(0xFF);
        old[96..104].copy_from_slice(&[0xFF, 0xFF, 0xFF, 0x7F, 16, 255, 0, 0]);
        old
    }

    fn refused(old: &[u8], len: usize) {
        let mut memory = vec![0xCC; len];
        assert_eq!(migrate(old, &mut memory), 1);
        assert_eq!(memory, vec![0xCC; len]);
    }

    #[test]
    fn every_field_is_carried() {
        let mut memory = [0xCC; 808];
        assert_eq!(migrate(&held(), &mut memory), 0);
        let salt: Vec<u8> = (1..=32).collect();
        assert_eq!(memory[..32], salt);
        assert_eq!(memory[32..44], [5, 0, 0, 0, 4, 3, 2, 1, 0, 0, 0, 0x80]);
        assert_eq!(memory[44..288], [0; 244]);
        assert_eq!(memory[288..296], [0xE8, 0x03, 0, 0, 3, 1, 9, 0]);
        assert_eq!(memory[296..300], [0, 1, 2, 3]);
        assert_eq!(memory[804..], [6, 7, 8, 9]);
        assert_eq!(memory[296..], held()[104..]);
        assert_eq!(migrate(&none_held(), &mut memory), 0);
        assert_eq!(memory[..32], [0; 32]);
        assert_eq!(memory[32..96], [0xFF; 64]);
        assert_eq!(memory[96..288], [0; 192]);
        assert_eq!(memory[288..296], [0xFF, 0xFF, 0xFF, 0x7F, 16, 255, 0, 0]);
        assert_eq!(memory[296..], [0; 512]);
    }

    /// Places with a byte that breaks one clause each.
    #[test]
    fn an_old_memory_is_to_be_valid() {
        for (at, byte) in [
            (44, 1), (95, 1), (99, 0x80), (100, 0), (100, 1), (100, 2), (100, 17), (100, 64), (100, 255), (101, 3), (101, 16), (101, 255),
            (102, 0), (102, 64), (103, 1),
        ] {
            let mut old = held();
            old[at] = byte;
            refused(&old, 808);
        }
        for (at, byte) in [(99, 0x80), (100, 15), (100, 17), (100, 64), (101, 0), (102, 1), (103, 0x80), (104, 1), (615, 1)] {
            let mut old = none_held();
            old[at] = byte;
            refused(&old, 808);
        }
        for count in [[0; 4], [0xFF; 4]] {
            let mut old = held();
            old[36..40].copy_from_slice(&count);
            refused(&old, 808);
        }
    }

    #[test]
    fn lengths_are_those_of_the_two_boxes() {
        for len in [0, 615, 617, 808] {
            let mut old = held().to_vec();
            old.resize(len, 0);
            refused(&old, 808);
        }
        [0, 616, 807, 809].into_iter().for_each(|len| refused(&held(), len));
    }

    /// An old box has 1 to 16 groups; migrated with a page held, it answers as it did before.
    #[test]
    fn an_old_box_goes_on() {
        let (mut old, mut disk) = ([0xCC; 616], vec![0; 33_280 * 16]);
        assert_eq!(format::<OLD>(&mut old, &mut vec![0; 33_280 * 17], 17, &[7; 32]), 1);
        assert_eq!(format::<OLD>(&mut [0; 808], &mut disk, 16, &[7; 32]), 1);
        assert_eq!(format::<OLD>(&mut old, &mut disk, 16, &[7; 32]), 0);
        assert_eq!(old[..104], [&[7; 32][..], &[0; 68], &[16, 255, 0, 0]].concat());
        let (mut proof, mut answer) = ([0; 544], [0; 544]);
        let page = Command { kind: PAGE, block: 15, now: 9, value: 0, data: &[], proof: &[] };
        assert_eq!(command::<OLD, OwnDigest>(&mut old, &mut disk, &page, &mut proof), 0);
        let write = Command { kind: WRITE, block: 1023, now: 9, value: 5, data: &[0x44; 512], proof: &proof };
        assert_eq!(command::<OLD, OwnDigest>(&mut old, &mut disk, &write, &mut answer), 0);
        assert_eq!(old[92..104], [1, 0, 0, 0, 9, 0, 0, 0, 16, 15, 1, 0]);
        let (mut memory, mut new_disk, mut new_answer) = ([0xCC; 808], disk.clone(), [0; 544]);
        assert_eq!(migrate(&old, &mut memory), 0);
        let grow = Command { kind: INCREMENT, block: 1023, now: 10, value: 1, data: &[], proof: &answer };
        let mut old_answer = [0; 544];
        assert_eq!(command::<OLD, OwnDigest>(&mut old, &mut disk, &grow, &mut old_answer), 0);
        assert_eq!(command::<PRESENT, OwnDigest>(&mut memory, &mut new_disk, &grow, &mut new_answer), 0);
        assert_eq!(new_answer, old_answer);
        assert_eq!(new_answer[504..512], [6, 0, 0, 0, 18, 0, 0, 0]);
        assert_eq!(new_disk, disk);
        assert_eq!(memory[288..296], [10, 0, 0, 0, 16, 15, 2, 0]);
    }
}

//! The archive alone, for what is checked by hand.
use crate::archive;

/// A box of one or more groups with a zero salt, with the answer of the last command.
#[derive(Clone)]
pub struct Archive {
    pub memory: [u8; 808],
    pub disk: Vec<u8>,
    pub answer: [u8; 544],
}

impl Archive {
    pub fn formatted(groups: u32) -> Result<Archive, String> {
        let mut made =
            Archive { memory: [0xAA; 808], disk: vec![0xBB; 33_280 * groups as usize], answer: [0xCC; 544] };
        let number = archive::format(&mut made.memory, &mut made.disk, groups, &[0; 32]);
        numbered(&format!("formatting {groups} groups"), number, 0)?;
        Ok(made)
    }

    /// A command gets this number; an update brings what kind 3 answers before it. A write has 512
    /// bytes 44, and a new salt is 32 bytes 99.
    pub fn gets(&mut self, kind: u32, block: u32, now: u32, value: u32, number: u32) -> Result<(), String> {
        let mut proof = Vec::new();
        if (4..=6).contains(&kind) && block < 64 * self.memory[292] as u32 {
            let last = u32::from_le_bytes(self.memory[288..292].try_into().unwrap());
            self.gets(3, block / 64, last, 0, 0)?;
            proof = self.answer.to_vec();
        }
        let data: &[u8] = match kind {
            4 => &[0x44; 512],
            9 => &[0x99; 32],
            _ => &[],
        };
        let Archive { memory, disk, answer } = self;
        let got = archive::command(memory, disk, kind, block, now, value, data, &proof, answer);
        numbered(&format!("{kind} {block} {now} {value}"), got, number)
    }

    /// Kind 2 answers these 17 bytes and then zeros.
    pub fn shows(&mut self, block: u32, now: u32, bytes: [u8; 17]) -> Result<(), String> {
        self.gets(2, block, now, 0, 0)?;
        same(&format!("the entry of {block} at {now}"), &self.answer[..17], &bytes)?;
        same("the rest of the answer", &self.answer[17..], &[0; 527])
    }

    /// A list reads so many pages, shows these bytes for each number, and changes nothing but the time.
    pub fn lists(&mut self, blocks: &[u32], now: u32, pages: u32, shown: &[[u8; 9]]) -> Result<(), String> {
        let what = format!("the list {blocks:?} at {now}");
        let bytes: Vec<u8> = blocks.iter().flat_map(|block| block.to_le_bytes()).collect();
        let mut memory = self.memory;
        memory[288..292].copy_from_slice(&now.to_le_bytes());
        let answer = self.listed(&bytes, now, shown.len() * 9, Ok(pages))?;
        same(&what, &answer, shown.as_flattened())?;
        same(&format!("the memory after {what}"), &self.memory, &memory)
    }

    /// A list gets this number and changes nothing.
    pub fn refuses(&mut self, blocks: &[u8], now: u32, answer_len: usize, number: u32) -> Result<(), String> {
        let memory = self.memory;
        let answer = self.listed(blocks, now, answer_len, Err(number))?;
        same("the answer of a list refused", &answer, &vec![0xCC; answer_len])?;
        same("the memory after a list refused", &self.memory, &memory)
    }

    /// What a list with this outcome answers; the disk stays as it is.
    fn listed(&mut self, blocks: &[u8], now: u32, len: usize, right: Result<u32, u32>) -> Result<Vec<u8>, String> {
        let disk = self.disk.clone();
        let mut answer = vec![0xCC; len];
        let got = archive::states(&mut self.memory, &self.disk, blocks, now, &mut answer);
        let what = format!("a list of {} bytes at {now}", blocks.len());
        numbered(&format!("{what}, in the low half,"), got as u32, archive::outcome(right) as u32)?;
        numbered(&format!("{what}, in the high half,"), (got >> 32) as u32, right.unwrap_or(0))?;
        same(&format!("the disk after {what}"), &self.disk, &disk)?;
        Ok(answer)
    }
}

/// A call answered this number, in all of its 32 bits.
pub fn numbered(what: &str, got: u32, right: u32) -> Result<(), String> {
    if got == right {
        return Ok(());
    }
    Err(format!("by hand: {what} answered {got} instead of {right}"))
}

/// The bytes are these, and as many. Else the first place where they differ is told, and the lengths
/// where these differ.
pub fn same(what: &str, got: &[u8], right: &[u8]) -> Result<(), String> {
    if got == right {
        return Ok(());
    }
    let lengths = match (got.len(), right.len()) {
        (a, b) if a == b => String::new(),
        (a, b) => format!("{a} bytes instead of {b}: "),
    };
    let at = got.iter().zip(right).take_while(|(a, b)| a == b).count();
    let [is, expected] = [got, right].map(|bytes| bytes.get(at).map_or("none".into(), |byte| format!("{byte:02x}")));
    Err(format!("by hand: {what}: {lengths}byte {at} is {is} instead of {expected}"))
}

#[cfg(test)]
mod tests {
    use super::{numbered, same};

    fn told(got: &[u8], right: &[u8]) -> String {
        same("it", got, right).unwrap_err()
    }

    #[test]
    fn a_difference_is_told_with_its_place() {
        assert_eq!(told(&[1, 2, 3], &[1, 5, 4]), "by hand: it: byte 1 is 02 instead of 05");
        assert_eq!(same("it", &[1, 2], &[1, 2]), Ok(()));
    }

    #[test]
    fn lengths_that_differ_are_told() {
        assert_eq!(told(&[1, 2], &[1, 2, 3]), "by hand: it: 2 bytes instead of 3: byte 2 is none instead of 03");
        assert_eq!(told(&[1, 2, 3], &[1, 2]), "by hand: it: 3 bytes instead of 2: byte 2 is 03 instead of none");
        assert_eq!(told(&[], &[9]), "by hand: it: 0 bytes instead of 1: byte 0 is none instead of 09");
        assert_eq!(told(&[7, 2], &[8, 2, 3]), "by hand: it: 2 bytes instead of 3: byte 0 is 07 instead of 08");
    }

    #[test]
    fn a_number_is_more_than_its_low_byte() {
        assert_eq!(numbered("it", 256, 0).unwrap_err(), "by hand: it answered 256 instead of 0");
        assert_eq!(numbered("it", 7, 7), Ok(()));
    }
}

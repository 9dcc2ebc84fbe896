//! The lists that the server sends: most are good, of blocks of a few groups or of all.
use super::super::lists::List;
use super::Server;
use crate::random::Random;

impl Server<'_> {
    pub(super) fn send_list(&mut self) -> Result<(), String> {
        let mut list = List::new(&numbers(self.random, self.groups), self.now());
        let mut poked = None;
        for _ in 0..[0, 0, 0, 0, 0, 0, 1, 1, 2, 3][self.random.below(10)] {
            poked = self.spoil_list(&mut list).or(poked);
        }
        self.poke(poked);
        if self.pair.list(&list)?.is_err() {
            self.poke(poked);
        }
        Ok(())
    }

    /// Makes one thing wrong, or merely unusual. A bit of the memory to be flipped is given back.
    fn spoil_list(&mut self, list: &mut List) -> Option<(usize, u8)> {
        match self.random.below(8) {
            0 => list.now = self.time(),
            1 => list.put(self.random.below(64), self.block()),
            2 => list.blocks.resize(self.length(list.blocks.len(), 300), 0),
            3 => list.answer_len = self.length(list.answer_len, 700),
            4 => list.memory_len = Some(self.length(self.pair.memory().len(), self.pair.memory().len())),
            5 => list.disk_len = Some(self.disk_length()),
            6 => return Some(self.header_bit()),
            _ => return Some(self.memory_bit()),
        }
        None
    }
}

/// 1 to 64 numbers of a box, repeats among them: of any groups, or of two.
pub fn numbers(random: &mut Random, groups: usize) -> Vec<u32> {
    let two = [random.below(groups), random.below(groups)];
    let any = random.below(3) > 0;
    let few = if random.below(4) == 0 { 4 } else { 64 };
    let count = 1 + random.below(64);
    let number = |_| {
        let group = if any { random.below(groups) } else { two[random.below(2)] };
        (64 * group + random.below(few)) as u32
    };
    (0..count).map(number).collect()
}

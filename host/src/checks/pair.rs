//! The archive's controller and the host's, kept in step: each command and each list goes to both, and
//! then the numbers, every byte of the five buffers and the canaries around them are compared. Where the
//! host's is an old box, the archive has the memory that it migrated from it, which is to stay the
//! old one's but for the counts that are new.
use super::call::{Call, GROUP};
use super::lists::List;
use super::model::{self, Model};
use super::places::{self, PRESENT};
use super::room::Room;
use super::table::Table;
use crate::{archive, controller};
use std::borrow::Cow;

#[derive(Default)]
struct Side {
    memory: Room,
    disk: Room,
    data: Room,
    proof: Room,
    answer: Room,
}

impl Side {
    fn prepare(&mut self, call: &Call, index: usize) {
        self.proof.put(&call.proof, index % 5);
        self.prepare_list(&call.data, call.answer_len, index);
    }

    /// A list lies where other commands have their data.
    fn prepare_list(&mut self, blocks: &[u8], answer_len: usize, index: usize) {
        self.data.put(blocks, index % 7);
        self.answer.fill(answer_len, index as u8 | 1, index % 3);
    }
}

#[derive(Default)]
pub struct Pair {
    archive: Side,
    own: Side,
    pub model: Model,
    /// What was wrong with a migration: the next comparison says so.
    wrong: Option<String>,
    /// How many commands, lists and formattings there were.
    pub index: usize,
    pub table: Table,
}

impl Pair {
    /// The host's controller is an old box.
    pub fn migrated() -> Pair {
        Pair { model: model::OLD, ..Pair::default() }
    }

    /// Gives both controllers this memory and disk. An old box's is to be valid.
    pub fn load(&mut self, memory: &[u8], disk: &[u8]) {
        for side in [&mut self.archive, &mut self.own] {
            side.disk.put(disk, self.index % 13);
        }
        self.load_memory(memory);
    }

    fn load_memory(&mut self, memory: &[u8]) {
        self.own.memory.put(memory, self.index % 11);
        if !self.model.is_old() {
            return self.archive.memory.put(memory, self.index % 11);
        }
        self.archive.memory.fill(PRESENT.size, self.index as u8 | 1, self.index % 11);
        let number = archive::migrate(self.own.memory.part(), self.archive.memory.part_mut());
        if number != 0 {
            self.wrong = Some(format!("a migration answered {number}"));
        }
    }

    /// Loads a box as formatting leaves it, of zero data blocks.
    pub fn load_formatted(&mut self, groups: u8, salt: &[u8]) -> Result<(), String> {
        self.load_formatted_over(&vec![0; GROUP * groups as usize], 0, groups as u32, salt)
    }

    /// The same on this disk, and a memory of this byte.
    pub fn load_formatted_over(&mut self, disk: &[u8], byte: u8, groups: u32, salt: &[u8]) -> Result<(), String> {
        let (mut memory, mut disk) = (vec![byte; self.model.places.size], disk.to_vec());
        if !self.model.is_old() {
            self.load(&memory, &disk);
            return self.expect_format(groups, salt, 0);
        }
        let number = (self.model.format)(&mut memory, &mut disk, groups, salt);
        self.load(&memory, &disk);
        if number == 0 { Ok(()) } else { Err(format!("formatting {groups} groups of an old box answered {number}")) }
    }

    pub fn memory(&self) -> &[u8] {
        self.own.memory.part()
    }

    /// Whether a page is held.
    fn holds(&self) -> bool {
        self.memory().get(self.model.places.held).is_some_and(|held| *held != 255)
    }

    pub fn disk(&self) -> &[u8] {
        self.own.disk.part()
    }

    pub fn answer(&self) -> &[u8] {
        self.own.answer.part()
    }

    /// Changes the memory of both. An old box's stays what it is where it would not be valid, and is not migrated then.
    pub fn change_memory(&mut self, change: impl Fn(&mut [u8])) {
        let mut changed = self.memory().to_vec();
        change(&mut changed);
        let mut room = [0x5A; PRESENT.size];
        if !self.model.is_old() || controller::migrate(&changed, &mut room) == 0 {
            return self.load_memory(&changed);
        }
        let number = archive::migrate(&changed, &mut room);
        if number != 1 || room != [0x5A; PRESENT.size] {
            self.wrong = Some(format!("a migration that is to be refused answered {number}"));
        }
    }

    /// The box is migrated again as it is now.
    pub fn migrate_again(&mut self) {
        self.change_memory(|_| ());
    }

    /// What the archive is told of a memory's length where the host is told this one.
    fn archive_len(&self, memory_len: usize) -> usize {
        memory_len + PRESENT.size - self.model.places.size
    }

    /// A command with the current page of the box.
    pub fn good(&self, kind: u32, block: u32, now: u32, value: u32) -> Call {
        Call::good(kind, block, now, value, self.memory(), self.disk())
    }

    pub fn command(&mut self, call: &Call) -> Result<u32, String> {
        self.index += 1;
        let held = self.holds();
        let Call { kind, block, now, value, .. } = *call;
        let memory_len = call.memory_len.unwrap_or(self.memory().len());
        let disk_len = call.disk_len.unwrap_or(self.disk().len());
        self.archive.prepare(call, self.index);
        self.own.prepare(call, self.index);
        let archive_len = self.archive_len(memory_len);
        let Side { memory, disk, data, proof, answer } = &mut self.archive;
        let (memory, disk) = (memory.view_mut(archive_len), disk.view_mut(disk_len));
        let (data, proof, answer) = (data.part(), proof.part(), answer.part_mut());
        let got = archive::command(memory, disk, kind, block, now, value, data, proof, answer);
        let Side { memory, disk, data, proof, answer } = &mut self.own;
        let (memory, disk) = (memory.view_mut(memory_len), disk.view_mut(disk_len));
        let command = controller::Command { kind, block, now, value, data: data.part(), proof: proof.part() };
        let number = (self.model.command)(memory, disk, &command, answer.part_mut());
        self.compare(got, number).map_err(|e| format!("{}, {e}", self.describe(call)))?;
        self.table.command(kind, number, held);
        Ok(number)
    }

    /// A command that is to get this number.
    pub fn expect(&mut self, call: &Call, number: u32) -> Result<(), String> {
        let got = self.command(call)?;
        if got == number {
            return Ok(());
        }
        Err(format!("{}: both answered {got} instead of {number}", self.describe(call)))
    }

    /// One call on memory and disk of each, which are told to be of these lengths: the archive's answer and the host's.
    pub fn call_both<T>(
        &mut self,
        [memory_len, disk_len]: [Option<usize>; 2],
        archive: impl FnOnce(&mut [u8], &mut [u8]) -> T,
        own: impl FnOnce(&mut [u8], &mut [u8]) -> T,
    ) -> (T, T) {
        self.index += 1;
        let memory_len = memory_len.unwrap_or(self.memory().len());
        let disk_len = disk_len.unwrap_or(self.disk().len());
        let archive_len = self.archive_len(memory_len);
        let Side { memory, disk, .. } = &mut self.archive;
        let got = archive(memory.view_mut(archive_len), disk.view_mut(disk_len));
        let Side { memory, disk, .. } = &mut self.own;
        (got, own(memory.view_mut(memory_len), disk.view_mut(disk_len)))
    }

    /// A list's pages read, or the number of the question that said no.
    pub fn list(&mut self, list: &List) -> Result<Result<u32, u32>, String> {
        self.index += 1;
        let held = self.holds();
        let memory_len = list.memory_len.unwrap_or(self.memory().len());
        let disk_len = list.disk_len.unwrap_or(self.disk().len());
        self.archive.prepare_list(&list.blocks, list.answer_len, self.index);
        self.own.prepare_list(&list.blocks, list.answer_len, self.index);
        let archive_len = self.archive_len(memory_len);
        let Side { memory, disk, data, answer, .. } = &mut self.archive;
        let (memory, disk) = (memory.view_mut(archive_len), disk.view_mut(disk_len));
        let got = archive::states(memory, disk, data.part(), list.now, answer.part_mut());
        let Side { memory, disk, data, answer, .. } = &mut self.own;
        let (memory, disk) = (memory.view_mut(memory_len), disk.view_mut(disk_len));
        let listed = (self.model.states)(memory, disk, data.part(), list.now, answer.part_mut());
        self.compare_list(got, archive::outcome(listed)).map_err(|e| format!("{}, {e}", self.describe_list(list)))?;
        self.table.list(listed.err().unwrap_or(0), held);
        Ok(listed)
    }

    /// A list that is to have read so many pages, or to get this number.
    pub fn expect_list(&mut self, list: &List, right: Result<u32, u32>) -> Result<(), String> {
        let listed = self.list(list)?;
        if listed == right {
            return Ok(());
        }
        Err(format!("{}: both answered {listed:?} instead of {right:?}", self.describe_list(list)))
    }

    pub fn expect_format(&mut self, groups: u32, salt: &[u8], number: u32) -> Result<(), String> {
        self.index += 1;
        self.archive.data.put(salt, self.index % 7);
        self.own.data.put(salt, self.index % 7);
        let Side { memory, disk, data, .. } = &mut self.archive;
        let got = archive::format(memory.part_mut(), disk.part_mut(), groups, data.part());
        let own = (self.model.format)(self.own.memory.part_mut(), self.own.disk.part_mut(), groups, salt);
        let place = format!("command {}, formatting {groups} groups", self.index);
        self.compare(got, own).map_err(|e| format!("{place}: {e}"))?;
        if own != number {
            return Err(format!("{place}: both answered {own} instead of {number}"));
        }
        self.table.formatting(number);
        Ok(())
    }

    fn compare(&self, got: u32, number: u32) -> Result<(), String> {
        if got != number {
            return Err(format!("answered {got} instead of {number}"));
        }
        self.compare_bytes(number)
    }

    fn compare_list(&self, got: u64, right: u64) -> Result<(), String> {
        if got != right {
            let [got, right] = [got, right].map(|both| format!("{} and {} pages", both as u32, both >> 32));
            return Err(format!("answered {got} instead of {right}"));
        }
        self.compare_bytes(right as u32)
    }

    /// Every byte of the five buffers and the canaries, after a call that got this number.
    pub fn compare_bytes(&self, number: u32) -> Result<(), String> {
        if let Some(wrong) = &self.wrong {
            return Err(wrong.clone());
        }
        let (a, b, memory) = (&self.archive, &self.own, self.expected_memory());
        let rooms = [
            ("memory", &a.memory, &*memory),
            ("disk", &a.disk, &b.disk),
            ("data", &a.data, &b.data),
            ("proof", &a.proof, &b.proof),
            ("answer", &a.answer, &b.answer),
        ];
        for (name, got, right) in rooms {
            if let Some(difference) = got.difference(right) {
                return Err(format!("answered {number}, {name}: {difference}"));
            }
        }
        Ok(())
    }

    /// What the archive's memory is to be.
    fn expected_memory(&self) -> Cow<'_, Room> {
        if !self.model.is_old() {
            return Cow::Borrowed(&self.own.memory);
        }
        let mut wide = Room::default();
        wide.put(&places::widened(self.memory()), 0);
        Cow::Owned(wide)
    }

    fn describe(&self, call: &Call) -> String {
        let Call { kind, block, now, value, .. } = call;
        let lengths = [
            call.memory_len.unwrap_or(self.memory().len()),
            call.disk_len.unwrap_or(self.disk().len()),
            call.data.len(),
            call.proof.len(),
            call.answer_len,
        ];
        format!("command {}, kind {kind} block {block} now {now} value {value} lengths {lengths:?}", self.index)
    }

    fn describe_list(&self, list: &List) -> String {
        let lengths = [
            list.memory_len.unwrap_or(self.memory().len()),
            list.disk_len.unwrap_or(self.disk().len()),
            list.blocks.len(),
            list.answer_len,
        ];
        let numbers: Vec<u32> = list.numbers().take(64).collect();
        format!("command {}, list {numbers:?} now {} lengths {lengths:?}", self.index, list.now)
    }
}

//! How often each kind got each number, and which of these pairs the papers let occur.

/// Rows: kinds 1 to 10, the unknown ones, formatting, lists.
const ROWS: [&str; 13] = [
    "1 read", "2 entry", "3 page", "4 write", "5 unfreeze", "6 increment", "7 sync", "8 restart", "9 new salt",
    "10 identify", "unknown", "formatting", "list",
];
const UNKNOWN: usize = 10;
const FORMATTING: usize = 11;
const LIST: usize = 12;
/// 0 and the questions.
const NUMBERS: usize = 13;

#[derive(Default)]
pub struct Table {
    numbers: [[u64; NUMBERS]; ROWS.len()],
    /// How many were accepted with none held and with a page.
    accepted: [[u64; 2]; ROWS.len()],
}

impl Table {
    pub fn command(&mut self, kind: u32, number: u32, held: bool) {
        let row = if (1..=10).contains(&kind) { kind as usize - 1 } else { UNKNOWN };
        self.count(row, number, held);
    }

    pub fn formatting(&mut self, number: u32) {
        self.numbers[FORMATTING][number as usize] += 1;
    }

    pub fn list(&mut self, number: u32, held: bool) {
        self.count(LIST, number, held);
    }

    fn count(&mut self, row: usize, number: u32, held: bool) {
        self.numbers[row][number as usize] += 1;
        self.accepted[row][usize::from(held)] += u64::from(number == 0);
    }

    pub fn lists(&self) -> u64 {
        self.numbers[LIST].iter().sum()
    }

    pub fn print(&self) {
        print!("{:12}", "");
        (0..NUMBERS).for_each(|number| print!("{number:>8}"));
        println!();
        for (name, row) in ROWS.iter().zip(&self.numbers) {
            print!("{name:12}");
            row.iter().for_each(|count| print!("{count:>8}"));
            println!();
        }
    }

    /// Every pair that can occur did, and no other; and each kind was accepted with a page held and with none.
    pub fn check(&self) -> Result<String, String> {
        self.check_rows(|_| true)
    }

    /// The same of boxes that were not formatted by the archive.
    pub fn check_migrated(&self) -> Result<String, String> {
        self.check_rows(|row| row != FORMATTING)
    }

    fn check_rows(&self, mut counted: impl FnMut(usize) -> bool) -> Result<String, String> {
        let mut occurred = 0;
        for (row, name) in ROWS.iter().enumerate().filter(|(row, _)| counted(*row)) {
            for (number, &count) in self.numbers[row].iter().enumerate() {
                if possible(row, number) != (count > 0) {
                    return Err(format!("{name} got {number} {count} times"));
                }
                occurred += usize::from(count > 0);
            }
            if row != UNKNOWN && row != FORMATTING && self.accepted[row].contains(&0) {
                return Err(format!("{name} was accepted {:?} times with none held and with a page", self.accepted[row]));
            }
        }
        Ok(format!("all {occurred} pairs of kind and number, {} lists", self.lists()))
    }
}

/// Whether the papers put the question to the kind; 0 is that all of them had yes.
fn possible(row: usize, number: usize) -> bool {
    let kind = row + 1;
    match number {
        _ if row == FORMATTING => matches!(number, 0 | 1 | 2 | 6),
        _ if row == LIST => matches!(number, 0 | 1 | 2 | 4 | 5 | 6 | 12),
        12 => false,
        1 | 2 => true,
        3 => row == UNKNOWN,
        _ if row == UNKNOWN => false,
        5 => kind <= 6,
        7..=10 => (4..=6).contains(&kind),
        11 => kind == 9,
        _ => true,
    }
}

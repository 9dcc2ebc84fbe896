//! The order of the archive's stores on the disk, which the bytes that it leaves do not show: another group's held page, the data, the
//! page that leaves by itself. The disk lies where the machine lets nobody write. The first store on each of the machine's own
//! pages is caught, noted and then let through. Found here: a page that leaves before the data, and data before another's page.
use super::super::call::{even_page, put_number, Call, GROUP, MEMORY};
use super::super::places::PRESENT;
use super::super::Checked;
use crate::archive;
use std::ffi::c_void;
use std::ptr::null_mut;
use std::sync::atomic::{AtomicUsize, Ordering::Relaxed};

/// The machine's page.
const PIECE: usize = 4096;
const DISK: usize = 2 * GROUP;
const ROOM: usize = DISK.next_multiple_of(PIECE);
const READ: i32 = 1;
const READ_WRITE: i32 = 3;
const PRIVATE_ANONYMOUS: i32 = 0x22;
const SEGMENT_FAULT: i32 = 11;
/// With the address in the second argument.
const WITH_INFORMATION: i32 = 4;
const ADDRESS_AT: usize = 16;
const MOST_NOTED: usize = 8;

/// Held group, its updates, kind, block, and the pieces in the order of their first stores. Block 20 is in piece 2, the page of
/// group 0 in piece 8, and that of group 1 in piece 16.
const CASES: [(u8, u8, u32, u32, &[usize]); 9] = [
    (0, 62, 4, 20, &[2]),
    (0, 63, 4, 20, &[2, 8]),
    (1, 63, 4, 20, &[16, 2]),
    (0, 63, 5, 3, &[8]),
    (0, 63, 6, 3, &[8]),
    (1, 63, 6, 3, &[16]),
    (0, 63, 7, 0, &[8]),
    (0, 63, 8, 0, &[]),
    (0, 63, 9, 0, &[8]),
];

/// As the C library has it.
#[repr(C)]
struct Action {
    handler: usize,
    mask: [u64; 16],
    flags: i32,
    restorer: usize,
}

extern "C" {
    fn mmap(place: *mut c_void, len: usize, access: i32, flags: i32, file: i32, offset: i64) -> *mut c_void;
    fn munmap(place: *mut c_void, len: usize) -> i32;
    fn mprotect(place: *mut c_void, len: usize, access: i32) -> i32;
    fn sigaction(signal: i32, action: *const Action, before: *mut Action) -> i32;
}

static START: AtomicUsize = AtomicUsize::new(0);
static NOTED: [AtomicUsize; MOST_NOTED] = [const { AtomicUsize::new(0) }; MOST_NOTED];
static COUNT: AtomicUsize = AtomicUsize::new(0);

/// Notes the piece of the disk that is stored on, and lets the store through. A fault elsewhere ends the process.
extern "C" fn note(_signal: i32, information: *const u8, _context: *const u8) {
    // SAFETY: the address stands there by the signal's own layout.
    let address = unsafe { *(information.add(ADDRESS_AT) as *const usize) };
    let (piece, place) = (address.wrapping_sub(START.load(Relaxed)) / PIECE, COUNT.fetch_add(1, Relaxed));
    if piece >= ROOM / PIECE || place >= MOST_NOTED {
        std::process::abort();
    }
    NOTED[place].store(piece, Relaxed);
    // SAFETY: the piece is one of the disk's.
    unsafe { mprotect((address & !(PIECE - 1)) as *mut c_void, PIECE, READ_WRITE) };
}

pub fn check() -> Checked {
    // SAFETY: new memory of this length, which nobody else has; it is given back below.
    let place = unsafe { mmap(null_mut(), ROOM, READ_WRITE, PRIVATE_ANONYMOUS, -1, 0) };
    if place as isize == -1 {
        return Err("stores: no memory for the disk".into());
    }
    START.store(place as usize, Relaxed);
    let checked = CASES.iter().try_for_each(|(held, updates, kind, block, right)| {
        let (number, order) = stored(place, *held, *updates, *kind, *block);
        match number == 0 && order == *right {
            true => Ok(()),
            false => Err(format!(
                "stores: kind {kind} with group {held} held and {updates} updates answered {number}, and stored on {order:?}, not {right:?}"
            )),
        }
    });
    // SAFETY: as above.
    unsafe { munmap(place, ROOM) };
    checked.map(|()| format!("order of stores: {} commands", CASES.len()))
}

/// The number that the command gets, and the pieces that it stores on.
fn stored(place: *mut c_void, held: u8, updates: u8, kind: u32, block: u32) -> (u32, Vec<usize>) {
    let (mut memory, bytes) = box_of(held, updates);
    let Call { now, value, data, proof, .. } = Call::good(kind, block, 1000, 1, &memory, &bytes);
    let mut answer = [0; 544];
    // SAFETY: the memory at `place` is this function's alone, and as long.
    let disk = unsafe { std::slice::from_raw_parts_mut(place as *mut u8, DISK) };
    disk.copy_from_slice(&bytes);
    COUNT.store(0, Relaxed);
    let caught = Action { handler: note as *const () as usize, mask: [0; 16], flags: WITH_INFORMATION, restorer: 0 };
    let mut before = Action { handler: 0, mask: [0; 16], flags: 0, restorer: 0 };
    // SAFETY: both actions are whole, and the one from before is put back.
    unsafe {
        sigaction(SEGMENT_FAULT, &caught, &mut before);
        mprotect(place, ROOM, READ);
    }
    let number = archive::command(&mut memory, disk, kind, block, now, value, &data, &proof, &mut answer);
    // SAFETY: as above.
    unsafe {
        mprotect(place, ROOM, READ_WRITE);
        sigaction(SEGMENT_FAULT, &before, null_mut());
    }
    (number, NOTED[..COUNT.load(Relaxed)].iter().map(|piece| piece.load(Relaxed)).collect())
}

/// A box of two groups. Its blocks are free, but for block 3, which is frozen.
fn box_of(held: u8, updates: u8) -> (Vec<u8>, Vec<u8>) {
    let mut page = even_page(0, 1);
    put_number(&mut page, 24, 5);
    put_number(&mut page, 28, 0);
    let mut memory = vec![0; MEMORY];
    [32, 36].into_iter().for_each(|at| put_number(&mut memory, at, 100));
    memory[PRESENT.groups..PRESENT.zero].copy_from_slice(&[2, held, updates]);
    memory[PRESENT.page..].copy_from_slice(&page);
    let mut disk = vec![0xB0; DISK];
    disk.chunks_exact_mut(GROUP).for_each(|group| group[GROUP - 512..].copy_from_slice(&page));
    (memory, disk)
}

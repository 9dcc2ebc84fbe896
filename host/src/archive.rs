//! The functions of libsockjade.a. A slice crosses as a pointer and a length.

extern "C" {
    fn sockjade_digest(input: *const u8, input_len: usize, out: *mut u8, out_len: usize) -> u32;

    fn sockjade_command(
        memory: *mut u8,
        memory_len: usize,
        disk: *mut u8,
        disk_len: usize,
        kind: u32,
        block: u32,
        now: u32,
        value: u32,
        data: *const u8,
        data_len: usize,
        proof: *const u8,
        proof_len: usize,
        answer: *mut u8,
        answer_len: usize,
    ) -> u32;

    fn sockjade_format(
        memory: *mut u8,
        memory_len: usize,
        disk: *mut u8,
        disk_len: usize,
        groups: u32,
        salt: *const u8,
        salt_len: usize,
    ) -> u32;

    fn sockjade_states(
        memory: *mut u8,
        memory_len: usize,
        disk: *const u8,
        disk_len: usize,
        blocks: *const u8,
        blocks_len: usize,
        now: u32,
        answer: *mut u8,
        answer_len: usize,
    ) -> u64;

    fn sockjade_versions_start(state: *mut u8, state_len: usize, lock: u32) -> u32;

    fn sockjade_versions_put(
        state: *mut u8,
        state_len: usize,
        memory: *mut u8,
        memory_len: usize,
        disk: *mut u8,
        disk_len: usize,
        part: u32,
        now: u32,
        content: *const u8,
        content_len: usize,
    ) -> u64;

    fn sockjade_versions_flush(
        state: *mut u8,
        state_len: usize,
        memory: *mut u8,
        memory_len: usize,
        disk: *mut u8,
        disk_len: usize,
        now: u32,
    ) -> u32;

    fn sockjade_versions_block(state: *const u8, state_len: usize, part: u32) -> u64;

    fn sockjade_recover(
        memory: *const u8,
        memory_len: usize,
        disk: *const u8,
        disk_len: usize,
        point: u32,
        now: u32,
        result: *mut u8,
        result_len: usize,
    ) -> u32;

    fn sockjade_migrate(old: *const u8, old_len: usize, memory: *mut u8, memory_len: usize) -> u32;
}

/// The archive's digest: 0 and the digest in `out`, or 6 and `out` as it was.
pub fn digest(input: &[u8], out: &mut [u8]) -> u32 {
    // SAFETY: the function has no precondition beyond two valid slices that do not overlap.
    unsafe { sockjade_digest(input.as_ptr(), input.len(), out.as_mut_ptr(), out.len()) }
}

/// One command of the archive's controller: 0, or the number of the question that said no. Inlined, so that what the benchmark times is
/// the call of the archive alone.
#[inline]
#[allow(clippy::too_many_arguments)]
pub fn command(
    memory: &mut [u8],
    disk: &mut [u8],
    kind: u32,
    block: u32,
    now: u32,
    value: u32,
    data: &[u8],
    proof: &[u8],
    answer: &mut [u8],
) -> u32 {
    // SAFETY: the function has no precondition beyond five valid slices that do not overlap.
    unsafe {
        sockjade_command(
            memory.as_mut_ptr(),
            memory.len(),
            disk.as_mut_ptr(),
            disk.len(),
            kind,
            block,
            now,
            value,
            data.as_ptr(),
            data.len(),
            proof.as_ptr(),
            proof.len(),
            answer.as_mut_ptr(),
            answer.len(),
        )
    }
}

/// The archive's formatting: 0, or the number of the question that said no.
pub fn format(memory: &mut [u8], disk: &mut [u8], groups: u32, salt: &[u8]) -> u32 {
    // SAFETY: the function has no precondition beyond three valid slices that do not overlap.
    unsafe {
        sockjade_format(
            memory.as_mut_ptr(),
            memory.len(),
            disk.as_mut_ptr(),
            disk.len(),
            groups,
            salt.as_ptr(),
            salt.len(),
        )
    }
}

/// The archive's states of a list of blocks, with both its numbers in one: see `outcome`.
pub fn states(memory: &mut [u8], disk: &[u8], blocks: &[u8], now: u32, answer: &mut [u8]) -> u64 {
    // SAFETY: the function has no precondition beyond four valid slices that do not overlap.
    unsafe {
        sockjade_states(
            memory.as_mut_ptr(),
            memory.len(),
            disk.as_ptr(),
            disk.len(),
            blocks.as_ptr(),
            blocks.len(),
            now,
            answer.as_mut_ptr(),
            answer.len(),
        )
    }
}

/// The start of the archive's version store: 0, or the number of the question that said no.
pub fn versions_start(state: &mut [u8], lock: u32) -> u32 {
    // SAFETY: the function has no precondition beyond a valid slice.
    unsafe { sockjade_versions_start(state.as_mut_ptr(), state.len(), lock) }
}

/// A put of the archive's version store, with number and block in one: see `outcome`.
pub fn versions_put(
    state: &mut [u8],
    memory: &mut [u8],
    disk: &mut [u8],
    part: u32,
    now: u32,
    content: &[u8],
) -> u64 {
    // SAFETY: the function has no precondition beyond four valid slices that do not overlap.
    unsafe {
        sockjade_versions_put(
            state.as_mut_ptr(),
            state.len(),
            memory.as_mut_ptr(),
            memory.len(),
            disk.as_mut_ptr(),
            disk.len(),
            part,
            now,
            content.as_ptr(),
            content.len(),
        )
    }
}

/// A flush of the archive's version store: 0, or the number of the question that said no.
pub fn versions_flush(state: &mut [u8], memory: &mut [u8], disk: &mut [u8], now: u32) -> u32 {
    // SAFETY: the function has no precondition beyond three valid slices that do not overlap.
    unsafe {
        sockjade_versions_flush(
            state.as_mut_ptr(),
            state.len(),
            memory.as_mut_ptr(),
            memory.len(),
            disk.as_mut_ptr(),
            disk.len(),
            now,
        )
    }
}

/// The block of a part's newest version in the archive's version store, with its number in one.
pub fn versions_block(state: &[u8], part: u32) -> u64 {
    // SAFETY: the function has no precondition beyond a valid slice.
    unsafe { sockjade_versions_block(state.as_ptr(), state.len(), part) }
}

/// The archive's recovery of each part's block as of a time: 0, or the number of the question that said no.
pub fn recover(memory: &[u8], disk: &[u8], point: u32, now: u32, result: &mut [u8]) -> u32 {
    // SAFETY: the function has no precondition beyond three valid slices that do not overlap.
    unsafe {
        sockjade_recover(
            memory.as_ptr(),
            memory.len(),
            disk.as_ptr(),
            disk.len(),
            point,
            now,
            result.as_mut_ptr(),
            result.len(),
        )
    }
}

/// The archive's migration of an old box's memory: 0, or 1 and no byte is changed.
pub fn migrate(old: &[u8], memory: &mut [u8]) -> u32 {
    // SAFETY: the function has no precondition beyond two valid slices that do not overlap.
    unsafe { sockjade_migrate(old.as_ptr(), old.len(), memory.as_mut_ptr(), memory.len()) }
}

/// How a second number, or the question that said no, is answered: the number in the low 32 bits, the
/// second in the high ones.
pub fn outcome(answered: Result<u32, u32>) -> u64 {
    match answered {
        Ok(second) => (second as u64) << 32,
        Err(number) => number as u64,
    }
}

//! BLAKE3, the plain hash, written from its specification and apart from the Rattle code: the input
//! comes in pieces, the state is a flat array, the message words are looked up in a schedule, and
//! finished subtrees wait on a stack, one for each bit that is set in the number of chunks.

const IV: [u32; 8] = [
    0x6A09E667, 0xBB67AE85, 0x3C6EF372, 0xA54FF53A, 0x510E527F, 0x9B05688C, 0x1F83D9AB, 0x5BE0CD19,
];

const CHUNK_START: u32 = 1;
const CHUNK_END: u32 = 2;
const PARENT: u32 = 4;
const ROOT: u32 = 8;

const PERMUTATION: [usize; 16] = [2, 6, 3, 10, 7, 0, 4, 13, 1, 11, 12, 5, 9, 14, 15, 8];

/// Which message word stands where in each round: the permutation applied again and again.
const SCHEDULE: [[usize; 16]; 7] = {
    let mut table = [[0; 16]; 7];
    let mut i = 0;
    while i < 16 {
        table[0][i] = i;
        i += 1;
    }
    let mut round = 1;
    while round < 7 {
        let mut i = 0;
        while i < 16 {
            table[round][i] = table[round - 1][PERMUTATION[i]];
            i += 1;
        }
        round += 1;
    }
    table
};

#[inline(always)]
fn mix(v: &mut [u32; 16], a: usize, b: usize, c: usize, d: usize, x: u32, y: u32) {
    v[a] = v[a].wrapping_add(v[b]).wrapping_add(x);
    v[d] = (v[d] ^ v[a]).rotate_right(16);
    v[c] = v[c].wrapping_add(v[d]);
    v[b] = (v[b] ^ v[c]).rotate_right(12);
    v[a] = v[a].wrapping_add(v[b]).wrapping_add(y);
    v[d] = (v[d] ^ v[a]).rotate_right(8);
    v[c] = v[c].wrapping_add(v[d]);
    v[b] = (v[b] ^ v[c]).rotate_right(7);
}

/// The first eight words of the compression's output.
fn compress(h: &[u32; 8], block: &[u8; 64], counter: u64, len: u32, flags: u32) -> [u32; 8] {
    let mut m = [0u32; 16];
    for (word, bytes) in m.iter_mut().zip(block.chunks_exact(4)) {
        *word = u32::from_le_bytes(bytes.try_into().unwrap());
    }
    let mut v = [0u32; 16];
    v[..8].copy_from_slice(h);
    v[8..12].copy_from_slice(&IV[..4]);
    v[12..].copy_from_slice(&[counter as u32, (counter >> 32) as u32, len, flags]);
    for s in &SCHEDULE {
        for i in 0..4 {
            mix(&mut v, i, 4 + i, 8 + i, 12 + i, m[s[2 * i]], m[s[2 * i + 1]]);
        }
        for i in 0..4 {
            let (b, c, d) = (4 + (i + 1) % 4, 8 + (i + 2) % 4, 12 + (i + 3) % 4);
            mix(&mut v, i, b, c, d, m[s[8 + 2 * i]], m[s[9 + 2 * i]]);
        }
    }
    std::array::from_fn(|i| v[i] ^ v[i + 8])
}

/// A node whose last compression waits until it is known whether the node is the root.
struct Node {
    h: [u32; 8],
    block: [u8; 64],
    counter: u64,
    len: u32,
    flags: u32,
}

impl Node {
    fn output(&self, root: u32) -> [u32; 8] {
        compress(&self.h, &self.block, self.counter, self.len, self.flags | root)
    }

    fn parent(left: &[u32; 8], right: &[u32; 8]) -> Node {
        let mut block = [0u8; 64];
        for (place, word) in block.chunks_exact_mut(4).zip(left.iter().chain(right)) {
            place.copy_from_slice(&word.to_le_bytes());
        }
        Node { h: IV, block, counter: 0, len: 64, flags: PARENT }
    }
}

/// A hash that takes its input in pieces.
pub struct Hasher {
    stack: Vec<[u32; 8]>,
    h: [u32; 8],
    block: [u8; 64],
    filled: usize,
    blocks: u32,
    chunks: u64,
}

impl Default for Hasher {
    fn default() -> Self {
        Hasher { stack: Vec::new(), h: IV, block: [0; 64], filled: 0, blocks: 0, chunks: 0 }
    }
}

impl Hasher {
    pub fn update(&mut self, mut input: &[u8]) {
        while !input.is_empty() {
            if self.filled == 64 {
                self.end_block();
            }
            let n = input.len().min(64 - self.filled);
            self.block[self.filled..self.filled + n].copy_from_slice(&input[..n]);
            self.filled += n;
            input = &input[n..];
        }
    }

    fn start_flag(&self) -> u32 {
        if self.blocks == 0 { CHUNK_START } else { 0 }
    }

    /// Compresses a full block after which more input follows.
    fn end_block(&mut self) {
        if self.blocks == 15 {
            let h = self.chunk().output(0);
            self.chunks += 1;
            self.push(h);
            self.h = IV;
            self.blocks = 0;
        } else {
            self.h = compress(&self.h, &self.block, self.chunks, 64, self.start_flag());
            self.blocks += 1;
        }
        self.block = [0; 64];
        self.filled = 0;
    }

    /// Puts a chunk's value on the stack, after joining the subtrees that it completes.
    fn push(&mut self, mut h: [u32; 8]) {
        let mut total = self.chunks;
        while total & 1 == 0 {
            h = Node::parent(&self.stack.pop().unwrap(), &h).output(0);
            total >>= 1;
        }
        self.stack.push(h);
    }

    fn chunk(&self) -> Node {
        Node {
            h: self.h,
            block: self.block,
            counter: self.chunks,
            len: self.filled as u32,
            flags: self.start_flag() | CHUNK_END,
        }
    }

    pub fn finalize(&self) -> [u8; 32] {
        let mut node = self.chunk();
        for left in self.stack.iter().rev() {
            node = Node::parent(left, &node.output(0));
        }
        let mut out = [0u8; 32];
        for (place, word) in out.chunks_exact_mut(4).zip(node.output(ROOT)) {
            place.copy_from_slice(&word.to_le_bytes());
        }
        out
    }
}

/// The digest of a whole input.
pub fn digest(input: &[u8]) -> [u8; 32] {
    let mut hasher = Hasher::default();
    hasher.update(input);
    hasher.finalize()
}

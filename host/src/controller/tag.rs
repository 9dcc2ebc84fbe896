//! The tag of a page, and the hash that it is made with.
use super::memory::{Memory, Page, PAGE_SIZE};
use super::SALT_SIZE;
use crate::blake3;

pub const TAG_SIZE: usize = 32;
const MESSAGE_SIZE: usize = SALT_SIZE + 8 + 4 + PAGE_SIZE;

pub type Tag = [u8; TAG_SIZE];
pub type Message = [u8; MESSAGE_SIZE];

/// The hash that tags are made with.
pub trait Digest {
    fn digest(message: &Message) -> Tag;
}

/// This crate's own BLAKE3.
pub struct OwnDigest;

impl Digest for OwnDigest {
    fn digest(message: &Message) -> Tag {
        blake3::digest(message)
    }
}

/// The tag of a group's page under the present salt and count.
pub fn tag<const COUNTS: usize, D: Digest>(memory: &Memory<COUNTS>, group: usize, page: &Page) -> Tag {
    let mut message = [0; MESSAGE_SIZE];
    message[..32].copy_from_slice(memory.salt());
    message[32..40].copy_from_slice(&(group as u64).to_le_bytes());
    message[40..44].copy_from_slice(&memory.count(group).to_le_bytes());
    message[44..].copy_from_slice(page);
    D::digest(&message)
}

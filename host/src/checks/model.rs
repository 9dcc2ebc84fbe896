//! The host's model of a box, old or present, as the comparisons call it.
use super::places::{self, Places};
use crate::controller::{self, Command, OwnDigest};
use crate::versions::Refusal;
use crate::{recovery, versions};

type Commanded = fn(&mut [u8], &mut [u8], &Command, &mut [u8]) -> u32;
type Listed = fn(&mut [u8], &[u8], &[u8], u32, &mut [u8]) -> Result<u32, u32>;
type Put = fn(&mut [u8], &mut [u8], &mut [u8], u32, u32, &[u8]) -> Result<u32, Refusal>;
type Recovered = fn(&[u8], &[u8], u32, u32, &mut [u8]) -> u32;
type Flushed = fn(&mut [u8], &mut [u8], &mut [u8], u32) -> Result<(), Refusal>;

#[derive(Clone, Copy)]
pub struct Model {
    pub places: &'static Places,
    /// The groups of the largest box.
    pub most_groups: usize,
    pub format: fn(&mut [u8], &mut [u8], u32, &[u8]) -> u32,
    pub command: Commanded,
    pub states: Listed,
    pub put: Put,
    pub flush: Flushed,
    pub block: fn(&[u8], u32) -> Result<u32, u32>,
    pub recover: Recovered,
}

pub const OLD: Model = model::<{ controller::OLD }>(&places::OLD);
pub const PRESENT: Model = model::<{ controller::PRESENT }>(&places::PRESENT);

const fn model<const COUNTS: usize>(places: &'static Places) -> Model {
    Model {
        places,
        most_groups: COUNTS,
        format: controller::format::<COUNTS>,
        command: controller::command::<COUNTS, OwnDigest>,
        states: controller::states::<COUNTS>,
        put: versions::put::<COUNTS, OwnDigest>,
        flush: versions::flush::<COUNTS, OwnDigest>,
        block: versions::block::<COUNTS>,
        recover: recovery::recover::<COUNTS>,
    }
}

impl Model {
    pub fn is_old(&self) -> bool {
        self.places.size == places::OLD.size
    }
}

impl Default for Model {
    fn default() -> Model {
        PRESENT
    }
}

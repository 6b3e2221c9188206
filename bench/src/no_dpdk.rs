//! Stands for `dpdk.rs` where DPDK's source is not to be had: no program is
//! taken.

use crate::stream::Case;

pub enum Program {}

impl Program {
    pub fn taken(_: &Case) -> Option<Program> {
        None
    }

    pub fn translate(&mut self) -> bool {
        match *self {}
    }

    pub fn run(&self, _: &[u8]) -> u64 {
        match *self {}
    }
}

//! One packet's run on the library's model, through the C boundary.

use std::ptr::NonNull;

use ndakoleem::{raw, CODE_MIN};

/// How the answer says that a run ended by EXIT.
const EXIT: u8 = 0;

/// What r0 is at EXIT; each slot that runs adds one to its count. `copy` has
/// room for the packet.
#[inline(never)]
pub fn run(program: &[u8], packet: &[u8], copy: &mut [u8], counts: &mut [u64]) -> u64 {
    let ran = unsafe {
        raw::ndakoleem_run_packet_1(
            program.as_ptr(),
            program.len(),
            NonNull::dangling().as_ptr(),
            0,
            NonNull::dangling().as_ptr(),
            0,
            CODE_MIN,
            packet.as_ptr(),
            packet.len(),
            copy.as_mut_ptr(),
            copy.len(),
            counts.as_mut_ptr(),
            counts.len(),
        )
    };
    assert!(ran.number == 0 && ran.ended == EXIT, "the run does not end by EXIT");
    ran.r0
}

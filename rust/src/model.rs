//! One packet on the model: what the bytecode itself says of it, with which a
//! loader can compare what its page says.

use crate::{raw, Helpers, Refusal, PACKET_MAX, SLOT, TABLE_ENOUGH};

/// How a packet's run on the model ended.
#[derive(Clone, Copy, Debug, PartialEq, Eq)]
pub enum Ended {
    /// By EXIT, with r0.
    Exit(u64),
    /// Stopped, since [`STEPS_MAX`](crate::STEPS_MAX) slots were run.
    StepLimit,
    /// Stopped at a load or a store that lies neither wholly in the packet nor
    /// wholly in the stack.
    Access,
    /// Stopped behind the last slot, or at a wide load's second one: there is
    /// nothing to run.
    NoSlot,
}

impl Ended {
    pub(crate) fn of(number: u8, r0: u64) -> Ended {
        match number {
            0 => Ended::Exit(r0),
            1 => Ended::StepLimit,
            2 => Ended::Access,
            _ => Ended::NoSlot,
        }
    }

    /// 0 to 3.
    pub fn number(self) -> u8 {
        match self {
            Ended::Exit(_) => 0,
            Ended::StepLimit => 1,
            Ended::Access => 2,
            Ended::NoSlot => 3,
        }
    }

    /// Whether the filter keeps the packet: EXIT, and r0 is not 0.
    pub fn is_kept(self) -> bool {
        matches!(self, Ended::Exit(r0) if r0 != 0)
    }
}

/// Runs a program on a packet, on the library's model of RFC 9669 in standard
/// mode. `copy` is lent at least the packet's length, and gets at its head the
/// packet as the run left it. `counts` has at least one entry more than the
/// program has slots; each slot that ran adds one to its entry for each time, so
/// the counts of several packets add up. Refused, both are as they were.
///
/// `page` is the length of the code buffer that the program is translated into.
/// The refusals are those of such a translation, in standard mode and without a
/// metadata buffer, then [`NotModelled`](crate::Reason::NotModelled), then
/// [`BadRecord`](crate::Reason::BadRecord). The model calls no helper: with a
/// list a call is `NotModelled`, and not `UnknownHelper`.
///
/// A run starts afresh: r1 is the packet's address, r2 its length, r10 the end
/// of a stack of 512 zero bytes, every other register 0. A page without a
/// metadata buffer has in r2 the second argument of its call, so whoever
/// compares the two passes the packet's length there. Nothing sets the page's
/// other registers and its stack, and where the model stops the page goes on.
pub fn run_packet(
    program: &[u8],
    helpers: Helpers,
    page: usize,
    packet: &[u8],
    copy: &mut [u8],
    counts: &mut [u64],
) -> Result<Ended, Refusal> {
    // Each pointer is a slice's, good for its length; what is written is lent
    // by `&mut`, so nothing overlaps it.
    let ran = unsafe {
        raw::ndakoleem_run_packet_1(
            program.as_ptr(),
            program.len(),
            helpers.ids.as_ptr(),
            helpers.ids.len(),
            helpers.addresses.as_ptr(),
            helpers.addresses.len(),
            page,
            packet.as_ptr(),
            packet.len(),
            copy.as_mut_ptr(),
            copy.len(),
            counts.as_mut_ptr(),
            counts.len(),
        )
    };
    Refusal::unless_accepted(ran.number, ran.slot, program)?;
    Ok(Ended::of(ran.ended, ran.r0))
}

/// Memory in which every packet and every program's counts find room, with what
/// the last run left there.
///
/// It holds more than 80 KiB of buffers and allocates nothing, so it is as large
/// itself: `static`, boxed, or on a stack that has room for it.
pub struct Model {
    copy: [u8; PACKET_MAX],
    counts: [u64; TABLE_ENOUGH],
    /// Bytes of the copy, and slots of the program.
    length: usize,
    slots: usize,
}

impl Model {
    /// A model that has run nothing.
    pub const fn new() -> Model {
        Model { copy: [0; PACKET_MAX], counts: [0; TABLE_ENOUGH], length: 0, slots: 0 }
    }

    /// Runs a program on a packet, as [`run_packet`] explains it. The counts go
    /// on from those of the packet before. Refused, the model is as it was.
    pub fn run(
        &mut self,
        program: &[u8],
        helpers: Helpers,
        page: usize,
        packet: &[u8],
    ) -> Result<Ended, Refusal> {
        let ended = run_packet(program, helpers, page, packet, &mut self.copy, &mut self.counts)?;
        self.length = packet.len();
        self.slots = program.len() / SLOT;
        Ok(ended)
    }

    /// The last packet that was run, as its run left it.
    pub fn packet(&self) -> &[u8] {
        &self.copy[..self.length]
    }

    /// How often each slot of the last program ran, over all packets since the
    /// counts were cleared.
    pub fn counts(&self) -> &[u64] {
        &self.counts[..self.slots]
    }

    /// Has the counts begin again at 0: for another program, or another capture.
    pub fn clear_counts(&mut self) {
        self.counts = [0; TABLE_ENOUGH];
    }
}

impl Default for Model {
    fn default() -> Model {
        Model::new()
    }
}

//! Why a program is not translated or not run, and the sentence that says so.
//! The sentence is the library's own; it is kept with the refusal, which thereby
//! borrows nothing of the program.

use core::fmt;

use crate::raw;

/// The refusals, by their numbers; `docs/REFUSALS.md` says which is given where
/// there are several, and what to do about each.
#[derive(Clone, Copy, Debug, PartialEq, Eq)]
#[non_exhaustive]
pub enum Reason {
    /// The code buffer is shorter than [`CODE_MIN`](crate::CODE_MIN).
    CodeTooShort = 1,
    /// The code buffer is longer than [`CODE_MAX`](crate::CODE_MAX).
    CodeTooLong = 2,
    /// The program is longer than [`PROGRAM_MAX`](crate::PROGRAM_MAX).
    ProgramTooLong = 3,
    /// A table has fewer entries than the program has slots, and one.
    TableTooShort = 4,
    /// The helper lists differ in length, are longer than
    /// [`HELPERS_MAX`](crate::HELPERS_MAX), or hold an id twice.
    BadHelpers = 5,
    /// A slot's eight bytes, or a wide load's second eight, are not all there.
    TornSlot = 6,
    /// A slot names a register above 10.
    BadRegister = 7,
    /// A slot's opcode byte is none that is known.
    UnknownOpcode = 8,
    /// A 32- or 64-bit atomic add, or a tail call: known, but not translated.
    Unimplemented = 9,
    /// BE, or in standard mode LE, of a width other than 16, 32 or 64 bits.
    BadSwap = 10,
    /// A call of a helper whose id is not in the list.
    UnknownHelper = 11,
    /// A call that is neither to a helper nor local: src is 2 to 10.
    BadCall = 12,
    /// The code, this slot's or the epilogue's, runs past the code buffer.
    NoRoom = 13,
    /// A jump or a local call goes to no slot of the program.
    BadTarget = 14,
    /// With a map: the base and the code's length make more than 2^64 - 1.
    BaseTooHigh = 15,
    /// With a map: it does not fit into the text buffer.
    TextTooShort = 16,
    /// Of a capture alone, which nothing here reads: it does not begin with a
    /// libpcap header.
    NotPcap = 17,
    /// Of a run: the packet is longer than [`PACKET_MAX`](crate::PACKET_MAX), or
    /// than the buffer for its copy.
    BadRecord = 18,
    /// Of a run: a call, or a packet load of the mode ABS or IND, which the
    /// model does not run.
    NotModelled = 19,
}

impl Reason {
    /// None for 0, which is no refusal.
    pub(crate) fn of(number: u8) -> Option<Reason> {
        use Reason::*;
        const ALL: [Reason; 19] = [
            CodeTooShort,
            CodeTooLong,
            ProgramTooLong,
            TableTooShort,
            BadHelpers,
            TornSlot,
            BadRegister,
            UnknownOpcode,
            Unimplemented,
            BadSwap,
            UnknownHelper,
            BadCall,
            NoRoom,
            BadTarget,
            BaseTooHigh,
            TextTooShort,
            NotPcap,
            BadRecord,
            NotModelled,
        ];
        number.checked_sub(1).map(|at| ALL[at as usize])
    }

    /// 1 to 19.
    pub fn number(self) -> u8 {
        self as u8
    }
}

/// A refusal: its `Display` is a sentence for the operator.
#[derive(Clone, Copy, PartialEq, Eq)]
pub struct Refusal {
    /// Why.
    pub reason: Reason,
    /// The slot that is at fault; 0 for the reasons 1 to 5 and 15 to 18, which
    /// have none, and the number of slots where the epilogue has no room (13).
    pub slot: usize,
    sentence: [u8; raw::SENTENCE_ENOUGH],
    length: usize,
}

impl Refusal {
    /// The refusal that an answer is, where it is one.
    pub(crate) fn unless_accepted(number: u8, slot: usize, program: &[u8]) -> Result<(), Refusal> {
        Reason::of(number).map_or(Ok(()), |reason| Err(Refusal::new(reason, slot, program)))
    }

    fn new(reason: Reason, slot: usize, program: &[u8]) -> Refusal {
        let mut sentence = [0; raw::SENTENCE_ENOUGH];
        // Both pointers are a slice's or an array's, good for the length beside them.
        let length = unsafe {
            raw::ndakoleem_sentence(
                program.as_ptr(),
                program.len(),
                reason.number(),
                slot,
                sentence.as_mut_ptr(),
                sentence.len(),
            )
        };
        Refusal { reason, slot, sentence, length }
    }

    /// As `slot 7: a jump to slot 90, the program ends at 40 (refusal 14)`.
    pub fn sentence(&self) -> &str {
        core::str::from_utf8(&self.sentence[..self.length]).unwrap_or("refused")
    }
}

impl fmt::Display for Refusal {
    fn fmt(&self, f: &mut fmt::Formatter) -> fmt::Result {
        f.write_str(self.sentence())
    }
}

impl fmt::Debug for Refusal {
    fn fmt(&self, f: &mut fmt::Formatter) -> fmt::Result {
        write!(f, "Refusal {{ reason: {:?}, slot: {} }}", self.reason, self.slot)
    }
}

impl core::error::Error for Refusal {}

//! Ndakoleem for Rust: turns an eBPF filter into the x86-64 page that decides
//! which packets are kept.
//!
//! [`translate`] is one call of the static library `libndakoleem.a`, which is
//! proved; this crate adds Rust's types to it and nothing else. Every program
//! and every set of buffers gets an answer, and a refusal changes no byte.
//! [`translate_mapped`] makes besides the map by which perf names the slots:
//! one call of `libndakoleem_map.a`, which is proved too. [`run_packet`] runs the
//! bytecode itself on one packet, so that a loader can compare what its page
//! says: one call of `libndakoleem_replay.a`, which is proved as well.
//!
//! ```
//! # fn main() -> Result<(), ndakoleem::Refusal> {
//! # let filter = [0x95, 0, 0, 0, 0, 0, 0, 0];
//! use ndakoleem::{Flags, Helpers, Page};
//! let mut page = Page::new();
//! let code = page.translate(&filter, Flags::default(), Helpers::default())?;
//! # assert_eq!(code.len(), 51);
//! # Ok(())
//! # }
//! ```
//!
//! [`Page`] owns buffers in which every program finds room; [`translate`] is
//! lent any. [`Model`] owns those of [`run_packet`]. Helpers that are written in
//! Rust want [`helper_entry!`].

#![no_std]

#[cfg(not(target_arch = "x86_64"))]
compile_error!(
    "ndakoleem is a static library of x86-64 code: it is built for an x86_64 target alone"
);

mod helper;
mod model;
mod page;
pub mod raw;
mod refusal;
#[cfg(test)]
mod tests;

pub use model::{run_packet, Ended, Model};
pub use page::Page;
pub use refusal::{Reason, Refusal};

/// Bytes of a slot.
const SLOT: usize = 8;
/// The most slots of a program.
pub const SLOTS_MAX: usize = 2_048;
/// The longest program in bytes.
pub const PROGRAM_MAX: usize = SLOT * SLOTS_MAX;
/// The shortest code buffer in bytes.
pub const CODE_MIN: usize = 4_096;
/// The longest code buffer in bytes.
pub const CODE_MAX: usize = 131_072;
/// The most code of a slot in bytes.
pub const SLOT_CODE_MAX: usize = 42;
/// The most code around all slots in bytes: the prologue and the epilogue.
pub const FRAME_CODE_MAX: usize = 65;
/// The longest code in bytes that a program has.
pub const CODE_LONGEST: usize = SLOT_CODE_MAX * SLOTS_MAX + FRAME_CODE_MAX;
/// Bytes in which every program's code finds room: that, rounded up to a
/// multiple of [`CODE_MIN`].
pub const CODE_ENOUGH: usize = CODE_LONGEST.next_multiple_of(CODE_MIN);
/// Entries that do for every program in each table.
pub const TABLE_ENOUGH: usize = SLOTS_MAX + 1;
/// The most helpers.
pub const HELPERS_MAX: usize = 256;
/// The longest line of a map in bytes, its end among them.
pub const MAP_LINE_MAX: usize = 30;
/// Bytes in which every program's map finds room: a line for each slot, for the
/// prologue and for the epilogue.
pub const MAP_ENOUGH: usize = MAP_LINE_MAX * (SLOTS_MAX + 2);
/// In the table of targets: a jump to the exit.
pub const EXIT_TARGET: u32 = 1_000_001;
/// The longest packet in bytes that is run on the model.
pub const PACKET_MAX: usize = 65_535;
/// The most slots that such a run takes.
pub const STEPS_MAX: usize = 65_536;

/// What the filter finds in its registers, whose rules its code follows, and
/// how its constants are loaded. Callers name the flags that they set, as in
/// `Flags { use_mbuff: true, ..Flags::default() }`: one that is added later is
/// then off.
#[derive(Clone, Copy, Debug, Default, PartialEq, Eq)]
pub struct Flags {
    /// r1 is a metadata buffer (mbuff), and not the packet.
    pub use_mbuff: bool,
    /// With `use_mbuff`: the packet's start and end are stored in the mbuff,
    /// at the two offsets that the page's caller gives.
    pub update_data_ptr: bool,
    /// Standard mode: a 32-bit MOV by register and a 32-bit MOD by zero clear
    /// the upper half of dst, and LE 16 and LE 32 keep its low 16 and 32 bits
    /// alone, as RFC 9669 has it. Off, as in rbpf, this MOV copies 64 bits,
    /// this MOD and LE do nothing.
    pub standard: bool,
    /// Compact constants: one of 0 to 4,294,967,295 takes 5 or 6 bytes to load,
    /// and not 7 or 10, so that a longer program finds room in a page. The code
    /// does the same. Off, constants are loaded as in rbpf.
    pub compact: bool,
}

/// The helpers that the filter may call: a number and an address for each,
/// side by side, [`HELPERS_MAX`] at most and no number twice. An address is
/// that of a [`helper_entry!`], or of a function that aligns its stack itself.
#[derive(Clone, Copy, Debug, Default)]
pub struct Helpers<'a> {
    pub ids: &'a [u32],
    pub addresses: &'a [u64],
}

/// The tables that a translation fills: each has at least one entry more than
/// the program has slots.
#[derive(Debug)]
pub struct Tables<'a> {
    /// The position of each slot's code; 0 for a wide load's second slot and
    /// for the entry behind the last slot.
    pub locations: &'a mut [u32],
    /// The position of each jump's four-byte field, the prologue's first.
    pub fields: &'a mut [u32],
    /// The slot that each jump goes to; [`EXIT_TARGET`] for the exit.
    pub targets: &'a mut [u32],
    /// What each jump is: the number of a [`JumpKind`].
    pub kinds: &'a mut [u32],
    /// The slot whose code holds each jump; for the prologue's, the number of
    /// slots that the program has.
    pub makers: &'a mut [u32],
}

/// What a jump is; the table of kinds has its number.
#[derive(Clone, Copy, Debug, PartialEq, Eq)]
#[non_exhaustive]
pub enum JumpKind {
    /// Taken on a condition; so is the jump of MOD by register.
    Conditional = 1,
    /// Always taken; so are the prologue's jump and that of DIV by register.
    Plain = 2,
    /// A call within the program.
    LocalCall = 3,
}

impl JumpKind {
    /// The kind whose number an entry of the table is.
    pub fn of(entry: u32) -> Option<JumpKind> {
        use JumpKind::*;
        [Conditional, Plain, LocalCall].into_iter().find(|kind| kind.number() == entry)
    }

    /// 1 to 3.
    pub fn number(self) -> u32 {
        self as u32
    }
}

/// How much of the buffers a translation has filled.
#[derive(Clone, Copy, Debug, PartialEq, Eq)]
pub struct Accepted {
    /// Bytes of code.
    pub length: usize,
    /// Entries of the tables `fields`, `targets`, `kinds` and `makers`.
    pub jumps: usize,
}

/// How much of the buffers a translation with a map has filled.
#[derive(Clone, Copy, Debug, PartialEq, Eq)]
pub struct Mapped {
    /// As without a map.
    pub accepted: Accepted,
    /// Bytes of text.
    pub text: usize,
}

/// Calls a function of the library: with what `translate` takes, and what goes
/// behind it.
macro_rules! call {
    ($function:ident, $program:ident, $flags:ident, $helpers:ident, $code:ident, $tables:ident
        $(, $behind:expr)*) => {{
        let Tables { locations, fields, targets, kinds, makers } = $tables;
        // Each pointer is a slice's, good for its length; what is written is
        // lent by `&mut`, so nothing overlaps it.
        unsafe {
            raw::$function(
                $program.as_ptr(),
                $program.len(),
                $flags.use_mbuff,
                $flags.update_data_ptr,
                $flags.standard,
                $flags.compact,
                $helpers.ids.as_ptr(),
                $helpers.ids.len(),
                $helpers.addresses.as_ptr(),
                $helpers.addresses.len(),
                $code.as_mut_ptr(),
                $code.len(),
                locations.as_mut_ptr(),
                locations.len(),
                fields.as_mut_ptr(),
                fields.len(),
                targets.as_mut_ptr(),
                targets.len(),
                kinds.as_mut_ptr(),
                kinds.len(),
                makers.as_mut_ptr(),
                makers.len(),
                $($behind),*
            )
        }
    }};
}

/// Translates a program: the code is at the head of `code`, what is known of
/// it at the head of `tables`, and everything behind is as it was. Refused,
/// everything is as it was.
pub fn translate(
    program: &[u8],
    flags: Flags,
    helpers: Helpers,
    code: &mut [u8],
    tables: Tables,
) -> Result<Accepted, Refusal> {
    let answer = call!(ndakoleem_translate_4, program, flags, helpers, code, tables);
    Refusal::unless_accepted(answer.number, answer.slot, program)?;
    Ok(Accepted { length: answer.length, jumps: answer.jumps })
}

/// [`translate`], and at the head of `text` the map of the page, by which perf
/// names the slots. `base` is the address of the page's first byte when it
/// runs, so memory is mapped for the page before it is translated.
///
/// The map is ASCII. A line is `START SIZE NAME`, an address and a number of
/// bytes in hexadecimal: the prologue, then each slot that has bytes, a wide
/// load by its first slot, then the epilogue, without a gap. perf looks for it
/// in the file `/tmp/perf-PID.map`, PID being the process that runs the page,
/// whose user has to own the file.
pub fn translate_mapped(
    program: &[u8],
    flags: Flags,
    helpers: Helpers,
    code: &mut [u8],
    tables: Tables,
    base: u64,
    text: &mut [u8],
) -> Result<Mapped, Refusal> {
    let answer = call!(
        ndakoleem_translate_mapped_1,
        program,
        flags,
        helpers,
        code,
        tables,
        base,
        text.as_mut_ptr(),
        text.len()
    );
    Refusal::unless_accepted(answer.number, answer.slot, program)?;
    let accepted = Accepted { length: answer.length, jumps: answer.jumps };
    Ok(Mapped { accepted, text: answer.text })
}

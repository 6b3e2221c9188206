//! The limits and sizes, each by one name; everything else is reckoned from
//! these. The Rust has the page's shortest length and the exit's target, the
//! other limits are the port's (docs/REFUSALS.md, 2 to 5), and what a slot and
//! the frame come to is known of the Rust (tests/facts.rs, tests/worked.rs).

pub use crate::observe::EXIT_ANCHOR;

/// The code buffer, in bytes.
pub const CODE_MIN: u32 = 4_096;
pub const CODE_MAX: u32 = 131_072;
/// The program, in slots and in bytes.
pub const SLOTS_MAX: usize = 2_048;
pub const PROGRAM_MAX: usize = crate::ebpf::INSN_SIZE * SLOTS_MAX;
pub const HELPERS_MAX: usize = 256;

/// Entries of a table that do for the longest program, and more than that.
pub const TABLE_ENOUGH: u32 = SLOTS_MAX as u32 + 1;
pub const TABLE_AMPLE: u32 = 2 * SLOTS_MAX as u32;

/// The target of a jump to the exit, as a local call's immediate counts.
pub const ANCHOR: i32 = EXIT_ANCHOR as i32;

/// Bytes of the code: the longest slot, DIV64_REG's; the prologue with both
/// flags false, and with both true, which is the longest; the epilogue.
pub const SLOT_LONGEST: usize = 42;
pub const PROLOGUE: usize = 34;
pub const PROLOGUE_LONGEST: usize = 49;
pub const EPILOGUE: usize = 16;
/// The longest code that any program has.
pub const CODE_LONGEST: usize = SLOT_LONGEST * SLOTS_MAX + PROLOGUE_LONGEST + EPILOGUE;

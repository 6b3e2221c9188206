//! Runs a case through the Rust and puts a number to how it ends, as
//! docs/REFUSALS.md numbers them.
//!
//! What is translated, and to which bytes, the Rust alone decides. The oracle
//! adds a few lines: refusals 2 to 5, which the Rust does not have, the names of
//! the Rust's own endings, which are error texts and panic texts there and
//! numbers here, the kinds and makers of `jumps.rs`, and in standard and compact
//! mode what `modes.rs` says. An ending that has no number is a failure of the
//! oracle, said in a sentence; it is never guessed at.

use std::fmt::Debug;

use crate::observe::{self, debug_number, Panic, Seen, NO_LOCATION};
use crate::sizes::{CODE_MAX, CODE_MIN, EPILOGUE, EXIT_ANCHOR, HELPERS_MAX, PROGRAM_MAX};
use crate::stream::{Answer, Case, Translation};
use crate::{ebpf, jit, jumps, modes, Error, HashMap};

/// Bytes behind the code buffer that are watched as well.
const GUARD: usize = 64;

/// The page that is lent; the Rust asks for one that begins at a multiple of
/// 4,096.
#[repr(align(4096))]
struct Page([u8; CODE_MAX as usize + GUARD]);

/// Where an ending of the Rust is read: an error's text, or a panic's with the
/// file it comes from.
#[derive(PartialEq)]
enum Place {
    Error,
    Panic(&'static str),
}
use Place::{Error as AnError, Panic as PanicIn};

/// Every way in which the Rust refuses: where, the words it begins with, and
/// its number in docs/REFUSALS.md.
const ENDINGS: [(Place, &str, u8); 10] = [
    (AnError, "Executable memory is too small", 1),
    (PanicIn("ebpf.rs"), "Error: cannot reach instruction at index ", 6),
    (PanicIn("jit.rs"), "assertion failed: r < REGISTER_MAP_SIZE as u8", 7),
    (AnError, "[JIT] Error: unknown eBPF opcode ", 8),
    (PanicIn("jit.rs"), "not implemented", 9),
    (PanicIn("jit.rs"), "internal error: entered unreachable code", 10),
    (AnError, "[JIT] Error: unknown helper function ", 11),
    (AnError, "[JIT] Error: unexpected call type ", 12),
    (PanicIn("jit.rs"), "assertion failed: mem.offset + size <= mem.contents.len()", 13),
    (PanicIn("jit.rs"), NO_LOCATION, 14),
];

/// Runs a case on a page: the code's length, or the error's text.
type Translate = fn(&Case, &mut [u8]) -> Result<usize, String>;

/// Answers cases, one after the other, on one page.
pub struct Judge {
    translate: Translate,
    page: Box<Page>,
    /// What the page holds before a run.
    pattern: Vec<u8>,
}

impl Judge {
    pub fn new() -> Judge {
        Judge::by(translate)
    }

    pub fn by(translate: Translate) -> Judge {
        let pattern = (0..CODE_MAX as usize + GUARD).map(|at| (at * 167 + 13 + at / 256) as u8);
        let page = Box::new(Page([0; CODE_MAX as usize + GUARD]));
        Judge { translate, page, pattern: pattern.collect() }
    }

    /// The answer to a case, or a sentence about what the oracle cannot
    /// account for.
    pub fn answer(&mut self, case: &Case) -> Result<Answer, String> {
        if case.standard || case.compact {
            return modes::answer(self, case);
        }
        let (answer, _) = self.rbpf(case)?;
        Ok(answer)
    }

    /// What rbpf makes of a case, whatever its mode, and the notes of its run.
    pub fn rbpf(&mut self, case: &Case) -> Result<(Answer, Seen), String> {
        // Refusal 1 comes ahead of 2 to 5, and is the Rust's own.
        if case.code_len >= CODE_MIN {
            if let Some(number) = added_refusal(case) {
                return Ok((Answer::Refused { number, slot: 0 }, Seen::default()));
            }
        }
        let lent = case.code_len as usize;
        self.page.0[..lent + GUARD].copy_from_slice(&self.pattern[..lent + GUARD]);
        let Judge { translate, page, .. } = self;
        let (ending, seen) = observe::watch(|| translate(case, &mut page.0[..lent]));
        self.untouched(lent, lent + GUARD, "behind the code buffer")?;
        let answer = match ending {
            Ok(Ok(len)) => self.accepted(case, &seen, len),
            Ok(Err(text)) => refused(case, &seen, AnError, &text),
            Err(panic) => refused(case, &seen, place_of(&panic), &panic.text),
        };
        Ok((answer?, seen))
    }

    /// The first bytes of what the last run has left in the page.
    pub fn left(&self, len: usize) -> &[u8] {
        &self.page.0[..len]
    }

    fn untouched(&self, from: usize, to: usize, where_: &str) -> Result<(), String> {
        if self.page.0[from..to] == self.pattern[from..to] {
            return Ok(());
        }
        Err(format!("the Rust has written {where_}"))
    }

    /// Gathers an accepted translation, and checks what must be so of it.
    fn accepted(&self, case: &Case, seen: &Seen, len: usize) -> Result<Answer, String> {
        self.untouched(len, case.code_len as usize, "behind the finished code")?;
        let whole = seen.epilogue == Some(len - EPILOGUE)
            && seen.locations.len() == case.slots() + 1
            && seen.resolved == seen.jumps.len()
            && seen.jumps[0].target == EXIT_ANCHOR;
        if !whole {
            return Err("the notes of an accepted run do not agree with its code".to_string());
        }
        translation(case, &self.page.0[..len], seen)
    }
}

/// A finished page, in the form of an answer.
pub fn translation(case: &Case, code: &[u8], seen: &Seen) -> Result<Answer, String> {
    // Found for every page, shown where the case asks: the check that is in
    // them is not to depend on the question.
    let further = jumps::further(code, seen)?;
    Ok(Answer::Accepted(Translation {
        code: code.to_vec(),
        locations: seen.locations.iter().map(|location| *location as u32).collect(),
        fields: seen.jumps.iter().map(|jump| jump.field as u32).collect(),
        targets: seen.jumps.iter().map(|jump| jump.target as u32).collect(),
        further: case.further_lens.map(|_| further),
    }))
}

/// Refusals 2 to 5, in the order of docs/REFUSALS.md. A table whose length the
/// case does not give is never short.
fn added_refusal(case: &Case) -> Option<u8> {
    let entries = case.slots() as u32 + 1;
    let short = |len: &u32| *len < entries;
    if case.code_len > CODE_MAX {
        Some(2)
    } else if case.program.len() > PROGRAM_MAX {
        Some(3)
    } else if case.given_lens().iter().any(short) {
        Some(4)
    } else if !helpers_are_good(&case.helper_ids, &case.helper_addresses) {
        Some(5)
    } else {
        None
    }
}

fn helpers_are_good(ids: &[u32], addresses: &[u64]) -> bool {
    let mut sorted = ids.to_vec();
    sorted.sort_unstable();
    let twice = sorted.windows(2).any(|pair| pair[0] == pair[1]);
    ids.len() == addresses.len() && ids.len() <= HELPERS_MAX && !twice
}

/// The run by rbpf.
fn translate(case: &Case, page: &mut [u8]) -> Result<usize, String> {
    let helpers = HashMap::of_helpers(&case.helper_ids, &case.helper_addresses);
    let Case { program, use_mbuff, update_data_ptr, .. } = case;
    told(jit::JitMemory::new(program, page, &helpers, *use_mbuff, *update_data_ptr))
}

/// What a finished run tells.
pub fn told(made: Result<impl Debug, Error>) -> Result<usize, String> {
    match made {
        Ok(memory) => Ok(debug_number(&format!("{memory:?}"), "offset: ") as usize),
        Err(error) => Err(error.0),
    }
}

fn place_of(panic: &Panic) -> Place {
    match panic.file.rsplit(['/', '\\']).next() {
        Some("jit.rs") => PanicIn("jit.rs"),
        Some("ebpf.rs") => PanicIn("ebpf.rs"),
        _ => PanicIn("another file"),
    }
}

/// The numbered refusal for an ending of the Rust.
fn refused(case: &Case, seen: &Seen, place: Place, text: &str) -> Result<Answer, String> {
    let known = |ending: &&(Place, &str, u8)| ending.0 == place && text.starts_with(ending.1);
    let Some((_, _, number)) = ENDINGS.iter().find(known) else {
        return Err(format!("the Rust has ended in a way that has no number: {text}"));
    };
    let slot = slot_of(*number, case, seen, text)
        .ok_or_else(|| format!("no slot is known for refusal {number}: {text}"))?;
    Ok(Answer::Refused { number: *number, slot: slot as u32 })
}

/// The slot that goes with a refusal.
fn slot_of(number: u8, case: &Case, seen: &Seen, text: &str) -> Option<usize> {
    let n = case.slots();
    match number {
        1 => Some(0),
        6 => cut_slot(case, seen, text),
        8 | 12 => seen.slot.filter(|slot| text.ends_with(&format!("(insn #{slot})"))),
        13 if seen.epilogue.is_some() => Some(n),
        14 => bad_jump_slot(n, seen),
        _ => seen.slot,
    }
}

/// The slot whose bytes are not all there. The Rust can fail on reading slot n
/// for two reasons: slot n itself has begun, or a wide load in slot n-1 wants
/// its second half; the latter is its first slot's affair.
fn cut_slot(case: &Case, seen: &Seen, text: &str) -> Option<usize> {
    let n = case.slots();
    if !text.contains(&format!("at index {n} in")) {
        return None;
    }
    match seen.slot {
        Some(slot) if slot + 1 == n && case.program[slot * 8] == ebpf::LD_DW_IMM => Some(slot),
        _ => Some(n),
    }
}

/// The slot of the jump that was being resolved, which must be a bad one and
/// the first.
fn bad_jump_slot(n: usize, seen: &Seen) -> Option<usize> {
    let bad = |target: isize| !(0..=n as isize).contains(&target) && target != EXIT_ANCHOR;
    let first = seen.jumps.iter().position(|jump| bad(jump.target))?;
    if first + 1 != seen.resolved {
        return None;
    }
    seen.jumps[first].slot
}

#[cfg(test)]
mod tests {
    use super::*;
    use crate::slots::plain_case;

    #[test]
    fn an_ending_without_a_number_is_a_failure() {
        let case = plain_case(&[0x95, 0, 0, 0, 0, 0, 0, 0]);
        let seen = Seen { slot: Some(0), ..Seen::default() };
        let unknown = |place, text| refused(&case, &seen, place, text).is_err();
        assert!(unknown(AnError, "Executable memory is not aligned"));
        assert!(unknown(PanicIn("jit.rs"), "attempt to add with overflow"));
        // The right words from the wrong place are no refusal either.
        assert!(unknown(PanicIn("another file"), "not implemented"));
        assert!(unknown(AnError, "not implemented"));
        assert!(unknown(PanicIn("jit.rs"), "[JIT] Error: unknown eBPF opcode 0xff (insn #0)"));
        // So is a slot that the text contradicts.
        assert!(unknown(AnError, "[JIT] Error: unknown eBPF opcode 0xff (insn #1)"));
        assert!(!unknown(AnError, "[JIT] Error: unknown eBPF opcode 0xff (insn #0)"));
    }

    #[test]
    fn a_write_behind_the_page_is_seen() {
        let mut judge = Judge::new();
        let page = [0x95, 0, 0, 0, 0, 0, 0, 0];
        judge.answer(&plain_case(&page)).expect("an answer");
        assert!(judge.untouched(51, CODE_MIN as usize, "").is_ok());
        judge.page.0[4_000] ^= 1;
        assert!(judge.untouched(51, CODE_MIN as usize, "").is_err());
    }
}

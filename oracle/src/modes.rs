//! The modes that rbpf has not: standard mode, in which the code follows RFC
//! 9669 where rbpf's does not, and compact mode, in which constants are loaded
//! with fewer bytes; each alone, and both at once.
//!
//! rbpf's page for the same case, on a buffer that is long enough, is cut up by
//! its own locations: from there come the prologue, the slots' code, the
//! epilogue, the jumps with their targets, and all refusals but the two below.
//! What a mode makes of a slot's code, `compact.rs` and `standard.rs` say.
//!
//! Written here are
//!
//! - where slots and jump fields stand then, and what the fields hold,
//! - refusal 10 for LE in standard mode, and 13 by the new lengths, in the order
//!   of docs/REFUSALS.md.

use std::ops::Range;

use crate::ebpf;
use crate::judge::{self, Judge};
use crate::observe::{Seen, SeenJump};
use crate::sizes::{CODE_MAX, CODE_MIN, EPILOGUE, EXIT_ANCHOR};
use crate::stream::{Answer, Case};
use crate::{compact, standard};

/// The machine's numbers of registers 0 to 10.
pub const MACHINE: [u8; 11] = [0, 7, 6, 2, 9, 8, 3, 13, 14, 15, 5];

/// The answer to a case in its mode, or a sentence about what the oracle cannot
/// account for.
pub fn answer(judge: &mut Judge, case: &Case) -> Result<Answer, String> {
    let roomy = Case { code_len: roomy_len(case.code_len), ..case.clone() };
    let (rbpf, seen) = judge.rbpf(&roomy)?;
    let seen = match rbpf {
        Answer::Refused { number: 1..=5, .. } => return Ok(rbpf),
        // A slot ahead of the refused one may be refused here.
        Answer::Refused { number: 6..=12, slot } => judge.rbpf(&slots_ahead(&roomy, slot))?.1,
        _ => seen,
    };
    let mut page = Cut::of(judge, &seen)?;
    if let Some((number, slot)) = page.put_into_mode(case)? {
        return Ok(Answer::Refused { number, slot: slot as u32 });
    }
    match rbpf {
        Answer::Refused { number: 6..=12, .. } => Ok(rbpf),
        _ if page.len() > case.code_len as usize => {
            Ok(Answer::Refused { number: 13, slot: case.slots() as u32 })
        }
        Answer::Refused { .. } => Ok(rbpf),
        Answer::Accepted(_) => {
            let (code, seen) = page.laid_out(case.slots() + 1);
            judge::translation(case, &code, &seen)
        }
    }
}

/// Enough for every program, unless the length itself is to be refused.
fn roomy_len(code_len: u32) -> u32 {
    match code_len {
        CODE_MIN..=CODE_MAX => CODE_MAX,
        refused => refused,
    }
}

fn slots_ahead(case: &Case, slot: u32) -> Case {
    let len = slot as usize * ebpf::INSN_SIZE;
    Case { program: case.program[..len].to_vec(), ..case.clone() }
}

// ---- a part of the page ------------------------------------------------------

/// The code of a slot, or of none: the prologue's.
pub struct Code {
    slot: Option<usize>,
    pub bytes: Vec<u8>,
    /// Its jumps, whose fields count from its own first byte.
    jumps: Vec<SeenJump>,
}

impl Code {
    fn of(page: &[u8], seen: &Seen, slot: Option<usize>, place: Range<usize>) -> Code {
        let within = seen.jumps.iter().filter(|jump| place.contains(&jump.field));
        let jumps = within.map(|jump| SeenJump { field: jump.field - place.start, ..*jump });
        Code { slot, jumps: jumps.collect(), bytes: page[place].to_vec() }
    }

    /// Puts other bytes in place of some; the fields behind them move along.
    pub fn replace(&mut self, place: Range<usize>, by: &[u8]) {
        for jump in self.jumps.iter_mut().filter(|jump| jump.field >= place.end) {
            jump.field = jump.field + by.len() - place.len();
        }
        self.bytes.splice(place, by.iter().copied());
    }
}

// ---- the page ----------------------------------------------------------------

/// rbpf's page by its parts: first the prologue, then the slots that have a
/// place of their own, which second halves of wide loads have not.
struct Cut {
    parts: Vec<Code>,
    epilogue: Vec<u8>,
}

impl Cut {
    /// Of the page that the judge's last run has left.
    fn of(judge: &Judge, seen: &Seen) -> Result<Cut, String> {
        let epilogue = seen.epilogue.ok_or("a page has no epilogue where it has to have one")?;
        let page = judge.left(epilogue + EPILOGUE);
        let begun = seen.locations.iter().copied().enumerate().filter(|(_, start)| *start > 0);
        let begun = begun.map(|(slot, start)| (Some(slot), start));
        let starts: Vec<(Option<usize>, usize)> = [(None, 0)].into_iter().chain(begun).collect();
        let ends = starts.iter().skip(1).map(|(_, start)| *start).chain([epilogue]);
        let parts = starts.iter().zip(ends);
        let parts = parts.map(|((slot, start), end)| Code::of(page, seen, *slot, *start..end));
        Ok(Cut { parts: parts.collect(), epilogue: page[epilogue..].to_vec() })
    }

    fn len(&self) -> usize {
        self.parts.iter().map(|part| part.bytes.len()).sum::<usize>() + self.epilogue.len()
    }

    /// Gives each slot the code that it has in the case's mode; or the number
    /// and the slot of the first refusal that is made here.
    fn put_into_mode(&mut self, case: &Case) -> Result<Option<(u8, usize)>, String> {
        let mut end = 0;
        for code in &mut self.parts {
            if let Some(slot) = code.slot {
                if case.compact {
                    compact::change(case, slot, code)?;
                }
                if case.standard && !standard::change(&case.program, slot, code) {
                    return Ok(Some((10, slot)));
                }
                if end + code.bytes.len() > case.code_len as usize {
                    return Ok(Some((13, slot)));
                }
            }
            end += code.bytes.len();
        }
        Ok(None)
    }

    /// The page put together again, and notes such as the Rust would have left.
    fn laid_out(&self, entries: usize) -> (Vec<u8>, Seen) {
        let mut code = Vec::with_capacity(self.len());
        let mut seen = Seen { locations: vec![0; entries], ..Seen::default() };
        for part in &self.parts {
            let start = code.len();
            if let Some(slot) = part.slot {
                seen.locations[slot] = start;
            }
            let moved = |jump: &SeenJump| SeenJump { field: start + jump.field, ..*jump };
            seen.jumps.extend(part.jumps.iter().map(moved));
            code.extend(&part.bytes);
        }
        let epilogue = code.len();
        seen.epilogue = Some(epilogue);
        code.extend(&self.epilogue);
        fill_fields(&mut code, &seen, epilogue);
        (code, seen)
    }
}

/// Each field has how far it is from its end to where its jump goes.
fn fill_fields(code: &mut [u8], seen: &Seen, epilogue: usize) {
    for jump in &seen.jumps {
        let to = match jump.target {
            EXIT_ANCHOR => epilogue,
            slot => seen.locations[slot as usize],
        };
        let end = jump.field + 4;
        let distance = (to as u32).wrapping_sub(end as u32);
        code[jump.field..end].copy_from_slice(&distance.to_le_bytes());
    }
}

//! The stored corpus, put to the library over its C boundary: every answer is
//! rbpf's, in standard mode and with compact constants what the oracle makes of
//! rbpf's, and nothing else that was lent has changed. With a map the answer is
//! the same, and the map, read here, is that of the code.
//!
//! The library's code is proved, but nothing proves that the declarations in
//! `raw.rs` are those of the Rattle source: an argument in the wrong place
//! would show here.

// The oracle's reader of cases and answers.
#[path = "../../oracle/src/stream.rs"]
#[allow(dead_code)]
mod stream;

// The reader of maps.
#[path = "corpus/map.rs"]
mod map;

use std::fs::File;
use std::io::BufReader;

use ndakoleem::{
    translate, translate_mapped, Accepted, Flags, Helpers, Mapped, Reason, Refusal, Tables,
    CODE_MAX, MAP_LINE_MAX, SLOTS_MAX,
};
use stream::{Answer, Case, Further, Records, Translation};

/// One byte more than a page may have, and more entries than any program
/// needs: what is longer is cut to these, which no answer can tell.
const CODE: usize = CODE_MAX + 1;
const ENTRIES: usize = 2 * SLOTS_MAX;
const TABLES: usize = 5;
/// Bytes behind the text that is lent.
const BEHIND: usize = 64;
/// Where pages stand: low, where mmap puts them, and high; a case takes one of
/// them by its number.
const BASES: [u64; 6] =
    [0, 1, 0x40_1000, 0x7f12_3456_7000, 0x8000_0000_0000_0000, 0xffff_ffff_fffd_0000];

fn byte_mark(at: usize) -> u8 {
    (at * 31 + 7) as u8
}

fn entry_mark(at: usize) -> u32 {
    0xa5a5_0000 + at as u32
}

/// All that a case lends, each byte and entry with its mark.
#[derive(Clone, PartialEq)]
struct Lent {
    code: Vec<u8>,
    tables: [Vec<u32>; TABLES],
    text: Vec<u8>,
}

impl Lent {
    /// Tables as long as the case wants them; a case with three has n + 1
    /// entries for the kinds and for the makers.
    fn new(case: &Case, text: usize) -> Lent {
        let [locations, fields, targets] = case.table_lens;
        let [kinds, makers] = case.further_lens.unwrap_or([case.slots() as u32 + 1; 2]);
        Lent {
            code: (0..(case.code_len as usize).min(CODE)).map(byte_mark).collect(),
            tables: [locations, fields, targets, kinds, makers]
                .map(|length| (0..(length as usize).min(ENTRIES)).map(entry_mark).collect()),
            text: (0..text + BEHIND).map(byte_mark).collect(),
        }
    }

    fn translate(&mut self, case: &Case) -> Result<Accepted, Refusal> {
        let (flags, helpers) = given(case);
        let [locations, fields, targets, kinds, makers] = &mut self.tables;
        let tables = Tables { locations, fields, targets, kinds, makers };
        translate(&case.program, flags, helpers, &mut self.code, tables)
    }

    /// Lent are so many bytes of the text.
    fn translate_mapped(&mut self, case: &Case, base: u64, room: usize) -> Result<Mapped, Refusal> {
        let (flags, helpers) = given(case);
        let [locations, fields, targets, kinds, makers] = &mut self.tables;
        let tables = Tables { locations, fields, targets, kinds, makers };
        let text = &mut self.text[..room];
        translate_mapped(&case.program, flags, helpers, &mut self.code, tables, base, text)
    }

    /// Whether the code and each table have their marks from there on.
    fn untouched(&self, code: usize, entries: [usize; TABLES]) -> bool {
        let bytes = (code..self.code.len()).all(|at| self.code[at] == byte_mark(at));
        let mut tables = self.tables.iter().zip(entries);
        bytes
            && tables.all(|(table, from)| (from..table.len()).all(|at| table[at] == entry_mark(at)))
    }
}

fn given(case: &Case) -> (Flags, Helpers<'_>) {
    let Case { use_mbuff, update_data_ptr, standard, compact, .. } = *case;
    let flags = Flags { use_mbuff, update_data_ptr, standard, compact };
    (flags, Helpers { ids: &case.helper_ids, addresses: &case.helper_addresses })
}

/// What the library answers, in the oracle's form.
fn answer(case: &Case) -> Answer {
    let mut lent = Lent::new(case, 0);
    match lent.translate(case) {
        Err(refusal) => {
            assert!(lent.untouched(0, [0; TABLES]));
            Answer::Refused { number: refusal.reason.number(), slot: refusal.slot as u32 }
        }
        Ok(Accepted { length, jumps }) => {
            let filled = [case.slots() + 1, jumps, jumps, jumps, jumps];
            assert!(lent.untouched(length, filled));
            let Lent { mut code, mut tables, .. } = lent;
            code.truncate(length);
            tables.iter_mut().zip(filled).for_each(|(table, entries)| table.truncate(entries));
            let [locations, fields, targets, kinds, makers] = tables;
            let further = case.further_lens.map(|_| Further { kinds, makers });
            Answer::Accepted(Translation { code, locations, fields, targets, further })
        }
    }
}

/// That a call with a map is refused so, and changes nothing.
fn refuses(case: &Case, fresh: &Lent, base: u64, room: usize, wanted: (Reason, usize)) {
    let mut lent = fresh.clone();
    let refusal = lent.translate_mapped(case, base, room).expect_err("refused");
    assert_eq!((refusal.reason, refusal.slot), wanted);
    assert!(lent == *fresh, "{refusal}: something has changed");
}

/// That a call with a map is accepted, leaves what one without it left, and has
/// the map that the locations tell. Gives the map's length.
fn accepts(case: &Case, fresh: &Lent, plain: (&Lent, Accepted), base: u64, room: usize) -> usize {
    let mut lent = fresh.clone();
    let Mapped { accepted, text } = lent.translate_mapped(case, base, room).expect("accepted");
    let (without, wanted) = plain;
    assert_eq!(accepted, wanted);
    assert!(lent.code == without.code && lent.tables == without.tables);
    assert!(lent.text[text..] == fresh.text[text..], "what is behind the map has changed");
    let lines = map::lines(&lent.text[..text]);
    map::assert_covered(&lines, base, accepted.length);
    let locations = &lent.tables[0][..case.slots()];
    assert_eq!(lines, map::wanted(base, locations, accepted.length));
    text
}

/// Holds the calls with a map to the one without: on this base, and at the
/// borders of both refusals.
fn hold_maps(case: &Case, base: u64) {
    let enough = MAP_LINE_MAX * (case.slots() + 2);
    let fresh = Lent::new(case, enough);
    let mut plain = fresh.clone();
    match plain.translate(case) {
        Err(refusal) => {
            for (base, room) in [(base, enough), (u64::MAX, 0)] {
                refuses(case, &fresh, base, room, (refusal.reason, refusal.slot));
            }
        }
        Ok(accepted) => {
            let text = accepts(case, &fresh, (&plain, accepted), base, enough);
            assert_eq!(accepts(case, &fresh, (&plain, accepted), base, text), text);
            refuses(case, &fresh, base, text - 1, (Reason::TextTooShort, 0));
            let highest = u64::MAX - accepted.length as u64;
            accepts(case, &fresh, (&plain, accepted), highest, enough);
            for room in [enough, 0] {
                refuses(case, &fresh, highest + 1, room, (Reason::BaseTooHigh, 0));
            }
        }
    }
}

fn opened(name: &str) -> BufReader<File> {
    // Tests run in the crate's folder.
    let path = format!("../crates/program_answers/{name}");
    BufReader::new(File::open(&path).unwrap_or_else(|error| panic!("{path}: {error}")))
}

#[test]
fn every_answer_is_the_stored_one() {
    let mut cases: Records<_> = stream::case_records(opened("stdin"));
    let mut answers = stream::answer_records(opened("stdout"));
    let mut count = 0;
    while let Some(case) = cases.next_case().expect("cases") {
        let stored = answers.next_answer().expect("answers").expect("an answer to each case");
        assert!(answer(&case) == stored, "case {count}: {} and not {stored}", answer(&case));
        count += 1;
    }
    assert!(count > 0 && answers.next_answer().expect("answers").is_none());
    println!("{count} cases");
}

#[test]
fn every_map_is_that_of_its_code() {
    let mut cases: Records<_> = stream::case_records(opened("stdin"));
    let mut count = 0;
    while let Some(case) = cases.next_case().expect("cases") {
        let base = BASES[count % BASES.len()];
        let held = std::panic::catch_unwind(|| hold_maps(&case, base));
        assert!(held.is_ok(), "case {count} on base {base:x}, as said above");
        count += 1;
    }
    assert!(count > 0);
}

//! That the crate hands on what it is given and gives back what it is told:
//! EXIT's 51 bytes, each buffer behind them, flags, helpers, limits, maps, runs,
//! and refusals in words. What the library itself answers is proved, and tested elsewhere.

extern crate std;
use std::format;
use std::vec;
use std::vec::Vec;

use crate::{
    translate, Accepted, Flags, Helpers, JumpKind, Page, Reason, Refusal, Tables, CODE_ENOUGH,
    CODE_LONGEST, CODE_MAX, CODE_MIN, EXIT_TARGET, HELPERS_MAX, PROGRAM_MAX, SLOTS_MAX,
    TABLE_ENOUGH,
};

mod maps;
mod models;
mod numbers;

const EXIT: [u8; 8] = [0x95, 0, 0, 0, 0, 0, 0, 0];
const EXIT_CODE: [u8; 51] = [
    0x55, 0x53, 0x41, 0x55, 0x41, 0x56, 0x41, 0x57, 0x49, 0x89, 0xd2, 0x48, 0x89, 0xd7, 0x48, 0x89,
    0xe5, 0x48, 0x81, 0xec, 0x00, 0x02, 0x00, 0x00, 0xe8, 0x05, 0x00, 0x00, 0x00, 0xe9, 0x01, 0x00,
    0x00, 0x00, 0xc3, 0x48, 0x81, 0xc4, 0x00, 0x02, 0x00, 0x00, 0x41, 0x5f, 0x41, 0x5e, 0x41, 0x5d,
    0x5b, 0x5d, 0xc3,
];
/// A jump of every kind: the wide load's two slots, JEQ to 7, JA to 4, DIV, MOD,
/// a local call to 7, EXIT.
const JUMPS: [[u8; 8]; 8] = [
    [0x18, 0, 0, 0, 1, 0, 0, 0],
    [0, 0, 0, 0, 0, 0, 0, 0],
    [0x15, 0x01, 4, 0, 0, 0, 0, 0],
    [0x05, 0, 0, 0, 0, 0, 0, 0],
    [0x3f, 0x10, 0, 0, 0, 0, 0, 0],
    [0x9f, 0x10, 0, 0, 0, 0, 0, 0],
    [0x85, 0x10, 0, 0, 0, 0, 0, 0],
    EXIT,
];
const MARK: u32 = 0xabab_abab;
const TABLES: usize = 5;

/// Everything that a call is lent, marked beforehand.
struct Lent {
    code: Vec<u8>,
    tables: [Vec<u32>; TABLES],
}

impl Lent {
    fn new(code: usize, entries: usize) -> Lent {
        Lent { code: vec![0xab; code], tables: [entries; TABLES].map(|length| vec![MARK; length]) }
    }

    fn translate(
        &mut self,
        program: &[u8],
        flags: Flags,
        helpers: Helpers,
    ) -> Result<Accepted, Refusal> {
        let [locations, fields, targets, kinds, makers] = &mut self.tables;
        let tables = Tables { locations, fields, targets, kinds, makers };
        translate(program, flags, helpers, &mut self.code, tables)
    }

    fn untouched(&self) -> bool {
        let tables = self.tables.iter().flatten();
        self.code.iter().all(|byte| *byte == 0xab) && tables.copied().all(|entry| entry == MARK)
    }
}

fn refused(program: &[u8]) -> Refusal {
    let mut lent = Lent::new(CODE_MIN, 64);
    let refusal =
        lent.translate(program, Flags::default(), Helpers::default()).expect_err("refused");
    assert!(lent.untouched());
    refusal
}

#[test]
fn exit_alone_and_what_is_behind_it() {
    let mut lent = Lent::new(CODE_MIN, 4);
    let accepted = lent.translate(&EXIT, Flags::default(), Helpers::default());
    assert_eq!(accepted, Ok(Accepted { length: 51, jumps: 1 }));
    assert_eq!(lent.code[..51], EXIT_CODE);
    assert!(lent.code[51..].iter().all(|byte| *byte == 0xab));
    assert_eq!(lent.tables[0], [34, 0, MARK, MARK]);
    assert_eq!(lent.tables[1], [30, MARK, MARK, MARK]);
    assert_eq!(lent.tables[2], [EXIT_TARGET, MARK, MARK, MARK]);
    assert_eq!(lent.tables[3], [JumpKind::Plain.number(), MARK, MARK, MARK]);
    assert_eq!(lent.tables[4], [1, MARK, MARK, MARK]);
}

#[test]
fn every_kind_of_jump_and_its_maker() -> Result<(), Refusal> {
    use JumpKind::*;
    let mut page = Page::new();
    page.translate(&JUMPS.concat(), Flags::default(), Helpers::default())?;
    let kinds: Vec<_> = page.kinds().iter().copied().map(JumpKind::of).collect();
    assert_eq!(kinds, [Plain, Conditional, Plain, Plain, Conditional, LocalCall].map(Some));
    assert_eq!(page.makers(), [8, 2, 3, 4, 5, 6]);
    assert_eq!(page.targets(), [EXIT_TARGET, 7, 4, 5, 6, 7]);
    // The byte ahead of each field: that of JMP, JE, JMP, JMP, JE, CALL.
    let opcodes = page.fields().iter().map(|field| page.code()[*field as usize - 1]);
    assert!(opcodes.eq([0xe9, 0x84, 0xe9, 0xe9, 0x84, 0xe8]));
    Ok(())
}

#[test]
fn a_page_owns_what_it_was_given() -> Result<(), Refusal> {
    let mut page = Page::new();
    assert!(page.code().is_empty() && page.locations().is_empty() && page.fields().is_empty());
    let code = page.translate(&EXIT, Flags::default(), Helpers::default())?;
    assert_eq!(code, EXIT_CODE);
    assert_eq!(
        (page.locations(), page.fields(), page.targets()),
        (&[34, 0][..], &[30][..], &[EXIT_TARGET][..])
    );
    assert_eq!((page.kinds(), page.makers()), (&[JumpKind::Plain.number()][..], &[1][..]));
    // Refused, it keeps what it had.
    let refusal = page.translate(&[0], Flags::default(), Helpers::default()).expect_err("refused");
    assert_eq!(refusal.reason, Reason::TornSlot);
    assert_eq!((page.code(), page.locations().len()), (&EXIT_CODE[..], 2));
    Ok(())
}

#[test]
fn every_program_finds_room_in_a_page() -> Result<(), Refusal> {
    let longest = [0x3f, 0x54, 0, 0, 0, 0, 0, 0].repeat(SLOTS_MAX);
    let flags = Flags { use_mbuff: true, update_data_ptr: true, ..Flags::default() };
    let mut page = Page::new();
    assert_eq!(page.translate(&longest, flags, Helpers::default())?.len(), CODE_LONGEST);
    let lengths = [page.locations(), page.fields(), page.targets(), page.kinds(), page.makers()]
        .map(<[u32]>::len);
    assert_eq!(lengths, [TABLE_ENOUGH; TABLES]);
    Ok(())
}

#[test]
fn each_flag_of_the_prologue_reaches_the_library() {
    let length = |use_mbuff, update_data_ptr| {
        let flags = Flags { use_mbuff, update_data_ptr, ..Flags::default() };
        Lent::new(CODE_MIN, 2).translate(&EXIT, flags, Helpers::default()).expect("accepted").length
    };
    // The prologue is 34, 34, 31 or 49 bytes; EXIT and the epilogue are 17.
    let lengths =
        [length(false, false), length(false, true), length(true, false), length(true, true)];
    assert_eq!(lengths, [51, 51, 48, 66]);
}

/// Without standard mode and in it, each with rbpf's constants and with compact
/// ones.
const MODES: [(bool, bool); 4] = [(false, false), (false, true), (true, false), (true, true)];

/// In each mode the code of a slot that stands between two others.
fn in_every_mode(slot: [u8; 8]) -> [Result<Vec<u8>, Refusal>; 4] {
    MODES.map(|(standard, compact)| {
        let mut page = Page::new();
        let flags = Flags { standard, compact, ..Flags::default() };
        page.translate(&[EXIT, slot, EXIT].concat(), flags, Helpers::default())?;
        let [begin, end] = [1, 2].map(|slot| page.locations()[slot] as usize);
        Ok(page.code()[begin..end].to_vec())
    })
}

#[test]
fn standard_mode_reaches_the_library() {
    let is = |slot, off: &[u8], on: &[u8]| {
        assert_eq!(in_every_mode(slot), [off, off, on, on].map(|code| Ok(code.to_vec())));
    };
    // MOV32 by register, MOD32 by the immediate 0.
    is([0xbc, 0, 0, 0, 0, 0, 0, 0], &[0x48, 0x89, 0xc0], &[0x89, 0xc0]);
    is([0x94, 0, 0, 0, 0, 0, 0, 0], &[], &[0x89, 0xc0]);
    // LE 8.
    let [off, off_compact, on, on_compact] = in_every_mode([0xd4, 0, 0, 0, 8, 0, 0, 0]);
    assert_eq!((off, off_compact), (Ok(vec![]), Ok(vec![])));
    for answer in [on, on_compact] {
        let refusal = answer.expect_err("LE 8");
        assert_eq!((refusal.reason, refusal.slot), (Reason::BadSwap, 1));
    }
}

#[test]
fn compact_constants_reach_the_library() {
    let is = |slot, off: &[u8], on: &[u8]| {
        assert_eq!(in_every_mode(slot), [off, on, off, on].map(|code| Ok(code.to_vec())));
    };
    // MOV64 by immediate: 1 to r0 (RAX) and to r7 (R13).
    is([0xb7, 0, 0, 0, 1, 0, 0, 0], &[0x48, 0xc7, 0xc0, 1, 0, 0, 0], &[0xb8, 1, 0, 0, 0]);
    is([0xb7, 7, 0, 0, 1, 0, 0, 0], &[0x49, 0xc7, 0xc5, 1, 0, 0, 0], &[0x41, 0xbd, 1, 0, 0, 0]);
    // -1, and a 32-bit move, keep their forms.
    let minus_1 = [0x48, 0xc7, 0xc0, 0xff, 0xff, 0xff, 0xff];
    is([0xb7, 0, 0, 0, 0xff, 0xff, 0xff, 0xff], &minus_1, &minus_1);
    let at_32_bits = [0xc7, 0xc0, 1, 0, 0, 0];
    is([0xb4, 0, 0, 0, 1, 0, 0, 0], &at_32_bits, &at_32_bits);
}

#[test]
fn with_compact_constants_more_finds_room() -> Result<(), Refusal> {
    // 7 bytes of code each, or 5.
    let program = [0xb7, 0, 0, 0, 1, 0, 0, 0].repeat(600);
    let translated = |compact| {
        let flags = Flags { compact, ..Flags::default() };
        Lent::new(CODE_MIN, 601).translate(&program, flags, Helpers::default())
    };
    let refusal = translated(false).expect_err("4,250 bytes");
    assert_eq!((refusal.reason, refusal.slot), (Reason::NoRoom, 580));
    // The prologue is 34 bytes, the epilogue 16.
    assert_eq!(translated(true)?.length, 34 + 5 * 600 + 16);
    Ok(())
}

#[test]
fn a_listed_helper_is_called() {
    let call = [0x85, 0, 0, 0, 7, 0, 0, 0];
    let helpers = Helpers { ids: &[6, 7], addresses: &[1, 0x1122_3344_5566_7788] };
    let mut lent = Lent::new(CODE_MIN, 2);
    let accepted = lent.translate(&call, Flags::default(), helpers).expect("accepted");
    let code = &lent.code[..accepted.length];
    assert!(code.windows(8).any(|bytes| bytes == 0x1122_3344_5566_7788u64.to_le_bytes()));
}

#[test]
fn buffers_keep_their_own_lengths() {
    let reason = |code, entries: [usize; TABLES]| {
        let mut lent = Lent::new(code, 0);
        lent.tables = entries.map(|length| vec![MARK; length]);
        let refusal =
            lent.translate(&EXIT, Flags::default(), Helpers::default()).expect_err("refused");
        refusal.reason
    };
    assert_eq!(reason(CODE_MIN - 1, [2; TABLES]), Reason::CodeTooShort);
    assert_eq!(reason(CODE_MAX + 1, [2; TABLES]), Reason::CodeTooLong);
    for short in 0..TABLES {
        let mut entries = [2; TABLES];
        entries[short] = 1;
        assert_eq!(reason(CODE_MIN, entries), Reason::TableTooShort, "table {short}");
    }
}

#[test]
fn the_limits_are_the_librarys() {
    let accepts = |code, program: &[u8], helpers: usize| {
        let ids: Vec<u32> = (0..helpers as u32).collect();
        let helpers = Helpers { ids: &ids, addresses: &vec![0; helpers] };
        Lent::new(code, TABLE_ENOUGH).translate(program, Flags::default(), helpers).is_ok()
    };
    let longest = EXIT.repeat(SLOTS_MAX + 1);
    for code in [CODE_MIN, CODE_ENOUGH, CODE_MAX] {
        assert!(accepts(code, &EXIT, 0));
    }
    assert!(accepts(CODE_MIN, &longest[..PROGRAM_MAX], 0));
    assert!(!accepts(CODE_MIN, &longest, 0));
    assert!(accepts(CODE_MIN, &EXIT, HELPERS_MAX));
    assert!(!accepts(CODE_MIN, &EXIT, HELPERS_MAX + 1));
}

#[test]
fn a_bad_jump_in_words() {
    let mut program = EXIT.repeat(40);
    program[56..64].copy_from_slice(&[0x05, 0, 82, 0, 0, 0, 0, 0]);
    let refusal = refused(&program);
    assert_eq!((refusal.reason, refusal.slot), (Reason::BadTarget, 7));
    assert_eq!(
        format!("{refusal}"),
        "slot 7: a jump to slot 90, the program ends at 40 (refusal 14)"
    );
}

#[test]
fn an_unknown_opcode_in_words() {
    let refusal = refused(&[EXIT, [0x06, 0, 0, 0, 0, 0, 0, 0]].concat());
    assert_eq!((refusal.reason.number(), refusal.slot), (8, 1));
    assert_eq!(format!("{refusal}"), "slot 1: unknown opcode 0x06 (refusal 8)");
}

#[test]
fn every_number_is_its_reason() {
    for number in 1..=19 {
        assert_eq!(Reason::of(number).map(Reason::number), Some(number));
    }
    assert_eq!(Reason::of(0), None);
}

#[test]
fn every_entry_is_its_kind() {
    for number in 1..=3 {
        assert_eq!(JumpKind::of(number).map(JumpKind::number), Some(number));
    }
    assert_eq!((JumpKind::of(0), JumpKind::of(4)), (None, None));
}

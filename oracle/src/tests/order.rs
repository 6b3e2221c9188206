//! The order of the refusals, and their slots.

use super::{accepted, case_of, refused, EXIT};
use crate::ebpf::{self, BE, CALL, DIV64_REG, JA, LD_DW_IMM, MOV64_REG, TAIL_CALL};
use crate::judge::Judge;
use crate::limits;
use crate::sizes::{
    CODE_MAX, CODE_MIN, EPILOGUE, HELPERS_MAX, PROGRAM_MAX, PROLOGUE, SLOTS_MAX, SLOT_LONGEST,
    TABLE_AMPLE, TABLE_ENOUGH,
};
use crate::slots::{plain_case, slot, with_tables};
use crate::stream::{Answer, Case};

const BAD_REGISTER: [u8; 8] = [MOV64_REG, 11, 0, 0, 0, 0, 0, 0];
const UNKNOWN: [u8; 8] = [0xff, 0, 0, 0, 0, 0, 0, 0];
const UNIMPLEMENTED: [u8; 8] = [TAIL_CALL, 0, 0, 0, 0, 0, 0, 0];
const BAD_SWAP: [u8; 8] = [BE, 0, 0, 0, 8, 0, 0, 0];
const NO_HELPER: [u8; 8] = [CALL, 0, 0, 0, 7, 0, 0, 0];
const BAD_CALL: [u8; 8] = [CALL, 0x20, 0, 0, 0, 0, 0, 0];
const BAD_JUMP: [u8; 8] = [JA, 0, 9, 0, 0, 0, 0, 0];
const WIDE: [u8; 8] = [LD_DW_IMM, 0, 0, 0, 0, 0, 0, 0];

/// Bad slots, each with its number.
const BAD: [([u8; 8], u8); 6] = [
    (BAD_REGISTER, 7),
    (UNKNOWN, 8),
    (UNIMPLEMENTED, 9),
    (BAD_SWAP, 10),
    (NO_HELPER, 11),
    (BAD_CALL, 12),
];

/// Every set of the causes of 3, 4 and 5 ahead of a bad slot, 4 by way of one
/// table; each with the number that is told where the page is good.
fn sets_of_causes(short: usize) -> Vec<(Case, u8)> {
    let set = |causes: usize| {
        let program = if causes & 1 != 0 { vec![0xff; PROGRAM_MAX + 1] } else { UNKNOWN.to_vec() };
        let case = plain_case(&program);
        let mut lens = [case.slots() as u32 + 1; 5];
        if causes & 2 != 0 {
            lens[short] = 1;
        }
        let helper_addresses = if causes & 4 != 0 { vec![0] } else { vec![] };
        let first = [(1, 3), (2, 4), (4, 5)].into_iter().find(|(cause, _)| causes & cause != 0);
        let number = first.map_or(8, |(_, number)| number);
        (Case { helper_addresses, ..with_tables(&case, lens) }, number)
    };
    (0..8).map(set).collect()
}

#[test]
fn frame_refusals_come_in_the_order_of_their_numbers() {
    let told = |case: Case, number| {
        assert_eq!(refused(&case), (number, 0));
        assert_eq!(refused(&Case { code_len: CODE_MIN - 1, ..case.clone() }), (1, 0));
        assert_eq!(refused(&Case { code_len: CODE_MAX + 1, ..case }), (2, 0));
    };
    for short in 0..5 {
        for (five, number) in sets_of_causes(short) {
            if short < 3 {
                told(Case { further_lens: None, ..five.clone() }, number);
            }
            told(five, number);
        }
    }
}

#[test]
fn frame_edges() {
    let case = case_of(&[EXIT]);
    for (code_len, number) in [(0, 1), (CODE_MIN - 1, 1), (CODE_MAX + 1, 2), (u32::MAX, 2)] {
        assert_eq!(refused(&Case { code_len, ..case.clone() }), (number, 0));
    }
    for code_len in [CODE_MIN, CODE_MIN + 1, CODE_MAX] {
        accepted(&Case { code_len, ..case.clone() });
    }
    let exits = |len: usize| Case {
        code_len: CODE_MAX,
        table_lens: [TABLE_AMPLE; 3],
        ..plain_case(&EXIT.repeat(SLOTS_MAX + 1)[..len])
    };
    assert_eq!(accepted(&exits(PROGRAM_MAX)).locations.len(), TABLE_ENOUGH as usize);
    assert_eq!(refused(&exits(PROGRAM_MAX + 1)), (3, 0));
    assert_eq!(refused(&exits(PROGRAM_MAX - 1)), (6, SLOTS_MAX as u32 - 1));
    for table in 0..3 {
        let mut short = case.clone();
        short.table_lens[table] = 1;
        assert_eq!(refused(&short), (4, 0));
        // n is rounded down: a stub wants no entry of its own.
        let mut stub = plain_case(&[0x95; 15]);
        stub.table_lens[table] = 2;
        assert_eq!(refused(&stub), (6, 1));
        stub.table_lens[table] = 1;
        assert_eq!(refused(&stub), (4, 0));
    }
}

#[test]
fn each_of_five_tables_has_a_place_for_every_slot_and_one_more() {
    let case = case_of(&[EXIT]);
    let stub = plain_case(&[0x95; 15]);
    for table in 0..5 {
        let with = |case: &Case, len| {
            let mut lens = [2; 5];
            lens[table] = len;
            with_tables(case, lens)
        };
        for len in [0, 1] {
            assert_eq!(refused(&with(&case, len)), (4, 0));
            assert_eq!(refused(&with(&stub, len)), (4, 0));
        }
        for len in [2, 3, TABLE_AMPLE + 1, u32::MAX] {
            accepted(&with(&case, len));
            assert_eq!(refused(&with(&stub, len)), (6, 1));
        }
    }
    for short in 1..1 << 5 {
        let lens = [0, 1, 2, 3, 4].map(|table| if short >> table & 1 != 0 { 1 } else { u32::MAX });
        assert_eq!(refused(&with_tables(&case, lens)), (4, 0));
    }
    // No slot, no jump but the prologue's: one entry will do, none will not.
    let empty = case_of(&[]);
    accepted(&with_tables(&empty, [1; 5]));
    assert_eq!(refused(&with_tables(&empty, [1, 1, 1, 0, 1])), (4, 0));
    assert_eq!(refused(&with_tables(&empty, [1, 1, 1, 1, 0])), (4, 0));
}

#[test]
fn helper_lists() {
    let lists = |ids: Vec<u32>, addresses: usize| Case {
        helper_ids: ids,
        helper_addresses: vec![0; addresses],
        ..case_of(&[EXIT])
    };
    let all = HELPERS_MAX;
    let first = |count: usize| (0..count as u32).collect::<Vec<u32>>();
    for good in [lists(vec![], 0), lists(vec![7], 1), lists(first(all), all)] {
        accepted(&good);
    }
    let mut twice = first(all);
    twice[all - 1] = 0;
    let bad = [
        lists(vec![], 1),
        lists(vec![7], 0),
        lists(vec![7, 7], 2),
        lists(vec![7, 1, 7], 3),
        lists(first(all + 1), all + 1),
        lists(first(all), all + 1),
        lists(twice, all),
    ];
    for case in bad {
        assert_eq!(refused(&case), (5, 0));
    }
}

#[test]
fn the_first_bad_slot_decides() {
    for (one, number) in BAD {
        for (other, _) in BAD {
            assert_eq!(refused(&case_of(&[one, other])), (number, 0));
            assert_eq!(refused(&case_of(&[EXIT, one, other])), (number, 1));
        }
        // Behind a wide load, and behind trailing bytes that come later.
        assert_eq!(refused(&case_of(&[WIDE, UNKNOWN, one])), (number, 2));
        assert_eq!(refused(&plain_case(&[&one[..], &[0x95]].concat())), (number, 0));
        // Ahead of a bad jump, wherever that stands.
        assert_eq!(refused(&case_of(&[BAD_JUMP, one])), (number, 1));
        assert_eq!(refused(&case_of(&[one, BAD_JUMP])), (number, 0));
    }
}

#[test]
fn in_a_slot_registers_come_first() {
    for (mut bad, _) in BAD {
        bad[1] |= 0xf0;
        assert_eq!(refused(&case_of(&[bad])), (7, 0));
    }
    let torn = [LD_DW_IMM, 0x0b, 0, 0, 0, 0, 0, 0];
    assert_eq!(refused(&case_of(&[torn])), (7, 0));
}

#[test]
fn the_first_bad_jump_decides() {
    let far = slot(CALL, 0, 1, 0, 999_999);
    for program in [[EXIT, BAD_JUMP, far], [EXIT, far, BAD_JUMP], [WIDE, EXIT, BAD_JUMP]] {
        let at = program.iter().position(|slot| *slot == BAD_JUMP || *slot == far);
        let at = at.expect("a bad jump is there") as u32;
        // In slot 1 imm 999999 is the anchor.
        let at = if program[at as usize] == far && at == 1 { 2 } else { at };
        assert_eq!(refused(&case_of(&program)), (14, at));
    }
    // Division's own jump stands ahead of the bad one and is good.
    assert_eq!(refused(&case_of(&[slot(DIV64_REG, 1, 2, 0, 0), BAD_JUMP])), (14, 1));
}

/// The smallest page.
const PAGE: usize = CODE_MIN as usize;

/// A program whose code, prologue and epilogue included, has `len` bytes.
fn of_length(len: usize, last: &[[u8; 8]], last_len: usize) -> Case {
    let room = len - PROLOGUE - EPILOGUE - last_len;
    let mut slots = vec![slot(DIV64_REG, 4, 5, 0, 0); room / SLOT_LONGEST];
    slots.extend(vec![EXIT; room % SLOT_LONGEST]);
    slots.extend(last);
    case_of(&slots)
}

#[test]
fn the_page_ends_at_every_byte() {
    let wide = [slot(LD_DW_IMM, 5, 0, 0, 1), slot(0, 0, 0, 0, 1)];
    for (last, len) in [(&wide[..], 10), (&[slot(DIV64_REG, 4, 5, 0, 0)], SLOT_LONGEST)] {
        for excess in 0..=EPILOGUE + len {
            let case = of_length(PAGE + excess, last, len);
            let n = case.slots();
            match excess {
                0 => assert_eq!(accepted(&case).code.len(), PAGE),
                1..=EPILOGUE => assert_eq!(refused(&case), (13, n as u32)),
                _ => assert_eq!(refused(&case), (13, (n - last.len()) as u32)),
            }
        }
    }
}

#[test]
fn what_a_full_page_comes_before_and_after() {
    // The last slot's code does not fit: 8 to 12 and 6 in that slot are ahead.
    let full = |last: [u8; 8]| of_length(PAGE + EPILOGUE, &[last], 0);
    let n = full(EXIT).slots() as u32;
    assert_eq!(refused(&full(EXIT)), (13, n - 1));
    for (bad, number) in BAD {
        assert_eq!(refused(&full(bad)), (number, n - 1));
    }
    assert_eq!(refused(&full(WIDE)), (6, n - 1));
    // 13 for a slot is ahead of a bad slot behind it, and of a bad jump.
    for behind in [UNKNOWN, BAD_JUMP, BAD_REGISTER] {
        let case = of_length(PAGE + EPILOGUE + 1, &[EXIT, behind], 1);
        assert_eq!(refused(&case), (13, case.slots() as u32 - 2));
    }
    let ahead = of_length(PAGE + EPILOGUE + 1, &[BAD_JUMP, EXIT], 6);
    assert_eq!(refused(&ahead), (13, ahead.slots() as u32 - 1));
    // 13 for the epilogue is ahead of 14, and behind 6 for trailing bytes.
    let jump = of_length(PAGE + 1, &[slot(JA, 0, 0, 9, 0)], 5);
    assert_eq!(refused(&jump), (13, jump.slots() as u32));
    let mut stub = jump.clone();
    stub.program.push(ebpf::EXIT);
    assert_eq!(refused(&stub), (6, jump.slots() as u32));
}

#[test]
fn the_list_has_both_sides_of_each_limit() {
    let mut judge = Judge::new();
    let mut counts = [0; 15];
    for case in limits::cases() {
        match judge.answer(&case).expect("an answer") {
            Answer::Accepted(_) => counts[0] += 1,
            Answer::Refused { number, .. } => counts[number as usize] += 1,
        }
    }
    for (number, least) in
        [(0, 20), (1, 5), (2, 5), (3, 3), (4, 10), (5, 10), (6, 2), (11, 2), (13, 1), (14, 50)]
    {
        assert!(counts[number] >= least, "refusal {number}: {counts:?}");
    }
    // As many helpers as there may be, the last of them called; a page too long
    // ahead of a program too long.
    let lens = |case: &Case| (case.helper_ids.len(), case.helper_addresses.len());
    let many = |case: &Case| lens(case) == (HELPERS_MAX, HELPERS_MAX);
    let last = |case: &Case| case.program[4..8] == case.helper_ids[HELPERS_MAX - 1].to_le_bytes();
    let called = limits::cases().into_iter().filter(|case| many(case) && last(case));
    let good = called.filter(|case| matches!(judge.answer(case), Ok(Answer::Accepted(_))));
    assert!(good.count() > 1);
    let both = |case: &Case| case.code_len > CODE_MAX && case.program.len() > PROGRAM_MAX;
    let both: Vec<Case> = limits::cases().into_iter().filter(both).collect();
    assert!(both.len() > 1 && both.iter().all(|case| refused(case) == (2, 0)));
}

//! The kinds and makers of the listed jumps: worked programs, every opcode, and
//! the cases of the fixed list that ask for them.

use super::{accepted, ask, case_of, opcodes, EXIT};
use crate::corpus::{self, with_helper};
use crate::ebpf::{self, *};
use crate::judge::Judge;
use crate::jumps::{CONDITIONAL, LOCAL_CALL, PLAIN};
use crate::sizes::{ANCHOR, CODE_MAX, SLOTS_MAX, TABLE_ENOUGH};
use crate::slots::{five_tables, jumps_by_off, slot};
use crate::stream::{Answer, Case, Further};

const LE: [u8; 8] = [ebpf::LE, 1, 0, 0, 16, 0, 0, 0];
const MOD_ZERO: [u8; 8] = [MOD32_IMM, 1, 0, 0, 0, 0, 0, 0];
const FIRST: [u8; 8] = [LD_DW_IMM, 1, 0, 0, 5, 0, 0, 0];
const SECOND: [u8; 8] = [0; 8];
const TO_ITSELF: [u8; 8] = [JA, 0, 0xff, 0xff, 0, 0, 0, 0];
const ON_CONDITION: [u8; 8] = [JSET_REG, 0x94, 0xff, 0xff, 0, 0, 0, 0];
const DIVIDES: [u8; 8] = [DIV64_REG, 0x21, 0, 0, 0, 0, 0, 0];
const MODULO: [u8; 8] = [MOD32_REG, 0x54, 0, 0, 0, 0, 0, 0];
const CALLS: [u8; 8] = [CALL, 0x10, 0, 0, 0xff, 0xff, 0xff, 0xff];
const HELPER: [u8; 8] = [CALL, 0, 0, 0, 0, 0, 0, 0];

/// A program, and the kind and the maker of each jump that it lists, from the
/// prologue's on.
type Line = (&'static [[u8; 8]], &'static [(u32, u32)]);

const LINES: [Line; 19] = [
    (&[], &[(PLAIN, 0)]),
    (&[EXIT], &[(PLAIN, 1)]),
    (&[TO_ITSELF], &[(PLAIN, 1), (PLAIN, 0)]),
    (&[ON_CONDITION], &[(PLAIN, 1), (CONDITIONAL, 0)]),
    (&[DIVIDES], &[(PLAIN, 1), (PLAIN, 0)]),
    (&[MODULO], &[(PLAIN, 1), (CONDITIONAL, 0)]),
    (&[CALLS], &[(PLAIN, 1), (LOCAL_CALL, 0)]),
    (&[HELPER], &[(PLAIN, 1)]),
    (&[EXIT, TO_ITSELF, EXIT], &[(PLAIN, 3), (PLAIN, 1)]),
    // A slot without code has its location from the slot behind it.
    (&[LE, TO_ITSELF], &[(PLAIN, 2), (PLAIN, 1)]),
    (&[TO_ITSELF, LE], &[(PLAIN, 2), (PLAIN, 0)]),
    (&[LE, MOD_ZERO, LE, MODULO, LE], &[(PLAIN, 5), (CONDITIONAL, 3)]),
    // A wide load counts two.
    (&[FIRST, SECOND], &[(PLAIN, 2)]),
    (&[FIRST, SECOND, CALLS], &[(PLAIN, 3), (LOCAL_CALL, 2)]),
    (&[FIRST, SECOND, LE, ON_CONDITION], &[(PLAIN, 4), (CONDITIONAL, 3)]),
    (&[LE, FIRST, SECOND, DIVIDES], &[(PLAIN, 4), (PLAIN, 3)]),
    // What stands in its second half is no jump.
    (&[FIRST, TO_ITSELF], &[(PLAIN, 2)]),
    (
        &[CALLS, FIRST, SECOND, ON_CONDITION, LE, DIVIDES, HELPER, MODULO, TO_ITSELF],
        &[(PLAIN, 9), (LOCAL_CALL, 0), (CONDITIONAL, 3), (PLAIN, 5), (CONDITIONAL, 7), (PLAIN, 8)],
    ),
    (&[MODULO, DIVIDES], &[(PLAIN, 2), (CONDITIONAL, 0), (PLAIN, 1)]),
];

fn further(case: &Case) -> Further {
    let page = accepted(&five_tables(case.clone()));
    page.further.expect("five tables are asked for")
}

/// Every pair of a kind and a maker, in the order of the jumps.
fn pairs(case: &Case) -> Vec<(u32, u32)> {
    let Further { kinds, makers } = further(case);
    assert_eq!(kinds.len(), makers.len());
    kinds.into_iter().zip(makers).collect()
}

#[test]
fn every_worked_program_has_its_kinds_and_makers() {
    assert_eq!([CONDITIONAL, PLAIN, LOCAL_CALL], [1, 2, 3]);
    for (program, want) in LINES {
        let case = with_helper(case_of(program), 0);
        for (use_mbuff, update_data_ptr) in corpus::FLAG_PAIRS {
            let case = Case { use_mbuff, update_data_ptr, ..case.clone() };
            assert_eq!(pairs(&case), want, "{program:02x?}");
        }
    }
}

#[test]
fn a_call_of_the_exit_is_a_local_call() {
    let call = |at: i32| slot(CALL, 0, 1, 0, ANCHOR - at - 1);
    let want = [(PLAIN, 2), (LOCAL_CALL, 0), (LOCAL_CALL, 1)];
    assert_eq!(pairs(&case_of(&[call(0), call(1)])), want);
}

/// The kind of the jump that an opcode's slot lists, if any; of a call, where
/// src is 1.
fn kind_by_opcode(opc: u8) -> Option<u32> {
    match opc {
        JA | DIV32_REG | DIV64_REG => Some(PLAIN),
        MOD32_REG | MOD64_REG => Some(CONDITIONAL),
        CALL => Some(LOCAL_CALL),
        _ if jumps_by_off(opc) => Some(CONDITIONAL),
        _ => None,
    }
}

#[test]
fn every_opcode_lists_the_kind_of_its_jump() {
    let mut counts = [0; 4];
    for opc in opcodes().accepted.into_iter().filter(|opc| *opc != LD_DW_IMM) {
        let kind = kind_by_opcode(opc);
        counts[kind.unwrap_or(0) as usize] += 1;
        // Registers that are saved or not, and with a REX prefix or not.
        for dst in [0, 1, 3, 4, 7, 10] {
            let first = [(PLAIN, 3)].into_iter();
            let want: Vec<_> = first.chain(kind.map(|kind| (kind, 1))).collect();
            let imm = if opc == CALL { -1 } else { 16 };
            let case = case_of(&[EXIT, slot(opc, dst, 1, -1, imm), EXIT]);
            assert_eq!(pairs(&case), want, "opcode {opc:#04x}");
        }
    }
    assert_eq!(counts, [69, 46, 3, 1]);
}

#[test]
fn the_longest_tables_are_full() {
    let longest = Case { code_len: CODE_MAX, ..case_of(&[DIVIDES; SLOTS_MAX]) };
    let Further { kinds, makers } = further(&longest);
    assert_eq!(kinds, [PLAIN; TABLE_ENOUGH as usize]);
    let slots = (0..SLOTS_MAX as u32).collect::<Vec<u32>>();
    assert_eq!(makers, [&[SLOTS_MAX as u32][..], &slots].concat());
}

#[test]
fn two_tables_more_change_nothing_else() {
    let worked = corpus::worked().into_iter().map(|(_, case)| case);
    let jumping = LINES.map(|(program, _)| with_helper(case_of(program), 0));
    for case in worked.chain(jumping) {
        match (ask(&case), ask(&five_tables(case))) {
            (Answer::Accepted(three), Answer::Accepted(mut five)) => {
                assert!(three.further.is_none() && five.further.take().is_some());
                assert_eq!(three, five);
            }
            (three, five) => assert_eq!(three, five),
        }
    }
}

#[test]
fn the_list_asks_for_everything_behind_all_other_cases() {
    let cases = corpus::cases().expect("the list");
    let first = cases.iter().position(|case| case.further_lens.is_some());
    let behind = cases.iter().position(|case| case.standard).expect("a case in standard mode");
    let behind = &cases[first.expect("a case with five tables")..behind];
    assert!(behind.iter().all(|case| case.further_lens.is_some()));
    let mut judge = Judge::new();
    let (mut kinds, mut refusals) = ([0; 4], [0; 15]);
    for case in behind {
        match judge.answer(case).expect("an answer") {
            Answer::Refused { number, .. } => refusals[number as usize] += 1,
            Answer::Accepted(page) => {
                let further = page.further.expect("five tables are asked for");
                further.kinds.iter().for_each(|kind| kinds[*kind as usize] += 1);
            }
        }
    }
    assert!(kinds[1..].iter().all(|count| *count > 50), "{kinds:?}");
    assert!(refusals[1..].iter().all(|count| *count >= 5) && refusals[4] > 50, "{refusals:?}");
}

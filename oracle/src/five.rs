//! A part of the fixed list: cases with five tables, which ask for the kind and
//! the maker of every listed jump. It stands behind the limits, so that the
//! cases ahead of it keep their numbers.

use std::convert::identity;

use crate::corpus::{bad_slots, case_of, code_len_alone, page_end, with_helper, EXIT, FLAG_PAIRS};
use crate::ebpf;
use crate::generate::{Form, Generator};
use crate::judge::Judge;
use crate::limits::{codeless, local_call, longest_program, roomy};
use crate::sizes::{
    ANCHOR, CODE_LONGEST, CODE_MAX, CODE_MIN, EPILOGUE, PROGRAM_MAX, SLOTS_MAX, TABLE_AMPLE,
};
use crate::slots::{five_tables, jumps_by_off, plain_case, slot, wide, with_tables, Opcodes};
use crate::stream::Case;

const RANDOM_SEED: u64 = 2;
const RANDOM_COUNT: u64 = 300;

/// The tables, in the order of the streams; the jump fields are between the
/// first two.
const TABLES: usize = 5;
const LOCATIONS: usize = 0;
const TARGETS: usize = 2;
const KINDS: usize = 3;
const MAKERS: usize = 4;

const LE: [u8; 8] = [ebpf::LE, 1, 0, 0, 16, 0, 0, 0];
const MOD_ZERO: [u8; 8] = [ebpf::MOD64_IMM, 1, 0, 0, 0, 0, 0, 0];
const DIVIDES: [u8; 4] = [ebpf::DIV32_REG, ebpf::DIV64_REG, ebpf::MOD32_REG, ebpf::MOD64_REG];

pub fn cases(
    judge: &mut Judge,
    opcodes: &Opcodes,
    generator: &mut Generator,
) -> Result<Vec<Case>, String> {
    let mut list = lengths();
    list.extend(longest_programs());
    list.extend(causes_beside_a_short_table());
    let jumps = [
        jumps_by_offset(opcodes),
        divisions(),
        local_calls(),
        jumps_behind_other_slots(),
        jumps_of_every_kind(),
        no_jump_but_the_prologues(),
        bytes_that_look_like_jumps(),
        refused_programs(),
        full_pages(judge)?,
    ];
    list.extend(jumps.concat().into_iter().map(five_tables));
    let form = Form { five_tables: true, ..Form::default() };
    for at in 0..RANDOM_COUNT {
        list.push(generator.formed(form, RANDOM_SEED, at)?);
    }
    Ok(list)
}

// ---- lengths ---------------------------------------------------------------

/// Lengths around n + 1: of kinds and makers each and both, of every two of
/// the five tables, and of all tables but one.
fn lengths() -> Vec<Case> {
    let mut list = Vec::new();
    for program in [&[][..], &EXIT, &[0x95; 11]] {
        let case = plain_case(program);
        let n = case.slots() as u32;
        for table in [KINDS, MAKERS] {
            for len in [0, n, n + 1, n + 2, u32::MAX] {
                list.push(but(&case, &[(table, len)]));
            }
        }
    }
    let case = case_of(&[EXIT; 3]);
    let n = case.slots() as u32;
    let lens = [0, n - 1, n, n + 1, n + 2, u32::MAX];
    for (kinds, makers) in every_two(&lens) {
        list.push(but(&case, &[(KINDS, kinds), (MAKERS, makers)]));
    }
    for one in 0..TABLES {
        for other in one..TABLES {
            list.push(but(&case, &[(one, n), (other, n)]));
        }
        let mut all_but_one = [n; TABLES];
        all_but_one[one] = n + 1;
        list.push(with_tables(&case, all_but_one));
    }
    list.push(with_tables(&case, [TABLE_AMPLE + 1; TABLES]));
    list
}

/// A case whose tables have n + 1 entries, but for these.
fn but(case: &Case, others: &[(usize, u32)]) -> Case {
    let mut lens = [case.slots() as u32 + 1; TABLES];
    for (table, len) in others {
        lens[*table] = *len;
    }
    with_tables(case, lens)
}

fn every_two(lens: &[u32]) -> Vec<(u32, u32)> {
    lens.iter().flat_map(|one| lens.iter().map(|other| (*one, *other))).collect()
}

/// The longest program with next to no code, and with the longest code, whose
/// jumps fill the tables to the last entry.
fn longest_programs() -> Vec<Case> {
    let n = SLOTS_MAX as u32;
    let bare = roomy(&codeless(PROGRAM_MAX));
    let full = longest_program(slot(ebpf::DIV64_REG, 4, 5, 0, 0), CODE_LONGEST);
    let mut list = vec![but(&bare, &[]), but(&full, &[])];
    for [one, other] in [[KINDS, MAKERS], [LOCATIONS, KINDS], [TARGETS, MAKERS]] {
        list.push(but(&bare, &[(one, n), (other, n)]));
    }
    for table in [KINDS, MAKERS] {
        for len in [n - 1, n, n + 2, u32::MAX] {
            list.push(but(&bare, &[(table, len)]));
        }
        list.push(but(&full, &[(table, n)]));
    }
    list
}

/// The kinds or the makers are short, ahead of a bad slot: every set of the
/// causes of 1 or 2, 3 and 5 beside it.
fn causes_beside_a_short_table() -> Vec<Case> {
    let mut list = Vec::new();
    for program in [vec![0xff; 8], vec![0xff; PROGRAM_MAX + 1]] {
        for code_len in [CODE_MIN - 1, CODE_MIN, CODE_MAX + 1] {
            for helper_ids in [vec![], vec![3]] {
                let case = Case { code_len, helper_ids, ..plain_case(&program) };
                let n = case.slots() as u32;
                list.extend([KINDS, MAKERS].map(|table| but(&case, &[(table, n)])));
            }
        }
    }
    list
}

// ---- jumps -----------------------------------------------------------------

/// JA and every conditional jump, with low registers and with high ones.
fn jumps_by_offset(opcodes: &Opcodes) -> Vec<Case> {
    let jumps = opcodes.accepted.iter().filter(|opc| jumps_by_off(**opc));
    let both = |opc: &u8| {
        [(1, 2), (4, 8)].map(|(dst, src)| case_of(&[EXIT, slot(*opc, dst, src, -2, 3), EXIT]))
    };
    jumps.flat_map(both).collect()
}

/// Division and modulo by a register: the registers that they save or not, and
/// those that have a REX prefix.
fn divisions() -> Vec<Case> {
    let mut list = Vec::new();
    for opc in DIVIDES {
        for dst in [0, 1, 3, 4, 7, 10] {
            for src in [2, 9] {
                list.push(case_of(&[slot(opc, dst, src, 0, 0), EXIT]));
            }
        }
    }
    list
}

/// Calls of the slots around, of the slot behind the last, and of the exit.
fn local_calls() -> Vec<Case> {
    let mut list = Vec::new();
    for at in 0..3 {
        for target in [0, at, 3, ANCHOR] {
            let mut slots = [EXIT; 3];
            slots[at as usize] = local_call(target - at - 1);
            list.push(case_of(&slots));
        }
    }
    list
}

/// Slots that list a jump, of every kind, to stand in slot `at`.
fn jumping(at: usize) -> [[u8; 8]; 7] {
    [
        slot(ebpf::JA, 0, 0, -1, 0),
        slot(ebpf::JEQ_IMM, 1, 0, -1, 3),
        slot(ebpf::JSLE_REG32, 4, 8, -1, 0),
        slot(ebpf::DIV64_REG, 1, 2, 0, 0),
        slot(ebpf::MOD32_REG, 4, 5, 0, 0),
        local_call(-1),
        local_call(ANCHOR - at as i32 - 1),
    ]
}

/// Each of them behind and ahead of slots without code and wide loads, whose
/// locations are another slot's or 0.
fn jumps_behind_other_slots() -> Vec<Case> {
    let [first, second] = wide(2, 5);
    let ahead: [&[[u8; 8]]; 9] = [
        &[],
        &[LE],
        &[MOD_ZERO],
        &[EXIT, LE],
        &[LE, MOD_ZERO, LE],
        &[first, second],
        &[first, second, first, second],
        &[first, second, LE],
        &[LE, first, second],
    ];
    let mut list = Vec::new();
    for ahead in ahead {
        for jump in jumping(ahead.len()) {
            list.push(case_of(&[ahead, &[jump]].concat()));
        }
    }
    for behind in [&[LE][..], &[first, second], &[LE, first, second, LE]] {
        for jump in jumping(0) {
            list.push(case_of(&[&[jump], behind].concat()));
        }
    }
    list
}

/// All of them in one program, with what lists no jump between them; from each
/// of them on, and under each pair of flags.
fn jumps_of_every_kind() -> Vec<Case> {
    let [first, second] = wide(2, 5);
    let between: [&[[u8; 8]]; 4] =
        [&[LE], &[first, second], &[slot(ebpf::CALL, 0, 0, 0, 0)], &[EXIT, MOD_ZERO]];
    let kinds = jumping(0).len();
    let mut list = Vec::new();
    for from in 0..kinds {
        let mut slots = Vec::new();
        for at in from..from + kinds {
            slots.push(jumping(slots.len())[at % kinds]);
            slots.extend(between[at % between.len()]);
        }
        let (use_mbuff, update_data_ptr) = FLAG_PAIRS[from % FLAG_PAIRS.len()];
        let case = with_helper(case_of(&slots), 0);
        list.push(Case { use_mbuff, update_data_ptr, ..case });
    }
    list
}

/// No slot, and slots that list no jump, under each pair of flags.
fn no_jump_but_the_prologues() -> Vec<Case> {
    let helper = slot(ebpf::CALL, 0, 0, 0, 0);
    let programs: [&[[u8; 8]]; 5] = [&[], &[LE], &wide(2, 5), &[helper], &[helper, EXIT, helper]];
    let mut list = Vec::new();
    for program in programs {
        for (use_mbuff, update_data_ptr) in FLAG_PAIRS {
            let case = with_helper(case_of(program), 0);
            list.push(Case { use_mbuff, update_data_ptr, ..case });
        }
    }
    list
}

/// Constants and addresses made of the first bytes of jumps, beside jumps.
fn bytes_that_look_like_jumps() -> Vec<Case> {
    let jump = slot(ebpf::JNE_IMM, 1, 0, -1, 0x0f84_e9e8);
    let helper = slot(ebpf::CALL, 0, 0, 0, 0);
    let mut list = Vec::new();
    for value in [0xe9e9_e9e9_e9e9_e9e9, 0xe8e8_e8e8_e8e8_e8e8, 0x840f_840f_840f_840f, 0x0000_e9e8]
    {
        let [first, second] = wide(1, value);
        let case = with_helper(case_of(&[jump, first, second, jump, helper, jump]), 0);
        list.push(Case { helper_addresses: vec![value], ..case });
    }
    list
}

// ---- refusals and full pages -----------------------------------------------

/// A bad slot, or a stub, behind jumps and ahead of them.
fn refused_programs() -> Vec<Case> {
    let [first, second] = wide(2, 5);
    let jump = slot(ebpf::JA, 0, 0, -1, 0);
    let mut list = Vec::new();
    for bad in bad_slots() {
        list.push(case_of(&[jump, bad]));
        list.push(case_of(&[first, second, LE, bad, jump, EXIT]));
    }
    list.push(plain_case(&[&jump[..], &[ebpf::EXIT]].concat()));
    list
}

/// A page that its code fills to the last byte, and one with a byte, or the
/// epilogue and a byte, too few.
fn full_pages(judge: &mut Judge) -> Result<Vec<Case>, String> {
    let mut list = Vec::new();
    // The call of the exit is another in every slot.
    let [any_slot @ .., _] = jumping(0);
    for last in any_slot {
        let len = code_len_alone(judge, &[last], identity)?;
        for excess in [0, 1, EPILOGUE + 1] {
            list.push(page_end(&[last], len, excess));
        }
    }
    Ok(list)
}

//! The last part of the fixed list: cases in compact mode. It stands behind all
//! others, so that the cases ahead of it keep their numbers.

use std::convert::identity;

use crate::corpus::{
    bad_slots, case_of, code_len_alone, page_end_behind, with_helper, worked, EXIT,
};
use crate::ebpf;
use crate::generate::{Form, Generator};
use crate::judge::Judge;
use crate::limits::{codeless, longest_program, roomy};
use crate::sizes::{EPILOGUE, PROLOGUE_LONGEST, SLOTS_MAX, SLOT_LONGEST};
use crate::slots::{
    five_tables, in_compact_mode, in_standard_mode, plain_case, slot, wide, Opcodes, CONSTANTS,
    LAST_REGISTER,
};
use crate::standard_cases::{
    changed, flags, frames, jumps_over, BAD_JUMP, BAD_JUMP_LEN, LOW_AND_HIGH,
};
use crate::stream::{Answer, Case};

const RANDOM_SEED: u64 = 4;
const RANDOM_COUNT: u64 = 240;

/// Immediates at which the form of a load changes, or the one of something that
/// is none.
const EDGES: [i32; 8] = [0, 1, 127, -1, -128, i32::MAX - 1, i32::MAX, i32::MIN];
/// 64-bit constants beside those of `CONSTANTS`.
const FURTHER_CONSTANTS: [u64; 4] =
    [0x8000_0001, 0xffff_fffe, 0x1_0000_0001, 0xffff_fffe_ffff_ffff];
/// Where code is mapped that is not far up.
const LOW_ADDRESS: u64 = 0x0040_1000;

const DIVIDING: [u8; 4] = [ebpf::DIV32_REG, ebpf::DIV64_REG, ebpf::MOD32_REG, ebpf::MOD64_REG];
const BY_IMMEDIATE: [u8; 6] = [
    ebpf::MUL32_IMM,
    ebpf::MUL64_IMM,
    ebpf::DIV32_IMM,
    ebpf::DIV64_IMM,
    ebpf::MOD32_IMM,
    ebpf::MOD64_IMM,
];

/// Slots of long code: one whose load is shortened, by two bytes, and one that
/// has none. Their lengths in compact mode go with them.
const DIVIDES: ([u8; 8], usize) = ([ebpf::DIV64_REG, 0x54, 0, 0, 0, 0, 0, 0], SLOT_LONGEST - 2);
const MULTIPLIES: ([u8; 8], usize) = ([ebpf::MUL64_REG, 0x54, 0, 0, 0, 0, 0, 0], 16);
const HELPER_CALL: [u8; 8] = [ebpf::CALL, 0, 0, 0, 0, 0, 0, 0];
const UNKNOWN: [u8; 8] = [0xff, 0, 0, 0, 0, 0, 0, 0];

pub fn cases(
    judge: &mut Judge,
    opcodes: &Opcodes,
    generator: &mut Generator,
) -> Result<Vec<Case>, String> {
    let mut list: Vec<Case> = worked().into_iter().map(|(_, case)| case).collect();
    list.extend(known_opcodes(opcodes));
    list.extend(wide_loads());
    list.extend(moves());
    list.extend(factors());
    list.extend(slot_numbers());
    list.extend(helper_addresses());
    list.extend(unloaded_immediates());
    let loads: Vec<[u8; 8]> = loading(4, 8).concat();
    list.extend(flags(&loads).into_iter().map(with_low_helper));
    list.extend(frames(&loading(1, 2).concat(), UNKNOWN).into_iter().map(with_low_helper));
    list.extend(bad_slots_beside_constants());
    list.extend(jumps());
    list.extend(page_ends(judge)?);
    list.extend(pages_of_loads(judge)?);
    list.extend(other_refusals_at_the_end(judge)?);
    list.extend(longest_programs());
    let mut list: Vec<Case> = list.into_iter().map(in_compact_mode).collect();
    list.extend(four_modes());
    for at in 0..RANDOM_COUNT {
        let form = Form { compact: true, ..Form::of(at) };
        list.push(generator.formed(form, RANDOM_SEED, at)?);
    }
    Ok(list)
}

/// A load of each kind, shortened in compact mode where the helper's address
/// is low.
fn loading(dst: u8, src: u8) -> [Vec<[u8; 8]>; 7] {
    [
        wide(dst, 0xffff_fff0).to_vec(),
        vec![slot(ebpf::MOV64_IMM, dst, 0, 0, 5)],
        vec![slot(ebpf::MUL64_IMM, dst, 0, 0, 5)],
        vec![slot(ebpf::MOD32_IMM, dst, 0, 0, i32::MAX)],
        vec![slot(ebpf::DIV64_REG, dst, src, 0, 0)],
        vec![slot(ebpf::MOD32_REG, dst, src, 0, 0)],
        vec![HELPER_CALL],
    ]
}

/// Loads that are not shortened, and what looks like one.
fn kept() -> [Vec<[u8; 8]>; 5] {
    [
        wide(4, 1 << 32).to_vec(),
        wide(4, u64::MAX).to_vec(),
        vec![slot(ebpf::MOV64_IMM, 4, 0, 0, -1)],
        vec![slot(ebpf::DIV64_IMM, 4, 0, 0, i32::MIN)],
        vec![slot(ebpf::MOV32_IMM, 4, 0, 0, 5)],
    ]
}

fn with_low_helper(case: Case) -> Case {
    Case { helper_addresses: vec![LOW_ADDRESS; case.helper_addresses.len()], ..case }
}

fn calling(address: u64) -> Case {
    let case = with_helper(case_of(&[HELPER_CALL, EXIT]), 0);
    Case { helper_addresses: vec![address], ..case }
}

// ---- slots -------------------------------------------------------------------

/// Every known opcode, of which few load a constant.
fn known_opcodes(opcodes: &Opcodes) -> Vec<Case> {
    let known = opcodes.accepted.iter().chain(&opcodes.unimplemented);
    known.map(|opc| with_helper(case_of(&[slot(*opc, 1, 1, 0, 16), EXIT]), 16)).collect()
}

/// At the edges of the three forms, with low and high registers; into every
/// register; with the fields of a second half that do not count.
fn wide_loads() -> Vec<Case> {
    let mut list = Vec::new();
    for value in CONSTANTS.into_iter().chain(FURTHER_CONSTANTS) {
        list.extend([0, 5, 7].map(|dst| case_of(&wide(dst, value))));
    }
    for value in [0x1234, 0x8765_4321, u64::MAX, 1 << 32] {
        let row = (0..=LAST_REGISTER).flat_map(|dst| wide(dst, value));
        list.push(five_tables(case_of(&row.collect::<Vec<_>>())));
    }
    let [first, second] = wide(3, 0xffff_ffff);
    let odd = [0x95, 0xfe, 0xff, 0x7f, second[4], second[5], second[6], second[7]];
    list.push(case_of(&[first, odd, EXIT]));
    list
}

/// MOV64_IMM, and MOV32_IMM, which keeps its form; into every register.
fn moves() -> Vec<Case> {
    let mut list = Vec::new();
    for opc in [ebpf::MOV64_IMM, ebpf::MOV32_IMM] {
        for imm in EDGES {
            list.extend([1, 8].map(|dst| case_of(&[slot(opc, dst, 0, 0, imm), EXIT])));
        }
        for imm in [5, -5] {
            let row = (0..=LAST_REGISTER).map(|dst| slot(opc, dst, dst, 0, imm));
            list.push(case_of(&row.collect::<Vec<_>>()));
        }
    }
    list
}

/// MUL, DIV and MOD by an immediate, which by 0 load nothing; with dst in RAX,
/// in RDX and elsewhere, and into every register.
fn factors() -> Vec<Case> {
    let mut list = Vec::new();
    for opc in BY_IMMEDIATE {
        for imm in [0, 1, -1, i32::MAX, i32::MIN] {
            list.extend([0, 3, 4].map(|dst| case_of(&[slot(opc, dst, 0, 0, imm)])));
        }
        let row = (0..=LAST_REGISTER).map(|dst| slot(opc, dst, 0, 0, 1_000 - 400 * dst as i32));
        list.push(case_of(&row.collect::<Vec<_>>()));
    }
    list
}

/// DIV and MOD by register in slots far apart, and with every register.
fn slot_numbers() -> Vec<Case> {
    let mut list = Vec::new();
    for opc in DIVIDING {
        for at in [0, 1, 127, 128, 255, 256] {
            let mut program = codeless(8 * (at + 1));
            program[8 * at..].copy_from_slice(&slot(opc, 1, 2, 0, 7));
            list.push(roomy(&program));
        }
        for src in [0, 3, 9] {
            let row = (0..=LAST_REGISTER).map(|dst| slot(opc, dst, src, 0, 0));
            list.push(five_tables(case_of(&row.collect::<Vec<_>>())));
        }
    }
    let mut last = codeless(8 * SLOTS_MAX);
    last[8 * SLOTS_MAX - 8..].copy_from_slice(&slot(ebpf::DIV64_REG, 1, 2, 0, 0));
    list.push(roomy(&last));
    list
}

/// At the edges of the three forms; of two helpers, one low and one high.
fn helper_addresses() -> Vec<Case> {
    let mut list: Vec<Case> = CONSTANTS.into_iter().chain(FURTHER_CONSTANTS).map(calling).collect();
    let [low, high] = [7, -7].map(|id| slot(ebpf::CALL, 0, 0, 0, id));
    list.push(Case {
        helper_ids: vec![-7i32 as u32, 7],
        helper_addresses: vec![1 << 40, LOW_ADDRESS],
        ..case_of(&[low, high, low, high])
    });
    list
}

/// Immediates that are no constants to load: of comparisons, arithmetic, stores
/// and packet loads; and slots that look like loads and are none.
fn unloaded_immediates() -> Vec<Case> {
    let slots = [
        (ebpf::JEQ_IMM, -1),
        (ebpf::JSGT_IMM32, -1),
        (ebpf::JSET_IMM, -1),
        (ebpf::ADD64_IMM, 0),
        (ebpf::AND32_IMM, 0),
        (ebpf::LSH64_IMM, 0),
        (ebpf::ST_DW_IMM, 0),
        (ebpf::ST_W_IMM, 8),
        (ebpf::LD_ABS_W, 0),
        (ebpf::LD_IND_DW, 0),
        (ebpf::MUL32_REG, 0),
        (ebpf::MOV64_REG, 0),
    ];
    let made = |(opc, off)| {
        let row = EDGES.map(|imm| slot(opc, 4, 8, off, imm));
        [case_of(&row[..1]), five_tables(case_of(&row))]
    };
    slots.into_iter().flat_map(made).collect()
}

// ---- refusals ----------------------------------------------------------------

/// Every kind of bad slot behind loads and ahead of them, and a stub.
fn bad_slots_beside_constants() -> Vec<Case> {
    let [low, high] = LOW_AND_HIGH.map(|(dst, src)| loading(dst, src).concat());
    let mut list = Vec::new();
    for bad in bad_slots() {
        list.push(case_of(&[&low[..], &[bad]].concat()));
        list.push(five_tables(case_of(&[&[bad], &high[..]].concat())));
        list.push(case_of(&[&high[..], &[bad], &low].concat()));
    }
    list.push(plain_case(&[&low.concat()[..], &[ebpf::MOV64_IMM]].concat()));
    list.push(case_of(&[slot(ebpf::MOV64_IMM, 11, 0, 0, 5)]));
    list.push(case_of(&[slot(ebpf::DIV64_REG, 0, 12, 0, 0)]));
    list.into_iter().map(|case| with_low_helper(with_helper(case, 0))).collect()
}

// ---- jumps -------------------------------------------------------------------

/// Jumps of every kind over a load, to it, to what is behind it, and from it.
fn jumps() -> Vec<Case> {
    let mut list = Vec::new();
    for (dst, src) in LOW_AND_HIGH {
        for load in loading(dst, src).iter().filter(|load| load.len() == 1) {
            let cases = jumps_over(load[0]).map(|case| with_low_helper(with_helper(case, 0)));
            list.extend(cases);
        }
        let [first, second] = wide(dst, 0x8000_0000);
        let jump = |off| slot(ebpf::JA, 0, 0, off, 0);
        let programs: [&[[u8; 8]]; 4] = [
            &[jump(2), first, second, EXIT],
            &[jump(1), first, second, EXIT],
            &[EXIT, first, second, slot(ebpf::JNE_IMM, dst, 0, -3, 5)],
            &[first, second, jump(-2), first, second, jump(-6)],
        ];
        list.extend(programs.map(|program| five_tables(case_of(program))));
    }
    list
}

// ---- the page's end ----------------------------------------------------------

/// Loads at the end of the smallest page, which ends behind the epilogue, in
/// it, behind the slot's code and in it; and programs that fill that page
/// without compact mode, or have a few bytes too many there. Ahead of them are
/// slots without a load, and slots with one. Then the same of slots that keep
/// their form, with nothing ahead that does not.
fn page_ends(judge: &mut Judge) -> Result<Vec<Case>, String> {
    let low = |case| in_compact_mode(with_low_helper(case));
    let mut list = Vec::new();
    for last in loading(4, 8) {
        let len = code_len_alone(judge, &last, low)?;
        for excess in [0, 1, EPILOGUE, EPILOGUE + 1, EPILOGUE + len] {
            list.push(page_end_behind(MULTIPLIES, &last, len, excess));
            list.push(page_end_behind(DIVIDES, &last, len, excess));
        }
        let without = code_len_alone(judge, &last, identity)?;
        for excess in [0, 1, without - len, without - len + 1] {
            list.push(page_end_behind(MULTIPLIES, &last, without, excess));
        }
    }
    for last in kept() {
        let len = code_len_alone(judge, &last, low)?;
        for excess in [0, 1, EPILOGUE, EPILOGUE + 1, EPILOGUE + len] {
            list.push(page_end_behind(MULTIPLIES, &last, len, excess));
        }
    }
    let at_every_byte = wide(5, 5);
    let len = code_len_alone(judge, &at_every_byte, low)?;
    list.extend(
        (0..=EPILOGUE + len).map(|excess| page_end_behind(DIVIDES, &at_every_byte, len, excess)),
    );
    Ok(list.into_iter().map(with_low_helper).collect())
}

/// All of them again and again, in pages that end where the code does, within
/// the epilogue and ahead of it, with compact mode and without it.
fn pages_of_loads(judge: &mut Judge) -> Result<Vec<Case>, String> {
    let row = loading(4, 8).concat();
    let program = with_low_helper(with_helper(roomy(&row.repeat(60).concat()), 0));
    let mut list = Vec::new();
    for mode in [in_compact_mode, identity] {
        let Answer::Accepted(page) = judge.answer(&mode(program.clone()))? else {
            return Err("a page of loads is not accepted".to_string());
        };
        let lens = [0, 1, EPILOGUE, EPILOGUE + 1].map(|less| page.code.len() - less);
        let case = five_tables(program.clone());
        list.extend(lens.map(|len| Case { code_len: len as u32, ..case.clone() }));
    }
    Ok(list)
}

/// Where the page ends, with what is refused otherwise behind it or in it, by
/// compact mode's lengths and by rbpf's.
fn other_refusals_at_the_end(judge: &mut Judge) -> Result<Vec<Case>, String> {
    let (divides, len) = DIVIDES;
    let without = code_len_alone(judge, &[divides], identity)?;
    let mut list = Vec::new();
    for len in [len, without] {
        for excess in [0, 1, EPILOGUE, EPILOGUE + 1] {
            let ends = |last: &[[u8; 8]], len| page_end_behind(MULTIPLIES, last, len, excess);
            list.push(ends(&[divides, UNKNOWN], len));
            list.push(ends(&[divides, BAD_JUMP], len + BAD_JUMP_LEN));
            list.push(ends(&[BAD_JUMP, divides], len + BAD_JUMP_LEN));
        }
    }
    Ok(list)
}

/// The longest programs, in pages that they fill, in pages that are a byte too
/// short, and in one that is long enough without compact mode.
fn longest_programs() -> Vec<Case> {
    let (divides, len) = DIVIDES;
    let full = len * SLOTS_MAX + PROLOGUE_LONGEST + EPILOGUE;
    let mut list = [full, full - 1, full - EPILOGUE - 1, full + 2 * SLOTS_MAX]
        .map(|len| longest_program(divides, len))
        .to_vec();
    let moves = slot(ebpf::MOV64_IMM, 4, 0, 0, 5);
    let full = 6 * SLOTS_MAX + PROLOGUE_LONGEST + EPILOGUE;
    list.extend([full, full - 1].map(|len| five_tables(longest_program(moves, len))));
    list
}

// ---- the four modes ----------------------------------------------------------

/// Slots that either mode changes, that both change, and that none changes,
/// each program in all four modes.
fn four_modes() -> Vec<Case> {
    let modulo = slot(ebpf::MOD32_REG, 4, 8, 0, 0);
    let by_zero = slot(ebpf::MOD32_IMM, 4, 0, 0, 0);
    let constant = slot(ebpf::MOV64_IMM, 7, 0, 0, 5);
    let back = |off| slot(ebpf::JLT_IMM, 1, 0, off, 9);
    let programs: [Vec<[u8; 8]>; 8] = [
        vec![EXIT],
        vec![modulo],
        vec![modulo, back(-2), modulo, back(-4)],
        vec![by_zero, constant, back(-3)],
        vec![slot(ebpf::LE, 1, 0, 0, 8), constant],
        [&changed(1, 2)[..], &loading(1, 2).concat(), &[back(-7)]].concat(),
        [&loading(4, 8).concat()[..], &changed(4, 8), &[back(-9)]].concat(),
        vec![MULTIPLIES.0, slot(ebpf::MOV32_IMM, 4, 0, 0, 5), back(-2)],
    ];
    let modes = [identity, in_standard_mode, in_compact_mode, in_both_modes];
    let in_all = |program: Vec<[u8; 8]>| {
        let case = five_tables(with_low_helper(with_helper(case_of(&program), 0)));
        modes.map(|mode| mode(case.clone()))
    };
    programs.into_iter().flat_map(in_all).collect()
}

fn in_both_modes(case: Case) -> Case {
    in_compact_mode(in_standard_mode(case))
}

//! A part of the fixed list: cases in standard mode. It stands behind the cases
//! with five tables, so that the cases ahead of it keep their numbers.

use std::convert::identity;

use crate::corpus::{
    bad_slots, case_of, code_len_alone, page_end, with_helper, worked, EXIT, FLAG_PAIRS,
};
use crate::ebpf;
use crate::generate::{Form, Generator};
use crate::judge::Judge;
use crate::limits::{codeless, local_call, longest_program, roomy};
use crate::sizes::{
    ANCHOR, CODE_LONGEST, CODE_MAX, CODE_MIN, EPILOGUE, PROGRAM_MAX, PROLOGUE_LONGEST, SLOTS_MAX,
};
use crate::slots::{
    five_tables, in_standard_mode, plain_case, slot, wide, with_tables, Opcodes, BAD_SWAPS, IMMS,
    LAST_REGISTER,
};
use crate::stream::{Answer, Case};

const RANDOM_SEED: u64 = 3;
const RANDOM_COUNT: u64 = 200;

/// Pairs of dst and src, the second of registers that have a REX prefix.
pub const LOW_AND_HIGH: [(u8, u8); 2] = [(1, 2), (4, 8)];
/// LE of a width that it has not.
const BAD_LE: [u8; 8] = [ebpf::LE, 1, 0, 0, 8, 0, 0, 0];
/// JA to a slot that is not there, and the length of its code.
pub const BAD_JUMP: [u8; 8] = [ebpf::JA, 0, 9, 0, 0, 0, 0, 0];
pub const BAD_JUMP_LEN: usize = 5;

pub fn cases(
    judge: &mut Judge,
    opcodes: &Opcodes,
    generator: &mut Generator,
) -> Result<Vec<Case>, String> {
    let mut list: Vec<Case> = worked().into_iter().map(|(_, case)| case).collect();
    list.extend(known_opcodes(opcodes));
    list.extend(registers());
    list.extend(unused_fields());
    list.extend(widths());
    list.extend(flags(&changed(4, 8)));
    list.extend(frames(&changed(1, 2), BAD_LE));
    list.extend(bad_slots_beside_le());
    list.extend(jumps());
    list.extend(page_ends(judge)?);
    list.extend(other_refusals_at_the_end(judge)?);
    list.extend(longest_programs(judge)?);
    let mut list: Vec<Case> = list.into_iter().map(in_standard_mode).collect();
    for at in 0..RANDOM_COUNT {
        let form = Form { standard: true, compact: false, ..Form::of(at) };
        list.push(generator.formed(form, RANDOM_SEED, at)?);
    }
    Ok(list)
}

/// The slots that standard mode changes, with MOD32_IMM by 0 and LE by width;
/// LE 64 has no code in either mode.
pub fn changed(dst: u8, src: u8) -> [[u8; 8]; 6] {
    [
        slot(ebpf::MOD32_REG, dst, src, 0, 0),
        slot(ebpf::MOD32_IMM, dst, src, 0, 0),
        slot(ebpf::MOV32_REG, dst, src, 0, 0),
        slot(ebpf::LE, dst, src, 0, 16),
        slot(ebpf::LE, dst, src, 0, 32),
        slot(ebpf::LE, dst, src, 0, 64),
    ]
}

// ---- slots -------------------------------------------------------------------

/// Every known opcode, of which all but a few have rbpf's code.
fn known_opcodes(opcodes: &Opcodes) -> Vec<Case> {
    let known = opcodes.accepted.iter().chain(&opcodes.unimplemented);
    known.map(|opc| case_of(&[slot(*opc, 1, 1, 0, 16), EXIT])).collect()
}

/// Every register pair: all sources of a destination in one program, and each
/// destination alone.
fn registers() -> Vec<Case> {
    let mut list = Vec::new();
    for dst in 0..=LAST_REGISTER {
        for opc in [ebpf::MOD32_REG, ebpf::MOV32_REG] {
            let row = (0..=LAST_REGISTER).map(|src| slot(opc, dst, src, 0, 0));
            list.push(five_tables(case_of(&row.collect::<Vec<_>>())));
        }
        list.extend(changed(dst, dst).map(|alone| case_of(&[alone, EXIT])));
    }
    list
}

/// Immediates and offsets where the RFC gives them no meaning, or one that is
/// not followed; MOD32_IMM, of which only 0 is changed; src, and never imm, for
/// MUL, DIV and MOD by register.
fn unused_fields() -> Vec<Case> {
    let mut list = Vec::new();
    for opc in [ebpf::MOD32_REG, ebpf::MOD32_IMM, ebpf::MOV32_REG] {
        list.extend(IMMS.map(|imm| case_of(&[slot(opc, 1, 2, 0, imm)])));
    }
    let others =
        [ebpf::MUL32_REG, ebpf::MUL64_REG, ebpf::DIV32_REG, ebpf::DIV64_REG, ebpf::MOD64_REG];
    for opc in others {
        list.extend([1, -1].map(|imm| case_of(&[slot(opc, 1, 2, 0, imm)])));
    }
    for (opc, imm) in
        [(ebpf::MOD32_REG, 0), (ebpf::MOD32_IMM, 0), (ebpf::MOV32_REG, 0), (ebpf::LE, 16)]
    {
        list.extend([1, 8, 16, 32, -1].map(|off| case_of(&[slot(opc, 4, 8, off, imm)])));
    }
    list
}

/// LE and BE of every width, and a second half that only looks like a bad one.
fn widths() -> Vec<Case> {
    let mut list = Vec::new();
    for imm in BAD_SWAPS.into_iter().chain([16, 32, 64]) {
        for (opc, dst) in [(ebpf::LE, 1), (ebpf::LE, 5), (ebpf::BE, 5)] {
            list.push(case_of(&[EXIT, slot(opc, dst, 3, 0, imm), EXIT]));
        }
    }
    let [first, _] = wide(2, 5);
    list.push(case_of(&[first, BAD_LE, EXIT]));
    list
}

// ---- the frame ---------------------------------------------------------------

/// The four pairs of flags, with no slot, with EXIT and with these slots.
pub fn flags(slots: &[[u8; 8]]) -> Vec<Case> {
    let others = [slot(ebpf::CALL, 0, 0, 0, 0), slot(ebpf::JA, 0, 0, -3, 0)];
    let programs = [vec![], vec![EXIT], [slots, &others].concat()];
    let mut list = Vec::new();
    for program in programs {
        for (use_mbuff, update_data_ptr) in FLAG_PAIRS {
            let case = five_tables(with_helper(case_of(&program), 0));
            list.push(Case { use_mbuff, update_data_ptr, ..case });
        }
    }
    list
}

/// Refusals 1 to 5 ahead of that of a bad slot, and both sides of their limits.
pub fn frames(good: &[[u8; 8]], bad: [u8; 8]) -> Vec<Case> {
    let mut list = Vec::new();
    for code_len in [0, CODE_MIN - 1, CODE_MIN, CODE_MAX, CODE_MAX + 1, u32::MAX] {
        list.push(Case { code_len, ..case_of(&[EXIT]) });
        list.push(Case { code_len, ..case_of(&[bad]) });
    }
    for len in [PROGRAM_MAX - 1, PROGRAM_MAX, PROGRAM_MAX + 1] {
        list.push(roomy(&codeless(len)));
    }
    for program in [good, &[bad]] {
        let case = case_of(program);
        let n = case.slots() as u32;
        for table in 0..5 {
            let mut lens = [n + 1; 5];
            lens[table] = n;
            list.push(with_tables(&case, lens));
        }
        list.push(with_tables(&case, [n + 1; 5]));
        list.push(Case { helper_ids: vec![7], ..case.clone() });
        list.push(Case { helper_ids: vec![7; 2], helper_addresses: vec![0; 2], ..case });
    }
    list
}

// ---- refusals ----------------------------------------------------------------

/// LE of a bad width and every other kind of bad slot, in either order; behind
/// and ahead of slots that are changed; ahead of a stub.
fn bad_slots_beside_le() -> Vec<Case> {
    let mut list = Vec::new();
    for bad in bad_slots() {
        list.push(case_of(&[BAD_LE, bad]));
        list.push(case_of(&[bad, BAD_LE]));
        list.push(five_tables(case_of(&[&changed(1, 2)[..], &[bad]].concat())));
        list.push(five_tables(case_of(&[&[bad], &changed(4, 8)[..]].concat())));
    }
    list.push(plain_case(&[&BAD_LE[..], &[ebpf::EXIT]].concat()));
    list.push(plain_case(&[&changed(1, 2).concat()[..], &[ebpf::EXIT]].concat()));
    let both = slot(ebpf::LE, 11, 0, 0, 8);
    list.push(case_of(&[EXIT, both]));
    list
}

// ---- jumps -------------------------------------------------------------------

fn jumps() -> Vec<Case> {
    let over = LOW_AND_HIGH.into_iter().flat_map(|(dst, src)| changed(dst, src));
    over.flat_map(jumps_over).collect()
}

/// Jumps of every kind over a slot, forward and back, to it, to what is behind
/// it, and from it.
pub fn jumps_over(over: [u8; 8]) -> [Case; 8] {
    let [first, second] = wide(2, 5);
    let divides = slot(ebpf::DIV64_REG, 1, 2, 0, 0);
    let modulo = slot(ebpf::MOD64_REG, 4, 8, 0, 0);
    let programs: [&[[u8; 8]]; 8] = [
        &[slot(ebpf::JA, 0, 0, 1, 0), over, EXIT],
        &[EXIT, over, slot(ebpf::JEQ_IMM, 1, 0, -3, 3)],
        &[slot(ebpf::JNE_REG32, 4, 8, 0, 0), over, slot(ebpf::JA, 0, 0, -2, 0)],
        &[local_call(1), over, EXIT],
        &[over, local_call(ANCHOR - 2), over],
        &[slot(ebpf::JA, 0, 0, 1, 0), over],
        &[first, second, over, slot(ebpf::JSET_REG, 4, 8, -3, 0)],
        &[divides, over, modulo, over, divides],
    ];
    programs.map(|program| five_tables(case_of(program)))
}

// ---- the page's end ----------------------------------------------------------

/// Changed slots at the end of the smallest page, which ends behind the
/// epilogue, in it, behind the slot's code and in it; and programs that fill
/// that page without standard mode.
fn page_ends(judge: &mut Judge) -> Result<Vec<Case>, String> {
    let [at_every_byte, ..] = changed(4, 8);
    let mut list = Vec::new();
    for last in LOW_AND_HIGH.into_iter().flat_map(|(dst, src)| changed(dst, src)) {
        let len = code_len_alone(judge, &[last], in_standard_mode)?;
        let excesses = if last == at_every_byte {
            (0..=EPILOGUE + len).collect()
        } else {
            vec![0, 1, EPILOGUE, EPILOGUE + 1, EPILOGUE + len]
        };
        list.extend(excesses.into_iter().map(|excess| page_end(&[last], len, excess)));
        let without = code_len_alone(judge, &[last], identity)?;
        list.extend([0, 1, 2].map(|excess| page_end(&[last], without, excess)));
    }
    list.extend(pages_of_changed_slots(judge)?);
    Ok(list)
}

/// All of them again and again, in pages that end where the code does, within
/// the epilogue, and ahead of it.
fn pages_of_changed_slots(judge: &mut Judge) -> Result<Vec<Case>, String> {
    let row = changed(4, 8);
    let times = CODE_MIN as usize / code_len_alone(judge, &row, in_standard_mode)?;
    let case = five_tables(case_of(&row.repeat(times + 1)));
    let Answer::Accepted(page) = judge.answer(&in_standard_mode(roomy(&case.program)))? else {
        return Err("a page of changed slots is not accepted".to_string());
    };
    let lens = [0, 1, EPILOGUE, EPILOGUE + 1].map(|less| page.code.len() - less);
    Ok(lens.map(|len| Case { code_len: len as u32, ..case.clone() }).to_vec())
}

/// Where the page ends: 10 ahead of 13 in one slot, 13 ahead of 10 in the next,
/// and 14 behind both.
fn other_refusals_at_the_end(judge: &mut Judge) -> Result<Vec<Case>, String> {
    let [modulo, ..] = changed(1, 2);
    let len = code_len_alone(judge, &[modulo], in_standard_mode)?;
    let mut list = Vec::new();
    for excess in [0, 1, EPILOGUE, EPILOGUE + 1] {
        list.push(page_end(&[modulo, BAD_LE], len, excess));
        list.push(page_end(&[modulo, BAD_JUMP], len + BAD_JUMP_LEN, excess));
        list.push(page_end(&[BAD_JUMP, modulo], len + BAD_JUMP_LEN, excess));
    }
    Ok(list)
}

/// The longest programs, of slots that are changed and of the slot with the
/// longest code, in pages that they fill, and in one that is a byte too short.
fn longest_programs(judge: &mut Judge) -> Result<Vec<Case>, String> {
    let full = |slot: [u8; 8], code_len| five_tables(longest_program(slot, code_len));
    let [modulo, ..] = changed(4, 5);
    let len = code_len_alone(judge, &[modulo], in_standard_mode)?;
    let of_modulo = len * SLOTS_MAX + PROLOGUE_LONGEST + EPILOGUE;
    Ok(vec![
        full(modulo, of_modulo),
        full(modulo, of_modulo - 1),
        full(slot(ebpf::DIV64_REG, 4, 5, 0, 0), CODE_LONGEST),
    ])
}

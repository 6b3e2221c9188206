//! The fixed list of cases: every opcode, register, edge and refusal in turn,
//! then a random part from a fixed seed, then the limits once more, then cases
//! with five tables, then cases in standard mode, then cases in compact mode.
//!
//! Each function gives one part; `cases` puts them one behind the other. The
//! list is the same on every machine.

use std::convert::identity;

use crate::ebpf;
use crate::generate::{Form, Generator};
use crate::judge::Judge;
use crate::sizes::{
    ANCHOR, CODE_MAX, CODE_MIN, EPILOGUE, HELPERS_MAX, PROGRAM_MAX, PROLOGUE, SLOT_LONGEST,
    TABLE_AMPLE, TABLE_ENOUGH,
};
use crate::slots::{
    plain_case, slot, wide, Opcodes, BAD_SWAPS, CONSTANTS, IDS, IMMS, LAST_REGISTER, OFFS,
};
use crate::stream::{Answer, Case, HELPER_LIMIT};
use crate::{compact_cases, five, limits, standard_cases};

const RANDOM_SEED: u64 = 1;
const RANDOM_COUNT: u64 = 2_000;

pub const EXIT: [u8; 8] = [ebpf::EXIT, 0, 0, 0, 0, 0, 0, 0];

/// `use_mbuff` and `update_data_ptr`.
pub const FLAG_PAIRS: [(bool, bool); 4] =
    [(false, false), (false, true), (true, false), (true, true)];

pub fn cases() -> Result<Vec<Case>, String> {
    let mut judge = Judge::new();
    let opcodes = Opcodes::ask(&mut judge)?;
    let mut list: Vec<Case> = worked().into_iter().map(|(_, case)| case).collect();
    list.extend(opcodes_alone());
    list.extend(register_pairs(&opcodes));
    list.extend(displacements());
    list.extend(immediates(&opcodes));
    list.extend(constants());
    list.extend(flags());
    list.extend(frame_edges());
    list.extend(cut_programs());
    list.extend(bad_registers(&opcodes));
    list.extend(swaps_and_calls());
    list.extend(jumps());
    list.extend(refusal_order());
    list.extend(page_ends(&mut judge, &opcodes)?);
    let mut generator = Generator::new()?;
    for at in 0..RANDOM_COUNT {
        list.push(generator.formed(Form::default(), RANDOM_SEED, at)?);
    }
    list.extend(limits::cases());
    list.extend(five::cases(&mut judge, &opcodes, &mut generator)?);
    list.extend(standard_cases::cases(&mut judge, &opcodes, &mut generator)?);
    list.extend(compact_cases::cases(&mut judge, &opcodes, &mut generator)?);
    Ok(list)
}

pub fn case_of(program: &[[u8; 8]]) -> Case {
    plain_case(&program.concat())
}

/// The worked programs, whose bytes `tests/worked.rs` has; each with its name.
pub fn worked() -> Vec<(&'static str, Case)> {
    let load = |src, off| case_of(&[slot(ebpf::LD_B_REG, 0, src, off, 0)]);
    let call = |imm| case_of(&[slot(ebpf::CALL, 0, 1, 0, imm)]);
    let jump = |off| case_of(&[slot(ebpf::JA, 0, 0, off, 0)]);
    let bytes = |len| Case { table_lens: [TABLE_ENOUGH; 3], ..plain_case(&vec![0; len]) };
    vec![
        ("empty program", case_of(&[])),
        ("EXIT alone", case_of(&[EXIT])),
        ("LD_B_REG r10 off 0", load(10, 0)),
        ("LD_B_REG r10 off 128", load(10, 128)),
        ("LD_B_REG r10 off 127", load(10, 127)),
        ("LD_B_REG r10 off -129", load(10, -129)),
        ("LD_B_REG r1 off 0", load(1, 0)),
        ("ST_B_REG r1 to r10 off -8", case_of(&[slot(ebpf::ST_B_REG, 10, 1, -8, 0)])),
        ("wide load 2147483647", case_of(&wide(0, 2_147_483_647))),
        ("wide load 2147483648", case_of(&wide(0, 2_147_483_648))),
        ("DIV64_REG r0 by r1", case_of(&[slot(ebpf::DIV64_REG, 0, 1, 0, 0)])),
        ("JA -1", jump(-1)),
        ("JA 0 alone", jump(0)),
        ("JA 1 alone", jump(1)),
        ("local call of the exit", call(ANCHOR - 1)),
        ("local call a slot ahead of the exit", call(ANCHOR - 2)),
        ("7 bytes", bytes(7)),
        ("the longest program", bytes(PROGRAM_MAX)),
        ("a byte more than the longest program", bytes(PROGRAM_MAX + 1)),
    ]
}

/// Each of the 256 opcode bytes, alone and ahead of an EXIT.
fn opcodes_alone() -> Vec<Case> {
    let alone = |opc| [case_of(&[slot(opc, 0, 0, 0, 0)]), case_of(&[slot(opc, 1, 2, 0, 16), EXIT])];
    (0..=u8::MAX).flat_map(alone).collect()
}

/// Each accepted opcode with every register pair, eleven slots to a case, and
/// with low and high registers one slot to a case.
fn register_pairs(opcodes: &Opcodes) -> Vec<Case> {
    let mut list = Vec::new();
    for &opc in &opcodes.accepted {
        let made = |dst, src| match opc {
            ebpf::CALL => slot(opc, dst, src % 2, 0, 0),
            _ => slot(opc, dst, src, 0, 32),
        };
        for dst in 0..=LAST_REGISTER {
            // A second half of zeros is an unknown opcode elsewhere, so only
            // the wide load gets one.
            let row = (0..=LAST_REGISTER).flat_map(|src| match opc {
                ebpf::LD_DW_IMM => vec![made(dst, src), slot(0, 0, 0, 0, dst as i32)],
                _ => vec![made(dst, src)],
            });
            let row: Vec<[u8; 8]> = row.collect();
            list.push(with_helper(Case { table_lens: [64; 3], ..case_of(&row) }, 0));
        }
        for (dst, src) in [(1, 2), (2, 8), (5, 6), (4, 7)] {
            list.push(with_helper(case_of(&[made(dst, src), EXIT]), 0));
        }
    }
    list
}

pub fn with_helper(case: Case, id: u32) -> Case {
    Case { helper_ids: vec![id], helper_addresses: vec![0x1122_3344_5566_7788], ..case }
}

/// Loads and stores at every edge of the displacement, on a plain base, on RBP
/// and on R13.
fn displacements() -> Vec<Case> {
    let mut list = Vec::new();
    let sizes = [ebpf::BPF_B, ebpf::BPF_H, ebpf::BPF_W, ebpf::BPF_DW];
    for opc in sizes.iter().flat_map(|size| [0x61, 0x62, 0x63].map(|class| class | size)) {
        for off in OFFS {
            for base in [1, 7, 10] {
                let (dst, src) =
                    if opc & ebpf::BPF_CLS_MASK == ebpf::BPF_LDX { (2, base) } else { (base, 2) };
                list.push(case_of(&[slot(opc, dst, src, off, 0x0102_0304)]));
            }
        }
    }
    list
}

/// Every opcode that looks at its immediate, at every edge of it; one that
/// does not look at it must not care.
fn immediates(opcodes: &Opcodes) -> Vec<Case> {
    let mut list = Vec::new();
    for &opc in &opcodes.accepted {
        if [ebpf::CALL, ebpf::LD_DW_IMM].contains(&opc) {
            continue;
        }
        for imm in IMMS {
            list.push(case_of(&[slot(opc, 1, 2, 0, imm)]));
        }
    }
    list
}

/// Wide loads and helper addresses at the edges of the two forms, with the
/// fields of a second half that do not count.
fn constants() -> Vec<Case> {
    let mut list = Vec::new();
    for value in CONSTANTS {
        for dst in [0, 1, 5, 7, 10] {
            list.push(case_of(&wide(dst, value)));
        }
        let [first, second] = wide(3, value);
        let odd = [0x95, 0xfe, 0xff, 0x7f, second[4], second[5], second[6], second[7]];
        list.push(case_of(&[first, odd, EXIT]));
        let call = slot(ebpf::CALL, 0, 0, 0, 5);
        let case = with_helper(case_of(&[call, EXIT]), 5);
        list.push(Case { helper_addresses: vec![value], ..case });
    }
    list
}

/// The four pairs of flags.
fn flags() -> Vec<Case> {
    let jump = slot(ebpf::JA, 0, 0, -1, 0);
    let anchor = slot(ebpf::CALL, 0, 1, 0, ANCHOR - 2);
    let programs: [&[[u8; 8]]; 4] =
        [&[], &[EXIT], &[jump, anchor], &[slot(ebpf::LD_ABS_B, 0, 0, 0, 12)]];
    let mut list = Vec::new();
    for program in programs {
        for (use_mbuff, update_data_ptr) in FLAG_PAIRS {
            list.push(Case { use_mbuff, update_data_ptr, ..case_of(program) });
        }
    }
    list
}

/// Refusals 1 to 5 at their edges.
fn frame_edges() -> Vec<Case> {
    let mut list = Vec::new();
    let around = |limit: u32| limit - 1..=limit + 1;
    let far = [1 << 31, u32::MAX];
    for code_len in (0..=1).chain(around(CODE_MIN)).chain(around(CODE_MAX)).chain(far) {
        list.push(Case { code_len, ..case_of(&[EXIT]) });
    }
    for len in [PROGRAM_MAX - 8, PROGRAM_MAX - 1, PROGRAM_MAX, PROGRAM_MAX + 1, PROGRAM_MAX + 8] {
        let program = EXIT.iter().copied().cycle().take(len).collect::<Vec<u8>>();
        list.push(Case { table_lens: [TABLE_AMPLE; 3], ..plain_case(&program) });
        list.push(Case { code_len: CODE_MAX, ..plain_case(&program) });
    }
    for program in [&[][..], &EXIT, &[EXIT, EXIT].concat(), &[0x95, 0, 0]] {
        let case = plain_case(program);
        let n = case.slots() as u32;
        for table in 0..3 {
            for len in [0, n, n + 1, n + 2, u32::MAX] {
                let mut table_lens = case.table_lens;
                table_lens[table] = len;
                list.push(Case { table_lens, ..case.clone() });
            }
        }
    }
    list.extend(helper_lists());
    list
}

fn helper_lists() -> Vec<Case> {
    let case = case_of(&[EXIT]);
    let lists = |helper_ids: Vec<u32>, addresses: usize| Case {
        helper_ids,
        helper_addresses: vec![0; addresses],
        ..case.clone()
    };
    let first = |count: u32| (0..count).collect::<Vec<u32>>();
    let doubled = |count: u32, at: usize| {
        let mut ids = first(count);
        ids[at] = count - 1;
        lists(ids, count as usize)
    };
    let all = HELPERS_MAX as u32;
    let mut list = [(2, 0), (3, 0), (3, 1), (all, 0), (all, HELPERS_MAX - 2)]
        .map(|(count, at)| doubled(count, at))
        .to_vec();
    let unlike = |ids, addresses: u32| lists(first(ids), addresses as usize);
    for (ids, addresses) in [(0, 0), (0, 1), (1, 0), (1, 1), (1, 2), (all - 1, all), (all, all - 1)]
    {
        list.push(unlike(ids, addresses));
    }
    for count in [all - 1, all, all + 1, HELPER_LIMIT as u32] {
        list.push(unlike(count, count));
    }
    list.extend([unlike(all, all + 1), unlike(all + 1, all)]);
    list
}

/// Refusal 6: programs cut inside a slot or inside a wide load.
fn cut_programs() -> Vec<Case> {
    let mut list = Vec::new();
    let wide_then_exit = [wide(1, 7).concat(), EXIT.to_vec()].concat();
    let exit_then_wide = [EXIT.to_vec(), wide(1, 7).concat()].concat();
    for program in [[EXIT, EXIT].concat(), wide_then_exit, exit_then_wide] {
        list.extend((0..=program.len()).map(|len| plain_case(&program[..len])));
    }
    let bad_wide = slot(ebpf::LD_DW_IMM, 11, 0, 0, 0);
    list.push(case_of(&[bad_wide]));
    list.push(plain_case(&[&bad_wide[..], &[0; 3]].concat()));
    list
}

/// Refusal 7: each field above 10, on every kind of slot, the unknown included.
fn bad_registers(opcodes: &Opcodes) -> Vec<Case> {
    let mut list = Vec::new();
    for opc in opcodes.accepted.iter().chain(&opcodes.unimplemented).chain([&0xff, &0x8f]) {
        for (dst, src) in [(11, 0), (0, 11), (10, 15), (15, 10)] {
            list.push(case_of(&[slot(*opc, dst, src, 0, 0), EXIT]));
        }
    }
    for bad in 11..=15 {
        list.push(case_of(&[EXIT, slot(ebpf::MOV64_REG, bad, 0, 0, 0)]));
        list.push(case_of(&[EXIT, slot(ebpf::MOV64_REG, 0, bad, 0, 0)]));
        list.push(case_of(&[EXIT, slot(ebpf::CALL, bad, bad, 0, 0)]));
    }
    list
}

/// Refusals 10, 11 and 12, and the helper calls and swaps beside them.
fn swaps_and_calls() -> Vec<Case> {
    let mut list = Vec::new();
    for dst in [1, 5] {
        for imm in BAD_SWAPS.iter().chain(&[16, 32, 64]) {
            list.push(case_of(&[slot(ebpf::BE, dst, 0, 0, *imm)]));
            list.push(case_of(&[slot(ebpf::LE, dst, 0, 0, *imm)]));
        }
    }
    for dst in 0..=LAST_REGISTER {
        list.push(case_of(&[16, 32, 64].map(|imm| slot(ebpf::BE, dst, dst, 0, imm))));
    }
    let helper_addresses = IDS.map(|id| id as u64 * 3).to_vec();
    for id in IDS.iter().flat_map(|id| [*id, id.wrapping_add(1), id ^ 0x8000_0000]) {
        let case = case_of(&[EXIT, slot(ebpf::CALL, 0, 0, 0, id as i32)]);
        list.push(case.clone());
        list.push(Case {
            helper_ids: IDS.to_vec(),
            helper_addresses: helper_addresses.clone(),
            ..case
        });
    }
    for src in 0..16 {
        list.push(case_of(&[EXIT, slot(ebpf::CALL, 0, src, 0, -1)]));
    }
    list
}

/// Jumps and local calls from a middle slot to every slot, to n, to the second
/// half of a wide load, to the anchor, and just outside.
fn jumps() -> Vec<Case> {
    let [first, second] = wide(2, 5);
    let around = |middle: [u8; 8]| case_of(&[EXIT, middle, first, second, EXIT]);
    let mut list = Vec::new();
    for off in -3..=5 {
        for opc in [ebpf::JA, ebpf::JEQ_IMM, ebpf::JNE_REG32] {
            list.push(around(slot(opc, 1, 2, off, 3)));
        }
        list.push(around(slot(ebpf::CALL, 0, 1, 0, off as i32)));
    }
    for off in [i16::MIN, i16::MIN + 1, i16::MAX - 1, i16::MAX] {
        list.push(around(slot(ebpf::JA, 0, 0, off, 0)));
    }
    for near in (ANCHOR - 4..=ANCHOR).chain([i32::MAX, i32::MIN]) {
        list.push(around(slot(ebpf::CALL, 0, 1, 0, near)));
        list.push(case_of(&[slot(ebpf::CALL, 0, 1, 0, near)]));
    }
    for opc in [ebpf::DIV32_REG, ebpf::DIV64_REG, ebpf::MOD32_REG, ebpf::MOD64_REG] {
        list.push(case_of(&[slot(opc, 1, 2, 0, 0)]));
        list.push(case_of(&[EXIT, slot(opc, 3, 0, 0, 9), EXIT]));
        list.push(around(slot(opc, 0, 3, 0, 0)));
    }
    list
}

/// A slot for each of refusals 7 to 12 and 14, and a wide load, which alone at
/// the end is one for 6.
pub fn bad_slots() -> [[u8; 8]; 8] {
    [
        slot(ebpf::MOV64_REG, 11, 0, 0, 0),
        slot(0xff, 0, 0, 0, 0),
        slot(ebpf::TAIL_CALL, 0, 0, 0, 0),
        slot(ebpf::BE, 0, 0, 0, 8),
        slot(ebpf::CALL, 0, 0, 0, 77),
        slot(ebpf::CALL, 0, 2, 0, 0),
        slot(ebpf::JA, 0, 0, 9, 0),
        slot(ebpf::LD_DW_IMM, 0, 0, 0, 0),
    ]
}

/// Causes of different refusals side by side: every two kinds of bad slot in
/// either order, and every set of causes for 1 to 5 ahead of a bad slot.
fn refusal_order() -> Vec<Case> {
    let bad = bad_slots();
    let mut list = Vec::new();
    for one in bad {
        for other in bad {
            list.push(case_of(&[one, other]));
            list.push(plain_case(&[&one[..], &other, &[0x95]].concat()));
        }
    }
    for causes in 0..16 {
        for code_len in [CODE_MIN - 1, CODE_MIN, CODE_MAX + 1] {
            let mut case = Case { code_len, ..case_of(&[bad[1]]) };
            if causes & 1 != 0 {
                let program = vec![0xff; PROGRAM_MAX + 1];
                case = Case { program, table_lens: [TABLE_ENOUGH; 3], ..case };
            }
            if causes & 2 != 0 {
                case.table_lens[causes % 3] = 0;
            }
            if causes & 4 != 0 {
                case.helper_ids = vec![3];
            }
            if causes & 8 != 0 {
                case.program[1] = 0xff;
            }
            list.push(case);
        }
    }
    list
}

/// Slots whose code comes to `len` bytes: of one kind, whose length goes with
/// it, as many as there may be, and EXIT.
fn filler((long, long_len): ([u8; 8], usize), len: usize) -> Vec<[u8; 8]> {
    let mut slots = vec![long; len / long_len];
    slots.extend(vec![EXIT; len % long_len]);
    slots
}

/// The slots that are put at the end of a page: each accepted opcode in its
/// longest form, both kinds of call among them.
fn last_slots(opcodes: &Opcodes) -> Vec<Vec<[u8; 8]>> {
    let mut list = vec![vec![slot(ebpf::CALL, 0, 0, 0, 0)]];
    list.extend(opcodes.accepted.iter().map(|&opc| match opc {
        ebpf::LD_DW_IMM => wide(5, 0x1122_3344_5566_7788).to_vec(),
        ebpf::CALL => vec![slot(opc, 0, 1, 0, -1)],
        ebpf::BE => vec![slot(opc, 5, 0, 0, 16)],
        _ => vec![slot(opc, 4, 5, -1, 1)],
    }));
    list
}

/// Refusal 13: slots at the end of the smallest page, with the page's end
/// behind the epilogue, in it, behind the slot's code and in it.
fn page_ends(judge: &mut Judge, opcodes: &Opcodes) -> Result<Vec<Case>, String> {
    let at_every_byte = [
        ebpf::DIV64_REG,
        ebpf::MOD32_REG,
        ebpf::CALL,
        ebpf::LD_DW_IMM,
        ebpf::ST_H_IMM,
        ebpf::LD_IND_DW,
    ];
    let mut list = Vec::new();
    for last in last_slots(opcodes) {
        let len = code_len_alone(judge, &last, identity)?;
        let excesses = match at_every_byte.contains(&last[0][0]) {
            true => (0..=EPILOGUE + len).collect(),
            false => vec![0, 1, EPILOGUE, EPILOGUE + 1, EPILOGUE + len],
        };
        for excess in excesses {
            list.push(page_end(&last, len, excess));
        }
    }
    Ok(list)
}

/// The length of the code of these slots in a mode.
pub fn code_len_alone(
    judge: &mut Judge,
    slots: &[[u8; 8]],
    mode: fn(Case) -> Case,
) -> Result<usize, String> {
    match judge.answer(&mode(with_helper(case_of(slots), 0)))? {
        Answer::Accepted(alone) => Ok(alone.code.len() - PROLOGUE - EPILOGUE),
        Answer::Refused { .. } => Err(format!("the slots {slots:02x?} are not accepted alone")),
    }
}

/// The smallest page with a program that ends in these slots, whose code has
/// `len` bytes, and has so many bytes too many: with 0 the epilogue fits. Ahead
/// of them are slots of the longest code, which jump to the next slot alone.
pub fn page_end(last: &[[u8; 8]], len: usize, excess: usize) -> Case {
    page_end_behind((slot(ebpf::DIV64_REG, 4, 5, 0, 0), SLOT_LONGEST), last, len, excess)
}

/// The same behind slots of another kind.
pub fn page_end_behind(
    long: ([u8; 8], usize),
    last: &[[u8; 8]],
    len: usize,
    excess: usize,
) -> Case {
    let room = CODE_MIN as usize + excess - PROLOGUE - EPILOGUE - len;
    with_helper(case_of(&[&filler(long, room), last].concat()), 0)
}

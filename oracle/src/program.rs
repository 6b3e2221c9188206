//! Random programs: good ones, which the Rust accepts if they fit, and the
//! faults that spoil them.

use crate::ebpf;
use crate::random::Random;
use crate::sizes::ANCHOR;
use crate::slots::{self, jumps_by_off, slot, Opcodes, LAST_REGISTER};

/// Opcodes with more to them than the rest, taken more often.
const FAVOURED: [u8; 18] = [
    ebpf::LD_DW_IMM,
    ebpf::LD_DW_IMM,
    ebpf::CALL,
    ebpf::CALL,
    ebpf::CALL,
    ebpf::BE,
    ebpf::JA,
    ebpf::EXIT,
    ebpf::LE,
    ebpf::MUL64_REG,
    ebpf::DIV32_REG,
    ebpf::DIV64_REG,
    ebpf::MOD32_REG,
    ebpf::MOD64_REG,
    ebpf::MUL32_IMM,
    ebpf::DIV64_IMM,
    ebpf::MOD64_IMM,
    ebpf::ST_B_REG,
];

/// Those that standard mode changes, taken more often there.
const CHANGED: [u8; 4] = [ebpf::MOD32_REG, ebpf::MOD32_IMM, ebpf::MOV32_REG, ebpf::LE];

/// Those that load a constant, and MOV32_IMM, which does it in a form of its
/// own; taken more often in compact mode.
const LOADING: [u8; 16] = [
    ebpf::LD_DW_IMM,
    ebpf::LD_DW_IMM,
    ebpf::MOV64_IMM,
    ebpf::MOV64_IMM,
    ebpf::MOV32_IMM,
    ebpf::MUL32_IMM,
    ebpf::MUL64_IMM,
    ebpf::DIV32_IMM,
    ebpf::DIV64_IMM,
    ebpf::MOD32_IMM,
    ebpf::MOD64_IMM,
    ebpf::DIV64_REG,
    ebpf::MOD32_REG,
    ebpf::CALL,
    ebpf::CALL,
    ebpf::CALL,
];

/// What good slots may refer to.
pub struct Setting<'a> {
    pub opcodes: &'a Opcodes,
    pub helper_ids: &'a [u32],
    /// Jumps go to slots from 0 to this one.
    pub reach: usize,
    /// Mostly slots with long code.
    pub fat: bool,
    pub standard: bool,
    pub compact: bool,
}

/// A program of n slots without a fault.
pub fn good(random: &mut Random, setting: &Setting, n: usize) -> Vec<u8> {
    let mut program = Vec::with_capacity(n * 8 + 8);
    while program.len() < n * 8 {
        let at = program.len() / 8;
        let opc = good_opcode(random, setting);
        if opc != ebpf::LD_DW_IMM {
            program.extend(good_slot(random, setting, at, opc));
        } else if at + 1 < n {
            program.extend(wide_load(random, setting, at).concat());
        }
    }
    program
}

fn good_opcode(random: &mut Random, setting: &Setting) -> u8 {
    if setting.standard && random.one_in(3) {
        random.pick(&CHANGED)
    } else if setting.compact && random.one_in(3) {
        random.pick(&LOADING)
    } else if random.one_in(if setting.fat { 2 } else { 4 }) {
        random.pick(&FAVOURED)
    } else if setting.fat {
        random.pick(&[ebpf::DIV64_REG, ebpf::DIV32_REG, ebpf::MOD64_REG, ebpf::MUL64_IMM])
    } else {
        random.pick(&setting.opcodes.accepted)
    }
}

fn good_slot(random: &mut Random, setting: &Setting, at: usize, opc: u8) -> [u8; 8] {
    let dst = random.below(LAST_REGISTER as usize + 1) as u8;
    let src = random.below(LAST_REGISTER as usize + 1) as u8;
    let target = random.below(setting.reach + 1) as i32 - at as i32 - 1;
    if jumps_by_off(opc) {
        return slot(opc, dst, src, target as i16, immediate(random));
    }
    let swaps = opc == ebpf::BE || setting.standard && opc == ebpf::LE;
    match opc {
        _ if swaps => slot(opc, dst, src, offset(random), random.pick(&[16, 32, 64])),
        ebpf::MOD32_IMM if setting.standard && random.one_in(2) => {
            slot(opc, dst, src, offset(random), 0)
        }
        ebpf::CALL if random.one_in(2) && !setting.helper_ids.is_empty() => {
            slot(opc, dst, 0, offset(random), random.pick(setting.helper_ids) as i32)
        }
        ebpf::CALL if random.one_in(4) => slot(opc, dst, 1, offset(random), ANCHOR - at as i32 - 1),
        ebpf::CALL => slot(opc, dst, 1, offset(random), target),
        _ => slot(opc, dst, src, offset(random), immediate(random)),
    }
}

/// Its halves are drawn apart; in compact mode, every other time, as the halves
/// of a constant at which something changes.
fn wide_load(random: &mut Random, setting: &Setting, at: usize) -> [[u8; 8]; 2] {
    let mut first = good_slot(random, setting, at, ebpf::LD_DW_IMM);
    let mut second = second_half(random);
    if setting.compact && random.one_in(2) {
        let halves = slots::wide(0, random.pick(&slots::CONSTANTS));
        for (slot, half) in [&mut first, &mut second].into_iter().zip(halves) {
            slot[4..].copy_from_slice(&half[4..]);
        }
    }
    [first, second]
}

/// The second half of a wide load. Only its immediate counts; the other fields
/// may hold what no slot may.
fn second_half(random: &mut Random) -> [u8; 8] {
    let value = random.pick(&slots::CONSTANTS);
    let high = random.pick(&[0, -1, (value >> 32) as i32]);
    if random.one_in(3) {
        let [opc, registers, ..] = random.number().to_le_bytes();
        return slot(opc, registers & 15, registers >> 4, offset(random), high);
    }
    slot(0, 0, 0, 0, high)
}

pub fn offset(random: &mut Random) -> i16 {
    match random.below(4) {
        0 => 0,
        1 => random.number() as i16,
        _ => random.pick(&slots::OFFS),
    }
}

pub fn immediate(random: &mut Random) -> i32 {
    match random.below(4) {
        0 => random.number() as i32,
        _ => random.pick(&slots::IMMS),
    }
}

/// Slots of random bytes, of which the opcode is known more often than not.
pub fn wild(random: &mut Random, opcodes: &Opcodes, n: usize) -> Vec<u8> {
    let mut program = Vec::with_capacity(n * 8);
    for at in 0..n {
        let [any, registers, limited, ..] = random.number().to_le_bytes();
        let opc = if limited < 160 { random.pick(&opcodes.accepted) } else { any };
        let registers = if limited % 8 < 7 { registers & 0x77 } else { registers };
        let off =
            if limited % 4 < 3 { random.between(-1 - at as i64, 2) as i16 } else { offset(random) };
        program.extend(slot(opc, registers & 15, registers >> 4, off, immediate(random)));
    }
    program
}

/// What can be wrong with a slot or with the program's end, by its number.
#[derive(Clone, Copy)]
pub enum Fault {
    CutShort,
    TornWideLoad,
    Register,
    Unknown,
    Unimplemented,
    Swap,
    Helper,
    CallType,
    Target,
}

pub const FAULTS: [Fault; 9] = [
    Fault::CutShort,
    Fault::TornWideLoad,
    Fault::Register,
    Fault::Unknown,
    Fault::Unimplemented,
    Fault::Swap,
    Fault::Helper,
    Fault::CallType,
    Fault::Target,
];

/// Puts a fault into a program at a slot of its own choosing. In the second
/// half of a wide load it does no harm, which is worth asking about as well.
pub fn spoil(random: &mut Random, setting: &Setting, program: &mut Vec<u8>, fault: Fault) {
    let n = program.len() / 8;
    match fault {
        Fault::CutShort => program.extend(stub(random)),
        Fault::TornWideLoad => {
            let dst = random.pick(&[0, 1, 7, 10, 10, 11]);
            let first = slot(ebpf::LD_DW_IMM, dst, 0, offset(random), immediate(random));
            program.truncate(n.saturating_sub(1) * 8);
            program.extend(first);
            if random.one_in(2) {
                program.extend(stub(random));
            }
        }
        _ if n == 0 => {}
        _ => {
            let at = random.below(n);
            let before = program[at * 8..at * 8 + 8].try_into().expect("a slot is eight bytes");
            let after = spoiled_slot(random, setting, before, (at, n), fault);
            program[at * 8..at * 8 + 8].copy_from_slice(&after);
        }
    }
}

/// One to seven bytes of a slot.
fn stub(random: &mut Random) -> Vec<u8> {
    let len = 1 + random.below(7);
    let opc = random.pick(&[0, ebpf::EXIT, ebpf::LD_DW_IMM, ebpf::MOV64_IMM]);
    slot(opc, 0, 0, 0, 0)[..len].to_vec()
}

fn spoiled_slot(
    random: &mut Random,
    setting: &Setting,
    before: [u8; 8],
    (at, n): (usize, usize),
    fault: Fault,
) -> [u8; 8] {
    let (dst, src) = (before[1] & 15, before[1] >> 4);
    let imm = immediate(random);
    match fault {
        Fault::Register => {
            let mut after = before;
            let high = 11 + random.below(5) as u8;
            after[1] = random.pick(&[src << 4 | high, high << 4 | dst, high << 4 | high]);
            after
        }
        Fault::Unknown => slot(random.pick(&setting.opcodes.unknown), dst, src, 0, imm),
        Fault::Unimplemented => slot(random.pick(&setting.opcodes.unimplemented), dst, src, 0, imm),
        Fault::Swap => {
            let opc = if setting.standard { random.pick(&[ebpf::BE, ebpf::LE]) } else { ebpf::BE };
            slot(opc, dst, src, 0, random.pick(&slots::BAD_SWAPS))
        }
        Fault::Helper => slot(ebpf::CALL, dst, 0, 0, unlisted(random, setting) as i32),
        Fault::CallType => slot(ebpf::CALL, dst, 2 + random.below(9) as u8, 0, imm),
        _ => bad_jump(random, setting, (dst, src), (at, n)),
    }
}

/// An id near a listed one, but not listed.
fn unlisted(random: &mut Random, setting: &Setting) -> u32 {
    loop {
        let near = setting.helper_ids.first().map_or(0, |id| *id);
        let random_id = random.number() as u32;
        let id = random.pick(&[near ^ 0x8000_0000, near.wrapping_add(1), near ^ 1, random_id]);
        if !setting.helper_ids.contains(&id) {
            return id;
        }
    }
}

/// A jump or local call to a slot that is not there.
fn bad_jump(
    random: &mut Random,
    setting: &Setting,
    (dst, src): (u8, u8),
    (at, n): (usize, usize),
) -> [u8; 8] {
    let (at, n) = (at as i32, n as i32);
    let near = random.pick(&[-1, -1, -2, -129, n + 1, n + 1, n + 2, n + 127]);
    if random.one_in(3) {
        // Beside the anchor, and what would be the anchor from another slot.
        let far =
            random.pick(&[ANCHOR - 2, ANCHOR - 1, ANCHOR + 1, ANCHOR + at + 1, ANCHOR + at + 2]);
        let edge = random.pick(&[i32::MAX, i32::MIN]);
        let imm = random.pick(&[near - at - 1, far - at - 1, edge]);
        return slot(ebpf::CALL, dst, 1, 0, imm);
    }
    let edge = random.pick(&[i16::MAX, i16::MAX - 1, i16::MIN, i16::MIN + 1]);
    let off = random.pick(&[(near - at - 1) as i16, (near - at - 1) as i16, edge]);
    let jumps = setting.opcodes.accepted.iter().copied().filter(|opc| jumps_by_off(*opc));
    let jumps: Vec<u8> = jumps.collect();
    slot(random.pick(&jumps), dst, src, off, immediate(random))
}

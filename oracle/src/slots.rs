//! What programs are made of: the eight bytes of a slot, the opcode bytes by
//! what the Rust makes of them, and the numbers at which something changes.

use crate::ebpf;
use crate::judge::Judge;
use crate::sizes::CODE_MIN;
use crate::stream::{Answer, Case};

/// Highest register number that a slot may name.
pub const LAST_REGISTER: u8 = 10;

/// Displacements: one byte or four, the signed edges.
pub const OFFS: [i16; 15] =
    [0, 1, -1, 8, -8, 127, 128, 129, -127, -128, -129, 255, 256, i16::MAX, i16::MIN];

/// Immediates: zero, the one-byte edges, widths of BE, the signed edges.
pub const IMMS: [i32; 20] = [
    0,
    1,
    -1,
    7,
    16,
    31,
    32,
    63,
    64,
    127,
    128,
    -128,
    -129,
    255,
    256,
    65_535,
    65_536,
    0x1234_5678,
    i32::MAX,
    i32::MIN,
];

/// 64-bit constants, for wide loads and helper addresses: C7 or B8+r.
pub const CONSTANTS: [u64; 16] = [
    0,
    1,
    0x7f,
    0x80,
    0x7fff_fffe,
    0x7fff_ffff,
    0x8000_0000,
    0xffff_ffff,
    0x1_0000_0000,
    0x1122_3344_5566_7788,
    i64::MAX as u64,
    i64::MIN as u64,
    0xffff_ffff_7fff_ffff,
    0xffff_ffff_8000_0000,
    0xffff_ffff_8000_0001,
    u64::MAX,
];

/// Helper ids, compared as 32-bit numbers.
pub const IDS: [u32; 10] =
    [0, 1, 2, 5, 255, 65_536, 0x7fff_ffff, 0x8000_0000, 0xffff_fffe, 0xffff_ffff];

/// Immediates of BE that are none of 16, 32, 64.
pub const BAD_SWAPS: [i32; 14] = [0, 1, 8, 15, 17, 31, 33, 48, 63, 65, 128, -16, 65_552, i32::MIN];

/// The eight bytes of a slot.
pub fn slot(opc: u8, dst: u8, src: u8, off: i16, imm: i32) -> [u8; 8] {
    let [off0, off1] = off.to_le_bytes();
    let [imm0, imm1, imm2, imm3] = imm.to_le_bytes();
    [opc, src << 4 | dst, off0, off1, imm0, imm1, imm2, imm3]
}

/// A wide load: two slots.
pub fn wide(dst: u8, value: u64) -> [[u8; 8]; 2] {
    let (low, high) = (value as u32 as i32, (value >> 32) as u32 as i32);
    [slot(ebpf::LD_DW_IMM, dst, 0, 0, low), slot(0, 0, 0, 0, high)]
}

/// A case that has all it needs: the smallest page, tables of n+1 entries, no
/// helpers, the flags false.
pub fn plain_case(program: &[u8]) -> Case {
    let entries = program.len() as u32 / 8 + 1;
    Case {
        use_mbuff: false,
        update_data_ptr: false,
        standard: false,
        compact: false,
        code_len: CODE_MIN,
        table_lens: [entries; 3],
        further_lens: None,
        helper_ids: Vec::new(),
        helper_addresses: Vec::new(),
        program: program.to_vec(),
    }
}

pub fn in_standard_mode(case: Case) -> Case {
    Case { standard: true, ..case }
}

pub fn in_compact_mode(case: Case) -> Case {
    Case { compact: true, ..case }
}

/// The same case with five tables, the two further ones of n+1 entries.
pub fn five_tables(case: Case) -> Case {
    let entries = case.slots() as u32 + 1;
    Case { further_lens: Some([entries; 2]), ..case }
}

/// The same case with five tables of these lengths.
pub fn with_tables(case: &Case, [locations, fields, targets, kinds, makers]: [u32; 5]) -> Case {
    Case {
        table_lens: [locations, fields, targets],
        further_lens: Some([kinds, makers]),
        ..case.clone()
    }
}

/// The numbers of a program's slots, without the second halves of wide loads
/// and without one that is cut short.
pub fn first_slots(program: &[u8]) -> impl Iterator<Item = usize> + '_ {
    let n = program.len() / ebpf::INSN_SIZE;
    let next = |slot: &usize| match program.get(slot * ebpf::INSN_SIZE) {
        Some(&ebpf::LD_DW_IMM) => Some(slot + 2),
        _ => Some(slot + 1),
    };
    std::iter::successors(Some(0), next).take_while(move |slot| *slot < n)
}

/// A jump with a target in `off`.
pub fn jumps_by_off(opc: u8) -> bool {
    let class = opc & ebpf::BPF_CLS_MASK;
    (class == ebpf::BPF_JMP || class == ebpf::BPF_JMP32)
        && ![ebpf::CALL, ebpf::TAIL_CALL, ebpf::EXIT].contains(&opc)
}

/// The 256 opcode bytes by what the Rust makes of them.
pub struct Opcodes {
    pub accepted: Vec<u8>,
    /// Answered with 9.
    pub unimplemented: Vec<u8>,
    /// Answered with 8.
    pub unknown: Vec<u8>,
}

impl Opcodes {
    /// Asks the Rust about each byte, so that no list can be out of date.
    pub fn ask(judge: &mut Judge) -> Result<Opcodes, String> {
        let mut opcodes = Opcodes { accepted: vec![], unimplemented: vec![], unknown: vec![] };
        for opc in 0..=u8::MAX {
            let case = plain_case(&slot(opc, 0, 0, 0, 16));
            match judge.answer(&case)? {
                Answer::Refused { number: 8, .. } => opcodes.unknown.push(opc),
                Answer::Refused { number: 9, .. } => opcodes.unimplemented.push(opc),
                _ => opcodes.accepted.push(opc),
            }
        }
        Ok(opcodes)
    }
}

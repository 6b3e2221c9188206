//! What standard mode makes of a slot: an instruction ahead of rbpf's code or
//! in its place, in MOD32_REG, MOD32_IMM by 0, MOV32_REG and LE.

use crate::ebpf;
use crate::modes::{Code, MACHINE};
use crate::slots::first_slots;

/// Whether standard mode changes the code of a slot of this program, or refuses
/// it.
pub fn changes(program: &[u8]) -> bool {
    first_slots(program).any(|slot| {
        let insn = ebpf::get_insn(program, slot);
        match insn.opc {
            ebpf::MOD32_REG | ebpf::MOV32_REG | ebpf::LE => true,
            ebpf::MOD32_IMM => insn.imm == 0,
            _ => false,
        }
    })
}

/// Gives a slot the code that it has in standard mode. Tells whether it has
/// one, which LE of other than the three widths has not.
pub fn change(program: &[u8], slot: usize, code: &mut Code) -> bool {
    let insn = ebpf::get_insn(program, slot);
    let [dst, src] = [insn.dst, insn.src].map(|register| MACHINE[register as usize]);
    let all = 0..code.bytes.len();
    match (insn.opc, insn.imm) {
        (ebpf::MOD32_REG, _) | (ebpf::MOD32_IMM, 0) => code.replace(0..0, &mov32(dst, dst)),
        (ebpf::MOV32_REG, _) => code.replace(all, &mov32(dst, src)),
        (ebpf::LE, 16) => code.replace(all, &and32_ffff(dst)),
        (ebpf::LE, 32) => code.replace(all, &mov32(dst, dst)),
        (ebpf::LE, 64) => {}
        (ebpf::LE, _) => return false,
        _ => {}
    }
    true
}

/// 89 /r: mov r/m32, r32.
fn mov32(dst: u8, src: u8) -> Vec<u8> {
    on_registers(0x89, src, dst)
}

/// 81 /4 id: and r/m32, imm32.
fn and32_ffff(dst: u8) -> Vec<u8> {
    [on_registers(0x81, 4, dst), vec![0xff, 0xff, 0, 0]].concat()
}

/// An opcode and ModRM with a register in r/m; ahead of them, where a register
/// is one of R8 to R15, REX.
fn on_registers(opcode: u8, reg: u8, rm: u8) -> Vec<u8> {
    let rex = 0x40 | reg >> 3 << 2 | rm >> 3;
    let modrm = 0xc0 | (reg & 7) << 3 | rm & 7;
    if rex == 0x40 {
        vec![opcode, modrm]
    } else {
        vec![rex, opcode, modrm]
    }
}

//! What compact mode makes of a slot: a constant of 0 to 4,294,967,295 is loaded
//! by B8+r with four bytes and without REX.W, which clears the upper half; any
//! other as rbpf loads it.
//!
//! Which slots load a constant, which one, into which register and behind how
//! many bytes of their code, is said here, of the case alone. rbpf has to have
//! loaded just that there; where its code has anything else, that is a failure
//! of the oracle.

use crate::ebpf;
use crate::modes::{Code, MACHINE};
use crate::slots::first_slots;
use crate::stream::Case;

const RAX: u8 = 0;
const RCX: u8 = 1;
const RDX: u8 = 2;

/// Whether compact mode shortens a constant of this case's program.
pub fn changes(case: &Case) -> bool {
    let low = |constant: i64| u32::try_from(constant).is_ok();
    first_slots(&case.program).any(|slot| constant(case, slot).is_some_and(low))
}

/// Gives a slot of rbpf's the code that it has in compact mode.
pub fn change(case: &Case, slot: usize, code: &mut Code) -> Result<(), String> {
    let Some(constant) = constant(case, slot) else { return Ok(()) };
    let (register, at) = place(&ebpf::get_insn(&case.program, slot));
    let long = rbpfs(register, constant);
    if code.bytes.get(at..at + long.len()) != Some(&long) {
        return Err(format!("the code of slot {slot} does not load {constant} where it has to"));
    }
    if let Ok(low) = u32::try_from(constant) {
        code.replace(at..at + long.len(), &shorter(register, low));
    }
    Ok(())
}

/// The constant that a slot loads, if it loads one.
pub fn constant(case: &Case, slot: usize) -> Option<i64> {
    let insn = ebpf::get_insn(&case.program, slot);
    match insn.opc {
        ebpf::LD_DW_IMM => wide_constant(&case.program[slot * ebpf::INSN_SIZE..]),
        ebpf::MOV64_IMM => Some(insn.imm as i64),
        ebpf::MUL32_IMM | ebpf::DIV32_IMM | ebpf::MOD32_IMM => factor(insn.imm),
        ebpf::MUL64_IMM | ebpf::DIV64_IMM | ebpf::MOD64_IMM => factor(insn.imm),
        ebpf::DIV32_REG | ebpf::MOD32_REG | ebpf::DIV64_REG | ebpf::MOD64_REG => Some(slot as i64),
        ebpf::CALL if insn.src == 0 => helper_address(case, insn.imm as u32),
        _ => None,
    }
}

/// The second half may be missing.
fn wide_constant(from: &[u8]) -> Option<i64> {
    let (low, high) = (from.get(4..8)?, from.get(12..16)?);
    let bytes = [low, high].concat().try_into().ok()?;
    Some(i64::from_le_bytes(bytes))
}

/// By 0 nothing is multiplied or divided.
fn factor(imm: i32) -> Option<i64> {
    Some(imm as i64).filter(|imm| *imm != 0)
}

fn helper_address(case: &Case, id: u32) -> Option<i64> {
    let listed = case.helper_ids.iter().position(|listed| *listed == id)?;
    case.helper_addresses.get(listed).map(|address| *address as i64)
}

/// The register of a slot's load, and how many bytes stand ahead of the load.
fn place(insn: &ebpf::Insn) -> (u8, usize) {
    let dst = MACHINE[insn.dst as usize];
    match insn.opc {
        ebpf::LD_DW_IMM | ebpf::MOV64_IMM => (dst, 0),
        // mov rcx, r9
        ebpf::CALL => (RAX, 3),
        ebpf::DIV32_REG | ebpf::MOD32_REG | ebpf::DIV64_REG | ebpf::MOD64_REG => (RCX, 0),
        // push rax and push rdx, without the one that is dst.
        _ => (RCX, [RAX, RDX].iter().filter(|pushed| **pushed != dst).count()),
    }
}

/// REX.W C7 /0 id, or where the constant is not a signed number of 32 bits
/// REX.W B8+r io.
fn rbpfs(register: u8, constant: i64) -> Vec<u8> {
    let (rex_w, number) = (0x48 | register >> 3, register & 7);
    match i32::try_from(constant) {
        Ok(signed) => [&[rex_w, 0xc7, 0xc0 | number][..], &signed.to_le_bytes()].concat(),
        Err(_) => [&[rex_w, 0xb8 | number][..], &constant.to_le_bytes()].concat(),
    }
}

/// B8+r id; ahead of it, where the register is one of R8 to R15, REX.B.
fn shorter(register: u8, constant: u32) -> Vec<u8> {
    let rex: &[u8] = if register >= 8 { &[0x41] } else { &[] };
    [rex, &[0xb8 | register & 7], &constant.to_le_bytes()].concat()
}

//! DPDK's JIT, `bpf_jit_x86`, put to the same programs through `dpdk.c`, and
//! its interpreter, `rte_bpf_exec`.
//!
//! In DPDK a validator goes before the JIT; it is no part of the bench. What
//! the JIT leaves to it is seen to here: a program for which the JIT would read
//! past its tables, or which it would take for another, is not given to it. What
//! else it cannot translate it refuses itself.

use crate::ebpf::{self, Insn};
use crate::stream::Case;

/// DPDK's `struct rte_bpf`.
#[repr(C)]
struct RteBpf([u8; 0]);

extern "C" {
    fn bpf_jit_x86(bpf: *mut RteBpf) -> i32;
    fn rte_bpf_exec(bpf: *const RteBpf, packet: *const u8) -> u64;
    fn dpdk_load(
        slots: *const u64,
        count: u32,
        helpers: *const u64,
        helper_count: u32,
    ) -> *mut RteBpf;
    fn dpdk_unmap(bpf: *mut RteBpf);
    fn dpdk_free(bpf: *mut RteBpf);
}

pub struct Program {
    bpf: *mut RteBpf,
    /// Borrowed by `bpf`.
    _slots: Vec<u64>,
}

impl Program {
    /// The case's program, translated once, which warms the heap; none where
    /// DPDK's JIT does not take it.
    pub fn taken(case: &Case) -> Option<Program> {
        let slots = slots_for_dpdk(case)?;
        let helpers = &case.helper_addresses;
        let bpf = unsafe {
            dpdk_load(slots.as_ptr(), slots.len() as u32, helpers.as_ptr(), helpers.len() as u32)
        };
        let mut program = Program { bpf, _slots: slots };
        let takes = program.translate();
        unsafe { dpdk_unmap(program.bpf) };
        takes.then_some(program)
    }

    /// One translation, onto a page that the JIT maps.
    #[inline(never)]
    pub fn translate(&mut self) -> bool {
        unsafe { bpf_jit_x86(self.bpf) == 0 }
    }

    /// One run, interpreted: r1 is the packet's address, and no access is
    /// checked. Gives r0.
    #[inline(never)]
    pub fn run(&self, packet: &[u8]) -> u64 {
        unsafe { rte_bpf_exec(self.bpf, packet.as_ptr()) }
    }
}

impl Drop for Program {
    fn drop(&mut self) {
        unsafe { dpdk_free(self.bpf) };
    }
}

/// The slots with each call's helper by its place, or none where one of them
/// is not for the JIT.
fn slots_for_dpdk(case: &Case) -> Option<Vec<u64>> {
    let mut slots: Vec<Insn> =
        (0..case.slots()).map(|at| ebpf::get_insn(&case.program, at)).collect();
    let begins = beginnings(&slots);
    for at in (0..slots.len()).filter(|at| begins[*at]) {
        if !is_for_dpdk(&slots, &begins, at) {
            return None;
        }
        if slots[at].opc == ebpf::CALL {
            let id = slots[at].imm as u32;
            let mut helpers = case.helper_ids.iter().zip(&case.helper_addresses);
            slots[at].imm = helpers.position(|(known, _)| *known == id)? as i32;
        }
    }
    Some(slots.iter().map(|slot| u64::from_le_bytes(slot.to_array())).collect())
}

/// Whether a slot begins an instruction, for each: the second half of a wide
/// load does not.
fn beginnings(slots: &[Insn]) -> Vec<bool> {
    let mut begins = vec![true; slots.len()];
    for at in 1..slots.len() {
        begins[at] = !(begins[at - 1] && slots[at - 1].opc == ebpf::LD_DW_IMM);
    }
    begins
}

/// The JIT looks up a register, a jump's target and a call's number without
/// asking whether there is one. A local call is to it a helper's call, and a
/// load from the packet one from DPDK's own packet buffer.
fn is_for_dpdk(slots: &[Insn], begins: &[bool], at: usize) -> bool {
    let slot = &slots[at];
    let is_understood = match slot.opc {
        ebpf::EXIT => true,
        ebpf::CALL => slot.src == 0,
        ebpf::LD_DW_IMM => at + 1 < slots.len(),
        opcode => match opcode & ebpf::BPF_CLS_MASK {
            ebpf::BPF_LD => false,
            ebpf::BPF_JMP => {
                let target = at as isize + 1 + isize::from(slot.off);
                usize::try_from(target).is_ok_and(|target| begins.get(target) == Some(&true))
            }
            _ => true,
        },
    };
    is_understood && slot.dst <= 10 && slot.src <= 10
}

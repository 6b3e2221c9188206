//! Runs packets on the library's model of RFC 9669 and in DPDK's interpreter,
//! which checks no access and counts no slot, and marks each run.
//!
//! Neither is asked before both were seen to give what the program says. A
//! row's slots are those that run; the model's own counts have to add up to them.

use std::hint::black_box;

use crate::dpdk;
use crate::ebpf;
use crate::measure::{marked, DPDK, LABELS, OURS};
use crate::model;
use crate::programs::{case_of, slot};

struct Row {
    name: String,
    program: Vec<u8>,
    packet: Vec<u8>,
    /// How many slots run, and what r0 is then.
    slots: u64,
    result: u64,
}

/// The Internet checksum (RFC 1071) of the packet's first `bytes`, an even
/// number: half by half, in four slots each.
fn checksum(bytes: i32) -> Vec<u8> {
    [
        slot(ebpf::MOV64_REG, 6, 1, 0, 0),
        slot(ebpf::MOV64_REG, 7, 1, 0, 0),
        slot(ebpf::ADD64_IMM, 7, 0, 0, bytes),
        slot(ebpf::MOV64_IMM, 0, 0, 0, 0),
        // The loop.
        slot(ebpf::LD_H_REG, 3, 6, 0, 0),
        slot(ebpf::ADD64_REG, 0, 3, 0, 0),
        slot(ebpf::ADD64_IMM, 6, 0, 0, 2),
        slot(ebpf::JLT_REG, 6, 7, -4, 0),
        // What is above 16 bits is added to them, twice.
        slot(ebpf::MOV64_REG, 3, 0, 0, 0),
        slot(ebpf::RSH64_IMM, 3, 0, 0, 16),
        slot(ebpf::AND64_IMM, 0, 0, 0, 0xffff),
        slot(ebpf::ADD64_REG, 0, 3, 0, 0),
        slot(ebpf::MOV64_REG, 3, 0, 0, 0),
        slot(ebpf::RSH64_IMM, 3, 0, 0, 16),
        slot(ebpf::ADD64_REG, 0, 3, 0, 0),
        slot(ebpf::XOR64_IMM, 0, 0, 0, 0xffff),
        slot(ebpf::AND64_IMM, 0, 0, 0, 0xffff),
        slot(ebpf::EXIT, 0, 0, 0, 0),
    ]
    .concat()
}

fn checksum_row(bytes: usize) -> Row {
    let packet: Vec<u8> = (0..bytes).map(|at| (at * 7 + at / 256) as u8).collect();
    let halves =
        packet.chunks_exact(2).map(|half| u64::from(u16::from_le_bytes([half[0], half[1]])));
    let sum: u64 = halves.sum();
    let folded = (sum >> 16) + (sum & 0xffff);
    let result = !((folded >> 16) + folded) & 0xffff;
    let program = checksum(bytes as i32);
    // The loop's four slots are among the program's, once.
    let slots = (program.len() / 8 + (bytes / 2 - 1) * 4) as u64;
    Row { name: format!("checksum of {bytes} bytes"), program, packet, slots, result }
}

/// Keeps UDP over IPv4, as examples/filters/raw-udp.c: what a packet costs
/// that takes few slots.
fn filter_row() -> Row {
    let program = [
        slot(ebpf::MOV64_IMM, 0, 0, 0, 0),
        slot(ebpf::LD_H_REG, 3, 1, 12, 0),
        slot(ebpf::JNE_IMM, 3, 0, 3, 0x0008),
        slot(ebpf::LD_B_REG, 3, 1, 23, 0),
        slot(ebpf::JNE_IMM, 3, 0, 1, 17),
        slot(ebpf::MOV64_IMM, 0, 0, 0, 1),
        slot(ebpf::EXIT, 0, 0, 0, 0),
    ]
    .concat();
    let mut packet = vec![0u8; 90];
    (packet[12], packet[23]) = (8, 17);
    Row { name: "a filter of 7 slots".into(), slots: 7, result: 1, program, packet }
}

fn count_ours(label: u64, row: &Row) -> Result<(), String> {
    let (mut copy, mut counts) = (row.packet.clone(), vec![0u64; row.program.len() / 8 + 1]);
    let result = model::run(&row.program, &row.packet, &mut copy, &mut counts);
    if (result, counts.iter().sum()) != (row.result, row.slots) {
        return Err(format!("{}: the model leaves {result:#x} in r0, counts {counts:?}", row.name));
    }
    marked(label + OURS, || {
        _ = black_box(model::run(&row.program, &row.packet, &mut copy, &mut counts))
    });
    Ok(())
}

fn count_dpdk(label: u64, row: &Row) -> Result<(), String> {
    let Some(program) = dpdk::Program::taken(&case_of(row.program.clone())) else { return Ok(()) };
    let result = program.run(&row.packet);
    if result != row.result {
        return Err(format!("{}: DPDK's interpreter leaves {result:#x} in r0", row.name));
    }
    marked(label + DPDK, || _ = black_box(program.run(&row.packet)));
    Ok(())
}

/// Prints a line for each row, as the other measures do.
pub fn count() -> Result<(), String> {
    marked(0, || ());
    for (label, row) in (1..).map(|at| LABELS * at).zip([checksum_row(1_500), filter_row()]) {
        count_ours(label, &row)?;
        count_dpdk(label, &row)?;
        println!("{label}\truns\t{}\t1\t{}", row.name, row.slots);
    }
    Ok(())
}

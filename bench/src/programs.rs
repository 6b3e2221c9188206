//! The programs that are translated, row by row of the tables.
//!
//! The corpus and the real filters are read from files; the rest is made here.
//! `MIX` is what a packet filter consists of, in about its shares: loads from
//! the packet, byte swaps, comparisons, masks, a few stores, a helper call.

use crate::ebpf;
use crate::stream::{self, Case};

pub struct Row {
    pub table: &'static str,
    pub name: String,
    pub cases: Vec<Case>,
}

const PAGE: u32 = ndakoleem::CODE_MAX as u32;
const HELPER: u32 = 1;

pub fn slot(opc: u8, dst: u8, src: u8, off: i16, imm: i32) -> [u8; 8] {
    ebpf::Insn { opc, dst, src, off, imm }.to_array()
}

/// Sixteen slots; a jump skips one, and the last slot is none.
fn mix() -> [[u8; 8]; 16] {
    [
        slot(ebpf::LD_H_REG, 2, 1, 12, 0),
        slot(ebpf::BE, 2, 0, 0, 16),
        slot(ebpf::JNE_IMM, 2, 0, 1, 0x0800),
        slot(ebpf::LD_W_REG, 3, 1, 26, 0),
        slot(ebpf::AND64_IMM, 3, 0, 0, 0x00ff_ffff),
        slot(ebpf::JEQ_IMM, 3, 0, 1, 0x000a_0101),
        slot(ebpf::LD_B_REG, 4, 1, 23, 0),
        slot(ebpf::MOV64_REG, 6, 1, 0, 0),
        slot(ebpf::ADD64_IMM, 6, 0, 0, 34),
        slot(ebpf::JGT_REG, 6, 2, 1, 0),
        slot(ebpf::ST_DW_REG, 10, 6, -8, 0),
        slot(ebpf::LSH64_IMM, 4, 0, 0, 2),
        slot(ebpf::CALL, 0, 0, 0, HELPER as i32),
        slot(ebpf::OR64_REG, 0, 4, 0, 0),
        slot(ebpf::MOV64_IMM, 7, 0, 0, 1),
        slot(ebpf::EXIT, 0, 0, 0, 0),
    ]
}

fn mixed(slots: usize) -> Vec<u8> {
    mix().iter().cycle().take(slots).flatten().copied().collect()
}

/// A case on the longest page with tables to fit, and every helper that the
/// program calls.
pub fn case_of(program: Vec<u8>) -> Case {
    let slots = program.chunks_exact(8);
    let calls = slots.filter(|slot| slot[0] == ebpf::CALL && slot[1] >> 4 == 0);
    let mut helper_ids: Vec<u32> =
        calls.map(|slot| u32::from_le_bytes([slot[4], slot[5], slot[6], slot[7]])).collect();
    helper_ids.sort_unstable();
    helper_ids.dedup();
    let entries = (program.len() / 8 + 1) as u32;
    Case {
        use_mbuff: false,
        update_data_ptr: false,
        standard: false,
        compact: false,
        code_len: PAGE,
        table_lens: [entries; 3],
        further_lens: Some([entries; 2]),
        helper_addresses: vec![0x7f00_1122_3340; helper_ids.len()],
        helper_ids,
        program,
    }
}

fn row(table: &'static str, name: impl Into<String>, program: Vec<u8>) -> Row {
    Row { table, name: name.into(), cases: vec![case_of(program)] }
}

/// The corpus's cases, without those in standard mode or with compact constants,
/// which the Rust has not; `measure` leaves out those that are refused.
fn corpus(name: &str) -> Result<Row, String> {
    let file = std::fs::File::open(name).map_err(|error| format!("cannot open {name}: {error}"))?;
    let mut records = stream::case_records(std::io::BufReader::new(file));
    let mut cases = Vec::new();
    while let Some(case) = records.next_case()? {
        if !case.standard && !case.compact {
            cases.push(case);
        }
    }
    Ok(Row { table: "corpus", name: "the corpus's accepted programs".into(), cases })
}

fn filters(names: &[&str]) -> Result<Vec<Row>, String> {
    let mut rows = Vec::new();
    for name in names {
        let program =
            std::fs::read(name).map_err(|error| format!("cannot read {name}: {error}"))?;
        let file = name.rsplit('/').next().unwrap_or(name);
        rows.push(row("filters", file.trim_end_matches(".bin"), program));
    }
    Ok(rows)
}

/// The mix with an unknown opcode for its last slot, which the Rust answers
/// with an error and not with a panic.
fn refused_at_last(slots: usize) -> Vec<u8> {
    let mut program = mixed(slots - 1);
    program.extend(slot(0xff, 0, 0, 0, 0));
    program
}

/// 256 slots of one kind each; a row's cost over 256 is a slot's.
fn kinds() -> Vec<Row> {
    let div = slot(ebpf::DIV64_REG, 3, 4, 0, 0);
    let kinds: [(&str, [u8; 8]); 19] = [
        ("LE (no bytes)", slot(ebpf::LE, 2, 0, 0, 64)),
        ("EXIT", slot(ebpf::EXIT, 0, 0, 0, 0)),
        ("MOV64_REG", slot(ebpf::MOV64_REG, 6, 1, 0, 0)),
        ("MOV64_IMM", slot(ebpf::MOV64_IMM, 7, 0, 0, 1)),
        ("ADD64_REG", slot(ebpf::ADD64_REG, 2, 3, 0, 0)),
        ("LSH32_IMM", slot(ebpf::LSH32_IMM, 2, 0, 0, 3)),
        ("LD_W_REG", slot(ebpf::LD_W_REG, 3, 1, 26, 0)),
        ("ST_B_REG", slot(ebpf::ST_B_REG, 10, 1, -8, 0)),
        ("ST_H_REG", slot(ebpf::ST_H_REG, 10, 1, -8, 0)),
        ("ST_W_REG", slot(ebpf::ST_W_REG, 10, 1, -8, 0)),
        ("ST_DW_REG", slot(ebpf::ST_DW_REG, 10, 6, -8, 0)),
        ("BE 16", slot(ebpf::BE, 2, 0, 0, 16)),
        ("JEQ_IMM", slot(ebpf::JEQ_IMM, 3, 0, -1, 0x0a01)),
        ("CALL of a helper", slot(ebpf::CALL, 0, 0, 0, HELPER as i32)),
        ("DIV64_REG", div),
        // Those that standard mode has other code for.
        ("LE 16", slot(ebpf::LE, 2, 0, 0, 16)),
        ("MOV32_REG", slot(ebpf::MOV32_REG, 6, 1, 0, 0)),
        ("MOD32_REG", slot(ebpf::MOD32_REG, 3, 4, 0, 0)),
        // Beside MOV64_IMM and DIV64_REG, those that compact constants change.
        ("MUL64_IMM", slot(ebpf::MUL64_IMM, 3, 0, 0, 3)),
    ];
    let mut rows: Vec<Row> =
        kinds.map(|(name, bytes)| row("kinds", name, bytes.repeat(256))).into();
    // An IPv4 address that no signed 32-bit immediate holds.
    let load = [slot(ebpf::LD_DW_IMM, 2, 0, 0, 0xc000_0201_u32 as i32), [0; 8]].concat();
    rows.push(row("kinds", "LD_DW_IMM (2 slots)", load.repeat(128)));
    rows
}

pub fn rows(corpus_file: &str, filter_files: &[&str]) -> Result<Vec<Row>, String> {
    let mut rows = vec![row("sizes", "EXIT alone", slot(ebpf::EXIT, 0, 0, 0, 0).to_vec())];
    rows.push(row("sizes", "the empty program", vec![]));
    for slots in [1, 16, 256, 2_048] {
        let plural = if slots == 1 { "slot" } else { "slots" };
        rows.push(row("sizes", format!("{slots} {plural}"), mixed(slots)));
    }
    for (slots, page) in [(256, 4_096), (2_048, 32_768), (2_048, 16_384)] {
        let mut shorter = row("pages", format!("{slots} slots, page of {page}"), mixed(slots));
        shorter.cases[0].code_len = page;
        rows.push(shorter);
    }
    for slots in [256, 2_048] {
        let name = format!("{slots} slots, refused at the last");
        rows.push(Row { table: "refused", ..row("", name, refused_at_last(slots)) });
    }
    rows.push(corpus(corpus_file)?);
    rows.extend(filters(filter_files)?);
    rows.extend(kinds());
    Ok(rows)
}

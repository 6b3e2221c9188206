//! The random cases: the same for the same seed, and spread as they should be.

use std::collections::HashMap;

use crate::compact;
use crate::ebpf::{self, *};
use crate::generate::{Form, Generator};
use crate::judge::Judge;
use crate::slots::first_slots;
use crate::standard::changes;
use crate::stream::{Answer, Case};

const SEED: u64 = 9;
const COUNT: u64 = 20_000;

#[test]
fn a_seed_gives_the_same_cases() {
    let mut one = Generator::new().expect("a generator");
    let mut other = Generator::new().expect("a generator");
    for at in 0..200 {
        assert_eq!(one.case(SEED, at), other.case(SEED, at));
    }
    assert_ne!(one.case(SEED, 0), one.case(SEED + 1, 0));
}

#[test]
fn half_are_accepted_and_every_refusal_has_its_share() {
    let mut generator = Generator::new().expect("a generator");
    let mut judge = Judge::new();
    let mut counts = [0; 15];
    // 13 at slot n, the epilogue's, and 13 at a slot before it.
    let mut page_ends = [0; 2];
    for at in 0..COUNT {
        let case = generator.case(SEED, at).expect("a case");
        match judge.answer(&case).expect("an answer") {
            Answer::Accepted(_) => counts[0] += 1,
            Answer::Refused { number, slot } => {
                counts[number as usize] += 1;
                if number == 13 {
                    page_ends[(slot < case.slots() as u32) as usize] += 1;
                }
            }
        }
    }
    assert!((40..=60).contains(&(counts[0] * 100 / COUNT)), "{counts:?}");
    assert!(counts.iter().all(|count| *count >= 50), "{counts:?}");
    assert!(page_ends.iter().all(|count| *count >= 50), "{page_ends:?}");
}

#[test]
fn every_second_case_has_five_tables() {
    let mut generator = Generator::new().expect("a generator");
    for at in 0..200 {
        let case = generator.case(SEED, at).expect("a case");
        assert_eq!(case.further_lens.is_some(), at % 2 == 1);
        // Nothing else depends on it.
        let form = Form { five_tables: false, ..Form::of(at) };
        let three = generator.formed(form, SEED, at).expect("a case");
        assert_eq!(three, Case { further_lens: None, ..case });
    }
}

#[test]
fn every_third_case_is_in_standard_mode() {
    let mut generator = Generator::new().expect("a generator");
    for at in 0..200 {
        let case = generator.case(SEED, at).expect("a case");
        assert_eq!(case.standard, at % 3 == 2);
        let form = Form { standard: false, ..Form::of(at) };
        let other = generator.formed(form, SEED, at).expect("a case");
        assert_eq!(other == case, !case.standard);
    }
}

#[test]
fn the_four_modes_come_often() {
    let mut generator = Generator::new().expect("a generator");
    // By standard mode, compact mode and five tables.
    let mut counts = [[[0; 2]; 2]; 2];
    for at in 0..240 {
        let case = generator.case(SEED, at).expect("a case");
        let [standard, compact, five] = [case.standard, case.compact, case.further_lens.is_some()];
        counts[standard as usize][compact as usize][five as usize] += 1;
        let form = Form { compact: false, ..Form::of(at) };
        let other = generator.formed(form, SEED, at).expect("a case");
        assert_eq!(other == case, !case.compact);
    }
    assert_eq!(counts, [[[40; 2]; 2], [[20; 2]; 2]]);
}

/// Where a slot loads a constant, and whether its dst is one of R8 to R15.
type Place = (&'static str, bool);

fn place_of(insn: &Insn) -> Place {
    let place = match insn.opc {
        LD_DW_IMM => "wide load",
        MOV64_IMM => "move",
        CALL => "helper",
        DIV32_REG | MOD32_REG | DIV64_REG | MOD64_REG => "slot",
        _ => "factor",
    };
    (place, [4, 5, 7, 8, 9].contains(&insn.dst))
}

/// The random cases in compact mode that are accepted, and their code's length.
fn accepted_in_compact_mode() -> Vec<(Case, usize)> {
    let mut generator = Generator::new().expect("a generator");
    let mut judge = Judge::new();
    let compact = (0..COUNT).filter(|at| Form::of(*at).compact);
    let cases = compact.map(|at| generator.case(SEED, at).expect("a case"));
    let with_len = |case: Case| match judge.answer(&case) {
        Ok(Answer::Accepted(page)) => Some((case, page.code.len())),
        _ => None,
    };
    cases.filter_map(with_len).collect()
}

#[test]
fn compact_mode_is_asked_about_every_constant() {
    let mut loads: HashMap<(Place, i64), u64> = HashMap::new();
    let mut registers = [[0; 11]; 2];
    for (case, _) in accepted_in_compact_mode() {
        for slot in first_slots(&case.program) {
            let Some(constant) = compact::constant(&case, slot) else { continue };
            let insn = ebpf::get_insn(&case.program, slot);
            *loads.entry((place_of(&insn), constant)).or_default() += 1;
            if let Some(at) = [LD_DW_IMM, MOV64_IMM].iter().position(|opc| *opc == insn.opc) {
                registers[at][insn.dst as usize] += 1;
            }
        }
    }
    let (max, min) = (i32::MAX as i64, i32::MIN as i64);
    let wide = [0, 1, max, max + 1, 0xffff_ffff, 0x1_0000_0000, -1, min, min - 1];
    let asked: [(&str, &[i64], u64); 5] = [
        ("wide load", &wide, 20),
        ("move", &[0, 1, max, -1, min], 20),
        ("factor", &[1, max, -1, min], 20),
        ("slot", &[0, 1, 2, 10, 100], 1),
        ("helper", &wide, 20),
    ];
    for (place, constants, least) in asked {
        for (constant, high) in constants.iter().flat_map(|at| [(*at, false), (*at, true)]) {
            let count = loads.get(&((place, high), constant)).copied().unwrap_or(0);
            assert!(count >= least, "{place}, {constant:#x}, high {high}: {count}");
        }
    }
    assert!(loads.keys().any(|((place, _), number)| *place == "slot" && *number > 1_000));
    assert!(registers.iter().flatten().all(|count| *count > 20), "{registers:?}");
}

#[test]
fn compact_mode_has_pages_that_are_long_enough_in_it_alone() {
    let cases = accepted_in_compact_mode();
    let mut judge = Judge::new();
    // Pages with a shortened constant, those that are too short without compact
    // mode, and those of them with many bytes to spare in it.
    let (mut pages, mut alone, mut ample) = (0, 0, 0);
    for (case, len) in &cases {
        pages += compact::changes(case) as usize;
        let rbpf = judge.answer(&Case { compact: false, ..case.clone() });
        if let Ok(Answer::Refused { number: 13, .. }) = rbpf {
            alone += 1;
            ample += (case.code_len as usize > len + 60) as usize;
        }
    }
    assert!(pages * 100 / cases.len() > 60, "{pages} of {}", cases.len());
    assert!(alone * 100 / cases.len() >= 2, "{alone} of {}", cases.len());
    assert!(ample > 30, "{ample} of {alone}");
}

#[test]
fn standard_mode_is_asked_about_every_slot_that_it_changes() {
    let mut generator = Generator::new().expect("a generator");
    let mut judge = Judge::new();
    // Pages with a changed slot, and with one of each kind.
    let (mut all, mut pages, mut kinds) = (0, 0, [0; 4]);
    let (mut le_refused, mut page_ends) = (0, [0; 2]);
    for at in (0..COUNT).filter(|at| Form::of(*at).standard) {
        let case = generator.case(SEED, at).expect("a case");
        all += 1;
        match judge.answer(&case).expect("an answer") {
            Answer::Accepted(page) => {
                pages += changes(&case.program) as u64;
                let slots = case.program.chunks(8).zip(&page.locations);
                let slots: Vec<&[u8]> =
                    slots.filter(|(_, location)| **location > 0).map(|(slot, _)| slot).collect();
                for (count, opc) in kinds.iter_mut().zip([MOD32_REG, MOD32_IMM, MOV32_REG, LE]) {
                    *count += slots.iter().any(|slot| slot[0] == opc && changes(slot)) as u64;
                }
            }
            Answer::Refused { number: 10, slot } => {
                le_refused += (case.program[8 * slot as usize] == LE) as u64
            }
            Answer::Refused { number: 13, slot } => {
                page_ends[(slot < case.slots() as u32) as usize] += 1
            }
            Answer::Refused { .. } => {}
        }
    }
    assert!(pages * 100 / all > 30, "{pages} of {all}");
    assert!(kinds.iter().all(|count| count * 100 / all > 10), "{kinds:?} of {all}");
    assert!(le_refused > 50, "{le_refused} of {all}");
    assert!(page_ends.iter().all(|count| *count > 20), "{page_ends:?}");
}

#[test]
fn the_two_further_tables_are_short_in_every_way() {
    let mut generator = Generator::new().expect("a generator");
    // By which of them is short, and whether one of the others is as well.
    let mut short = [[0; 2]; 4];
    let [mut by_one, mut empty, mut ample] = [0; 3];
    for at in 0..COUNT {
        let form = Form { five_tables: true, ..Form::of(at) };
        let case = generator.formed(form, SEED, at).expect("a case");
        let entries = case.slots() as u32 + 1;
        let lens = case.further_lens.expect("five tables");
        let which = (lens[0] < entries) as usize | ((lens[1] < entries) as usize) << 1;
        let others = case.table_lens.iter().any(|len| *len < entries);
        short[which][others as usize] += 1;
        by_one += lens.iter().filter(|len| **len == entries - 1).count();
        empty += lens.iter().filter(|len| **len == 0).count();
        ample += lens.iter().filter(|len| **len == u32::MAX).count();
    }
    assert!(short.iter().flatten().all(|count| *count >= 3), "{short:?}");
    assert!([by_one, empty, ample].iter().all(|count| *count >= 100), "{by_one} {empty} {ample}");
}

#[test]
fn every_opcode_byte_and_register_value_is_asked_about() {
    let mut generator = Generator::new().expect("a generator");
    let (mut opcodes, mut dsts, mut srcs) = ([0; 256], [0; 16], [0; 16]);
    for at in 0..COUNT {
        let case = generator.case(SEED, at).expect("a case");
        // The slots of small programs; second halves are not asked about.
        let mut slots = case.program.chunks_exact(8).take(20);
        while let Some(slot) = slots.next() {
            opcodes[slot[0] as usize] += 1;
            dsts[slot[1] as usize & 15] += 1;
            srcs[slot[1] as usize >> 4] += 1;
            if slot[0] == ebpf::LD_DW_IMM {
                slots.next();
            }
        }
    }
    assert!(opcodes.iter().all(|count| *count > 0), "{opcodes:?}");
    assert!(dsts.iter().chain(&srcs).all(|count| *count > 20), "{dsts:?} {srcs:?}");
}

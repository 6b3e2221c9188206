//! Tests of the oracle itself: the worked programs, the facts known of the Rust,
//! the listed jumps, the order of the refusals, standard and compact mode, the
//! streams, and the spread of the random cases.

mod compact;
mod facts;
mod jumps;
mod order;
mod spread;
mod standard;
mod streams;
mod worked;

use crate::judge::Judge;
use crate::sizes::EPILOGUE;
use crate::slots::{plain_case, Opcodes};
use crate::stream::{Answer, Case, Translation};

const EXIT: [u8; 8] = [crate::ebpf::EXIT, 0, 0, 0, 0, 0, 0, 0];

fn case_of(program: &[[u8; 8]]) -> Case {
    plain_case(&program.concat())
}

fn ask(case: &Case) -> Answer {
    Judge::new().answer(case).expect("the oracle has an answer")
}

fn opcodes() -> Opcodes {
    Opcodes::ask(&mut Judge::new()).expect("the oracle knows every opcode byte")
}

fn refused(case: &Case) -> (u8, u32) {
    match ask(case) {
        Answer::Refused { number, slot } => (number, slot),
        accepted => panic!("{accepted}"),
    }
}

fn accepted(case: &Case) -> Translation {
    match ask(case) {
        Answer::Accepted(page) => page,
        refused => panic!("{refused}"),
    }
}

/// The code of one slot: up to where the next location, or the epilogue, is.
fn slot_code(page: &Translation, slot: usize) -> &[u8] {
    let start = page.locations[slot] as usize;
    let next = page.locations[slot + 1..].iter().find(|location| **location > 0);
    let end = next.map_or(page.code.len() - EPILOGUE, |location| *location as usize);
    &page.code[start..end]
}

/// The code of a slot that stands alone, its jump fields emptied.
fn code_alone(slot: [u8; 8]) -> Vec<u8> {
    first_code(&case_of(&[slot]))
}

/// The code of the first slot, its jump fields emptied.
fn first_code(case: &Case) -> Vec<u8> {
    let mut page = accepted(case);
    for field in &page.fields {
        page.code[*field as usize..*field as usize + 4].fill(0);
    }
    slot_code(&page, 0).to_vec()
}

/// The locations of an accepted case, and its jumps: field, target and what the
/// field holds.
fn page_is(case: &Case, locations: &[u32], jumps: &[(u32, u32, i32)]) {
    let page = accepted(case);
    assert_eq!(page.locations, locations, "{case:02x?}");
    let field = |at: u32| page.code[at as usize..at as usize + 4].try_into().expect("four bytes");
    let held = page.fields.iter().map(|at| i32::from_le_bytes(field(*at)));
    let listed = page.fields.iter().zip(&page.targets).zip(held);
    let listed: Vec<_> = listed.map(|((field, target), held)| (*field, *target, held)).collect();
    assert_eq!(listed, jumps, "{case:02x?}");
}

fn bytes(hex: &str) -> Vec<u8> {
    let byte = |digits| u8::from_str_radix(digits, 16).expect("two hexadecimal digits");
    hex.split_whitespace().map(byte).collect()
}

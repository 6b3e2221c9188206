//! The worked programs, and the bytes that each has to give.

use super::{accepted, ask, bytes, case_of, slot_code};
use crate::corpus;
use crate::sizes::{ANCHOR, EPILOGUE, PROLOGUE, PROLOGUE_LONGEST};
use crate::stream::{Answer, Case, Translation};

const EXIT_PAGE: &str = "55 53 41 55 41 56 41 57 49 89 d2 48 89 d7 48 89 e5 48 81 ec 00 02 00 00 \
    e8 05 00 00 00 e9 01 00 00 00 c3 48 81 c4 00 02 00 00 41 5f 41 5e 41 5d 5b 5d c3";
const DIV_CODE: &str = "48 c7 c1 00 00 00 00 48 85 ff 0f 85 07 00 00 00 31 c0 e9 00 00 00 00 52 \
    48 89 f9 48 89 c0 31 d2 48 f7 f1 5a";

/// What a line says.
enum Line {
    /// L, J and the exit field.
    Empty(usize, usize, u32),
    Page(&'static str),
    /// The first slot's code.
    Code(&'static str),
    /// The first slot's code with its jump field still empty.
    Unfilled(&'static str),
    /// The first slot's target and field.
    Jump(u32, &'static str),
    Refused(u8, u32),
    NotRefused(u8),
}
use Line::*;

const LINES: [(&str, Line); 19] = [
    ("empty program", Empty(50, 1, 0)),
    ("EXIT alone", Page(EXIT_PAGE)),
    ("LD_B_REG r10 off 0", Code("0f b6 45 00")),
    ("LD_B_REG r10 off 128", Code("0f b6 85 80 00 00 00")),
    ("LD_B_REG r10 off 127", Code("0f b6 45 7f")),
    ("LD_B_REG r10 off -129", Code("0f b6 85 7f ff ff ff")),
    ("LD_B_REG r1 off 0", Code("0f b6 07")),
    ("ST_B_REG r1 to r10 off -8", Code("40 88 7d f8")),
    ("wide load 2147483647", Code("48 c7 c0 ff ff ff 7f")),
    ("wide load 2147483648", Code("48 b8 00 00 00 80 00 00 00 00")),
    ("DIV64_REG r0 by r1", Unfilled(DIV_CODE)),
    ("JA -1", Jump(0, "fb ff ff ff")),
    ("JA 0 alone", Jump(1, "d9 ff ff ff")),
    ("JA 1 alone", Refused(14, 0)),
    ("local call of the exit", Jump(ANCHOR as u32, "07 00 00 00")),
    ("local call a slot ahead of the exit", Refused(14, 0)),
    ("7 bytes", Refused(6, 0)),
    ("the longest program", NotRefused(3)),
    ("a byte more than the longest program", Refused(3, 0)),
];

fn field(page: &Translation, jump: usize) -> &[u8] {
    let at = page.fields[jump] as usize;
    &page.code[at..at + 4]
}

fn unfilled(mut page: Translation) -> Translation {
    let at = page.fields[1] as usize;
    page.code[at..at + 4].fill(0);
    page
}

fn holds(line: &Line, answer: Answer) -> bool {
    match (line, answer) {
        (Empty(len, jumps, exit), Answer::Accepted(page)) => {
            (page.code.len(), page.fields.len()) == (*len, *jumps)
                && field(&page, 0) == exit.to_le_bytes()
        }
        (Page(hex), Answer::Accepted(page)) => page.code == bytes(hex),
        (Code(hex), Answer::Accepted(page)) => slot_code(&page, 0) == bytes(hex),
        (Unfilled(hex), Answer::Accepted(page)) => slot_code(&unfilled(page), 0) == bytes(hex),
        (Jump(target, hex), Answer::Accepted(page)) => {
            page.targets[1] == *target && field(&page, 1) == bytes(hex)
        }
        (Refused(want, at), Answer::Refused { number, slot }) => (*want, *at) == (number, slot),
        (NotRefused(not), Answer::Refused { number, .. }) => *not != number,
        _ => false,
    }
}

#[test]
fn every_worked_line_holds() {
    let worked = corpus::worked();
    assert_eq!(worked.len(), LINES.len());
    for ((name, case), (said, line)) in worked.iter().zip(&LINES) {
        assert_eq!(name, said);
        let answer = ask(case);
        assert!(holds(line, answer.clone()), "{name}: {answer:?}");
    }
}

/// The frame round the slots: prologues of 34, 31 and 49 bytes by flags, the
/// epilogue's 16.
#[test]
fn the_four_pairs_of_flags() {
    let pushes = "55 53 41 55 41 56 41 57 49 89 d2";
    let update = "49 01 f8 49 89 10 4c 8b 02 49 01 c8 49 01 f9 4d 89 01";
    let stack = "48 89 e5 48 81 ec 00 02 00 00 e8 05 00 00 00 e9 00 00 00 00";
    let epilogue = "48 81 c4 00 02 00 00 41 5f 41 5e 41 5d 5b 5d c3";
    let pairs = [
        (false, false, "48 89 d7", PROLOGUE),
        (false, true, "48 89 d7", PROLOGUE),
        (true, false, "", 31),
        (true, true, update, PROLOGUE_LONGEST),
    ];
    for (use_mbuff, update_data_ptr, middle, len) in pairs {
        let case = Case { use_mbuff, update_data_ptr, ..case_of(&[]) };
        let page = accepted(&case);
        let code = [pushes, middle, stack, epilogue].map(bytes).concat();
        assert_eq!((&page.code, page.code.len()), (&code, len + EPILOGUE));
        assert_eq!((page.fields, page.targets), (vec![len as u32 - 4], vec![ANCHOR as u32]));
    }
}

//! Maps: EXIT's three lines, what goes into a page's text and what stays, the
//! two refusals, and how long a line and a map become. Which line each slot has
//! is proved; `tests/corpus.rs` reads the maps of the corpus.

extern crate std;
use std::str::from_utf8;
use std::vec;

use super::{EXIT, EXIT_CODE};
use crate::{
    Flags, Helpers, Page, Reason, Refusal, CODE_LONGEST, MAP_ENOUGH, MAP_LINE_MAX, SLOTS_MAX,
};

const EXIT_MAP: &[u8] = b"1000 22 prologue\n1022 1 slot_0\n1023 10 epilogue\n";
const MARK: u8 = 0xab;

fn translate<'a>(
    page: &mut Page,
    program: &[u8],
    base: u64,
    text: &'a mut [u8],
) -> Result<&'a [u8], Refusal> {
    page.translate_mapped(program, Flags::default(), Helpers::default(), base, text)
}

#[test]
fn exit_alone_and_what_is_behind_its_map() -> Result<(), Refusal> {
    let (mut page, mut text) = (Page::new(), [MARK; 64]);
    assert_eq!(translate(&mut page, &EXIT, 0x1000, &mut text)?, EXIT_MAP);
    assert!(text[EXIT_MAP.len()..].iter().all(|byte| *byte == MARK));
    assert_eq!((page.code(), page.locations()), (&EXIT_CODE[..], &[34, 0][..]));
    assert_eq!((page.fields().len(), page.makers()), (1, &[1][..]));
    Ok(())
}

#[test]
fn refused_a_page_and_its_text_keep_what_they_had() -> Result<(), Refusal> {
    let (mut page, mut text) = (Page::new(), [MARK; 64]);
    translate(&mut page, &EXIT, 0, &mut [0; 64])?;
    let two = EXIT.repeat(2);
    let mut refused = |program: &[u8], base, room| {
        let refusal = translate(&mut page, program, base, &mut text[..room]).expect_err("refused");
        assert_eq!((page.code(), page.locations().len()), (&EXIT_CODE[..], 2));
        assert_eq!(text, [MARK; 64]);
        (refusal.reason, refusal.slot)
    };
    // The two slots' code has 52 bytes.
    assert_eq!(refused(&two, u64::MAX - 51, 64), (Reason::BaseTooHigh, 0));
    assert_eq!(refused(&two, u64::MAX - 51, 0), (Reason::BaseTooHigh, 0));
    assert_eq!(refused(&two, 0x1000, EXIT_MAP.len()), (Reason::TextTooShort, 0));
    assert_eq!(refused(&[0], u64::MAX, 0), (Reason::TornSlot, 0));
    Ok(())
}

#[test]
fn every_map_finds_room() -> Result<(), Refusal> {
    // DIV by register, whose code is the longest.
    let longest = [0x3f, 0x54, 0, 0, 0, 0, 0, 0].repeat(SLOTS_MAX);
    let (mut page, mut text) = (Page::new(), vec![0; MAP_ENOUGH]);
    let map = translate(&mut page, &longest, u64::MAX - CODE_LONGEST as u64, &mut text)?;
    let lines = from_utf8(map).expect("a text").lines();
    assert_eq!(lines.clone().count(), SLOTS_MAX + 2);
    assert_eq!(lines.map(|line| line.len() + 1).max(), Some(MAP_LINE_MAX));
    Ok(())
}

//! That one number has one value everywhere: in this crate, in the C header, and
//! in the definitions that the library is proved against. The header and the
//! definitions are read here, so nothing is held to them by hand.

extern crate std;
use std::collections::BTreeMap;
use std::fmt::Debug;
use std::format;
use std::fs::{read_dir, read_to_string};
use std::string::{String, ToString};
use std::vec::IntoIter;
use std::vec::Vec;

use crate::raw::SENTENCE_ENOUGH;
use crate::{
    Ended, JumpKind, Reason, CODE_ENOUGH, CODE_LONGEST, CODE_MAX, CODE_MIN, EXIT_TARGET,
    FRAME_CODE_MAX, HELPERS_MAX, MAP_ENOUGH, MAP_LINE_MAX, PACKET_MAX, PROGRAM_MAX, SLOTS_MAX,
    SLOT_CODE_MAX, STEPS_MAX, TABLE_ENOUGH,
};

const HEADER: &str = include_str!("../../../include/ndakoleem.h");

/// The ends of a run, by their names in the header.
const ENDS: [(&str, Ended); 4] = [
    ("EXIT", Ended::Exit(0)),
    ("STEP_LIMIT", Ended::StepLimit),
    ("ACCESS", Ended::Access),
    ("NO_SLOT", Ended::NoSlot),
];

/// The numbers of a text, by their names.
type Numbers = BTreeMap<String, usize>;

/// Every line `NAME = VALUE` of a text; the others say nothing of numbers. A
/// value is reckoned from numbers and from the names before it.
fn numbers(text: &str) -> Numbers {
    let mut known = Numbers::new();
    for line in text.lines() {
        let Some((name, value)) = line.trim().split_once(" = ") else { continue };
        let value = value.split([',', ';']).next().and_then(|part| part.split("/*").next());
        if let Some(number) = value.and_then(|value| reckoned(value, &known)) {
            known.insert(name.to_string(), number);
        }
    }
    known
}

/// The numbers of crates' definitions, all files of their specs/. A name may
/// stand in a file behind the one that uses it, so all are read twice.
fn definitions(crates: &[&str]) -> Numbers {
    let mut texts = String::new();
    for name in crates {
        // Tests run in the crate's folder.
        let folder = format!("../crates/{name}/specs");
        let files = read_dir(&folder).unwrap_or_else(|error| panic!("{folder}: {error}"));
        for file in files {
            texts.push_str(&read_to_string(file.expect("a file").path()).expect("a text"));
        }
    }
    numbers(&texts.repeat(2))
}

/// What an expression of + - * / and brackets comes to.
fn reckoned(text: &str, known: &Numbers) -> Option<usize> {
    let mut spaced = text.to_string();
    for sign in ["+", "-", "*", "/", "(", ")"] {
        spaced = spaced.replace(sign, &format!(" {sign} "));
    }
    let mut words: Words = spaced.split_whitespace().collect::<Vec<_>>().into_iter();
    let number = sum(&mut words, known)?;
    words.as_slice().is_empty().then_some(number)
}

type Words<'a> = IntoIter<&'a str>;

/// Whether the next word is one of two signs, and which; it is taken.
fn sign<'a>(words: &mut Words<'a>, one: &str, other: &str) -> Option<&'a str> {
    let next = words.as_slice().first().copied();
    next.filter(|word| [one, other].contains(word)).and_then(|_| words.next())
}

fn sum(words: &mut Words, known: &Numbers) -> Option<usize> {
    let mut total = product(words, known)?;
    while let Some(found) = sign(words, "+", "-") {
        let next = product(words, known)?;
        total = if found == "+" { total + next } else { total - next };
    }
    Some(total)
}

fn product(words: &mut Words, known: &Numbers) -> Option<usize> {
    let mut total = single(words, known)?;
    while let Some(found) = sign(words, "*", "/") {
        let next = single(words, known)?;
        total = if found == "*" { total * next } else { total / next };
    }
    Some(total)
}

fn single(words: &mut Words, known: &Numbers) -> Option<usize> {
    let word = words.next()?;
    if word != "(" {
        return word.parse().ok().or_else(|| known.get(word).copied());
    }
    let number = sum(words, known)?;
    words.next().filter(|end| *end == ")").map(|_| number)
}

/// `CodeTooShort` as C spells it: `CODE_TOO_SHORT`.
fn in_c(variant: impl Debug) -> String {
    let mut name = String::new();
    for letter in format!("{variant:?}").chars() {
        if letter.is_uppercase() && !name.is_empty() {
            name.push('_');
        }
        name.push(letter.to_ascii_uppercase());
    }
    name
}

#[test]
fn expressions_are_reckoned() {
    let known = Numbers::from([("two".to_string(), 2)]);
    assert_eq!(reckoned("8 * two + 1", &known), Some(17));
    assert_eq!(reckoned("(7 + 4 - 1) / 4 * 4", &known), Some(8));
    for bad in ["", "three", "1 +", "(1", "1 2", "λ r. r"] {
        assert_eq!(reckoned(bad, &known), None, "{bad}");
    }
}

#[test]
fn the_header_has_the_same_numbers() {
    let header = numbers(HEADER);
    let says = |name: &str, number: usize| {
        assert_eq!(header.get(&format!("NDAKOLEEM_{name}")), Some(&number), "{name}");
    };
    says("SLOTS_MAX", SLOTS_MAX);
    says("PROGRAM_MAX", PROGRAM_MAX);
    says("CODE_MIN", CODE_MIN);
    says("CODE_MAX", CODE_MAX);
    says("SLOT_CODE_MAX", SLOT_CODE_MAX);
    says("FRAME_CODE_MAX", FRAME_CODE_MAX);
    says("CODE_LONGEST", CODE_LONGEST);
    says("CODE_ENOUGH", CODE_ENOUGH);
    says("TABLE_ENOUGH", TABLE_ENOUGH);
    says("MAP_LINE_MAX", MAP_LINE_MAX);
    says("MAP_ENOUGH", MAP_ENOUGH);
    says("HELPERS_MAX", HELPERS_MAX);
    says("EXIT_TARGET", EXIT_TARGET as usize);
    says("PACKET_MAX", PACKET_MAX);
    says("STEPS_MAX", STEPS_MAX);
    says("SENTENCE_ENOUGH", SENTENCE_ENOUGH);
    says("ACCEPTED", 0);
    for number in 1..=19 {
        says(&in_c(Reason::of(number).expect("a reason")), number as usize);
    }
    for number in 1..=3 {
        let kind = in_c(JumpKind::of(number).expect("a kind"));
        says(&format!("JUMP_{kind}"), number as usize);
    }
    for (end, ended) in ENDS {
        says(&format!("ENDED_{end}"), ended.number() as usize);
    }
    // No number of the header is left out above.
    let named = header.keys().filter(|name| name.starts_with("NDAKOLEEM_"));
    assert_eq!(named.count(), 16 + 20 + 3 + 4);
}

#[test]
fn the_definitions_have_the_same_numbers() {
    let limits = definitions(&["code", "jit"]);
    for (name, number) in [
        ("most_slots", SLOTS_MAX),
        ("longest_program", PROGRAM_MAX),
        ("shortest_page", CODE_MIN),
        ("longest_page", CODE_MAX),
        ("long_slot", SLOT_CODE_MAX),
        ("longest_frame", FRAME_CODE_MAX),
        ("longest_code", CODE_LONGEST),
        ("most_helpers", HELPERS_MAX),
        ("anchor", EXIT_TARGET as usize),
        ("conditional", JumpKind::Conditional as usize),
        ("plain_jump", JumpKind::Plain as usize),
        ("local_call", JumpKind::LocalCall as usize),
    ] {
        assert_eq!(limits.get(name), Some(&number), "{name}");
    }
    assert_eq!(definitions(&["refusals_text"]).get("sentence_enough"), Some(&SENTENCE_ENOUGH));
}

#[test]
fn the_definitions_of_maps_have_the_same_numbers() {
    let mapping = definitions(&["jit_mapping"]);
    for (name, number) in [
        ("longest_line", MAP_LINE_MAX),
        ("number_of BaseTooHigh", Reason::BaseTooHigh as usize),
        ("number_of TextTooShort", Reason::TextTooShort as usize),
    ] {
        assert_eq!(mapping.get(name), Some(&number), "{name}");
    }
}

#[test]
fn the_definitions_of_runs_have_the_same_numbers() {
    let replay = definitions(&["pcap", "replay", "ndakoleem_replay"]);
    for (name, number) in [
        ("longest_packet", PACKET_MAX),
        ("step_limit", STEPS_MAX),
        ("number_of NotPcap", Reason::NotPcap as usize),
        ("number_of BadRecord", Reason::BadRecord as usize),
        ("number_of (NotModelled s)", Reason::NotModelled as usize),
        ("ended_of (Exit r0)", Ended::Exit(0).number() as usize),
        ("ended_of StepLimit", Ended::StepLimit.number() as usize),
        ("ended_of Access", Ended::Access.number() as usize),
        ("ended_of NoSlot", Ended::NoSlot.number() as usize),
    ] {
        assert_eq!(replay.get(name), Some(&number), "{name}");
    }
}

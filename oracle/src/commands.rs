//! The commands: streams in, streams or words out.
//!
//! Each gives the exit status that goes with what it found, or the sentence
//! that says why it could not go on; `main` prints that sentence. Answers
//! given before a malformed case stand.

use std::fs::File;
use std::io::{self, BufReader, BufWriter, Read, Write};

use crate::judge::Judge;
use crate::stream::{self, Answer, Case, Records, Translation};
use crate::{compact, corpus as list, generate, standard};

type Status = Result<u8, String>;

fn input() -> impl Read {
    BufReader::with_capacity(1 << 16, io::stdin().lock())
}

fn output() -> impl Write {
    BufWriter::with_capacity(1 << 16, io::stdout().lock())
}

fn unwritten(error: io::Error) -> String {
    format!("cannot write standard output: {error}")
}

pub fn say(text: &str) -> Status {
    let mut out = output();
    out.write_all(text.as_bytes()).and_then(|()| out.flush()).map_err(unwritten)?;
    Ok(0)
}

/// Puts every case of standard input to the judge. What was written before a
/// failure is flushed ahead of its sentence.
fn each_case(
    mut tell: impl FnMut(&mut dyn Write, u64, &Case, &Answer) -> io::Result<()>,
) -> Status {
    let mut out = output();
    let mut judge = Judge::new();
    let mut cases = stream::case_records(input());
    let mut go = || -> Result<(), String> {
        let mut at = 0;
        while let Some(case) = cases.next_case()? {
            let answer = judge.answer(&case).map_err(|why| format!("case {at}: {why}"))?;
            tell(&mut out, at, &case, &answer).map_err(unwritten)?;
            at += 1;
        }
        Ok(())
    };
    let outcome = go();
    out.flush().map_err(unwritten)?;
    outcome.map(|()| 0)
}

pub fn answers() -> Status {
    each_case(|mut out, _, _, answer| stream::write_answer(&mut out, answer))
}

fn hex(bytes: &[u8]) -> String {
    let digits = bytes.iter().map(|byte| format!("{byte:02x}"));
    digits.collect::<Vec<_>>().join(" ")
}

/// Program bytes, eight to a group.
fn hex_slots(program: &[u8]) -> String {
    let slots = program.chunks(8).map(hex);
    slots.collect::<Vec<_>>().join(" | ")
}

/// A listed jump; with its kind and maker where the case asks for them.
fn jump_in_words(page: &Translation, at: usize) -> String {
    let jump = format!("{} to {}", page.fields[at], page.targets[at]);
    match &page.further {
        Some(further) => {
            format!("{jump} (kind {}, maker {})", further.kinds[at], further.makers[at])
        }
        None => jump,
    }
}

pub fn show() -> Status {
    each_case(|out, at, case, answer| {
        writeln!(
            out,
            "case {at}: use_mbuff {}, update_data_ptr {}, standard {}, compact {}, page {}, \
            tables {:?}",
            case.use_mbuff,
            case.update_data_ptr,
            case.standard,
            case.compact,
            case.code_len,
            case.given_lens()
        )?;
        if !case.helper_ids.is_empty() || !case.helper_addresses.is_empty() {
            writeln!(out, "  helpers {:x?} at {:x?}", case.helper_ids, case.helper_addresses)?;
        }
        writeln!(out, "  program, {} bytes: {}", case.program.len(), hex_slots(&case.program))?;
        writeln!(out, "  {answer}")?;
        if let Answer::Accepted(page) = answer {
            writeln!(out, "  locations {:?}", page.locations)?;
            let jumps = (0..page.fields.len()).map(|at| jump_in_words(page, at));
            writeln!(out, "  jump fields {}", jumps.collect::<Vec<_>>().join(", "))?;
            writeln!(out, "  code {}", hex(&page.code))?;
        }
        Ok(())
    })
}

fn number(word: &str, what: &str) -> Result<u64, String> {
    let parsed = word.parse();
    parsed.map_err(|_| format!("{what} is to be a number from 0 to {}, not {word:?}", u64::MAX))
}

pub fn cases(seed: &str, count: &str) -> Status {
    let (seed, count) = (number(seed, "SEED")?, number(count, "COUNT")?);
    let mut out = output();
    let mut generator = generate::Generator::new()?;
    for at in 0..count {
        let case = generator.case(seed, at)?;
        stream::write_case(&mut out, &case).map_err(unwritten)?;
    }
    out.flush().map_err(unwritten)?;
    Ok(0)
}

pub fn corpus() -> Status {
    let mut out = output();
    for case in list::cases()? {
        stream::write_case(&mut out, &case).map_err(unwritten)?;
    }
    out.flush().map_err(unwritten)?;
    Ok(0)
}

pub fn count() -> Status {
    let mut counts = [0u64; 256];
    let mut answers = stream::answer_records(input());
    while let Some(answer) = answers.next_answer()? {
        match answer {
            Answer::Accepted(_) => counts[0] += 1,
            Answer::Refused { number, .. } => counts[number as usize] += 1,
        }
    }
    let mut table = format!("accepted   {:>10}\n", counts[0]);
    for (number, count) in counts.iter().enumerate().skip(1) {
        if number <= 14 || *count > 0 {
            table += &format!("refused {number:>2} {count:>10}\n");
        }
    }
    table += &format!("all        {:>10}\n", counts.iter().sum::<u64>());
    say(&table)
}

pub fn modes() -> Status {
    const NAMES: [&str; 5] = ["standard", "changed", "compact", "shortened", "both"];
    let mut counts = [0u64; NAMES.len()];
    let mut cases = stream::case_records(input());
    while let Some(case) = cases.next_case()? {
        let counted = [
            case.standard,
            case.standard && standard::changes(&case.program),
            case.compact,
            case.compact && compact::changes(&case),
            case.standard && case.compact,
        ];
        for (count, counted) in counts.iter_mut().zip(counted) {
            *count += counted as u64;
        }
    }
    let lines = NAMES.iter().zip(counts).map(|(name, count)| format!("{name:<10} {count:>10}\n"));
    say(&lines.collect::<String>())
}

fn open(name: &str) -> Result<Records<impl Read>, String> {
    let file = File::open(name).map_err(|error| format!("cannot open {name}: {error}"))?;
    Ok(stream::answer_records(BufReader::with_capacity(1 << 16, file)))
}

/// Two answers that differ, in words.
fn difference(a: &Option<Answer>, b: &Option<Answer>) -> String {
    let words = |answer: &Option<Answer>| {
        answer.as_ref().map_or("no answer".to_string(), Answer::to_string)
    };
    let said = format!("{}, and {}", words(a), words(b));
    match (a, b) {
        (Some(Answer::Accepted(a)), Some(Answer::Accepted(b))) => said + &page_difference(a, b),
        _ => said,
    }
}

/// The parts in which two accepted answers differ.
fn page_difference(a: &Translation, b: &Translation) -> String {
    let mut said = String::new();
    if let Some(at) = (0..a.code.len()).find(|at| a.code.get(*at) != b.code.get(*at)) {
        said += &format!("; the code from byte {at}");
    }
    if a.locations != b.locations {
        said += "; the locations";
    }
    if (&a.fields, &a.targets) != (&b.fields, &b.targets) {
        said += "; the jumps";
    }
    match (&a.further, &b.further) {
        (Some(a), Some(b)) => {
            if a.kinds != b.kinds {
                said += "; the kinds";
            }
            if a.makers != b.makers {
                said += "; the makers";
            }
        }
        (None, None) => {}
        _ => said += "; one alone has kinds and makers",
    }
    said
}

pub fn diff(one: &str, other: &str) -> Status {
    let mut left = open(one)?;
    let mut right = open(other)?;
    let (mut all, mut differing, mut first) = (0u64, 0u64, None);
    loop {
        let a = left.next_answer().map_err(|why| format!("{one}: {why}"))?;
        let b = right.next_answer().map_err(|why| format!("{other}: {why}"))?;
        if a.is_none() && b.is_none() {
            break;
        }
        if a != b {
            differing += 1;
            first.get_or_insert_with(|| format!("first at case {all}: {}\n", difference(&a, &b)));
        }
        all += 1;
    }
    say(&format!("{all} cases, {differing} differ\n{}", first.unwrap_or_default()))?;
    Ok((differing > 0) as u8)
}

#[cfg(test)]
mod tests {
    use super::*;
    use crate::slots::{five_tables, plain_case};
    use crate::stream::Further;

    fn exit_page(with_five: bool) -> Translation {
        let case = plain_case(&[0x95, 0, 0, 0, 0, 0, 0, 0]);
        let case = if with_five { five_tables(case) } else { case };
        match Judge::new().answer(&case) {
            Ok(Answer::Accepted(page)) => page,
            other => panic!("{other:?}"),
        }
    }

    fn said_of(change: impl FnOnce(&mut Translation)) -> String {
        let one = exit_page(true);
        let mut other = one.clone();
        change(&mut other);
        page_difference(&one, &other)
    }

    fn further(page: &mut Translation) -> &mut Further {
        page.further.as_mut().expect("five tables are asked for")
    }

    #[test]
    fn a_difference_is_told_by_its_part() {
        assert_eq!(said_of(|_| ()), "");
        assert_eq!(said_of(|page| page.code[7] += 1), "; the code from byte 7");
        assert_eq!(said_of(|page| page.locations[1] = 1), "; the locations");
        assert_eq!(said_of(|page| page.targets[0] = 1), "; the jumps");
        assert_eq!(said_of(|page| further(page).kinds[0] = 1), "; the kinds");
        assert_eq!(said_of(|page| further(page).makers[0] = 0), "; the makers");
        assert_eq!(said_of(|page| page.further = None), "; one alone has kinds and makers");
    }

    #[test]
    fn a_jump_is_shown_with_what_was_asked_for() {
        assert_eq!(jump_in_words(&exit_page(false), 0), "30 to 1000001");
        assert_eq!(jump_in_words(&exit_page(true), 0), "30 to 1000001 (kind 2, maker 1)");
    }
}

//! A map, read from its text as perf's `jit-interface.txt` has it, with what is
//! promised besides: no leading zeros, lower case, one space. What a map should
//! be is told by the table of locations and the code's length.

/// Bytes of the epilogue, which ends every code.
const EPILOGUE: usize = 16;

#[derive(Debug, PartialEq)]
pub struct Line {
    start: u64,
    size: u64,
    name: String,
}

fn hex(word: &str) -> u64 {
    let lower = word.bytes().all(|digit| matches!(digit, b'0'..=b'9' | b'a'..=b'f'));
    assert!(lower && (word == "0" || !word.starts_with('0')), "'{word}' is no number");
    u64::from_str_radix(word, 16).expect("a number")
}

/// The lines of a text, all of it.
pub fn lines(text: &[u8]) -> Vec<Line> {
    let text = std::str::from_utf8(text).expect("a text");
    let whole = text.strip_suffix('\n').expect("a last line that is ended");
    let read = |line: &str| {
        let words: Vec<_> = line.split(' ').collect();
        let [start, size, name] = words[..] else { panic!("'{line}' is no line") };
        Line { start: hex(start), size: hex(size), name: name.to_string() }
    };
    whole.split('\n').map(read).collect()
}

/// That the lines follow each other from the base to the code's end.
pub fn assert_covered(lines: &[Line], base: u64, length: usize) {
    let mut at = base;
    for line in lines {
        assert!(line.start == at && line.size > 0, "{line:?} should start at {at:x}");
        at += line.size;
    }
    assert_eq!(at, base + length as u64);
}

/// The lines that the locations of a program's slots ask for. Nothing but the
/// prologue is at 0, so a slot with that location is a wide load's second.
pub fn wanted(base: u64, locations: &[u32], length: usize) -> Vec<Line> {
    let slots = locations.iter().enumerate().filter(|(_, location)| **location != 0);
    let mut pieces = vec![(0, "prologue".to_string())];
    pieces.extend(slots.map(|(slot, location)| (*location as usize, format!("slot_{slot}"))));
    pieces.push((length - EPILOGUE, "epilogue".to_string()));
    let ends: Vec<_> = pieces[1..].iter().map(|(start, _)| *start).chain([length]).collect();
    let lines = pieces.into_iter().zip(ends).filter(|((start, _), end)| end > start);
    lines
        .map(|((start, name), end)| Line {
            start: base + start as u64,
            size: (end - start) as u64,
            name,
        })
        .collect()
}

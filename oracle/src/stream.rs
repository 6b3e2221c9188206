//! The case and answer streams of docs/CASES.md: one binary format in which any
//! implementation of the translator can be asked, and its answers compared.
//!
//! Little-endian, no header, no padding. Every case and every answer begins
//! with the length of its rest in four bytes, so a stream is read record by
//! record, however long it is.

use std::fmt;
use std::io::{self, Read, Write};

/// The longest program and helper list that a case may hold.
pub const PROGRAM_LIMIT: usize = 32_768;
pub const HELPER_LIMIT: usize = 512;
const CASE_LIMIT: usize =
    1 + 4 + 4 * 5 + (4 + 4 * HELPER_LIMIT) + (4 + 8 * HELPER_LIMIT) + (4 + PROGRAM_LIMIT);
/// No answer comes near this; a longer one means that the stream is no stream
/// of answers.
const ANSWER_LIMIT: usize = 1 << 20;

/// The flags of a case.
const USE_MBUFF: u8 = 1 << 0;
const UPDATE_DATA_PTR: u8 = 1 << 1;
const STANDARD: u8 = 1 << 2;
const COMPACT: u8 = 1 << 3;
/// The lengths of the tables of kinds and makers are given, and the answer is
/// to show what these hold.
const FIVE_TABLES: u8 = 1 << 7;

/// What the translator is given. Tables are given by their lengths alone.
#[derive(Clone, Debug, PartialEq)]
pub struct Case {
    pub use_mbuff: bool,
    pub update_data_ptr: bool,
    /// Standard mode: the code follows RFC 9669 where rbpf's does not.
    pub standard: bool,
    /// Compact mode: constants below 2^32 are loaded with fewer bytes.
    pub compact: bool,
    pub code_len: u32,
    /// Entries of the locations, jump field and jump target tables.
    pub table_lens: [u32; 3],
    /// Entries of the jump kind and jump maker tables, in a case with five
    /// tables. In any other they have n+1, and the answer is silent about them.
    pub further_lens: Option<[u32; 2]>,
    pub helper_ids: Vec<u32>,
    pub helper_addresses: Vec<u64>,
    pub program: Vec<u8>,
}

/// What the translator answers.
#[derive(Clone, Debug, PartialEq)]
pub enum Answer {
    Refused { number: u8, slot: u32 },
    Accepted(Translation),
}

/// What an accepted case leaves in the lent page and tables.
#[derive(Clone, Debug, PartialEq)]
pub struct Translation {
    pub code: Vec<u8>,
    pub locations: Vec<u32>,
    pub fields: Vec<u32>,
    pub targets: Vec<u32>,
    /// In the answer to a case with five tables.
    pub further: Option<Further>,
}

/// What kind of jump each listed one is, and the slot that made it.
#[derive(Clone, Debug, PartialEq)]
pub struct Further {
    pub kinds: Vec<u32>,
    pub makers: Vec<u32>,
}

impl Case {
    /// The lengths of the tables, as far as the case gives them.
    pub fn given_lens(&self) -> Vec<u32> {
        let further = self.further_lens.iter().flatten();
        self.table_lens.iter().chain(further).copied().collect()
    }

    /// n: the program's length divided by 8, rounded down.
    pub fn slots(&self) -> usize {
        self.program.len() / 8
    }
}

/// The outcome in a few words.
impl fmt::Display for Answer {
    fn fmt(&self, f: &mut fmt::Formatter) -> fmt::Result {
        match self {
            Answer::Refused { number, slot } => write!(f, "refused {number} {slot}"),
            Answer::Accepted(page) => {
                write!(f, "accepted L {} J {}", page.code.len(), page.fields.len())
            }
        }
    }
}

// ---- writing ---------------------------------------------------------------

fn put_u32s(to: &mut Vec<u8>, numbers: &[u32]) {
    to.extend(numbers.iter().flat_map(|number| number.to_le_bytes()));
}

fn put_record(to: &mut impl Write, rest: &[u8]) -> io::Result<()> {
    to.write_all(&(rest.len() as u32).to_le_bytes())?;
    to.write_all(rest)
}

fn flags_of(case: &Case) -> u8 {
    let flag = |bit, set| if set { bit } else { 0 };
    flag(USE_MBUFF, case.use_mbuff)
        | flag(UPDATE_DATA_PTR, case.update_data_ptr)
        | flag(STANDARD, case.standard)
        | flag(COMPACT, case.compact)
        | flag(FIVE_TABLES, case.further_lens.is_some())
}

pub fn write_case(to: &mut impl Write, case: &Case) -> io::Result<()> {
    let mut rest = vec![flags_of(case)];
    put_u32s(&mut rest, &[case.code_len]);
    put_u32s(&mut rest, &case.given_lens());
    put_u32s(&mut rest, &[case.helper_ids.len() as u32]);
    put_u32s(&mut rest, &case.helper_ids);
    put_u32s(&mut rest, &[case.helper_addresses.len() as u32]);
    rest.extend(case.helper_addresses.iter().flat_map(|address| address.to_le_bytes()));
    put_u32s(&mut rest, &[case.program.len() as u32]);
    rest.extend_from_slice(&case.program);
    put_record(to, &rest)
}

pub fn write_answer(to: &mut impl Write, answer: &Answer) -> io::Result<()> {
    let mut rest = Vec::new();
    match answer {
        Answer::Refused { number, slot } => {
            rest.push(*number);
            put_u32s(&mut rest, &[*slot]);
        }
        Answer::Accepted(page) => {
            rest.push(0);
            let lens = [page.code.len(), page.fields.len(), page.locations.len()];
            put_u32s(&mut rest, &lens.map(|len| len as u32));
            rest.extend_from_slice(&page.code);
            put_u32s(&mut rest, &page.locations);
            put_u32s(&mut rest, &page.fields);
            put_u32s(&mut rest, &page.targets);
            if let Some(further) = &page.further {
                put_u32s(&mut rest, &further.kinds);
                put_u32s(&mut rest, &further.makers);
            }
        }
    }
    put_record(to, &rest)
}

// ---- reading ---------------------------------------------------------------

/// The records of a stream, one at a time.
pub struct Records<R> {
    input: R,
    /// "case" or "answer", for the sentences.
    what: &'static str,
    limit: usize,
    begun: u64,
    rest: Vec<u8>,
}

pub fn case_records<R: Read>(input: R) -> Records<R> {
    Records { input, what: "case", limit: CASE_LIMIT, begun: 0, rest: Vec::new() }
}

pub fn answer_records<R: Read>(input: R) -> Records<R> {
    Records { input, what: "answer", limit: ANSWER_LIMIT, begun: 0, rest: Vec::new() }
}

impl<R: Read> Records<R> {
    /// The next record's bytes, or none where the stream ends between two.
    fn next_rest(&mut self) -> Result<Option<&[u8]>, String> {
        let mut len = [0; 4];
        match self.fill(&mut len)? {
            0 => return Ok(None),
            4 => self.begun += 1,
            _ => return Err(self.ends_inside(1)),
        }
        let len = u32::from_le_bytes(len) as usize;
        if len > self.limit {
            return Err(self.malformed("it is longer than the format allows"));
        }
        let mut rest = std::mem::take(&mut self.rest);
        rest.resize(len, 0);
        if self.fill(&mut rest)? < len {
            return Err(self.ends_inside(0));
        }
        self.rest = rest;
        Ok(Some(&self.rest))
    }

    /// Reads until `bytes` is full or the stream ends; tells how many came.
    fn fill(&mut self, bytes: &mut [u8]) -> Result<usize, String> {
        let mut got = 0;
        while got < bytes.len() {
            match self.input.read(&mut bytes[got..]) {
                Ok(0) => break,
                Ok(more) => got += more,
                Err(error) if error.kind() == io::ErrorKind::Interrupted => {}
                Err(error) => return Err(format!("cannot read the {}s: {error}", self.what)),
            }
        }
        Ok(got)
    }

    /// Records are counted from 0, as `diff` and `show` count them.
    fn malformed(&self, why: &str) -> String {
        format!("{} {} is malformed: {why}", self.what, self.begun - 1)
    }

    fn ends_inside(&self, ahead: u64) -> String {
        let at = self.begun + ahead - 1;
        format!("{} {at} is malformed: the stream ends inside it", self.what)
    }

    pub fn next_case(&mut self) -> Result<Option<Case>, String> {
        let Some(rest) = self.next_rest()? else { return Ok(None) };
        match parse_case(rest) {
            Ok(case) => Ok(Some(case)),
            Err(why) => Err(self.malformed(why)),
        }
    }

    pub fn next_answer(&mut self) -> Result<Option<Answer>, String> {
        let Some(rest) = self.next_rest()? else { return Ok(None) };
        match parse_answer(rest) {
            Ok(answer) => Ok(Some(answer)),
            Err(why) => Err(self.malformed(why)),
        }
    }
}

const NOT_FILLED: &str = "its parts do not fill its length";

/// Takes parts off the front of a record.
struct Parts<'a>(&'a [u8]);

impl<'a> Parts<'a> {
    fn bytes(&mut self, count: usize) -> Result<&'a [u8], &'static str> {
        if count > self.0.len() {
            return Err(NOT_FILLED);
        }
        let (part, rest) = self.0.split_at(count);
        self.0 = rest;
        Ok(part)
    }

    fn u32(&mut self) -> Result<u32, &'static str> {
        let part = self.bytes(4)?;
        Ok(u32::from_le_bytes([part[0], part[1], part[2], part[3]]))
    }

    fn u32s(&mut self, count: usize) -> Result<Vec<u32>, &'static str> {
        (0..count).map(|_| self.u32()).collect()
    }

    fn u64(&mut self) -> Result<u64, &'static str> {
        Ok(self.u32()? as u64 | (self.u32()? as u64) << 32)
    }

    /// A count that the format bounds.
    fn count(&mut self, limit: usize, too_many: &'static str) -> Result<usize, &'static str> {
        match self.u32()? as usize {
            count if count > limit => Err(too_many),
            count => Ok(count),
        }
    }

    fn done<T>(self, value: T) -> Result<T, &'static str> {
        if self.0.is_empty() {
            Ok(value)
        } else {
            Err(NOT_FILLED)
        }
    }
}

fn parse_case(rest: &[u8]) -> Result<Case, &'static str> {
    let mut parts = Parts(rest);
    let flags = parts.bytes(1)?[0];
    if flags & !(USE_MBUFF | UPDATE_DATA_PTR | STANDARD | COMPACT | FIVE_TABLES) != 0 {
        return Err("it has a flag other than bits 0, 1, 2, 3 and 7");
    }
    let code_len = parts.u32()?;
    let table_lens = [parts.u32()?, parts.u32()?, parts.u32()?];
    let further_lens = match flags & FIVE_TABLES {
        0 => None,
        _ => Some([parts.u32()?, parts.u32()?]),
    };
    let ids = parts.count(HELPER_LIMIT, "it has more than 512 helper ids")?;
    let helper_ids = parts.u32s(ids)?;
    let addresses = parts.count(HELPER_LIMIT, "it has more than 512 helper addresses")?;
    let helper_addresses = (0..addresses).map(|_| parts.u64()).collect::<Result<_, _>>()?;
    let len = parts.count(PROGRAM_LIMIT, "its program is longer than 32768 bytes")?;
    let program = parts.bytes(len)?.to_vec();
    parts.done(Case {
        use_mbuff: flags & USE_MBUFF != 0,
        update_data_ptr: flags & UPDATE_DATA_PTR != 0,
        standard: flags & STANDARD != 0,
        compact: flags & COMPACT != 0,
        code_len,
        table_lens,
        further_lens,
        helper_ids,
        helper_addresses,
        program,
    })
}

fn parse_answer(rest: &[u8]) -> Result<Answer, &'static str> {
    let mut parts = Parts(rest);
    let number = parts.bytes(1)?[0];
    if number != 0 {
        let slot = parts.u32()?;
        return parts.done(Answer::Refused { number, slot });
    }
    let [code, jumps, locations] = [parts.u32()?, parts.u32()?, parts.u32()?];
    let page = Translation {
        code: parts.bytes(code as usize)?.to_vec(),
        locations: parts.u32s(locations as usize)?,
        fields: parts.u32s(jumps as usize)?,
        targets: parts.u32s(jumps as usize)?,
        further: parse_further(&mut parts, jumps as usize)?,
    };
    parts.done(Answer::Accepted(page))
}

/// An answer does not say how many tables its case has. Its length does: no
/// page is without a jump, so that the kinds have bytes wherever they stand.
fn parse_further(parts: &mut Parts, jumps: usize) -> Result<Option<Further>, &'static str> {
    if parts.0.is_empty() {
        return Ok(None);
    }
    Ok(Some(Further { kinds: parts.u32s(jumps)?, makers: parts.u32s(jumps)? }))
}

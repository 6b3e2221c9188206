//! Random cases. Most are small; about half are accepted; every refusal number
//! has its share, alone and with others behind it, so that the order of the
//! refusals is asked about too.
//!
//! Case number `at` of a seed depends on these two numbers and on its form
//! alone.

use crate::ebpf;
use crate::judge::Judge;
use crate::program::{self, Fault, Setting, FAULTS};
use crate::random::Random;
use crate::sizes::{
    CODE_MAX, CODE_MIN, EPILOGUE, HELPERS_MAX, PROGRAM_MAX, SLOTS_MAX, TABLE_AMPLE, TABLE_ENOUGH,
};
use crate::slots::{self, Opcodes};
use crate::stream::{Answer, Case, Translation, HELPER_LIMIT};

/// Jumps of a program that is to be trimmed stay below this slot.
const TRIMMED_REACH: usize = 40;

/// Sets a seed apart from itself: the two further tables are drawn from numbers
/// of their own, so that the rest of a case is the same with and without them.
const FURTHER: u64 = 0x6b69_6e64_6d61_6b65;

pub struct Generator {
    judge: Judge,
    opcodes: Opcodes,
}

/// What is settled of a case before anything is drawn.
#[derive(Clone, Copy, Default)]
pub struct Form {
    pub five_tables: bool,
    pub standard: bool,
    pub compact: bool,
}

impl Form {
    /// Every second case has five tables, every third is in standard mode, and
    /// six of every twelve are in compact mode, whatever else they are.
    pub fn of(at: u64) -> Form {
        Form { five_tables: at % 2 == 1, standard: at % 3 == 2, compact: at % 12 >= 6 }
    }
}

impl Generator {
    pub fn new() -> Result<Generator, String> {
        let mut judge = Judge::new();
        let opcodes = Opcodes::ask(&mut judge)?;
        Ok(Generator { judge, opcodes })
    }

    pub fn case(&mut self, seed: u64, at: u64) -> Result<Case, String> {
        self.formed(Form::of(at), seed, at)
    }

    pub fn formed(&mut self, form: Form, seed: u64, at: u64) -> Result<Case, String> {
        let Generator { judge, opcodes } = self;
        let random = &mut Random::new(seed, at);
        let case = Maker { judge, opcodes, form }.case(random)?;
        if !form.five_tables {
            return Ok(case);
        }
        let random = &mut Random::new(seed ^ FURTHER, at);
        Ok(Case { further_lens: Some(further_lens(random, case.slots() as u32)), ..case })
    }
}

/// Makes a case of three tables.
struct Maker<'a> {
    judge: &'a mut Judge,
    opcodes: &'a Opcodes,
    form: Form,
}

impl Maker<'_> {
    fn case(&mut self, random: &mut Random) -> Result<Case, String> {
        Ok(match random.below(1_000) {
            0..=509 => self.small(random, 0),
            510..=759 => self.small(random, 1),
            760..=799 => self.small(random, 2),
            800..=849 => self.wild(random),
            850..=939 => self.misframed(random),
            940..=966 => self.page_cut_to_code(random)?,
            967..=991 => self.code_trimmed_to_page(random)?,
            992..=996 => self.long(random),
            _ => self.many_helpers(random),
        })
    }

    /// A program of a few slots with so many faults.
    fn small(&self, random: &mut Random, faults: usize) -> Case {
        let n = match random.below(20) {
            0 => 0,
            1..=5 => 1,
            6..=11 => 2 + random.below(3),
            12..=17 => 5 + random.below(12),
            _ => 17 + random.below(48),
        };
        let (ids, addresses) = few_helpers(random);
        let program = self.program(random, &ids, n, faults);
        self.framed(random, program, ids, addresses)
    }

    fn program(&self, random: &mut Random, ids: &[u32], n: usize, faults: usize) -> Vec<u8> {
        let setting = self.setting(ids, n, random.one_in(8));
        let mut program = program::good(random, &setting, n);
        for _ in 0..faults {
            let fault = random.pick(&FAULTS);
            program::spoil(random, &setting, &mut program, fault);
        }
        program
    }

    fn wild(&self, random: &mut Random) -> Case {
        let (ids, addresses) = few_helpers(random);
        let n = 1 + random.below(6);
        let program = program::wild(random, self.opcodes, n);
        self.framed(random, program, ids, addresses)
    }

    /// One of refusals 1 to 5 has its cause, sometimes several have.
    fn misframed(&self, random: &mut Random) -> Case {
        let faults = random.below(2);
        let mut case = self.small(random, faults);
        loop {
            match random.below(16) {
                0..=3 => {
                    case.code_len = random.pick(&[0, 1, CODE_MIN / 2, CODE_MIN - 2, CODE_MIN - 1])
                }
                4..=7 => {
                    case.code_len = random.pick(&[CODE_MAX + 1, CODE_MAX + 2, 1 << 20, u32::MAX])
                }
                8 => overlong(random, &mut case),
                9..=11 => {
                    let n = case.slots() as u32;
                    shorten(random, &mut case.table_lens, n)
                }
                _ => bad_helpers(random, &mut case),
            }
            if !random.one_in(4) {
                return case;
            }
        }
    }

    /// A long program and a page that ends near the end of its code, or near
    /// the end of some slot's code.
    fn page_cut_to_code(&mut self, random: &mut Random) -> Result<Case, String> {
        let fat = !random.one_in(3);
        let n = if fat { 120 + random.below(60) } else { 420 + random.below(160) };
        let n = self.for_a_page(n);
        let (case, page) = self.translated(random, n, n, fat)?;
        let Some(page) = page else { return Ok(case) };
        let end = if self.form.compact && random.one_in(3) {
            let len = page.code.len() as i64;
            // Not long enough without compact mode.
            random.between(len, self.len_without_compact_mode(&case)?.max(len))
        } else if random.one_in(2) {
            page.code.len() as i64 + random.between(-3, 3)
        } else {
            random.pick(&page.locations) as i64 + random.between(-45, 45)
        };
        let code_len = end.max(CODE_MIN as i64) as u32;
        Ok(self.sometimes_spoiled(random, Case { code_len, ..case }))
    }

    /// So many slots, or as many as have about as much code in compact mode,
    /// where loads are many and short.
    fn for_a_page(&self, n: usize) -> usize {
        if self.form.compact {
            n * 3 / 2
        } else {
            n
        }
    }

    fn len_without_compact_mode(&mut self, case: &Case) -> Result<i64, String> {
        match self.judge.answer(&Case { compact: false, ..case.clone() })? {
            Answer::Accepted(page) => Ok(page.code.len() as i64),
            Answer::Refused { .. } => Err("compact mode accepts what is refused".to_string()),
        }
    }

    /// A program whose code is made to end near the end of the smallest page.
    fn code_trimmed_to_page(&mut self, random: &mut Random) -> Result<Case, String> {
        let fat = !random.one_in(4);
        let n = self.for_a_page(if fat { 230 } else { 700 });
        let (case, page) = self.translated(random, n, TRIMMED_REACH, fat)?;
        let Some(page) = page else { return Ok(case) };
        let nearly = random.between(-3, 3);
        let spread = random.between(-60, 45);
        let body = CODE_MIN as i64 - EPILOGUE as i64 + random.pick(&[nearly, nearly, spread]);
        let fits = |location: &u32| *location > 0 && *location as i64 <= body;
        let kept = page.locations.iter().rposition(fits).unwrap_or(0);
        let missing = body - page.locations[kept] as i64;
        let mut program = case.program[..kept * 8].to_vec();
        for _ in 0..missing.min(100) {
            program.extend(slots::slot(ebpf::EXIT, 0, 0, 0, 0));
        }
        let case = Case { code_len: CODE_MIN, table_lens: [TABLE_AMPLE; 3], program, ..case };
        Ok(self.sometimes_spoiled(random, case))
    }

    /// A good program in the largest page, with its translation.
    fn translated(
        &mut self,
        random: &mut Random,
        n: usize,
        reach: usize,
        fat: bool,
    ) -> Result<(Case, Option<Translation>), String> {
        let (ids, addresses) = few_helpers(random);
        let program = program::good(random, &self.setting(&ids, reach, fat), n);
        let mut case = self.framed(random, program, ids, addresses);
        case.code_len = CODE_MAX;
        match self.judge.answer(&case)? {
            Answer::Accepted(page) => Ok((case, Some(page))),
            Answer::Refused { .. } => Ok((case, None)),
        }
    }

    /// What comes first where the page is too short and a slot is bad as well?
    fn sometimes_spoiled(&self, random: &mut Random, mut case: Case) -> Case {
        if random.one_in(5) {
            let setting = self.setting(&case.helper_ids, case.slots(), false);
            let fault =
                random.pick(&[Fault::Target, Fault::Target, Fault::Unknown, Fault::CutShort]);
            program::spoil(random, &setting, &mut case.program, fault);
        }
        case
    }

    /// A program near the limit, in a page near the size of its code (8 or 12
    /// bytes a slot) or the largest.
    fn long(&mut self, random: &mut Random) -> Case {
        let n = random.pick(&[SLOTS_MAX - 2, SLOTS_MAX - 1, SLOTS_MAX, SLOTS_MAX, SLOTS_MAX + 1]);
        let (ids, addresses) = few_helpers(random);
        let faults = random.below(2);
        let program = self.program(random, &ids, n, faults);
        let mut case = self.framed(random, program, ids, addresses);
        let most = SLOTS_MAX as u32;
        case.code_len = random.pick(&[8 * most, 12 * most, CODE_MAX - 1, CODE_MAX]);
        case
    }

    /// Helper lists at their limit, or just above it.
    fn many_helpers(&self, random: &mut Random) -> Case {
        let mut case = self.small(random, 0);
        let most = HELPERS_MAX as u32;
        let count = random.pick(&[most - 1, most, most, most + 1]);
        let first = random.number() as u32;
        case.helper_ids = (0..count).map(|at| first.wrapping_add(at * 3)).collect();
        case.helper_addresses = (0..count).map(|_| address(random)).collect();
        let faults = random.below(2);
        case.program = self.program(random, &case.helper_ids, 6, faults);
        case.table_lens = [8; 3];
        case
    }

    fn setting<'b>(&'b self, helper_ids: &'b [u32], reach: usize, fat: bool) -> Setting<'b> {
        let Form { standard, compact, .. } = self.form;
        Setting { opcodes: self.opcodes, helper_ids, reach, fat, standard, compact }
    }

    /// A program in a frame that has room for it.
    fn framed(
        &self,
        random: &mut Random,
        program: Vec<u8>,
        ids: Vec<u32>,
        addresses: Vec<u64>,
    ) -> Case {
        let entries = program.len() as u32 / 8 + 1;
        let flags = random.below(4);
        let code_len = match random.below(64) {
            0 => CODE_MAX,
            1 => CODE_MAX - 1,
            2..=7 => CODE_MIN + 1,
            8..=15 => random.between(CODE_MIN as i64, 2 * CODE_MIN as i64) as u32,
            _ => CODE_MIN,
        };
        Case {
            use_mbuff: flags & 1 != 0,
            update_data_ptr: flags & 2 != 0,
            standard: self.form.standard,
            compact: self.form.compact,
            code_len,
            table_lens: [0; 3].map(|_| entries + random.pick(&[0, 0, 0, 1, 2, 100])),
            further_lens: None,
            helper_ids: ids,
            helper_addresses: addresses,
            program,
        }
    }
}

fn address(random: &mut Random) -> u64 {
    match random.below(4) {
        0 => random.number(),
        _ => random.pick(&slots::CONSTANTS),
    }
}

/// Up to four helpers, ids all different.
fn few_helpers(random: &mut Random) -> (Vec<u32>, Vec<u64>) {
    let mut ids = Vec::new();
    for _ in 0..random.below(5) {
        let id = if random.one_in(3) { random.number() as u32 } else { random.pick(&slots::IDS) };
        if !ids.contains(&id) {
            ids.push(id);
        }
    }
    let addresses = ids.iter().map(|_| address(random)).collect();
    (ids, addresses)
}

/// Refusal 3, from its edge on; now and then one byte below it.
fn overlong(random: &mut Random, case: &mut Case) {
    let beyond = random.pick(&[-1, 0, 1, 2, 7, 8, 16, 3_616]);
    case.program.resize(PROGRAM_MAX.saturating_add_signed(beyond), 0);
    case.table_lens = [random.pick(&[TABLE_ENOUGH - 1, TABLE_ENOUGH, TABLE_AMPLE]); 3];
}

/// The lengths of the tables of kinds and makers: enough, now and then far more
/// than that, now and then too few.
fn further_lens(random: &mut Random, n: u32) -> [u32; 2] {
    let mut lens = [0; 2].map(|_| match random.below(16) {
        0 => random.pick(&[TABLE_AMPLE, TABLE_AMPLE + 1, 1 << 20, u32::MAX]),
        _ => n + 1 + random.pick(&[0, 0, 0, 1, 2, 100]),
    });
    if random.one_in(20) {
        shorten(random, &mut lens, n);
    }
    lens
}

/// Refusal 4: one table or several have fewer than n+1 entries.
fn shorten(random: &mut Random, lens: &mut [u32], n: u32) {
    let sets = 1 << lens.len();
    let which = 1 + random.below(sets - 1);
    for (at, len) in lens.iter_mut().enumerate() {
        if which >> at & 1 != 0 {
            *len = random.pick(&[n, n, n.saturating_sub(1), 0]);
        }
    }
}

/// Refusal 5: lengths that differ, too many, or an id twice.
fn bad_helpers(random: &mut Random, case: &mut Case) {
    match random.below(8) {
        0 | 1 => case.helper_addresses.push(address(random)),
        2 if !case.helper_ids.is_empty() => case.helper_addresses.clear(),
        2 | 3 => case.helper_ids.push(0x0bad_0bad),
        4 if random.one_in(4) => {
            let most = HELPERS_MAX as u32;
            let count = random.pick(&[most + 1, most + 2, HELPER_LIMIT as u32]);
            case.helper_ids = (0..count).collect();
            case.helper_addresses = (0..count as u64).collect();
        }
        _ => {
            let id = case.helper_ids.first().map_or(7, |id| *id);
            case.helper_ids.extend([8, id, 9]);
            case.helper_ids.insert(0, id);
            case.helper_addresses.resize(case.helper_ids.len(), 0);
        }
    }
    // More than the format carries cannot be asked.
    case.helper_ids.truncate(HELPER_LIMIT);
    case.helper_addresses.truncate(HELPER_LIMIT);
}

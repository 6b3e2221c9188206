//! Runs a row's programs through the Rust and through the library, sees that
//! both gave the same code, and marks or times each translation.
//!
//! One translation of the Rust is `JitMemory::new` of the no-std form, with
//! what it does inside: `Vec`s on the heap, hashing, assertions. Ours is one
//! call of `ndakoleem_translate_4`. Neither allocates the page or clears it, and
//! the Rust's map of helpers is made beforehand. DPDK's JIT is counted beside
//! them on the programs that it takes; it maps a page of its own. The Rust has
//! neither standard mode nor compact constants nor maps: with them ours alone is
//! counted.

use std::hint::black_box;
use std::time::{Duration, Instant};

use crate::observe::debug_number;
use crate::programs::Row;
use crate::stream::Case;
use crate::{dpdk, ebpf, jit, HashMap};
use ndakoleem::{raw, MAP_ENOUGH};

const PAGE: usize = ndakoleem::CODE_MAX;
const ENTRIES: usize = 2 * ndakoleem::SLOTS_MAX;
const TABLES: usize = 5;
/// A row's labels, from its first, as `table.py` reads them. Those of DPDK are
/// of the programs that its JIT takes.
const RUST: u64 = 0;
pub const OURS: u64 = 1;
pub const DPDK: u64 = 2;
const OURS_BESIDE_DPDK: u64 = 3;
const OURS_IN_MODES: u64 = 4;
const OURS_MAPPED: u64 = OURS_IN_MODES + MODES.len() as u64;
const OURS_MAPPED_TIGHTLY: u64 = OURS_MAPPED + 1;
pub const LABELS: u64 = OURS_MAPPED_TIGHTLY + 1;
/// Standard mode and compact constants, off and on, in the order of the labels.
const MODES: [(bool, bool); 4] = [(false, false), (false, true), (true, false), (true, true)];
/// Where pages with a map stand: mmap puts them at addresses of so many digits.
const BASE: u64 = 0x7f12_3456_7000;
/// A timed row goes on for at least this long.
const AT_LEAST: Duration = Duration::from_millis(200);

/// The Rust asks for a page at a multiple of 4,096.
#[repr(align(4096))]
struct Page([u8; PAGE]);

/// What both are lent.
struct Lent {
    rust_page: Box<Page>,
    our_page: Box<Page>,
    tables: [Vec<u32>; TABLES],
    text: Vec<u8>,
}

impl Lent {
    fn new() -> Lent {
        let page = || Box::new(Page([0; PAGE]));
        let tables = [ENTRIES; TABLES].map(|length| vec![0; length]);
        Lent { rust_page: page(), our_page: page(), tables, text: vec![0; MAP_ENOUGH] }
    }
}

#[inline(never)]
fn run_rust(case: &Case, helpers: &HashMap<u32, ebpf::Helper>, page: &mut [u8]) -> bool {
    let done =
        jit::JitMemory::new(&case.program, page, helpers, case.use_mbuff, case.update_data_ptr);
    black_box(&done).is_ok()
}

/// As `run_rust`, with the code's length where the program is accepted, which
/// jit.rs shows in its Debug text only.
fn rust_length(
    case: &Case,
    helpers: &HashMap<u32, ebpf::Helper>,
    page: &mut [u8],
) -> Option<usize> {
    let done =
        jit::JitMemory::new(&case.program, page, helpers, case.use_mbuff, case.update_data_ptr);
    done.ok().map(|memory| debug_number(&format!("{memory:?}"), "offset: ") as usize)
}

/// How much of each table a case lends; a case with three has n + 1 entries for
/// the kinds and for the makers. Found ahead of a translation, and not counted.
fn entries_of(case: &Case) -> [usize; TABLES] {
    let [locations, fields, targets] = case.table_lens;
    let [kinds, makers] = case.further_lens.unwrap_or([case.slots() as u32 + 1; 2]);
    [locations, fields, targets, kinds, makers].map(|length| (length as usize).min(ENTRIES))
}

/// One call of the library: with what a case lends it, and what goes behind.
macro_rules! called {
    ($function:ident, $case:ident, $page:ident, $tables:ident, $entries:ident
        $(, $behind:expr)*) => {{
        let [locations, fields, targets, kinds, makers] = $tables;
        let [l, f, t, k, m] = *$entries;
        unsafe {
            raw::$function(
                $case.program.as_ptr(),
                $case.program.len(),
                $case.use_mbuff,
                $case.update_data_ptr,
                $case.standard,
                $case.compact,
                $case.helper_ids.as_ptr(),
                $case.helper_ids.len(),
                $case.helper_addresses.as_ptr(),
                $case.helper_addresses.len(),
                $page.as_mut_ptr(),
                $page.len(),
                locations.as_mut_ptr(),
                l,
                fields.as_mut_ptr(),
                f,
                targets.as_mut_ptr(),
                t,
                kinds.as_mut_ptr(),
                k,
                makers.as_mut_ptr(),
                m,
                $($behind),*
            )
        }
    }};
}

#[inline(never)]
fn run_ours(
    case: &Case,
    page: &mut [u8],
    tables: &mut [Vec<u32>; TABLES],
    entries: &[usize; TABLES],
) -> raw::Translation {
    called!(ndakoleem_translate_4, case, page, tables, entries)
}

#[inline(never)]
fn run_mapped(
    case: &Case,
    page: &mut [u8],
    tables: &mut [Vec<u32>; TABLES],
    entries: &[usize; TABLES],
    text: &mut [u8],
) -> raw::Mapped {
    let (at, room) = (text.as_mut_ptr(), text.len());
    called!(ndakoleem_translate_mapped_1, case, page, tables, entries, BASE, at, room)
}

/// System calls that no kernel has: `icount.c` sees them.
#[inline(always)]
fn mark(number: u64, label: u64) {
    unsafe {
        std::arch::asm!("syscall", inlateout("rax") number => _, in("rdi") label,
            out("rcx") _, out("r11") _, options(nostack));
    }
}

/// One translation, or one run, between two marks: a function of its own, so that what
/// stands around it does not change what is counted of it.
#[inline(never)]
pub fn marked(label: u64, translation: impl FnOnce()) {
    mark(500_000, label);
    translation();
    mark(500_001, 0);
}

fn helpers_of(case: &Case) -> HashMap<u32, ebpf::Helper> {
    let mut helpers = HashMap::new();
    for (id, address) in case.helper_ids.iter().zip(&case.helper_addresses) {
        helpers.insert(*id, *address as usize);
    }
    helpers
}

/// Has both translate a case and compares their answers. The page's length
/// where the case belongs in its row: accepted, or in a row of refusals refused.
fn prepared(case: &Case, refused: bool, lent: &mut Lent) -> Result<Option<usize>, String> {
    let length = case.code_len as usize;
    if length > PAGE {
        return Ok(None);
    }
    let page = &mut lent.our_page.0[..length];
    let ours = run_ours(case, page, &mut lent.tables, &entries_of(case));
    if (ours.number == 0) == refused {
        return Ok(None);
    }
    let rust = rust_length(case, &helpers_of(case), &mut lent.rust_page.0[..length]);
    if rust != (!refused).then_some(ours.length) {
        return Err(format!("the Rust gives {rust:?} and the library {ours:?}"));
    }
    let written = ours.length;
    if lent.our_page.0[..written] != lent.rust_page.0[..written] {
        return Err("the two codes differ".to_string());
    }
    Ok(Some(length))
}

fn counted(label: u64, case: &Case, length: usize, lent: &mut Lent) {
    let helpers = helpers_of(case);
    let page = &mut lent.rust_page.0[..length];
    marked(label + RUST, || _ = black_box(run_rust(case, &helpers, page)));
    let (page, entries) = (&mut lent.our_page.0[..length], entries_of(case));
    marked(label + OURS, || _ = black_box(run_ours(case, page, &mut lent.tables, &entries)));
}

fn counted_beside_dpdk(label: u64, case: &Case, length: usize, lent: &mut Lent) {
    let Some(mut program) = dpdk::Program::taken(case) else { return };
    marked(label + DPDK, || _ = black_box(program.translate()));
    let (page, entries) = (&mut lent.our_page.0[..length], entries_of(case));
    marked(label + OURS_BESIDE_DPDK, || {
        _ = black_box(run_ours(case, page, &mut lent.tables, &entries))
    });
}

/// Ours in every mode, where all have the same verdict; tells whether they have.
fn counted_in_every_mode(label: u64, case: &Case, length: usize, lent: &mut Lent) -> bool {
    let cases = MODES.map(|(standard, compact)| Case { standard, compact, ..case.clone() });
    let (page, entries) = (&mut lent.our_page.0[..length], entries_of(case));
    let mut translate = |case| run_ours(case, page, &mut lent.tables, &entries);
    let accepted = cases.each_ref().map(|case| translate(case).number == 0);
    if accepted != [accepted[0]; MODES.len()] {
        return false;
    }
    for (mode, case) in (OURS_IN_MODES..).zip(&cases) {
        marked(label + mode, || _ = black_box(translate(case)));
    }
    true
}

/// Ours without a map and with it, on a text in which every map finds room and
/// on one that it fills. Gives the map's length.
fn counted_mapped(
    label: u64,
    case: &Case,
    length: usize,
    lent: &mut Lent,
) -> Result<usize, String> {
    let Lent { our_page, tables, text, .. } = lent;
    let (page, entries) = (&mut our_page.0[..length], entries_of(case));
    let mapped = run_mapped(case, page, tables, &entries, text);
    if mapped.number != 0 {
        return Err(format!("with a map the library gives {mapped:?}"));
    }
    marked(label + OURS, || _ = black_box(run_ours(case, page, tables, &entries)));
    marked(label + OURS_MAPPED, || {
        _ = black_box(run_mapped(case, page, tables, &entries, text));
    });
    let filled = &mut text[..mapped.text];
    marked(label + OURS_MAPPED_TIGHTLY, || {
        _ = black_box(run_mapped(case, page, tables, &entries, filled));
    });
    Ok(mapped.text)
}

/// Nanoseconds of one translation, the shortest of five rounds.
fn timed(mut once: impl FnMut()) -> f64 {
    let mut repeats = 1u32;
    loop {
        let begun = Instant::now();
        (0..repeats).for_each(|_| once());
        if begun.elapsed() >= AT_LEAST / 5 {
            break;
        }
        repeats *= 2;
    }
    let rounds = (0..5).map(|_| {
        let begun = Instant::now();
        (0..repeats).for_each(|_| once());
        begun.elapsed().as_nanos() as f64 / f64::from(repeats)
    });
    rounds.fold(f64::INFINITY, f64::min)
}

/// Nanoseconds for all of a row's cases once, of the Rust and ours.
fn times(cases: &[(&Case, usize)], lent: &mut Lent) -> (f64, f64) {
    let helpers: Vec<_> = cases.iter().map(|(case, _)| helpers_of(case)).collect();
    let rust = timed(|| {
        for ((case, length), helpers) in cases.iter().zip(&helpers) {
            black_box(run_rust(black_box(case), helpers, &mut lent.rust_page.0[..*length]));
        }
    });
    let entries: Vec<_> = cases.iter().map(|(case, _)| entries_of(case)).collect();
    let ours = timed(|| {
        for ((case, length), entries) in cases.iter().zip(&entries) {
            let page = &mut lent.our_page.0[..*length];
            black_box(run_ours(black_box(case), page, &mut lent.tables, entries));
        }
    });
    (rust, ours)
}

/// A row's cases that belong in it, each with its page's length.
fn ready<'a>(row: &'a Row, lent: &mut Lent) -> Result<Vec<(&'a Case, usize)>, String> {
    let refused = row.table == "refused";
    let mut cases = Vec::new();
    for case in &row.cases {
        let length = prepared(case, refused, lent).map_err(|why| format!("{}: {why}", row.name))?;
        cases.extend(length.map(|length| (case, length)));
    }
    Ok(cases)
}

/// Label 0 is the cost of the marks themselves.
fn labelled(rows: &[Row]) -> impl Iterator<Item = (u64, &Row)> {
    (1..).map(|at| LABELS * at).zip(rows)
}

/// What is printed of a row, its times aside.
fn line(label: u64, row: &Row, cases: &[(&Case, usize)]) -> String {
    let slots: usize = cases.iter().map(|(case, _)| case.slots()).sum();
    format!("{label}\t{}\t{}\t{}\t{slots}", row.table, row.name, cases.len())
}

/// DPDK's JIT comes behind all rows, so that its use of the heap does not move
/// the Rust's counts.
pub fn count(rows: &[Row]) -> Result<(), String> {
    let mut lent = Lent::new();
    marked(0, || ());
    for (label, row) in labelled(rows) {
        let cases = ready(row, &mut lent)?;
        cases.iter().for_each(|(case, length)| counted(label, case, *length, &mut lent));
        println!("{}", line(label, row, &cases));
    }
    for (label, row) in labelled(rows) {
        for (case, length) in ready(row, &mut lent)? {
            counted_beside_dpdk(label, case, length, &mut lent);
        }
    }
    Ok(())
}

pub fn count_in_every_mode(rows: &[Row]) -> Result<(), String> {
    let mut lent = Lent::new();
    marked(0, || ());
    for (label, row) in labelled(rows) {
        let mut cases = ready(row, &mut lent)?;
        cases.retain(|(case, length)| counted_in_every_mode(label, case, *length, &mut lent));
        println!("{}", line(label, row, &cases));
    }
    Ok(())
}

/// What a row's line has besides is the length of its maps.
pub fn count_mapped(rows: &[Row]) -> Result<(), String> {
    let mut lent = Lent::new();
    marked(0, || ());
    for (label, row) in labelled(rows).filter(|(_, row)| row.table != "refused") {
        let cases = ready(row, &mut lent)?;
        let mut text = 0;
        for (case, length) in &cases {
            text += counted_mapped(label, case, *length, &mut lent)?;
        }
        println!("{}\t{text}", line(label, row, &cases));
    }
    Ok(())
}

pub fn time(rows: &[Row]) -> Result<(), String> {
    let mut lent = Lent::new();
    for (label, row) in labelled(rows) {
        let cases = ready(row, &mut lent)?;
        // A row whose programs are all refused has nothing to time.
        let (rust, ours) = if cases.is_empty() { (0., 0.) } else { times(&cases, &mut lent) };
        println!("{}\t{rust:.0}\t{ours:.0}", line(label, row, &cases));
    }
    Ok(())
}

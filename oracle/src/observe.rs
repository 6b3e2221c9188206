//! Stand-ins for what rbpf's two files take from the crate around them, made
//! so that a run can be watched without a change to the files.
//!
//! jit.rs keeps its locations, jumps and exit anchor in a private struct, but
//! the types it keeps them in (`Vec`, `HashMap`, `vec!`) come from the crate
//! root. The ones here do the same work and leave a note of it:
//!
//! - `pc_locs[slot] = ..` tells which slot is being translated,
//! - `jumps.push(..)` tells a jump's field and target, made by that slot,
//! - `special_targets.insert(EXIT_ANCHOR, ..)` tells that the epilogue has begun,
//! - `special_targets.get(..)` tells that the next jump is being resolved,
//! - dropping `pc_locs` leaves the finished locations behind.
//!
//! `watch` runs a piece of work and hands back these notes together with how
//! the work ended, a panic included.

use std::any::Any;
use std::cell::{Cell, RefCell};
use std::fmt::{Debug, Write};
use std::marker::PhantomData;
use std::ops::{Index, IndexMut};
use std::panic::{self, AssertUnwindSafe};
use std::sync::Once;
use std::vec::Vec as List;

use crate::ebpf::{Helper, PROG_MAX_INSNS};

/// The target that stands for the exit anchor: `TARGET_PC_EXIT` of jit.rs, which
/// is private there.
pub const EXIT_ANCHOR: isize = PROG_MAX_INSNS as isize + 1;

/// What `pc_locs[target]` says where there is no such entry.
pub const NO_LOCATION: &str = "no location is kept for this target";

/// A jump as the Rust recorded it, and the slot that made it (the prologue's
/// jump comes before any slot).
#[derive(Clone, Copy, Debug)]
pub struct SeenJump {
    pub field: usize,
    pub target: isize,
    pub slot: Option<usize>,
}

/// The notes of one run.
#[derive(Default)]
pub struct Seen {
    /// The slot begun last.
    pub slot: Option<usize>,
    pub jumps: List<SeenJump>,
    pub locations: List<usize>,
    /// The exit anchor's position, once the epilogue has begun.
    pub epilogue: Option<usize>,
    /// How many jumps `resolve_jumps` has looked up.
    pub resolved: usize,
}

/// A panic: what it said, and the source file it came from.
pub struct Panic {
    pub file: String,
    pub text: String,
}

thread_local! {
    static SEEN: RefCell<Seen> = RefCell::default();
    static WATCHING: Cell<bool> = const { Cell::new(false) };
    static PANICKED_IN: RefCell<String> = const { RefCell::new(String::new()) };
}

fn note(change: impl FnOnce(&mut Seen)) {
    SEEN.with_borrow_mut(change);
}

/// Runs `work` from empty notes; a panic in it prints nothing.
pub fn watch<T>(work: impl FnOnce() -> T) -> (Result<T, Panic>, Seen) {
    static HOOK: Once = Once::new();
    HOOK.call_once(keep_watched_panics_quiet);

    note(|seen| *seen = Seen::default());
    WATCHING.set(true);
    let ending = panic::catch_unwind(AssertUnwindSafe(work));
    WATCHING.set(false);

    let ending = ending
        .map_err(|payload| Panic { file: PANICKED_IN.take(), text: panic_text(payload.as_ref()) });
    (ending, SEEN.take())
}

/// Panics outside `watch` keep the behaviour they had.
fn keep_watched_panics_quiet() {
    let before = panic::take_hook();
    panic::set_hook(Box::new(move |info| {
        if WATCHING.get() {
            let file = info.location().map_or("", |place| place.file());
            PANICKED_IN.set(file.to_string());
        } else {
            before(info);
        }
    }));
}

fn panic_text(payload: &(dyn Any + Send)) -> String {
    let literal = payload.downcast_ref::<&str>().map(|text| text.to_string());
    literal
        .or_else(|| payload.downcast_ref::<String>().cloned())
        .unwrap_or_else(|| "a panic without a text".to_string())
}

/// The number that stands behind `name` in a value's Debug text. The fields of
/// `Jump` and `JitMemory` are private; their Debug text is not.
pub fn debug_number(text: &str, name: &str) -> isize {
    let start = text.find(name).map(|at| at + name.len());
    let digits = start.map_or("", |at| &text[at..]);
    let end = digits.find([',', ' ']).unwrap_or(digits.len());
    digits[..end].parse().unwrap_or_else(|_| panic!("no number behind {name:?} in {text:?}"))
}

// ---- Vec -----------------------------------------------------------------

/// Stands for `Vec` in jit.rs: `pc_locs` is a `Vec<usize>`, `jumps` a
/// `Vec<Jump>`.
#[derive(Debug)]
pub struct Vec<T: 'static>(List<T>);

impl<T> Vec<T> {
    pub fn empty() -> Self {
        Vec(List::new())
    }
}

impl<T: Clone> Vec<T> {
    pub fn filled(value: T, count: usize) -> Self {
        Vec(vec![value; count])
    }
}

/// Stands for `vec!` in jit.rs, in the two forms it uses.
macro_rules! observed_vec {
    () => {
        $crate::observe::Vec::empty()
    };
    ($value:expr; $count:expr) => {
        $crate::observe::Vec::filled($value, $count)
    };
}
pub(crate) use observed_vec;

impl<T: Debug> Vec<T> {
    /// Only jumps are pushed.
    pub fn push(&mut self, jump: T) {
        let mut text = String::with_capacity(64);
        write!(text, "{jump:?}").expect("a String takes any text");
        let field = debug_number(&text, "offset_loc: ") as usize;
        let target = debug_number(&text, "target_pc: ");
        note(|seen| {
            let slot = seen.slot;
            seen.jumps.push(SeenJump { field, target, slot });
        });
        self.0.push(jump);
    }
}

impl Index<usize> for Vec<usize> {
    type Output = usize;

    /// Only `resolve_jumps` reads a location. The panic is placed in the
    /// caller, as the one of the real `Vec` is.
    #[track_caller]
    fn index(&self, target: usize) -> &usize {
        match self.0.get(target) {
            Some(location) => location,
            None => panic!("{}", NO_LOCATION),
        }
    }
}

impl IndexMut<usize> for Vec<usize> {
    /// Only the beginning of a slot writes a location.
    fn index_mut(&mut self, slot: usize) -> &mut usize {
        note(|seen| seen.slot = Some(slot));
        &mut self.0[slot]
    }
}

impl<'a, T> IntoIterator for &'a Vec<T> {
    type Item = &'a T;
    type IntoIter = std::slice::Iter<'a, T>;

    fn into_iter(self) -> Self::IntoIter {
        self.0.iter()
    }
}

impl<T> Drop for Vec<T> {
    /// The empty `pc_locs` that the real one replaces is dropped before it, so
    /// the locations that stay noted are the finished ones.
    fn drop(&mut self) {
        let content: &mut dyn Any = &mut self.0;
        if let Some(locations) = content.downcast_mut::<List<usize>>() {
            note(|seen| seen.locations = std::mem::take(locations));
        }
    }
}

// ---- HashMap -------------------------------------------------------------

/// Stands for `HashMap` in jit.rs: `special_targets` is a
/// `HashMap<isize, usize>`, the helpers are a `HashMap<u32, Helper>`.
///
/// Both keep plain numbers. For the helpers that means that no function
/// pointer is ever made of an address, and that any address will do: jit.rs
/// takes `*helper as usize`, which a number allows as well.
#[derive(Debug)]
pub struct HashMap<K, V> {
    entries: List<(K, usize)>,
    values: PhantomData<V>,
}

impl HashMap<isize, usize> {
    pub fn new() -> Self {
        HashMap { entries: List::new(), values: PhantomData }
    }

    pub fn insert(&mut self, target: isize, position: usize) {
        assert_eq!(target, EXIT_ANCHOR, "the exit anchor is the only one");
        note(|seen| seen.epilogue = Some(position));
        self.entries.push((target, position));
    }

    pub fn get(&self, target: &isize) -> Option<&usize> {
        note(|seen| seen.resolved += 1);
        find(&self.entries, *target)
    }
}

/// An address keeps its 64 bits.
const _: () = assert!(usize::BITS == 64);

impl HashMap<u32, Helper> {
    pub fn of_helpers(ids: &[u32], addresses: &[u64]) -> Self {
        let addresses = addresses.iter().map(|address| *address as usize);
        HashMap { entries: ids.iter().copied().zip(addresses).collect(), values: PhantomData }
    }

    pub fn get(&self, id: &u32) -> Option<&usize> {
        find(&self.entries, *id)
    }
}

fn find<K: PartialEq>(entries: &[(K, usize)], key: K) -> Option<&usize> {
    let entry = entries.iter().find(|entry| entry.0 == key);
    entry.map(|entry| &entry.1)
}

// ---- Error ---------------------------------------------------------------

/// Stands for the `Error` of the no-std form: its text is all that counts.
pub struct Error(pub String);

pub enum ErrorKind {
    Other,
}

impl Error {
    pub fn new(_kind: ErrorKind, text: &str) -> Error {
        Error(text.to_string())
    }

    pub fn other(text: String) -> Error {
        Error(text)
    }
}

// ---- byteorder -----------------------------------------------------------

/// Stands for the crate `byteorder`, in the two reads that ebpf.rs makes.
pub mod byteorder {
    pub trait ByteOrder {
        fn read_i16(bytes: &[u8]) -> i16;
        fn read_i32(bytes: &[u8]) -> i32;
    }

    pub enum LittleEndian {}

    impl ByteOrder for LittleEndian {
        fn read_i16(bytes: &[u8]) -> i16 {
            i16::from_le_bytes([bytes[0], bytes[1]])
        }

        fn read_i32(bytes: &[u8]) -> i32 {
            i32::from_le_bytes([bytes[0], bytes[1], bytes[2], bytes[3]])
        }
    }
}

//! The bench: rbpf's own JIT, this project's library and, where its source is
//! had, DPDK's JIT, put to the same programs in one run.
//!
//! Here stand rbpf's two files, as in the oracle, and the names they expect
//! at the crate root: real ones here, so that what they cost is counted. The
//! programs are in `programs.rs`; `measure.rs` runs and marks them.
//!
//!     bench count CORPUS [FILTER ..]    mark each translation for icount.c
//!     bench modes CORPUS [FILTER ..]    mark ours, in every mode
//!     bench mapped CORPUS [FILTER ..]   mark ours, without a map and with it
//!     bench time CORPUS [FILTER ..]     time each translation
//!     bench runs                        mark runs of packets on the model
//!
//! Each prints a line for each row: its label, its table, its name, how many
//! programs and slots it has, and, of `time`, nanoseconds of the Rust and ours,
//! of `mapped` the maps' length. DPDK's JIT is counted, and not timed. `modes`
//! leaves out a program that has another verdict in one of them. The slots of
//! `runs` are those that run; DPDK's part there is its interpreter.

#[cfg_attr(not(dpdk), path = "no_dpdk.rs")]
mod dpdk;
mod map;
mod measure;
mod model;
mod programs;
mod runs;

// rbpf's files: neither formatted nor mended.
#[path = "../../docs/src/ebpf.rs"]
#[allow(dead_code, clippy::all)]
#[rustfmt::skip]
mod ebpf;
#[path = "../../docs/src/jit.rs"]
#[allow(dead_code, clippy::all)]
#[rustfmt::skip]
mod jit;

// The oracle's reader of case streams, and of its stand-ins those that keep
// no notes: the error type and the crate `byteorder`.
#[path = "../../oracle/src/observe.rs"]
#[allow(dead_code, unused_imports, unused_macros)]
mod observe;
#[path = "../../oracle/src/stream.rs"]
#[allow(dead_code)]
mod stream;

// What jit.rs and ebpf.rs take from the crate root.
pub(crate) use map::HashMap;
pub(crate) use observe::{Error, ErrorKind};
pub(crate) use std::{format, vec, vec::Vec};
mod lib {
    pub use crate::observe::byteorder;
}

type Measure = fn(&[programs::Row]) -> Result<(), String>;

fn main() -> std::process::ExitCode {
    let words: Vec<String> = std::env::args().skip(1).collect();
    let words: Vec<&str> = words.iter().map(String::as_str).collect();
    if words == ["runs"] {
        return told(runs::count());
    }
    let (measure, files): (Measure, _) = match words[..] {
        ["count", ..] if words.len() > 1 => (measure::count, &words[1..]),
        ["modes", ..] if words.len() > 1 => (measure::count_in_every_mode, &words[1..]),
        ["mapped", ..] if words.len() > 1 => (measure::count_mapped, &words[1..]),
        ["time", ..] if words.len() > 1 => (measure::time, &words[1..]),
        _ => {
            eprintln!("usage: bench count|modes|mapped|time CORPUS [FILTER ..], or bench runs");
            return 2.into();
        }
    };
    told(programs::rows(files[0], &files[1..]).and_then(|rows| measure(&rows)))
}

fn told(done: Result<(), String>) -> std::process::ExitCode {
    match done {
        Ok(()) => 0.into(),
        Err(sentence) => {
            eprintln!("bench: {sentence}");
            1.into()
        }
    }
}

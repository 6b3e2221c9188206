//! The oracle: rbpf's own JIT, compiled unchanged, put to the project's cases.
//!
//! Here stand rbpf's two files, the names they expect at the crate root, and
//! the choice of a command. `commands.rs` does what the commands say.

mod commands;
mod compact;
mod compact_cases;
mod corpus;
mod five;
mod generate;
mod judge;
mod jumps;
mod limits;
mod modes;
mod observe;
mod program;
mod random;
mod sizes;
mod slots;
mod standard;
mod standard_cases;
mod stream;
#[cfg(test)]
mod tests;

// rbpf's files: neither formatted nor mended.
#[path = "../../docs/src/ebpf.rs"]
#[allow(dead_code, clippy::all)]
#[rustfmt::skip]
mod ebpf;
#[path = "../../docs/src/jit.rs"]
#[allow(dead_code, clippy::all)]
#[rustfmt::skip]
mod jit;

// What jit.rs and ebpf.rs take from the crate root.
pub(crate) use observe::{observed_vec as vec, Error, ErrorKind, HashMap, Vec};
pub(crate) use std::format;
mod lib {
    pub use crate::observe::byteorder;
}

const USAGE: &str = "\
usage: oracle COMMAND

  answers             cases on standard input, answers on standard output
  show                cases on standard input, each with its answer in words
  cases SEED COUNT    COUNT random cases on standard output
  corpus              the fixed list of cases on standard output
  count               answers on standard input, counted by refusal number
  modes               cases on standard input, counted: those in standard mode
                      and those in compact mode, of each those with a slot
                      that it changes, and those in both modes
  diff A B            two files of answers, compared case by case;
                      exit status 1 where they differ
";

fn main() -> std::process::ExitCode {
    let words: std::vec::Vec<String> = std::env::args().skip(1).collect();
    let words: std::vec::Vec<&str> = words.iter().map(String::as_str).collect();
    let outcome = match words[..] {
        ["answers"] => commands::answers(),
        ["show"] => commands::show(),
        ["cases", seed, count] => commands::cases(seed, count),
        ["corpus"] => commands::corpus(),
        ["count"] => commands::count(),
        ["modes"] => commands::modes(),
        ["diff", one, other] => commands::diff(one, other),
        ["help" | "--help" | "-h"] => commands::say(USAGE),
        _ => {
            eprint!("{USAGE}");
            return 2.into();
        }
    };
    match outcome {
        Ok(status) => status.into(),
        Err(sentence) => {
            eprintln!("oracle: {sentence}");
            2.into()
        }
    }
}

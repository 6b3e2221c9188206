//! Makes a second jit.rs, for the tests alone: rbpf's, but for the one function
//! that loads constants, which loads those of 0 to 4,294,967,295 as compact mode
//! has it. The oracle itself is built from the file as it came.

use std::path::Path;
use std::{env, fs};

const RBPFS: &str = "../docs/src/jit.rs";

/// Not allowed in a file that is included.
const INNER_ATTRIBUTE: &str = "#![allow(clippy::single_match)]\n";

/// Where `emit_load_imm` chooses a form, and what it is to look at first.
const CHOICE: &str = "        if imm >= i32::MIN as i64 && imm <= i32::MAX as i64 {\n";
const FIRST: &str = "        if imm >= 0 && imm <= u32::MAX as i64 {
            self.emit_basic_rex(mem, 0, 0, dst);
            self.emit1(mem, 0xb8 | (dst & 0b111));
            self.emit4(mem, imm as u32);
            return;
        }
";

fn main() {
    println!("cargo:rerun-if-changed={RBPFS}");
    let mut source = fs::read_to_string(RBPFS).expect("rbpf's jit.rs is there");
    for (old, new) in [(INNER_ATTRIBUTE, String::new()), (CHOICE, [FIRST, CHOICE].concat())] {
        assert_eq!(source.matches(old).count(), 1, "{old:?} stands once in {RBPFS}");
        source = source.replace(old, &new);
    }
    let folder = env::var("OUT_DIR").expect("cargo names a folder");
    fs::write(Path::new(&folder).join("jit.rs"), source).expect("the second jit.rs is written");
}

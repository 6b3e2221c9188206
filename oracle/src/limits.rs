//! A part of the fixed list: every limit from both sides, and of two causes
//! the one that has to be told. It stands behind the random part, so that the
//! cases ahead of it keep their numbers.

use crate::corpus::{case_of, EXIT};
use crate::ebpf;
use crate::sizes::{ANCHOR, CODE_LONGEST, CODE_MAX, CODE_MIN, HELPERS_MAX, PROGRAM_MAX, SLOTS_MAX};
use crate::slots::{plain_case, slot, wide};
use crate::stream::Case;

pub fn cases() -> Vec<Case> {
    let mut list = many_helpers();
    list.extend(first_of_two_targets());
    list.extend(too_long_twice());
    list.extend(pages());
    list.extend(programs());
    list.extend(tables());
    list.extend(anchors());
    list
}

pub fn local_call(imm: i32) -> [u8; 8] {
    slot(ebpf::CALL, 0, 1, 0, imm)
}

/// So many bytes of slots that have no code.
pub fn codeless(len: usize) -> Vec<u8> {
    slot(ebpf::LE, 0, 0, 0, 16).into_iter().cycle().take(len).collect()
}

/// A program in a page and tables that have room for it.
pub fn roomy(program: &[u8]) -> Case {
    Case { code_len: CODE_MAX, ..plain_case(program) }
}

/// The longest program, of one slot, under both flags, in a page of so many
/// bytes.
pub fn longest_program(of: [u8; 8], code_len: usize) -> Case {
    Case {
        code_len: code_len as u32,
        use_mbuff: true,
        update_data_ptr: true,
        ..plain_case(&of.repeat(SLOTS_MAX))
    }
}

// ---- helpers ---------------------------------------------------------------

/// Each its own; the first half loads as C7, the second as B8.
fn addresses(count: usize) -> Vec<u64> {
    (0..count as u64).map(|at| 0x7fff_ff80 + at).collect()
}

/// As many as there may be, and one more, with ids that rise and ids that fall;
/// called are the last, which an accepted list gives the last address, and one
/// that is not listed. Then lists of that length with an id twice, and lists of
/// different lengths.
fn many_helpers() -> Vec<Case> {
    let rising = |count: usize| (0..count as u32).collect::<Vec<u32>>();
    let falling = |count: usize| (0..count as u32).map(|at| u32::MAX - at).collect::<Vec<u32>>();
    let calling = |id: u32, ids: Vec<u32>, addresses: Vec<u64>| Case {
        helper_ids: ids,
        helper_addresses: addresses,
        ..case_of(&[slot(ebpf::CALL, 0, 0, 0, id as i32), EXIT])
    };
    let mut list = Vec::new();
    for count in [HELPERS_MAX, HELPERS_MAX + 1] {
        for ids in [rising(count), falling(count)] {
            for id in [ids[count - 1], 0x0bad_0bad] {
                list.push(calling(id, ids.clone(), addresses(count)));
            }
        }
    }
    let last = HELPERS_MAX - 1;
    for (one, other) in
        [(0, 1), (0, last), (last / 2, last / 2 + 1), (1, last - 1), (last - 1, last)]
    {
        for mut ids in [rising(HELPERS_MAX), falling(HELPERS_MAX)] {
            ids[other] = ids[one];
            list.push(calling(ids[one], ids, addresses(HELPERS_MAX)));
        }
    }
    let all = HELPERS_MAX;
    for (ids, count) in
        [(all, all - 1), (all - 1, all), (all, 0), (0, all), (all + 1, all), (all, all + 1)]
    {
        list.push(calling(0, rising(ids), addresses(count)));
    }
    list
}

// ---- jumps -----------------------------------------------------------------

/// Two jumps to slots that are not there, every two kinds in either order:
/// side by side, behind a wide load, behind good jumps and the exit's, and a
/// third behind them.
fn first_of_two_targets() -> Vec<Case> {
    let bad = [
        slot(ebpf::JA, 0, 0, 90, 0),
        slot(ebpf::JEQ_IMM, 1, 0, -90, 3),
        slot(ebpf::JNE_REG32, 1, 2, i16::MAX, 0),
        local_call(1_000),
        local_call(i32::MIN),
    ];
    let good = slot(ebpf::JA, 0, 0, -1, 0);
    let divides = slot(ebpf::DIV64_REG, 1, 2, 0, 0);
    let [first, second] = wide(2, 5);
    let mut list = Vec::new();
    for one in bad {
        for other in bad {
            list.push(case_of(&[one, other]));
            list.push(case_of(&[EXIT, one, EXIT, other, EXIT]));
            list.push(case_of(&[first, second, one, good, other]));
            list.push(case_of(&[local_call(ANCHOR - 1), divides, one, divides, other, one]));
        }
    }
    list
}

/// Local calls to the anchor and beside it, from slots far apart.
fn anchors() -> Vec<Case> {
    let mut list = Vec::new();
    for at in [0, 1, 2, SLOTS_MAX - 1] {
        for target in [ANCHOR - 1, ANCHOR, ANCHOR + 1] {
            let mut program = codeless(8 * (at + 1));
            program[8 * at..].copy_from_slice(&local_call(target - at as i32 - 1));
            list.push(roomy(&program));
        }
    }
    list
}

// ---- lengths ---------------------------------------------------------------

/// Causes of 1, 2 and 3 beside each other: the page's comes first.
fn too_long_twice() -> Vec<Case> {
    let mut list = Vec::new();
    for len in [PROGRAM_MAX, PROGRAM_MAX + 1, PROGRAM_MAX + 8] {
        for code_len in [CODE_MIN - 1, CODE_MAX, CODE_MAX + 1, u32::MAX] {
            list.push(Case { code_len, ..plain_case(&codeless(len)) });
        }
    }
    list
}

/// Pages around the shortest, the longest, and the longest that a program can
/// fill.
fn pages() -> Vec<Case> {
    let mut list = Vec::new();
    let around = |limit: u32| limit - 2..=limit + 2;
    for code_len in around(CODE_MIN).chain(around(CODE_MAX)) {
        list.push(Case { code_len, ..case_of(&[]) });
        list.push(Case { code_len, use_mbuff: true, update_data_ptr: true, ..case_of(&[EXIT]) });
    }
    let longest = slot(ebpf::DIV64_REG, 4, 5, 0, 0);
    list.extend([CODE_LONGEST - 1, CODE_LONGEST].map(|len| longest_program(longest, len)));
    list
}

/// Programs around the longest, whole slots and torn ones, and jumps to their
/// ends.
fn programs() -> Vec<Case> {
    let mut list = Vec::new();
    for len in [PROGRAM_MAX - 9, PROGRAM_MAX - 8, PROGRAM_MAX - 1, PROGRAM_MAX, PROGRAM_MAX + 1] {
        list.push(roomy(&codeless(len)));
    }
    for target in [SLOTS_MAX - 1, SLOTS_MAX, SLOTS_MAX + 1] {
        let mut program = codeless(PROGRAM_MAX);
        program[..8].copy_from_slice(&slot(ebpf::JA, 0, 0, target as i16 - 1, 0));
        list.push(roomy(&program));
    }
    list
}

/// Each table, and every two of them, around n + 1 entries.
fn tables() -> Vec<Case> {
    let mut list = Vec::new();
    for program in [EXIT.repeat(3), codeless(PROGRAM_MAX)] {
        let case = roomy(&program);
        let n = case.slots() as u32;
        for table in 0..3 {
            for len in [n - 1, n, n + 1, n + 2] {
                let mut table_lens = case.table_lens;
                table_lens[table] = len;
                // The longest program stands once for each side.
                if n < 8 || len == n || len == n + 2 {
                    list.push(Case { table_lens, ..case.clone() });
                }
            }
            let mut others = [n; 3];
            others[table] = n + 1;
            list.push(Case { table_lens: others, ..case.clone() });
        }
    }
    list
}

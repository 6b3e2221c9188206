//! Compact mode, alone and with standard mode: worked slots and pages, what
//! stays as it is, the same from a Rust that loads constants otherwise, and the
//! order of the refusals.

use super::{accepted, ask, bytes, case_of, first_code, opcodes, page_is, refused, EXIT};
use crate::compact::changes;
use crate::corpus::{self, code_len_alone, page_end_behind, with_helper};
use crate::ebpf::{self, *};
use crate::generate::Generator;
use crate::judge::{self, Judge};
use crate::jumps::{CONDITIONAL, LOCAL_CALL, PLAIN};
use crate::limits::longest_program;
use crate::sizes::{
    ANCHOR, CODE_MAX, EPILOGUE, PROGRAM_MAX, PROLOGUE_LONGEST, SLOTS_MAX, SLOT_LONGEST,
};
use crate::slots::{
    five_tables, in_compact_mode, in_standard_mode, plain_case, slot, wide, CONSTANTS, IMMS,
    LAST_REGISTER,
};
use crate::stream::{Answer, Case, Further};
use crate::{modes, standard, HashMap};

/// rbpf's jit.rs, but for the one function that loads constants: `build.rs`
/// makes it.
#[allow(dead_code, clippy::all)]
mod second_jit {
    include!(concat!(env!("OUT_DIR"), "/jit.rs"));
}

/// A run by that one.
fn translate_otherwise(case: &Case, page: &mut [u8]) -> Result<usize, String> {
    let helpers = HashMap::of_helpers(&case.helper_ids, &case.helper_addresses);
    let Case { program, use_mbuff, update_data_ptr, .. } = case;
    judge::told(second_jit::JitMemory::new(program, page, &helpers, *use_mbuff, *update_data_ptr))
}

const BAD_JUMP: [u8; 8] = [JA, 0, 9, 0, 0, 0, 0, 0];
const UNKNOWN: [u8; 8] = [0xff, 0, 0, 0, 0, 0, 0, 0];
const HELPER_CALL: [u8; 8] = [CALL, 0, 0, 0, 0, 0, 0, 0];
/// r1 is 5: 7 bytes, and in compact mode 5.
const MOVE: [u8; 8] = [MOV64_IMM, 1, 0, 0, 5, 0, 0, 0];
/// r1 by r2: 32 bytes, in compact mode 30, and in both modes 32 again.
const MODULO: [u8; 8] = [MOD32_REG, 0x21, 0, 0, 0, 0, 0, 0];

fn compact(program: &[[u8; 8]]) -> Case {
    in_compact_mode(case_of(program))
}

fn in_both_modes(case: Case) -> Case {
    in_standard_mode(in_compact_mode(case))
}

fn without_modes(case: Case) -> Case {
    Case { standard: false, compact: false, ..case }
}

fn code_alone(slots: &[[u8; 8]]) -> Vec<u8> {
    first_code(&compact(slots))
}

fn calling(address: u64) -> Case {
    Case { helper_addresses: vec![address], ..with_helper(case_of(&[HELPER_CALL]), 0) }
}

// ---- worked ------------------------------------------------------------------

#[test]
fn every_worked_constant_has_its_bytes() {
    let lines = [
        (0, 0, "b8 00 00 00 00"),
        (0, 5, "b8 05 00 00 00"),
        (5, 5, "41 b8 05 00 00 00"),
        (10, 0x7fff_ffff, "bd ff ff ff 7f"),
        (3, 0x8000_0000, "ba 00 00 00 80"),
        (7, 0xffff_ffff, "41 bd ff ff ff ff"),
        (9, 0x1_0000_0000, "49 bf 00 00 00 00 01 00 00 00"),
        (6, 0x1122_3344_5566_7788, "48 bb 88 77 66 55 44 33 22 11"),
        (4, u64::MAX, "49 c7 c1 ff ff ff ff"),
        (1, 0xffff_ffff_8000_0000, "48 c7 c7 00 00 00 80"),
        (2, 0xffff_ffff_7fff_ffff, "48 be ff ff ff 7f ff ff ff ff"),
        (8, i64::MIN as u64, "49 be 00 00 00 00 00 00 00 80"),
    ];
    for (dst, value, hex) in lines {
        assert_eq!(code_alone(&wide(dst, value)), bytes(hex), "{value:#x} into r{dst}");
    }
    let addresses = [
        (0, "4c 89 c9 b8 00 00 00 00 ff d0"),
        (0x0040_1000, "4c 89 c9 b8 00 10 40 00 ff d0"),
        (0xffff_ffff, "4c 89 c9 b8 ff ff ff ff ff d0"),
        (0x1_0000_0000, "4c 89 c9 48 b8 00 00 00 00 01 00 00 00 ff d0"),
        (u64::MAX, "4c 89 c9 48 c7 c0 ff ff ff ff ff d0"),
    ];
    for (address, hex) in addresses {
        assert_eq!(first_code(&in_compact_mode(calling(address))), bytes(hex), "{address:#x}");
    }
}

#[test]
fn every_worked_slot_has_its_bytes() {
    let division =
        "b9 00 00 00 00 48 85 ff 0f 85 07 00 00 00 31 c0 e9 00 00 00 00 52 48 89 f9 48 89 c0 \
        31 d2 48 f7 f1 5a";
    let lines = [
        (MOVE, "bf 05 00 00 00"),
        (slot(MOV64_IMM, 4, 0, 0, 0), "41 b9 00 00 00 00"),
        (slot(MOV64_IMM, 7, 0, 0, i32::MAX), "41 bd ff ff ff 7f"),
        (slot(MOV64_IMM, 0, 0, 0, -1), "48 c7 c0 ff ff ff ff"),
        (slot(MOV64_IMM, 8, 0, 0, i32::MIN), "49 c7 c6 00 00 00 80"),
        (slot(MOV32_IMM, 0, 0, 0, 5), "c7 c0 05 00 00 00"),
        (slot(MOV32_IMM, 8, 0, 0, 5), "41 c7 c6 05 00 00 00"),
        (slot(MUL64_IMM, 1, 0, 0, 5), "50 52 b9 05 00 00 00 48 89 f8 48 f7 e1 5a 48 89 c7 58"),
        (slot(MUL32_IMM, 0, 0, 0, 5), "52 b9 05 00 00 00 48 89 c0 f7 e1 5a"),
        (slot(MOD64_IMM, 3, 0, 0, 5), "50 b9 05 00 00 00 48 89 d0 31 d2 48 f7 f1 58"),
        (
            slot(DIV32_IMM, 5, 0, 0, -1),
            "50 52 48 c7 c1 ff ff ff ff 4c 89 c0 31 d2 f7 f1 5a 49 89 c0 58",
        ),
        (slot(MUL64_IMM, 1, 0, 0, 0), "31 ff"),
        (slot(MOD64_IMM, 1, 0, 0, 0), ""),
        (slot(DIV64_REG, 0, 1, 0, 0), division),
        (slot(JEQ_IMM, 1, 0, -1, 5), "48 81 ff 05 00 00 00 0f 84 00 00 00 00"),
    ];
    for (slot, hex) in lines {
        assert_eq!(code_alone(&[slot]), bytes(hex), "{slot:02x?}");
    }
}

#[test]
fn both_modes_change_a_slot() {
    let behind = "85 f6 0f 84 00 00 00 00 50 52 48 89 f1 48 89 f8 31 d2 f7 f1 48 89 d7 5a 58";
    let heads = [
        (case_of(&[MODULO]), "48 c7 c1 00 00 00 00 "),
        (compact(&[MODULO]), "b9 00 00 00 00 "),
        (in_both_modes(case_of(&[MODULO])), "89 ff b9 00 00 00 00 "),
    ];
    for (case, head) in heads {
        assert_eq!(first_code(&case), bytes(&(head.to_string() + behind)));
    }
    // Standard mode's slots without a constant are as in standard mode.
    for (of, hex) in [
        (slot(MOV32_REG, 8, 0, 0, 0), "41 89 c6"),
        (slot(MOD32_IMM, 4, 0, 0, 0), "45 89 c9"),
        (slot(LE, 0, 0, 0, 16), "81 e0 ff ff 00 00"),
    ] {
        assert_eq!(first_code(&in_both_modes(case_of(&[of]))), bytes(hex));
    }
}

#[test]
fn the_slots_number_is_loaded() {
    for at in [0, 1, 2, 255, 256, 2_047] {
        for opc in [DIV32_REG, DIV64_REG, MOD32_REG, MOD64_REG] {
            let mut slots = vec![slot(LE, 0, 0, 0, 16); at + 1];
            slots[at] = slot(opc, 1, 2, 0, 0);
            let page = accepted(&compact(&slots));
            let start = page.locations[at] as usize;
            assert_eq!(page.code[start..start + 2], [0xb9, at as u8]);
            assert_eq!(page.code[start + 2..start + 5], [(at >> 8) as u8, 0, 0]);
        }
    }
}

#[test]
fn jumps_go_where_slots_now_stand() {
    let exit = ANCHOR as u32;
    let jump = |off| slot(JA, 0, 0, off, 0);
    let in_compact = |program: &[[u8; 8]], locations: &[u32], jumps: &[(u32, u32, i32)]| {
        page_is(&compact(program), locations, jumps)
    };
    // Over two bytes less, forward and back; without compact mode 7 and -13.
    in_compact(&[jump(1), MOVE, EXIT], &[34, 39, 44, 0], &[(30, exit, 11), (35, 2, 5)]);
    in_compact(&[EXIT, MOVE, jump(-3)], &[34, 35, 40, 0], &[(30, exit, 11), (41, 0, -11)]);
    // To the shortened slot, and from it: its own jump, moved by two bytes.
    in_compact(&[MODULO, jump(-2)], &[34, 64, 0], &[(30, exit, 35), (43, 1, 17), (65, 0, -35)]);
    // A second modulo's own, moved by both, to n and so to the first byte.
    in_compact(&[MODULO, MODULO], &[34, 64, 0], &[(30, exit, 60), (43, 1, 17), (73, 2, -77)]);
    // Of the exit, behind a wide load, and into it.
    let call = slot(CALL, 0, 1, 0, ANCHOR - 3);
    let [first, second] = wide(5, 0x8000_0000);
    in_compact(&[first, second, call], &[34, 0, 40, 0], &[(30, exit, 25), (48, exit, 7)]);
    in_compact(&[first, second, jump(-2)], &[34, 0, 40, 0], &[(30, exit, 11), (41, 1, -45)]);
    // In both modes a modulo has rbpf's length again, and its field its place.
    page_is(
        &in_both_modes(case_of(&[MODULO, MOVE, jump(-3)])),
        &[34, 66, 71, 0],
        &[(30, exit, 42), (45, 1, 17), (72, 0, -42)],
    );
}

#[test]
fn the_kinds_and_makers_are_those_without_compact_mode() {
    let call = slot(CALL, 0, 1, 0, -1);
    let [first, second] = wide(5, 7);
    let program = [MODULO, first, second, slot(JNE_IMM, 1, 0, -1, 3), call, MOVE, MODULO];
    for case in [compact(&program), in_both_modes(case_of(&program))] {
        let page = accepted(&five_tables(case.clone()));
        let kinds = vec![PLAIN, CONDITIONAL, CONDITIONAL, LOCAL_CALL, CONDITIONAL];
        assert_eq!(page.further, Some(Further { kinds, makers: vec![7, 0, 3, 4, 6] }));
        assert_eq!(accepted(&case).further, None);
    }
}

// ---- what stays as it is -----------------------------------------------------

/// The fixed list, and random cases of a seed: all forms, one after the other.
fn many_cases(seed: u64, count: u64) -> Vec<Case> {
    let mut generator = Generator::new().expect("a generator");
    let random = (0..count).map(|at| generator.case(seed, at).expect("a case"));
    let random: Vec<Case> = random.collect();
    corpus::cases().expect("the list").into_iter().chain(random).collect()
}

#[test]
fn without_a_shortened_constant_the_answer_is_the_same() {
    let mut judge = Judge::new();
    let (mut all, mut refusals) = ([0; 2], [0; 15]);
    for case in many_cases(41, 6_000).into_iter().filter(|case| !changes(case)) {
        let without = Case { compact: false, ..case };
        let answer = judge.answer(&without).expect("an answer");
        all[without.standard as usize] += 1;
        if let Answer::Refused { number, .. } = answer {
            refusals[number as usize] += 1;
        }
        assert_eq!(judge.answer(&in_compact_mode(without)), Ok(answer));
    }
    assert!(all[0] > 8_000 && all[1] > 1_000, "{all:?}");
    assert!(refusals[1..].iter().all(|count| *count >= 20), "{refusals:?}");
}

/// How many bytes a shortened load has less.
fn saved(dst: u8, constant: i64) -> usize {
    let rex = [4, 5, 7, 8, 9].contains(&dst) as usize;
    match (i32::try_from(constant), u32::try_from(constant)) {
        (_, Err(_)) => 0,
        (Ok(_), Ok(_)) => 2 - rex,
        (Err(_), Ok(_)) => 5 - rex,
    }
}

#[test]
fn other_opcodes_and_fields_change_nothing() {
    let by_imm = [MUL32_IMM, MUL64_IMM, DIV32_IMM, DIV64_IMM, MOD32_IMM, MOD64_IMM];
    let by_register = [DIV32_REG, DIV64_REG, MOD32_REG, MOD64_REG];
    for opc in opcodes().accepted {
        for (dst, imm) in IMMS.into_iter().flat_map(|imm| [(1, imm), (8, imm)]) {
            let imm = if opc == BE { 32 } else { imm };
            let case = with_helper(case_of(&[slot(opc, dst, 0, 0, imm), EXIT]), imm as u32);
            let saved = match opc {
                _ if by_register.contains(&opc) => 2,
                _ if by_imm.contains(&opc) && imm != 0 => saved(0, imm as i64),
                MOV64_IMM => saved(dst, imm as i64),
                // A wide load that EXIT is the second half of.
                LD_DW_IMM => saved(dst, imm as u32 as i64),
                _ => 0,
            };
            let lens =
                [&case, &in_compact_mode(case.clone())].map(|case| accepted(case).code.len());
            assert_eq!(lens[0] - lens[1], saved, "opcode {opc:#04x}, r{dst}, imm {imm}");
            assert_eq!(ask(&case) == ask(&in_compact_mode(case)), saved == 0);
        }
    }
}

#[test]
fn every_constant_of_every_register_has_its_length() {
    for constant in CONSTANTS.map(|constant| constant as i64) {
        let lens = |case: Case| {
            [in_compact_mode(case.clone()), case].map(|case| accepted(&case).code.len())
        };
        for dst in 0..=LAST_REGISTER {
            let [with, without] = lens(case_of(&wide(dst, constant as u64)));
            assert_eq!(without - with, saved(dst, constant), "{constant:#x} into r{dst}");
        }
        let [with, without] = lens(calling(constant as u64));
        assert_eq!(without - with, saved(0, constant), "{constant:#x} called");
    }
}

#[test]
fn a_shortened_constant_is_known() {
    let changes = |program: &[u8]| changes(&with_helper(plain_case(program), 5));
    for imm in IMMS {
        assert_eq!(changes(&slot(MOV64_IMM, 1, 2, 3, imm)), imm >= 0);
        for opc in [MUL32_IMM, MUL64_IMM, DIV32_IMM, DIV64_IMM, MOD32_IMM, MOD64_IMM] {
            assert_eq!(changes(&slot(opc, 1, 2, 3, imm)), imm > 0);
        }
        for opc in [DIV32_REG, DIV64_REG, MOD32_REG, MOD64_REG] {
            assert!(changes(&slot(opc, 1, 2, 3, imm)));
        }
        for opc in [MOV32_IMM, MOV64_REG, MUL32_REG, MUL64_REG, JEQ_IMM, ADD64_IMM, ST_DW_IMM] {
            assert!(!changes(&slot(opc, 1, 2, 3, imm)));
        }
    }
    for value in CONSTANTS {
        assert_eq!(changes(&wide(1, value).concat()), value < 1 << 32);
        // Without its second half, and with a part of it.
        assert!(!changes(&wide(1, value).concat()[..8]));
        assert!(!changes(&wide(1, value).concat()[..15]));
        let called = Case { program: slot(CALL, 0, 0, 0, 0).to_vec(), ..calling(value) };
        assert_eq!(crate::compact::changes(&called), value < 1 << 32);
        let local = Case { program: slot(CALL, 0, 1, 0, 0).to_vec(), ..calling(value) };
        assert!(!crate::compact::changes(&local));
        let unlisted = Case { program: slot(CALL, 0, 0, 0, 1).to_vec(), ..calling(value) };
        assert!(!crate::compact::changes(&unlisted));
    }
    // A second half, a slot behind it, and a slot that is not all there.
    let [first, second] = wide(1, 1 << 40);
    assert!(!changes(&[first, MOVE].concat()));
    assert!(changes(&[first, second, MOVE].concat()));
    assert!(!changes(&MOVE[..7]));
}

#[test]
fn no_slot_is_longer_than_without_compact_mode() {
    let mut longest = [0; 2];
    for opc in opcodes().accepted.into_iter().filter(|opc| *opc != LD_DW_IMM) {
        for registers in 0..121u8 {
            let (dst, src) = (registers / 11, registers % 11);
            let of = match opc {
                CALL => slot(opc, dst, src % 2, 0, -1),
                _ => slot(opc, dst, src, -1, 16),
            };
            let case = with_helper(case_of(&[of]), u32::MAX);
            for (longest, mode) in longest.iter_mut().zip([in_compact_mode, in_both_modes]) {
                *longest = (*longest).max(first_code(&mode(case.clone())).len());
            }
        }
    }
    assert_eq!(longest, [SLOT_LONGEST - 2; 2]);
    let len = (SLOT_LONGEST - 2) * SLOTS_MAX + PROLOGUE_LONGEST + EPILOGUE;
    let full = |len| in_compact_mode(longest_program(slot(DIV64_REG, 4, 5, 0, 0), len));
    assert_eq!(len, 81_985);
    assert_eq!(accepted(&full(len)).code.len(), len);
    assert_eq!(refused(&full(len - 1)), (13, SLOTS_MAX as u32));
}

// ---- the same from elsewhere -------------------------------------------------

#[test]
fn a_page_that_is_put_together_unchanged_is_rbpfs() {
    let mut judge = Judge::new();
    for case in many_cases(42, 4_000).into_iter().map(without_modes) {
        let rbpf = judge.rbpf(&case).expect("an answer").0;
        assert_eq!(modes::answer(&mut judge, &case), Ok(rbpf));
    }
}

/// rbpf with another `emit_load_imm` needs no telling which slots load what.
#[test]
fn a_rust_that_loads_constants_so_gives_the_same() {
    let mut judge = Judge::new();
    let mut otherwise = Judge::by(translate_otherwise);
    // Pages with a shortened constant, by standard mode, and those of them that
    // rbpf's code does not fit.
    let (mut pages, mut unfit, mut refusals) = ([0; 2], 0, [0; 15]);
    for case in many_cases(43, 12_000) {
        let want = otherwise.answer(&Case { compact: false, ..case.clone() }).expect("an answer");
        match want {
            Answer::Refused { number, .. } => refusals[number as usize] += 1,
            Answer::Accepted(_) if changes(&case) => {
                pages[case.standard as usize] += 1;
                let rbpf = judge.answer(&Case { compact: false, ..case.clone() });
                unfit += matches!(rbpf, Ok(Answer::Refused { number: 13, .. })) as u64;
            }
            Answer::Accepted(_) => {}
        }
        assert_eq!(judge.answer(&in_compact_mode(case.clone())), Ok(want), "{case:02x?}");
    }
    assert!(pages[0] > 3_000 && pages[1] > 1_500, "{pages:?}");
    assert!(unfit > 300, "{unfit}");
    assert!(refusals[1..].iter().all(|count| *count > 100), "{refusals:?}");
}

#[test]
fn a_load_that_is_not_where_it_has_to_be_is_a_failure() {
    let mut otherwise = Judge::by(translate_otherwise);
    let loads = [vec![MOVE], vec![EXIT, MODULO], vec![slot(DIV64_IMM, 1, 0, 0, 5)]];
    for (at, (program, constant)) in [0, 1, 0].into_iter().zip(loads.iter().zip([5, 1, 5])) {
        let sentence = format!("the code of slot {at} does not load {constant} where it has to");
        assert_eq!(otherwise.answer(&compact(program)), Err(sentence));
    }
    assert!(otherwise.answer(&compact(&[slot(MOV64_IMM, 1, 0, 0, -5)])).is_ok());
}

// ---- refusals ----------------------------------------------------------------

#[test]
fn the_first_bad_slot_decides() {
    let numbers = [7, 8, 9, 10, 11, 12];
    for (bad, number) in corpus::bad_slots().into_iter().zip(numbers) {
        assert_eq!(refused(&compact(&[bad, MOVE])), (number, 0));
        assert_eq!(refused(&compact(&[MODULO, MOVE, bad, MOVE])), (number, 2));
        assert_eq!(refused(&in_both_modes(case_of(&[MODULO, bad]))), (number, 1));
    }
    assert_eq!(refused(&compact(&[MOVE, BAD_JUMP])), (14, 1));
    assert_eq!(refused(&compact(&[MOVE, wide(1, 7)[0]])), (6, 1));
    assert_eq!(refused(&compact(&[slot(MOV64_IMM, 11, 0, 0, 5)])), (7, 0));
    // LE of a bad width is standard mode's, with compact mode and without it.
    let le = slot(LE, 1, 0, 0, 8);
    assert_eq!(refused(&in_both_modes(case_of(&[MOVE, le]))), (10, 1));
    accepted(&compact(&[MOVE, le]));
}

#[test]
fn refusals_1_to_5_come_ahead_of_a_bad_slot() {
    let case = compact(&[MOVE, UNKNOWN]);
    for (code_len, number) in [(0, 1), (4_095, 1), (CODE_MAX + 1, 2), (u32::MAX, 2)] {
        assert_eq!(refused(&Case { code_len, ..case.clone() }), (number, 0));
    }
    let long = plain_case(&MOVE.repeat(SLOTS_MAX + 1)[..PROGRAM_MAX + 1]);
    assert_eq!(refused(&in_compact_mode(long)), (3, 0));
    assert_eq!(refused(&Case { table_lens: [3, 2, 3], ..case.clone() }), (4, 0));
    assert_eq!(refused(&Case { further_lens: Some([3, 2]), ..case.clone() }), (4, 0));
    assert_eq!(refused(&Case { helper_ids: vec![7], ..case }), (5, 0));
}

/// A slot of long code without a constant.
const MULTIPLIES: ([u8; 8], usize) = ([MUL64_REG, 0x54, 0, 0, 0, 0, 0, 0], 16);

/// A mode, and how long the code of MODULO and of MOVE is in it.
type Lengths = (fn(Case) -> Case, usize, usize);
const LENGTHS: [Lengths; 2] = [(in_compact_mode, 30, 5), (in_both_modes, 32, 5)];

#[test]
fn the_page_ends_by_the_new_lengths() {
    for (mode, modulo, moves) in LENGTHS {
        for (last, len) in [(MODULO, modulo), (MOVE, moves)] {
            assert_eq!(code_len_alone(&mut Judge::new(), &[last], mode), Ok(len));
            for excess in 0..=EPILOGUE + len {
                let case = mode(page_end_behind(MULTIPLIES, &[last], len, excess));
                let n = case.slots() as u32;
                match excess {
                    0 => assert_eq!(accepted(&case).code.len(), 4_096),
                    1..=EPILOGUE => assert_eq!(refused(&case), (13, n)),
                    _ => assert_eq!(refused(&case), (13, n - 1)),
                }
            }
        }
    }
}

#[test]
fn a_page_too_short_for_rbpf_may_be_long_enough() {
    // Two bytes of a constant decide, behind slots without one.
    let tight = page_end_behind(MULTIPLIES, &[MOVE], 5, 0);
    assert_eq!(refused(&tight), (13, tight.slots() as u32));
    assert_eq!(accepted(&in_compact_mode(tight)).code.len(), 4_096);
    // 13 comes later: of a program of constants another slot does not fit.
    let rows = case_of(&[MOVE; 1_000]);
    assert_eq!(refused(&rows), (13, (4_096 - 34) / 7));
    assert_eq!(refused(&in_compact_mode(rows)), (13, (4_096 - 34) / 5));
    // Behind what rbpf finds full there is something else to refuse.
    let mut bad = [MOVE; 600];
    bad[599] = UNKNOWN;
    assert_eq!(refused(&case_of(&bad)), (13, (4_096 - 34) / 7));
    assert_eq!(refused(&compact(&bad)), (8, 599));
    bad[599] = BAD_JUMP;
    assert_eq!(refused(&compact(&bad)), (14, 599));
    bad[599] = slot(CALL, 0, 0, 0, 77);
    assert_eq!(refused(&compact(&bad)), (11, 599));
}

#[test]
fn what_a_full_page_comes_before_and_after() {
    for (mode, len, _) in LENGTHS {
        let ending =
            |last: &[[u8; 8]], len, excess| mode(page_end_behind(MULTIPLIES, last, len, excess));
        for (bad, number) in [([0xff; 8], 7), (UNKNOWN, 8)] {
            let over = ending(&[MODULO, bad], len, EPILOGUE + 1);
            assert_eq!(refused(&over), (13, over.slots() as u32 - 2));
            let fits = ending(&[MODULO, bad], len, EPILOGUE);
            assert_eq!(refused(&fits), (number, fits.slots() as u32 - 1));
        }
        let mut stub = ending(&[MODULO], len, EPILOGUE);
        stub.program.push(ebpf::EXIT);
        assert_eq!(refused(&stub), (6, stub.slots() as u32));
        // 14 is behind 13 for a slot and for the epilogue.
        let ends = [(0, 14, 1), (1, 13, 0), (EPILOGUE, 13, 0), (EPILOGUE + 1, 13, 1)];
        for (excess, number, back) in ends {
            let jump = ending(&[MODULO, BAD_JUMP], len + 5, excess);
            assert_eq!(refused(&jump), (number, jump.slots() as u32 - back));
        }
    }
}

// ---- the list ----------------------------------------------------------------

#[test]
fn the_list_has_compact_mode_behind_all_other_cases() {
    let cases = corpus::cases().expect("the list");
    let first = cases.iter().position(|case| case.compact).expect("a case in compact mode");
    assert_eq!(first, 11_100);
    let mut judge = Judge::new();
    // Pages with a shortened constant by mode, and those that rbpf's code does
    // not fit; refusals; cases by mode.
    let (mut pages, mut unfit, mut refusals, mut modes) = ([0; 2], 0, [0; 15], [0; 4]);
    for case in &cases[first..] {
        modes[case.standard as usize + 2 * case.compact as usize] += 1;
        match judge.answer(case).expect("an answer") {
            Answer::Refused { number, .. } => refusals[number as usize] += 1,
            Answer::Accepted(_) if case.compact && changes(case) => {
                pages[case.standard as usize] += 1;
                let rbpf = judge.answer(&Case { compact: false, ..case.clone() });
                unfit += matches!(rbpf, Ok(Answer::Refused { number: 13, .. })) as u64;
            }
            Answer::Accepted(_) => {}
        }
    }
    assert!(pages[0] > 300 && pages[1] > 20, "{pages:?}");
    assert!(unfit > 20, "{unfit}");
    assert!(modes.iter().all(|count| *count >= 8), "{modes:?}");
    assert!(refusals[1..].iter().all(|count| *count >= 2) && refusals[13] > 80, "{refusals:?}");
}

#[test]
fn both_modes_are_asked_about_slots_that_each_changes() {
    let cases = corpus::cases().expect("the list");
    let both = cases.iter().filter(|case| case.standard && case.compact);
    let changed = both.filter(|case| changes(case) && standard::changes(&case.program));
    assert!(changed.count() > 20);
}

//! Standard mode: worked slots and pages, what stays as it is, rbpf's own slots
//! of the same code, and the order of the refusals.

use super::{accepted, ask, bytes, case_of, first_code, opcodes, page_is, refused, EXIT};
use crate::corpus::{self, page_end, with_helper};
use crate::ebpf::{self, *};
use crate::generate::{Form, Generator};
use crate::judge::Judge;
use crate::jumps::{CONDITIONAL, LOCAL_CALL, PLAIN};
use crate::sizes::{
    ANCHOR, CODE_LONGEST, CODE_MAX, EPILOGUE, PROGRAM_MAX, SLOTS_MAX, SLOT_LONGEST,
};
use crate::slots::{
    five_tables, in_standard_mode, plain_case, slot, wide, BAD_SWAPS, LAST_REGISTER,
};
use crate::standard::changes;
use crate::stream::{Answer, Case, Further, Translation};

const LE_8: [u8; 8] = [LE, 1, 0, 0, 8, 0, 0, 0];
const BAD_JUMP: [u8; 8] = [JA, 0, 9, 0, 0, 0, 0, 0];
/// r1 by r2: 32 bytes, and in standard mode 34.
const MODULO: [u8; 8] = [MOD32_REG, 0x21, 0, 0, 0, 0, 0, 0];
/// r4 by 0: no byte, and in standard mode 3.
const MOD_ZERO: [u8; 8] = [MOD32_IMM, 4, 0, 0, 0, 0, 0, 0];
/// r1 from r2: 3 bytes, and in standard mode 2.
const MOVE: [u8; 8] = [MOV32_REG, 0x21, 0, 0, 0, 0, 0, 0];

fn standard(program: &[[u8; 8]]) -> Case {
    in_standard_mode(case_of(program))
}

fn code_alone(slot: [u8; 8]) -> Vec<u8> {
    first_code(&standard(&[slot]))
}

// ---- worked ------------------------------------------------------------------

#[test]
fn every_worked_slot_has_its_bytes() {
    let modulo =
        "89 ff 48 c7 c1 00 00 00 00 85 f6 0f 84 00 00 00 00 50 52 48 89 f1 48 89 f8 31 d2 \
        f7 f1 48 89 d7 5a 58";
    let lines = [
        (MODULO, modulo),
        (MOD_ZERO, "45 89 c9"),
        (slot(MOD32_IMM, 10, 0, 0, 0), "89 ed"),
        (MOVE, "89 f7"),
        (slot(MOV32_REG, 8, 0, 0, 0), "41 89 c6"),
        (slot(MOV32_REG, 0, 8, 0, 0), "44 89 f0"),
        (slot(MOV32_REG, 9, 4, 0, 0), "45 89 cf"),
        (slot(LE, 0, 0, 0, 16), "81 e0 ff ff 00 00"),
        (slot(LE, 7, 0, 0, 16), "41 81 e5 ff ff 00 00"),
        (slot(LE, 1, 0, 0, 32), "89 ff"),
        (slot(LE, 5, 0, 0, 32), "45 89 c0"),
        (slot(LE, 5, 0, 0, 64), ""),
    ];
    for (slot, hex) in lines {
        assert_eq!(code_alone(slot), bytes(hex), "{slot:02x?}");
    }
}

#[test]
fn jumps_go_where_slots_now_stand() {
    let exit = ANCHOR as u32;
    let jump = |off| slot(JA, 0, 0, off, 0);
    let page_is = |program: &[[u8; 8]], locations: &[u32], jumps: &[(u32, u32, i32)]| {
        page_is(&standard(program), locations, jumps)
    };
    // Over three bytes more, forward and back; without standard mode 0 and -6.
    page_is(&[jump(1), MOD_ZERO, EXIT], &[34, 39, 42, 0], &[(30, exit, 9), (35, 2, 3)]);
    page_is(&[EXIT, MOD_ZERO, jump(-3)], &[34, 35, 38, 0], &[(30, exit, 9), (39, 0, -9)]);
    // Over a byte less.
    page_is(&[jump(1), MOVE, EXIT], &[34, 39, 41, 0], &[(30, exit, 8), (35, 2, 2)]);
    // To the changed slot, ahead of what is put there.
    page_is(&[MODULO, jump(-2)], &[34, 68, 0], &[(30, exit, 39), (47, 1, 17), (69, 0, -39)]);
    // A second modulo's own jump, moved by both, to n and so to the first byte.
    page_is(&[MODULO, MODULO], &[34, 68, 0], &[(30, exit, 68), (47, 1, 17), (81, 2, -85)]);
    // Of the exit, and into a wide load.
    let call = slot(CALL, 0, 1, 0, ANCHOR - 2);
    page_is(&[MOD_ZERO, call], &[34, 37, 0], &[(30, exit, 22), (45, exit, 7)]);
    let [first, second] = wide(1, 7);
    page_is(
        &[MOD_ZERO, first, second, jump(-2)],
        &[34, 37, 0, 44, 0],
        &[(30, exit, 15), (45, 2, -49)],
    );
}

#[test]
fn the_kinds_and_makers_are_those_without_standard_mode() {
    let call = slot(CALL, 0, 1, 0, -1);
    let program = [MODULO, MOD_ZERO, MOVE, slot(JNE_IMM, 1, 0, -1, 3), call, MODULO];
    let page = accepted(&five_tables(standard(&program)));
    let kinds = vec![PLAIN, CONDITIONAL, CONDITIONAL, LOCAL_CALL, CONDITIONAL];
    assert_eq!(page.further, Some(Further { kinds, makers: vec![6, 0, 3, 4, 5] }));
    assert_eq!(accepted(&standard(&program)).further, None);
}

// ---- what stays as it is -----------------------------------------------------

#[test]
fn without_a_changed_slot_the_answer_is_rbpfs() {
    let mut judge = Judge::new();
    let mut generator = Generator::new().expect("a generator");
    let form = |five_tables| Form { five_tables, ..Form::default() };
    let random = (0..10_000).map(|at| generator.formed(form(at % 2 == 1), 31, at).expect("a case"));
    let list = corpus::cases().expect("the list").into_iter();
    let (mut all, mut refusals) = (0, [0; 15]);
    for case in list.chain(random).filter(|case| !changes(&case.program)) {
        let without = Case { standard: false, compact: false, ..case };
        let rbpf = judge.answer(&without).expect("an answer");
        assert_eq!(judge.answer(&in_standard_mode(without)), Ok(rbpf.clone()));
        all += 1;
        if let Answer::Refused { number, .. } = rbpf {
            refusals[number as usize] += 1;
        }
    }
    assert!(all > 15_000, "{all}");
    assert!(refusals[1..].iter().all(|count| *count > 50), "{refusals:?}");
}

#[test]
fn a_changed_slot_is_known() {
    for unchanged in [[MOD64_REG; 8], [MOV64_REG; 8], [BE; 8], [MOD64_IMM, 0, 0, 0, 0, 0, 0, 0]] {
        assert!(!changes(&unchanged));
    }
    let wide_then = |slot: [u8; 8]| changes(&[wide(1, 7).concat(), slot.to_vec()].concat());
    for opc in [MOD32_REG, MOV32_REG, LE] {
        assert!(changes(&[opc; 8]) && wide_then([opc; 8]));
        // A second half, and a slot that is not all there.
        assert!(!changes(&[wide(1, 7)[0], [opc; 8]].concat()));
        assert!(!changes(&[opc; 7]));
    }
    for imm in [0, 1, 256, 65_536, i32::MIN] {
        assert_eq!(changes(&slot(MOD32_IMM, 1, 2, 3, imm)), imm == 0);
    }
}

#[test]
fn other_opcodes_and_fields_change_nothing() {
    for opc in opcodes().accepted {
        for imm in [0, 16] {
            let case = with_helper(case_of(&[slot(opc, 1, 0, 0, imm), EXIT]), imm as u32);
            let same = ask(&case) == ask(&in_standard_mode(case));
            let changed = [MOD32_REG, MOV32_REG, LE].contains(&opc) || (opc, imm) == (MOD32_IMM, 0);
            assert_eq!(same, !changed, "opcode {opc:#04x}, imm {imm}");
        }
    }
    for opc in [MUL32_REG, MUL64_REG, DIV32_REG, DIV64_REG, MOD32_REG, MOD64_REG, MOV32_REG] {
        for (off, imm) in [(1, 0), (0, 1), (8, -1), (-1, i32::MIN)] {
            let plain = code_alone(slot(opc, 1, 2, 0, 0));
            assert_eq!(code_alone(slot(opc, 1, 2, off, imm)), plain, "opcode {opc:#04x}");
        }
    }
    for (off, src) in [(1, 0), (-1, 10), (0, 5)] {
        for imm in [16, 32, 64] {
            assert_eq!(code_alone(slot(LE, 4, src, off, imm)), code_alone(slot(LE, 4, 0, 0, imm)));
        }
    }
}

#[test]
fn no_slot_is_longer_than_the_longest() {
    let mut longest = [0; 4];
    for dst in 0..=LAST_REGISTER {
        for src in 0..=LAST_REGISTER {
            let slots = [(MOD32_REG, 0), (MOD32_IMM, 0), (MOV32_REG, 0), (LE, 16)];
            for (longest, (opc, imm)) in longest.iter_mut().zip(slots) {
                *longest = (*longest).max(code_alone(slot(opc, dst, src, 0, imm)).len());
            }
        }
    }
    assert_eq!(longest, [36, 3, 3, 7]);
    assert!(longest.iter().all(|len| *len < SLOT_LONGEST));
    let divides = slot(DIV64_REG, 4, 5, 0, 0).repeat(SLOTS_MAX);
    let frame = Case { use_mbuff: true, update_data_ptr: true, ..plain_case(&divides) };
    let case = in_standard_mode(Case { code_len: CODE_LONGEST as u32, ..frame });
    assert_eq!(accepted(&case).code.len(), CODE_LONGEST);
}

// ---- rbpf's own slots of the same code ---------------------------------------

/// A slot whose code rbpf makes of the same bytes, but for 31 in place of 89:
/// `xor` is encoded as `mov` is. For LE of a bad width, BE of that width.
fn twin(of: [u8; 8]) -> [u8; 8] {
    let (dst, src) = (of[1] & 15, of[1] >> 4);
    let imm = i32::from_le_bytes([of[4], of[5], of[6], of[7]]);
    match (of[0], imm) {
        (MOV32_REG, _) => slot(XOR32_REG, dst, src, 0, 0),
        (MOD32_IMM, 0) | (LE, 32) => slot(XOR32_REG, dst, dst, 0, 0),
        (LE, 16) => slot(AND32_IMM, dst, src, 0, 0xffff),
        (LE, 64) => of,
        (LE, _) => slot(BE, dst, src, 0, imm),
        _ => of,
    }
}

/// A random case in which no modulo by a register is at 32 bits, and the same
/// case of twins, which is not in standard mode.
fn case_and_twin(generator: &mut Generator, at: u64) -> (Case, Case) {
    let form = Form { five_tables: at % 2 == 1, standard: true, compact: false };
    let mut case = generator.formed(form, 32, at).expect("a case");
    let mut twins = Case { standard: false, ..case.clone() };
    let mut next = 0;
    while next + 8 <= case.program.len() {
        let (of, like) = (&mut case.program[next..next + 8], &mut twins.program[next..next + 8]);
        if of[0] == MOD32_REG {
            (of[0], like[0]) = (MOD64_REG, MOD64_REG);
        }
        let good = of[1] & 15 <= LAST_REGISTER && of[1] >> 4 <= LAST_REGISTER;
        if good {
            like.copy_from_slice(&twin((&*of).try_into().expect("eight bytes")));
        }
        next += if of[0] == LD_DW_IMM { 16 } else { 8 };
    }
    (case, twins)
}

/// The twins' page with `mov` for `xor` in every slot that has another.
fn moves_for_xors(mut page: Translation, case: &Case, twins: &Case) -> Translation {
    for (slot, start) in page.locations.iter().enumerate().filter(|(_, start)| **start > 0) {
        let of = slot * 8;
        if twins.program[of] == XOR32_REG && case.program[of] != XOR32_REG {
            let start = *start as usize;
            let opcode = start + (page.code[start] != 0x31) as usize;
            assert_eq!(page.code[opcode], 0x31);
            page.code[opcode] = 0x89;
        }
    }
    page
}

#[test]
fn rbpf_gives_the_same_to_slots_of_the_same_code() {
    let mut generator = Generator::new().expect("a generator");
    let mut judge = Judge::new();
    let (mut pages, mut refusals) = (0, [0; 15]);
    for at in 0..20_000 {
        let (case, twins) = case_and_twin(&mut generator, at);
        let want = match judge.answer(&twins).expect("an answer") {
            Answer::Accepted(page) => Answer::Accepted(moves_for_xors(page, &case, &twins)),
            refused => refused,
        };
        match want {
            Answer::Accepted(_) => pages += changes(&case.program) as u64,
            Answer::Refused { number, .. } => refusals[number as usize] += 1,
        }
        assert_eq!(judge.answer(&case), Ok(want), "case {at}");
    }
    assert!(pages > 4_000, "{pages}");
    assert!(refusals[1..].iter().all(|count| *count > 50), "{refusals:?}");
}

// ---- refusals ----------------------------------------------------------------

#[test]
fn le_is_refused_by_its_width() {
    for imm in BAD_SWAPS {
        for dst in [0, 5] {
            let program = [EXIT, slot(LE, dst, 0, 0, imm)];
            assert_eq!(refused(&standard(&program)), (10, 1));
            accepted(&case_of(&program));
        }
    }
    for imm in [16, 32, 64] {
        accepted(&standard(&[slot(LE, 0, 0, 0, imm)]));
    }
    // No slot of its own: the second half of a wide load.
    let [first, _] = wide(1, 7);
    assert_eq!(accepted(&standard(&[first, LE_8, EXIT])).locations, [34, 0, 44, 0]);
}

#[test]
fn the_first_bad_slot_decides_with_le_among_them() {
    let numbers = [7, 8, 9, 10, 11, 12];
    for (bad, number) in corpus::bad_slots().into_iter().zip(numbers) {
        assert_eq!(refused(&standard(&[bad, LE_8])), (number, 0));
        assert_eq!(refused(&standard(&[LE_8, bad])), (10, 0));
        assert_eq!(refused(&standard(&[MODULO, bad, LE_8])), (number, 1));
        assert_eq!(refused(&standard(&[EXIT, LE_8, bad])), (10, 1));
    }
    // A bad jump, a torn wide load and a stub are behind it.
    assert_eq!(refused(&standard(&[BAD_JUMP, LE_8])), (10, 1));
    assert_eq!(refused(&standard(&[LE_8, wide(1, 7)[0]])), (10, 0));
    let stub = plain_case(&[&LE_8[..], &[ebpf::EXIT]].concat());
    assert_eq!(refused(&in_standard_mode(stub)), (10, 0));
    assert_eq!(refused(&standard(&[EXIT, slot(LE, 11, 0, 0, 8)])), (7, 1));
}

#[test]
fn refusals_1_to_5_come_ahead_of_le() {
    let case = standard(&[LE_8]);
    for (code_len, number) in [(0, 1), (4_095, 1), (CODE_MAX + 1, 2), (u32::MAX, 2)] {
        assert_eq!(refused(&Case { code_len, ..case.clone() }), (number, 0));
    }
    let long = plain_case(&LE_8.repeat(SLOTS_MAX + 1)[..PROGRAM_MAX + 1]);
    assert_eq!(refused(&in_standard_mode(long)), (3, 0));
    assert_eq!(refused(&Case { table_lens: [2, 1, 2], ..case.clone() }), (4, 0));
    assert_eq!(refused(&Case { further_lens: Some([2, 1]), ..case.clone() }), (4, 0));
    assert_eq!(refused(&Case { helper_ids: vec![7], ..case }), (5, 0));
}

/// Each slot that standard mode changes, and its length without and with it.
const LENGTHS: [([u8; 8], usize, usize); 5] = [
    (MODULO, 32, 34),
    (MOD_ZERO, 0, 3),
    (MOVE, 3, 2),
    ([LE, 7, 0, 0, 16, 0, 0, 0], 0, 7),
    ([LE, 7, 0, 0, 64, 0, 0, 0], 0, 0),
];

#[test]
fn the_page_ends_by_the_new_lengths() {
    for (last, without, with) in LENGTHS {
        // What fits only just without standard mode.
        let tight = page_end(&[last], without, 0);
        let n = tight.slots() as u32;
        assert_eq!(accepted(&tight).code.len(), 4_096);
        match in_standard_mode(tight) {
            case if with > without => assert_eq!(refused(&case), (13, n)),
            case => assert_eq!(accepted(&case).code.len(), 4_096 + with - without),
        }
        for excess in 0..=EPILOGUE + with {
            let case = in_standard_mode(page_end(&[last], with, excess));
            let n = case.slots() as u32;
            match excess {
                0 => assert_eq!(accepted(&case).code.len(), 4_096),
                1..=EPILOGUE => assert_eq!(refused(&case), (13, n)),
                _ => assert_eq!(refused(&case), (13, n - 1)),
            }
        }
    }
}

#[test]
fn what_a_full_page_comes_before_and_after() {
    let ending = |last: &[[u8; 8]], len, excess| in_standard_mode(page_end(last, len, excess));
    // In the slot that would not fit, 10 is ahead; behind it, 13 is.
    let full = ending(&[LE_8], 0, EPILOGUE);
    assert_eq!(refused(&full), (10, full.slots() as u32 - 1));
    let over = ending(&[MODULO, LE_8], 34, EPILOGUE + 1);
    assert_eq!(refused(&over), (13, over.slots() as u32 - 2));
    // The same with what rbpf refuses, in the slot and behind the last one.
    for (bad, number) in [([0xff; 8], 7), ([0xff, 0, 0, 0, 0, 0, 0, 0], 8)] {
        let over = ending(&[MODULO, bad], 34, EPILOGUE + 1);
        assert_eq!(refused(&over), (13, over.slots() as u32 - 2));
        let fits = ending(&[MODULO, bad], 34, EPILOGUE);
        assert_eq!(refused(&fits), (number, fits.slots() as u32 - 1));
    }
    let mut stub = ending(&[MODULO], 34, EPILOGUE);
    stub.program.push(ebpf::EXIT);
    assert_eq!(refused(&stub), (6, stub.slots() as u32));
    // 14 is behind 13 for a slot and for the epilogue.
    for (excess, number, back) in [(0, 14, 1), (1, 13, 0), (EPILOGUE, 13, 0), (EPILOGUE + 1, 13, 1)]
    {
        let jump = ending(&[MODULO, BAD_JUMP], 34 + 5, excess);
        assert_eq!(refused(&jump), (number, jump.slots() as u32 - back));
    }
}

// ---- the list ----------------------------------------------------------------

#[test]
fn the_list_has_standard_mode_behind_all_earlier_cases() {
    let cases = corpus::cases().expect("the list");
    let behind = cases.iter().position(|case| case.standard);
    let behind = &cases[behind.expect("a case in standard mode")..];
    let compact = behind.iter().position(|case| case.compact);
    let behind = &behind[..compact.expect("a case in compact mode")];
    assert!(behind.iter().all(|case| case.standard));
    let mut judge = Judge::new();
    // Of the answers with a changed slot, by table count.
    let (mut pages, mut refusals) = ([0; 2], [0; 15]);
    for case in behind {
        match judge.answer(case).expect("an answer") {
            Answer::Refused { number, .. } => refusals[number as usize] += 1,
            Answer::Accepted(_) if !changes(&case.program) => {}
            Answer::Accepted(_) => pages[case.further_lens.is_some() as usize] += 1,
        }
    }
    assert!(pages.iter().all(|count| *count > 100), "{pages:?}");
    assert!(refusals[1..].iter().all(|count| *count >= 3), "{refusals:?}");
    assert!(refusals[10] > 50 && refusals[13] > 100, "{refusals:?}");
}

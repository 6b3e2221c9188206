//! What is known of the Rust, fact by fact: what one would not expect of it
//! (part C of docs/DIFFERENCES.md), and what a definition of it must reproduce.

use super::{accepted, bytes, case_of, code_alone, opcodes, refused, slot_code, EXIT};
use crate::ebpf::{self, *};
use crate::judge::Judge;
use crate::sizes::{
    ANCHOR, CODE_LONGEST, CODE_MAX, EPILOGUE, PROLOGUE, SLOTS_MAX, SLOT_LONGEST, TABLE_ENOUGH,
};
use crate::slots::{plain_case, slot, wide, LAST_REGISTER};
use crate::stream::{Answer, Case};

/// The exit, as the table of targets has it.
const EXIT_TARGET: u32 = ANCHOR as u32;

// ---- what one would not expect ---------------------------------------------

#[test]
fn mul_div_mod_by_register_ignore_imm() {
    let mul = code_alone([0x2f, 0x21, 0, 0, 5, 0, 0, 0]);
    assert_eq!(mul, bytes("50 52 48 89 f1 48 89 f8 48 f7 e1 5a 48 89 c7 58"));
    for opc in [0x2c, 0x2f, 0x3c, 0x3f, 0x9c, 0x9f] {
        for imm in [1, 5, -1, i32::MIN] {
            assert_eq!(code_alone(slot(opc, 1, 2, 0, imm)), code_alone(slot(opc, 1, 2, 0, 0)));
        }
    }
}

/// Length of the longest code of an opcode, over registers, edges and helpers.
fn longest(judge: &mut Judge, opc: u8) -> usize {
    let mut longest = 0;
    for registers in 0..121u8 {
        let (dst, src) = (registers / 11, registers % 11);
        for (off, imm) in [(0, 0), (-1, 16), (-1, 64), (i16::MIN, i32::MIN)] {
            let second = slot(0, 0, 0, 0, 0x1122_3344);
            let slots = [slot(opc, dst, src, off, imm), second];
            let kept = if opc == LD_DW_IMM { 2 } else { 1 };
            let mut case = case_of(&slots[..kept]);
            case.helper_ids = vec![imm as u32];
            case.helper_addresses = vec![u64::MAX / 2];
            if let Ok(Answer::Accepted(page)) = judge.answer(&case) {
                longest = longest.max(slot_code(&page, 0).len());
            }
        }
    }
    longest
}

#[test]
fn the_longest_slots() {
    let judge = &mut Judge::new();
    let known = [
        (DIV64_REG, SLOT_LONGEST),
        (DIV32_REG, 41),
        (MOD64_REG, 34),
        (MOD32_REG, 33),
        (DIV64_IMM, 22),
        (MOD64_IMM, 22),
        (DIV32_IMM, 21),
        (MOD32_IMM, 21),
        (MUL64_IMM, 20),
        (MUL32_IMM, 19),
        (CALL, 19),
        (MUL64_REG, 16),
        (MUL32_REG, 15),
    ];
    for (opc, len) in known {
        assert_eq!(longest(judge, opc), len, "opcode {opc:#04x}");
    }
    for opc in opcodes().accepted {
        let listed = known.iter().any(|(one, _)| *one == opc);
        assert!(listed || longest(judge, opc) <= 15, "opcode {opc:#04x}");
    }
    let helper = Case {
        helper_ids: vec![0],
        helper_addresses: vec![u64::MAX / 2],
        ..case_of(&[slot(CALL, 0, 0, 0, 0)])
    };
    assert_eq!(slot_code(&accepted(&helper), 0).len(), 15);
}

#[test]
fn the_longest_page_has_86081_bytes() {
    let case = Case {
        use_mbuff: true,
        update_data_ptr: true,
        code_len: CODE_MAX,
        ..case_of(&[slot(DIV64_REG, 4, 5, 0, 0); SLOTS_MAX])
    };
    let page = accepted(&case);
    assert_eq!((page.code.len(), page.fields.len()), (CODE_LONGEST, TABLE_ENOUGH as usize));
    assert_eq!(CODE_LONGEST, 86_081);
    let short = Case { code_len: CODE_LONGEST as u32 - 1, ..case.clone() };
    assert_eq!(refused(&short), (13, SLOTS_MAX as u32));
    assert_eq!(accepted(&Case { code_len: CODE_LONGEST as u32, ..case }).code, page.code);
}

#[test]
fn ebpf_rs_has_the_reader_and_the_constants() {
    let insn = ebpf::get_insn(&[0xdc, 0xa3, 0x34, 0x12, 0x78, 0x56, 0x34, 0x92], 0);
    let fields = (insn.opc, insn.dst, insn.src, insn.off, insn.imm);
    assert_eq!(fields, (BE, 3, 10, 0x1234, 0x9234_5678u32 as i32));
    assert_eq!([JA, LE, BE], [0x05, 0xd4, 0xdc]);
    assert_eq!([BPF_W, BPF_H, BPF_B, BPF_DW], [0x00, 0x08, 0x10, 0x18]);
    assert_eq!([BPF_IMM, BPF_ABS, BPF_IND, BPF_MEM, BPF_XADD], [0x00, 0x20, 0x40, 0x60, 0xc0]);
    let alu = [BPF_ADD, BPF_SUB, BPF_MUL, BPF_DIV, BPF_OR, BPF_AND, BPF_LSH, BPF_RSH];
    assert_eq!(alu, [0x00, 0x10, 0x20, 0x30, 0x40, 0x50, 0x60, 0x70]);
    let more = [BPF_NEG, BPF_MOD, BPF_XOR, BPF_MOV, BPF_ARSH, BPF_END];
    assert_eq!(more, [0x80, 0x90, 0xa0, 0xb0, 0xc0, 0xd0]);
}

#[test]
fn modulo_by_zero_at_32_bits_clears_nothing() {
    let page = accepted(&case_of(&[slot(MOD32_REG, 1, 2, 0, 0), EXIT]));
    let start = bytes("48 c7 c1 00 00 00 00 85 f6 0f 84");
    assert_eq!(slot_code(&page, 0)[..11], start);
    assert_eq!(page.targets, [EXIT_TARGET, 1]);
    assert!(code_alone(slot(MOD32_IMM, 1, 0, 0, 0)).is_empty());
}

#[test]
fn what_rfc_9669_takes_otherwise() {
    for opc in [0x06, 0x81, 0x89, 0x91, 0xd7] {
        assert_eq!(refused(&case_of(&[slot(opc, 0, 0, 0, 16)])), (8, 0));
    }
    for opc in [0xc3, 0xdb, 0x8d] {
        assert_eq!(refused(&case_of(&[slot(opc, 0, 0, 0, 0)])), (9, 0));
    }
    for opc in [0x38, 0x58] {
        assert!(!code_alone(slot(opc, 0, 0, 0, 0)).is_empty());
    }
    for imm in [0, 1, 16, 17, -1, i32::MIN] {
        assert!(code_alone(slot(LE, 1, 0, 0, imm)).is_empty());
    }
    assert_eq!(refused(&case_of(&[slot(CALL, 0, 2, 0, 0)])), (12, 0));
    // Unused fields, and off where the RFC gives it a meaning, do not count.
    for opc in [ebpf::EXIT, MOV64_REG, DIV64_REG, MOV32_IMM, NEG64] {
        assert_eq!(code_alone(slot(opc, 1, 2, 1, 0)), code_alone(slot(opc, 1, 2, 0, 0)));
    }
    let [mut first, second] = wide(1, 7);
    first[1] = 0x21;
    assert_eq!(accepted(&case_of(&[first, second])).code, accepted(&case_of(&wide(1, 7))).code);
}

// ---- what a definition must reproduce --------------------------------------

#[test]
fn a_slot_without_bytes_is_located_where_the_next_is() {
    for empty in [slot(LE, 1, 0, 0, 16), slot(MOD64_IMM, 1, 0, 0, 0), slot(MOD32_IMM, 1, 0, 0, 0)] {
        let page = accepted(&case_of(&[EXIT, empty, EXIT, empty]));
        assert_eq!(page.locations, [34, 35, 35, 36, 0]);
        assert_eq!(page.code.len(), 52);
    }
}

#[test]
fn trailing_bytes_are_6_at_n() {
    let jump = slot(JA, 0, 0, 9, 0);
    for extra in 1..8 {
        let tail = vec![0x95; extra];
        assert_eq!(refused(&plain_case(&tail)), (6, 0));
        assert_eq!(refused(&plain_case(&[&EXIT[..], &tail].concat())), (6, 1));
        // Ahead of 14.
        assert_eq!(refused(&plain_case(&[&jump[..], &tail].concat())), (6, 1));
        // Behind a whole wide load, slot n is its own.
        assert_eq!(refused(&plain_case(&[&wide(1, 7).concat()[..], &tail].concat())), (6, 2));
        // A torn one is its first slot's affair.
        assert_eq!(refused(&plain_case(&[&EXIT[..], &wide(1, 7)[0], &tail].concat())), (6, 1));
    }
    assert_eq!(refused(&case_of(&[EXIT, wide(1, 7)[0]])), (6, 1));
}

#[test]
fn both_register_fields_count_on_every_first_slot() {
    assert_eq!(refused(&case_of(&[slot(ebpf::EXIT, 0, 11, 0, 0)])), (7, 0));
    assert_eq!(refused(&case_of(&[slot(LD_DW_IMM, 11, 0, 0, 0)])), (7, 0));
    for src in 11..16 {
        assert_eq!(refused(&case_of(&[slot(CALL, 0, src, 0, 0)])), (7, 0));
    }
    for opc in 0..=u8::MAX {
        assert_eq!(refused(&case_of(&[EXIT, slot(opc, 11, 0, 0, 0)])), (7, 1));
        assert_eq!(refused(&case_of(&[EXIT, slot(opc, 0, 15, 0, 0)])), (7, 1));
    }
    let [first, _] = wide(1, 7);
    let page = accepted(&case_of(&[first, [0xff; 8], EXIT]));
    assert_eq!(page.locations, [34, 0, 44, 0]);
}

#[test]
fn division_in_the_last_slot_jumps_to_the_first_byte() {
    for opc in [DIV32_REG, DIV64_REG, MOD32_REG, MOD64_REG] {
        let page = accepted(&case_of(&[EXIT, slot(opc, 1, 2, 0, 0)]));
        assert_eq!(page.targets, [EXIT_TARGET, 2]);
        assert_eq!(page.locations[2], 0);
        let field = page.fields[1] as usize;
        let want = (0u32).wrapping_sub(field as u32 + 4).to_le_bytes();
        assert_eq!(page.code[field..field + 4], want);
    }
}

#[test]
fn division_lists_its_jmp_and_modulo_its_je() {
    // jne over xor and jmp: 7 bytes, or 8 where the xor has a REX prefix.
    assert_eq!(
        code_alone(slot(DIV64_REG, 1, 2, 0, 0))[10..19],
        bytes("0f 85 07 00 00 00 31 ff e9")
    );
    assert_eq!(
        code_alone(slot(DIV64_REG, 5, 2, 0, 0))[10..20],
        bytes("0f 85 08 00 00 00 45 31 c0 e9")
    );
    assert_eq!(code_alone(slot(MOD64_REG, 1, 2, 0, 0))[10..12], bytes("0f 84"));
    for (opc, field) in [(DIV64_REG, PROLOGUE as u32 + 19), (MOD64_REG, PROLOGUE as u32 + 12)] {
        let page = accepted(&case_of(&[slot(opc, 1, 2, 0, 0), EXIT]));
        assert_eq!((page.fields, page.targets), (vec![30, field], vec![EXIT_TARGET, 1]));
    }
}

#[test]
fn dead_bytes_are_output() {
    for opc in [DIV32_REG, DIV64_REG, MOD32_REG, MOD64_REG] {
        let slots = vec![slot(opc, 0, 2, 0, 0); 300];
        let page = accepted(&Case { code_len: CODE_MAX, ..case_of(&slots) });
        assert_eq!(slot_code(&page, 0)[..7], bytes("48 c7 c1 00 00 00 00"));
        assert_eq!(slot_code(&page, 258)[..7], bytes("48 c7 c1 02 01 00 00"));
        let moved = slot_code(&page, 0).windows(3).any(|three| three == [0x48, 0x89, 0xc0]);
        assert!(moved, "mov rax, rax");
    }
}

#[test]
fn moves_and_shifts() {
    assert_eq!(code_alone(slot(MOV32_IMM, 1, 0, 0, -1)), bytes("c7 c7 ff ff ff ff"));
    assert_eq!(code_alone(slot(MOV32_IMM, 5, 0, 0, 1)), bytes("41 c7 c0 01 00 00 00"));
    for (imm, hex) in [(i32::MAX, "ff ff ff 7f"), (i32::MIN, "00 00 00 80"), (0, "00 00 00 00")] {
        let code = [bytes("48 c7 c7"), bytes(hex)].concat();
        assert_eq!(code_alone(slot(MOV64_IMM, 1, 0, 0, imm)), code);
    }
    assert_eq!(code_alone(slot(LSH64_IMM, 1, 0, 0, 0x1ff)), bytes("48 c1 e7 ff"));
    assert_eq!(code_alone(slot(RSH32_IMM, 1, 0, 0, 256)), bytes("c1 ef 00"));
    assert_eq!(code_alone(slot(MOV32_REG, 1, 2, 0, 0)), code_alone(slot(MOV64_REG, 1, 2, 0, 0)));
    assert_eq!(code_alone(slot(MUL32_IMM, 5, 0, 0, 0)), bytes("45 31 c0"));
    assert_eq!(code_alone(slot(DIV64_IMM, 1, 0, 0, 0)), bytes("31 ff"));
}

#[test]
fn packet_loads_take_imm_as_a_signed_displacement() {
    assert_eq!(code_alone(slot(LD_ABS_B, 3, 4, 7, -1)), bytes("41 0f b6 42 ff"));
    assert_eq!(code_alone(slot(LD_ABS_W, 0, 0, 0, i32::MIN)), bytes("41 8b 82 00 00 00 80"));
    let indirect = bytes("4d 89 d3 49 01 f3 49 8b 83 80 00 00 00");
    assert_eq!(code_alone(slot(LD_IND_DW, 0, 2, 0, 128)), indirect);
}

#[test]
fn helpers_by_32_bits_and_addresses_by_sign() {
    let call = |id: u32, address| Case {
        helper_ids: vec![0xffff_ffff, 7],
        helper_addresses: vec![address; 2],
        ..case_of(&[slot(CALL, 0, 0, 0, id as i32)])
    };
    let forms = [
        (0xffff_ffff_8000_0000, "4c 89 c9 48 c7 c0 00 00 00 80 ff d0"),
        (0x8000_0000, "4c 89 c9 48 b8 00 00 00 80 00 00 00 00 ff d0"),
        (0, "4c 89 c9 48 c7 c0 00 00 00 00 ff d0"),
    ];
    for (address, hex) in forms {
        for id in [7, u32::MAX] {
            assert_eq!(slot_code(&accepted(&call(id, address)), 0), bytes(hex));
        }
    }
    assert_eq!(refused(&call(6, 0)), (11, 0));
}

#[test]
fn only_a_local_call_reaches_the_anchor() {
    for at in 0..5 {
        let mut slots = vec![EXIT; 5];
        slots[at] = slot(CALL, 0, 1, 0, ANCHOR - 1 - at as i32);
        let page = accepted(&case_of(&slots));
        assert_eq!(page.targets, [EXIT_TARGET; 2]);
        let exit = page.code.len() - EPILOGUE;
        let field = page.fields[1] as usize;
        assert_eq!(page.code[field..field + 4], ((exit - field - 4) as u32).to_le_bytes());
        for beside in [-1, 1] {
            slots[at] = slot(CALL, 0, 1, 0, ANCHOR - 1 - at as i32 + beside);
            assert_eq!(refused(&case_of(&slots)), (14, at as u32));
        }
    }
}

#[test]
fn of_256_opcode_bytes_120_are_accepted() {
    let opcodes = opcodes();
    assert_eq!(opcodes.accepted.len(), 120);
    assert_eq!(opcodes.unimplemented, [TAIL_CALL, ST_W_XADD, ST_DW_XADD]);
    assert_eq!(opcodes.unknown.len(), 133);
}

#[test]
fn a_slot_lists_one_jump_at_most() {
    let judge = &mut Judge::new();
    for opc in opcodes().accepted {
        for dst in 0..=LAST_REGISTER {
            let slots = [slot(opc, dst, 1, -1, 16), slot(0x95, 0, 0, 0, 0)];
            if let Ok(Answer::Accepted(page)) = judge.answer(&case_of(&slots)) {
                assert!(page.fields.len() <= 2, "opcode {opc:#04x}");
            }
        }
    }
}

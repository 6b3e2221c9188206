//! The streams: what is written is read back, and what is malformed is said.

use super::{ask, case_of, EXIT};
use crate::ebpf;
use crate::slots::{five_tables, slot};
use crate::stream::{
    answer_records, case_records, write_answer, write_case, Answer, Case, HELPER_LIMIT,
    PROGRAM_LIMIT,
};

fn sample() -> Case {
    Case {
        use_mbuff: true,
        update_data_ptr: false,
        standard: false,
        compact: false,
        code_len: u32::MAX,
        table_lens: [1, 2, 3],
        further_lens: None,
        helper_ids: vec![5, 0xffff_ffff],
        helper_addresses: vec![0x1122_3344_5566_7788],
        program: vec![0x95, 1, 2],
    }
}

fn sample_of_five() -> Case {
    Case { use_mbuff: false, further_lens: Some([0x0403_0201, u32::MAX]), ..sample() }
}

fn sample_of_none() -> Case {
    Case { use_mbuff: false, ..sample() }
}

fn written(case: &Case) -> Vec<u8> {
    let mut stream = Vec::new();
    write_case(&mut stream, case).expect("a Vec takes any byte");
    stream
}

fn written_answer(answer: &Answer) -> Vec<u8> {
    let mut stream = Vec::new();
    write_answer(&mut stream, answer).expect("a Vec takes any byte");
    stream
}

/// The sentence that a stream ends with, behind so many good cases.
fn complaint(stream: &[u8], good: usize) -> String {
    let mut cases = case_records(stream);
    for _ in 0..good {
        cases.next_case().expect("a good case").expect("one more case");
    }
    cases.next_case().expect_err("a malformed case")
}

#[test]
fn a_case_has_the_bytes_of_the_format() {
    let want = [
        &[48, 0, 0, 0, 1][..],
        &[0xff, 0xff, 0xff, 0xff],
        &[1, 0, 0, 0, 2, 0, 0, 0, 3, 0, 0, 0],
        &[2, 0, 0, 0, 5, 0, 0, 0, 0xff, 0xff, 0xff, 0xff],
        &[1, 0, 0, 0, 0x88, 0x77, 0x66, 0x55, 0x44, 0x33, 0x22, 0x11],
        &[3, 0, 0, 0, 0x95, 1, 2],
    ];
    let mut stream = written(&sample());
    assert_eq!(stream, want.concat());
    stream.extend(written(&case_of(&[EXIT])));
    let mut cases = case_records(&stream[..]);
    assert_eq!(cases.next_case(), Ok(Some(sample())));
    assert_eq!(cases.next_case(), Ok(Some(case_of(&[EXIT]))));
    assert_eq!(cases.next_case(), Ok(None));
}

#[test]
fn a_case_with_five_tables_has_two_lengths_more() {
    let three = written(&sample());
    let five = written(&sample_of_five());
    assert_eq!(five[..5], [56, 0, 0, 0, 0x80]);
    assert_eq!(five[5..21], three[5..21]);
    assert_eq!(five[21..29], [1, 2, 3, 4, 0xff, 0xff, 0xff, 0xff]);
    assert_eq!(five[29..], three[21..]);
    let all = Case { use_mbuff: true, update_data_ptr: true, ..sample_of_five() };
    assert_eq!(written(&all)[4], 0x83);
    let stream = [three, five, written(&all), written(&sample())].concat();
    let mut cases = case_records(&stream[..]);
    for case in [sample(), sample_of_five(), all, sample()] {
        assert_eq!(cases.next_case(), Ok(Some(case)));
    }
    assert_eq!(cases.next_case(), Ok(None));
}

#[test]
fn an_answer_has_the_bytes_of_the_format() {
    let refused = ask(&case_of(&[EXIT, [0xff, 0, 0, 0, 0, 0, 0, 0]]));
    assert_eq!(written_answer(&refused), [5, 0, 0, 0, 8, 1, 0, 0, 0]);
    let accepted = ask(&case_of(&[EXIT]));
    let stream = written_answer(&accepted);
    assert_eq!(stream.len(), 4 + 1 + 12 + 51 + 8 + 4 + 4);
    assert_eq!(stream[..17], [80, 0, 0, 0, 0, 51, 0, 0, 0, 1, 0, 0, 0, 2, 0, 0, 0]);
    assert_eq!(stream[68..], [34, 0, 0, 0, 0, 0, 0, 0, 30, 0, 0, 0, 0x41, 0x42, 0x0f, 0]);
    let mut answers = answer_records(&stream[..]);
    assert_eq!(answers.next_answer(), Ok(Some(accepted)));
    assert_eq!(answers.next_answer(), Ok(None));
}

#[test]
fn an_answer_to_five_tables_ends_with_kinds_and_makers() {
    let program = [EXIT, EXIT, slot(ebpf::JNE_IMM, 0, 0, -1, 0)];
    let three = ask(&case_of(&program));
    let five = ask(&five_tables(case_of(&program)));
    let refused = ask(&five_tables(case_of(&[[0xff; 8]])));
    let [short, long] = [&three, &five].map(written_answer);
    assert_eq!(long[..4], (short.len() as u32 - 4 + 16).to_le_bytes());
    assert_eq!(long[4..short.len()], short[4..]);
    let (kinds, makers) = ([2, 0, 0, 0, 1, 0, 0, 0], [3, 0, 0, 0, 2, 0, 0, 0]);
    assert_eq!(long[short.len()..], [kinds, makers].concat());
    // Both forms may stand in one stream.
    let stream = [&long[..], &short, &written_answer(&refused), &long].concat();
    let mut answers = answer_records(&stream[..]);
    for answer in [five.clone(), three, refused, five] {
        assert_eq!(answers.next_answer(), Ok(Some(answer)));
    }
    assert_eq!(answers.next_answer(), Ok(None));
}

#[test]
fn an_answer_with_a_part_of_kinds_and_makers_is_malformed() {
    let whole = written_answer(&ask(&five_tables(case_of(&[EXIT]))));
    let without = whole.len() - 8;
    for len in without - 4..=whole.len() + 8 {
        let mut stream = whole.clone();
        stream.resize(len, 0);
        stream[..4].copy_from_slice(&(len as u32 - 4).to_le_bytes());
        let read = answer_records(&stream[..]).next_answer();
        assert_eq!(read.is_ok(), [without, whole.len()].contains(&len), "{len} bytes");
    }
    // L, J and the count of locations are 0, and yet there is something more.
    let no_jump = [&[17, 0, 0, 0][..], &[0; 13], &[1, 0, 0, 0]].concat();
    assert!(answer_records(&no_jump[..]).next_answer().is_err());
}

#[test]
fn a_stream_that_ends_inside_a_case_is_malformed() {
    for case in [sample(), sample_of_five()] {
        let stream = [written(&case), written(&case)].concat();
        let one = stream.len() / 2;
        for end in one + 1..stream.len() {
            let said = complaint(&stream[..end], 1);
            assert_eq!(said, "case 1 is malformed: the stream ends inside it");
        }
    }
}

#[test]
fn parts_that_do_not_fill_the_length_are_malformed() {
    const SENTENCE: &str = "case 0 is malformed: its parts do not fill its length";
    for good in [written(&sample()), written(&sample_of_five())] {
        for change in [-1i32, 1] {
            let mut stream = good.clone();
            stream[0] = (stream[0] as i32 + change) as u8;
            stream.resize((good.len() as i32 + change) as usize, 0);
            assert_eq!(complaint(&stream, 0), SENTENCE);
        }
    }
    assert!(complaint(&[0, 0, 0, 0], 0).contains("do not fill"));
    // Five tables without the two lengths, and the two lengths without five
    // tables.
    let mut three = written(&case_of(&[EXIT]));
    three[4] |= 1 << 7;
    assert_eq!(complaint(&three, 0), SENTENCE);
    let mut five = written(&five_tables(case_of(&[])));
    five[4] &= !(1 << 7);
    assert_eq!(complaint(&five, 0), SENTENCE);
}

#[test]
fn bits_4_to_6_of_the_flags_are_malformed() {
    for case in [sample(), sample_of_five()] {
        let good = written(&case);
        for flags in (0..=u8::MAX).filter(|flags| flags & 0x70 != 0) {
            let mut stream = good.clone();
            stream[4] = flags;
            let said = complaint(&stream, 0);
            let sentence = "it has a flag other than bits 0, 1, 2, 3 and 7";
            assert_eq!(said, format!("case 0 is malformed: {sentence}"));
        }
        for flags in 0..16 {
            let mut stream = good.clone();
            stream[4] = stream[4] & 0x80 | flags;
            assert!(case_records(&stream[..]).next_case().is_ok());
        }
    }
}

#[test]
fn each_flag_has_its_bit() {
    let flags = [
        (0, sample_of_none()),
        (1, Case { use_mbuff: true, ..sample_of_none() }),
        (2, Case { update_data_ptr: true, ..sample_of_none() }),
        (4, Case { standard: true, ..sample_of_none() }),
        (8, Case { compact: true, ..sample_of_none() }),
        (12, Case { standard: true, compact: true, ..sample_of_none() }),
        (0x87, Case { use_mbuff: true, update_data_ptr: true, standard: true, ..sample_of_five() }),
        (0x8b, Case { use_mbuff: true, update_data_ptr: true, compact: true, ..sample_of_five() }),
    ];
    for (byte, case) in flags {
        let stream = written(&case);
        assert_eq!(stream[4], byte);
        assert_eq!(case_records(&stream[..]).next_case(), Ok(Some(case)));
    }
}

#[test]
fn a_case_beyond_the_limits_is_malformed() {
    let edge = Case {
        helper_ids: vec![0; HELPER_LIMIT],
        helper_addresses: vec![0; HELPER_LIMIT],
        program: vec![0; PROGRAM_LIMIT],
        ..sample_of_five()
    };
    let mut longest = written(&edge);
    assert_eq!(longest[..4], 38_949u32.to_le_bytes());
    assert_eq!(case_records(&longest[..]).next_case(), Ok(Some(edge)));
    longest[..4].copy_from_slice(&38_950u32.to_le_bytes());
    assert!(complaint(&longest, 0).contains("longer than the format allows"));
    let beyond = [
        Case { helper_ids: vec![0; HELPER_LIMIT + 1], ..sample() },
        Case { helper_addresses: vec![0; HELPER_LIMIT + 1], ..sample() },
        Case { program: vec![0; PROGRAM_LIMIT + 1], ..sample() },
    ];
    for case in beyond {
        assert!(complaint(&written(&case), 0).starts_with("case 0 is malformed: "));
    }
    assert!(complaint(&[0xff; 64], 0).contains("longer than the format allows"));
}

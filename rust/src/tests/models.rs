//! Runs on the model: each argument in its place, what is left of what is lent,
//! every way to end, the refusals of a run, and how much a run takes. What a
//! slot does is proved; `tests/model.rs` compares pages with the model.

extern crate std;
use std::format;
use std::vec;
use std::vec::Vec;

use super::EXIT;
use crate::{
    run_packet, Ended, Helpers, Model, Reason, Refusal, CODE_MIN, PACKET_MAX, SLOTS_MAX, STEPS_MAX,
    TABLE_ENOUGH,
};

/// r0 becomes r2, the packet's length.
const LENGTH: [u8; 8] = [0xbf, 0x20, 0, 0, 0, 0, 0, 0];
/// The packet's first byte becomes 9; r0 becomes the packet's fourth.
const STORE: [u8; 8] = [0x72, 0x01, 0, 0, 9, 0, 0, 0];
const FOURTH: [u8; 8] = [0x71, 0x10, 3, 0, 0, 0, 0, 0];
/// A jump to itself, and a helper's call.
const AGAIN: [u8; 8] = [0x05, 0, 0xff, 0xff, 0, 0, 0, 0];
const CALL: [u8; 8] = [0x85, 0, 0, 0, 7, 0, 0, 0];
const BYTE: u8 = 0xab;
const COUNT: u64 = 1000;

/// What a run is lent, marked beforehand.
#[derive(Clone, Debug, PartialEq)]
struct Lent {
    copy: Vec<u8>,
    counts: Vec<u64>,
}

impl Lent {
    fn new(copy: usize, counts: usize) -> Lent {
        Lent { copy: vec![BYTE; copy], counts: vec![COUNT; counts] }
    }

    fn run(&mut self, slots: &[[u8; 8]], packet: &[u8]) -> Result<Ended, Refusal> {
        let Lent { copy, counts } = self;
        run_packet(&slots.concat(), Helpers::default(), CODE_MIN, packet, copy, counts)
    }
}

/// That a run is refused so, and changes nothing.
fn refused(
    program: &[u8],
    helpers: Helpers,
    page: usize,
    packet: &[u8],
    (copy, counts): (usize, usize),
) -> Refusal {
    let mut lent = Lent::new(copy, counts);
    let ran = run_packet(program, helpers, page, packet, &mut lent.copy, &mut lent.counts);
    assert_eq!(lent, Lent::new(copy, counts));
    ran.expect_err("refused")
}

#[test]
fn what_a_run_leaves_and_what_is_behind_it() {
    let mut lent = Lent::new(5, 6);
    let packet = [1, 2, 3];
    assert_eq!(lent.run(&[STORE, LENGTH, EXIT], &packet), Ok(Ended::Exit(3)));
    assert_eq!(packet, [1, 2, 3]);
    assert_eq!(lent.copy, [9, 2, 3, BYTE, BYTE]);
    assert_eq!(lent.counts, [1001, 1001, 1001, COUNT, COUNT, COUNT]);
}

#[test]
fn every_way_to_end() {
    let ended = |slots: &[[u8; 8]]| {
        let mut lent = Lent::new(3, 4);
        (lent.run(slots, &[1, 2, 3]).expect("run"), lent.counts)
    };
    let steps = STEPS_MAX as u64;
    assert_eq!(ended(&[AGAIN]), (Ended::StepLimit, vec![COUNT + steps, COUNT, COUNT, COUNT]));
    // The access that stops a run is counted; a place without a slot is not.
    assert_eq!(ended(&[FOURTH, EXIT]), (Ended::Access, vec![1001, COUNT, COUNT, COUNT]));
    assert_eq!(ended(&[LENGTH, LENGTH]), (Ended::NoSlot, vec![1001, 1001, COUNT, COUNT]));
    assert_eq!(ended(&[EXIT]), (Ended::Exit(0), vec![1001, COUNT, COUNT, COUNT]));
}

#[test]
fn kept_is_exit_with_another_r0_than_0() {
    let ends = [
        Ended::Exit(0),
        Ended::Exit(1),
        Ended::Exit(1 << 63),
        Ended::StepLimit,
        Ended::Access,
        Ended::NoSlot,
    ];
    assert_eq!(ends.map(Ended::is_kept), [false, true, true, false, false, false]);
}

#[test]
fn every_end_has_its_number() {
    for number in 0..=3 {
        assert_eq!(Ended::of(number, 7).number(), number);
    }
    assert_eq!(Ended::of(0, 7), Ended::Exit(7));
}

#[test]
fn a_refusal_changes_nothing() {
    let none = Helpers::default();
    let listed = Helpers { ids: &[7], addresses: &[1] };
    let is =
        |refusal: Refusal, reason, slot| assert_eq!((refusal.reason, refusal.slot), (reason, slot));
    let call = [EXIT, CALL].concat();
    is(refused(&call, listed, CODE_MIN, &[], (0, 3)), Reason::NotModelled, 1);
    is(refused(&call, none, CODE_MIN, &[], (0, 3)), Reason::UnknownHelper, 1);
    is(refused(&call, listed, CODE_MIN - 1, &[], (0, 3)), Reason::CodeTooShort, 0);
    is(refused(&call, listed, CODE_MIN, &[], (0, 2)), Reason::TableTooShort, 0);
    is(refused(&EXIT, none, CODE_MIN, &[1, 2], (1, 2)), Reason::BadRecord, 0);
    let long = vec![0; PACKET_MAX + 1];
    is(refused(&EXIT, none, CODE_MIN, &long, (PACKET_MAX + 1, 2)), Reason::BadRecord, 0);
    // The filter's refusals come first.
    is(refused(&call, listed, CODE_MIN, &long, (0, 3)), Reason::NotModelled, 1);
}

#[test]
fn a_refusal_of_a_run_in_words() {
    let listed = Helpers { ids: &[7], addresses: &[1] };
    let refusal = refused(&CALL, listed, CODE_MIN, &[], (0, 2));
    assert_eq!(
        format!("{refusal}"),
        "slot 0: opcode 0x85 is not replayed: calls, and packet loads of the modes ABS and IND, \
         are not run (refusal 19)"
    );
}

#[test]
fn every_packet_and_every_program_finds_room_in_a_model() -> Result<(), Refusal> {
    let mut model = Model::new();
    let mut longest = LENGTH.repeat(SLOTS_MAX - 1);
    longest.extend(EXIT);
    let packet = vec![5; PACKET_MAX];
    let ended = model.run(&longest, Helpers::default(), 2 * CODE_MIN, &packet)?;
    assert_eq!(ended, Ended::Exit(PACKET_MAX as u64));
    assert_eq!((model.packet(), model.counts()), (&packet[..], &[1; SLOTS_MAX][..]));
    assert_eq!(TABLE_ENOUGH, SLOTS_MAX + 1);
    Ok(())
}

#[test]
fn a_model_adds_up_until_it_is_cleared() -> Result<(), Refusal> {
    let mut model = Model::new();
    assert!(model.packet().is_empty() && model.counts().is_empty());
    let program = [STORE, EXIT].concat();
    let run = |model: &mut Model, packet: &[u8]| {
        model.run(&program, Helpers::default(), CODE_MIN, packet)
    };
    assert_eq!(run(&mut model, &[1, 2])?, Ended::Exit(0));
    assert_eq!(run(&mut model, &[])?, Ended::Access);
    assert_eq!((model.packet(), model.counts()), (&[][..], &[2, 1][..]));
    // Refused, it keeps what it had.
    let refusal = model.run(&[0], Helpers::default(), CODE_MIN, &[7]).expect_err("refused");
    assert_eq!(refusal.reason, Reason::TornSlot);
    assert_eq!((model.packet(), model.counts()), (&[][..], &[2, 1][..]));
    model.clear_counts();
    assert_eq!(run(&mut model, &[1, 2])?, Ended::Exit(0));
    assert_eq!((model.packet(), model.counts()), (&[9, 2][..], &[1, 1][..]));
    Ok(())
}

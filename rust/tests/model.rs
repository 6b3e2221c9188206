//! What a loader does with the model: each stored packet is given to a filter's
//! page, in standard mode, and to the model, and they leave the same r0 wherever
//! the model does not stop.
//!
//! Of the stored filters these are the raw one, whose r1 is the packet, and
//! those that take a `struct packet`, behind slots that put one on the stack.
//! Filters that call helpers, local functions or packet loads are not run by the
//! model, and say so.

mod mapping;

use std::fs::{read, read_dir};

use ndakoleem::{
    run_packet, Ended, Flags, Helpers, Model, Page, Reason, CODE_ENOUGH, PACKET_MAX, TABLE_ENOUGH,
};

use mapping::Mapping;

/// `struct packet { data, data_end }` at the far end of the stack, its address in
/// r1: r3 = r1 + r2; both are stored at r10 - 512; r1 = r10 - 512.
const AHEAD: [[u8; 8]; 6] = [
    [0xbf, 0x13, 0, 0, 0, 0, 0, 0],
    [0x0f, 0x23, 0, 0, 0, 0, 0, 0],
    [0x7b, 0x1a, 0x00, 0xfe, 0, 0, 0, 0],
    [0x7b, 0x3a, 0x08, 0xfe, 0, 0, 0, 0],
    [0xbf, 0xa1, 0, 0, 0, 0, 0, 0],
    [0x07, 0x01, 0, 0, 0x00, 0xfe, 0xff, 0xff],
];
/// What a raw filter may read behind a short packet.
const RAW_LEAST: usize = 64;
const FILE_HEADER: usize = 24;
const PACKET_HEADER: usize = 16;

/// The stored packets; the file's numbers are little-endian.
fn packets() -> Vec<Vec<u8>> {
    // Tests run in the crate's folder.
    let pcap = read("../examples/packets/packets.pcap").expect("the stored packets");
    let (mut rest, mut found) = (&pcap[FILE_HEADER..], Vec::new());
    while !rest.is_empty() {
        let length = u32::from_le_bytes([rest[8], rest[9], rest[10], rest[11]]) as usize;
        found.push(rest[PACKET_HEADER..PACKET_HEADER + length].to_vec());
        rest = &rest[PACKET_HEADER + length..];
    }
    found
}

/// What the page answers, and the packet as it leaves it.
fn run_page(page: &Mapping, packet: &[u8]) -> (u64, Vec<u8>) {
    let mut buffer = packet.to_vec();
    buffer.resize(packet.len() + RAW_LEAST, 0);
    let length = packet.len();
    let answer = page.function()(0, length, buffer.as_mut_ptr(), length, 0, 0);
    buffer.truncate(length);
    (answer, buffer)
}

/// The filter's page in standard mode, where it is translated.
fn page_of(program: &[u8]) -> Option<Mapping> {
    let mut page = Page::new();
    let flags = Flags { standard: true, ..Flags::default() };
    page.translate(program, flags, Helpers::default()).ok().map(Mapping::of)
}

/// How many packets were compared, and how many of them were kept.
fn compared(name: &str, program: &[u8], packets: &[Vec<u8>]) -> (usize, usize) {
    let page = page_of(program).unwrap_or_else(|| panic!("{name} is not translated"));
    let (mut model, mut same, mut kept) = (Model::new(), 0, 0);
    for packet in packets {
        let ended = model.run(program, Helpers::default(), CODE_ENOUGH, packet).expect(name);
        let Ended::Exit(r0) = ended else { continue };
        let (answer, left) = run_page(&page, packet);
        assert_eq!((answer, &left[..]), (r0, model.packet()), "{name}");
        same += 1;
        kept += ended.is_kept() as usize;
    }
    // Each run begins with slot 0.
    assert_eq!(model.counts()[0], packets.len() as u64, "{name}");
    (same, kept)
}

#[test]
fn the_raw_filter_on_its_page_and_on_the_model() {
    let program = read("../examples/filters/raw-udp.bin").expect("the filter");
    let packets = packets();
    let (same, kept) = compared("raw-udp", &program, &packets);
    // What the loaders keep; shorter packets stop the model, and the loaders see
    // zeros behind them.
    let short = packets.iter().filter(|packet| packet.len() < 24).count();
    assert!(short > 0 && same + short >= packets.len(), "{same} of {} packets", packets.len());
    assert_eq!(kept, 71);
}

#[test]
fn every_filter_that_the_model_runs() {
    let packets = packets();
    let (mut names, mut refused) = (Vec::new(), Vec::new());
    for file in read_dir("../examples/filters").expect("the filters") {
        let path = file.expect("a file").path();
        let name = path.file_name().expect("a name").to_string_lossy().into_owned();
        if !name.ends_with(".bin") || name.starts_with("raw-") {
            continue;
        }
        let program = [AHEAD.concat(), read(&path).expect("a filter")].concat();
        let mut counts = [0; TABLE_ENOUGH];
        let ran = run_packet(&program, Helpers::default(), CODE_ENOUGH, &[], &mut [], &mut counts);
        match ran {
            Err(refusal) => refused.push((name, refusal.reason)),
            Ok(_) => {
                let (same, _) = compared(&name, &program, &packets);
                // The filters look at a packet's end before they read.
                assert_eq!(same, packets.len(), "{name}");
                names.push(name);
            }
        }
    }
    assert!(names.len() >= 30, "{names:?}");
    assert!(refused.iter().any(|(_, reason)| *reason == Reason::NotModelled), "{refused:?}");
}

#[test]
fn a_packet_that_is_too_long_is_refused() {
    let mut model = Model::new();
    let exit = [0x95, 0, 0, 0, 0, 0, 0, 0];
    let long = vec![0; PACKET_MAX + 1];
    let refusal = model.run(&exit, Helpers::default(), CODE_ENOUGH, &long).expect_err("refused");
    assert_eq!((refusal.reason, refusal.slot), (Reason::BadRecord, 0));
}

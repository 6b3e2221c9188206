//! A loader in Rust: reads a filter, has it translated, maps its page, and
//! runs it over the packets of a pcap.
//!
//!     loader [--raw] [--standard] [--compact] [--model] [--perf-map] [--times N] FILTER PCAP
//!
//! FILTER is bytecode, eight bytes a slot. r1 of the filter is a `Packet`, the
//! addresses of the packet's first byte and of the byte behind its last; with
//! --raw it is the packet itself, with zeros behind it up to 64 bytes at
//! least. --standard has it translated in standard mode, --compact with compact
//! constants. What the filter gives is the verdict: 0 turns the packet down,
//! anything else keeps it. A filter is run as it is: one that reads outside the
//! packet or never ends takes the loader with it.
//!
//! --perf-map writes the page's map where perf looks for it ahead of the first
//! packet, so that perf names the filter's slots; it stays there, for perf reads
//! it afterwards. --times N runs the filter over all packets N times, and prints
//! the verdicts of the first: so a profiler sees it.
//!
//! --model, with --raw and --standard, runs each packet on the library's model of
//! the bytecode too, and says how many verdicts differ: of the packets, that is,
//! on which the model does not stop, as it does where the filter reads behind a
//! packet's end.

use std::error::Error;
use std::fs::{self, File};
use std::io::Write;
use std::process::{self, ExitCode};
use std::ptr;

use ndakoleem::{Ended, Flags, Helpers, Model, Page, Refusal, CODE_ENOUGH, MAP_ENOUGH};

type Outcome<T> = Result<T, Box<dyn Error>>;
type PageFunction =
    unsafe extern "sysv64" fn(*mut Packet, usize, *mut u8, usize, usize, usize) -> u64;

const FILE_HEADER: usize = 24;
const PACKET_HEADER: usize = 16;
const RAW_LEAST: usize = 64;

/// r1 of a filter that is not raw.
#[repr(C)]
struct Packet {
    data: *const u8,
    data_end: *const u8,
}

// What the C library has for mappings, on x86-64 Linux.
const PROT_READ: i32 = 1;
const PROT_WRITE: i32 = 2;
const PROT_EXEC: i32 = 4;
const MAP_PRIVATE: i32 = 2;
const MAP_ANONYMOUS: i32 = 0x20;
extern "C" {
    fn mmap(
        at: *mut u8,
        length: usize,
        protection: i32,
        flags: i32,
        file: i32,
        offset: i64,
    ) -> *mut u8;
    fn mprotect(at: *mut u8, length: usize, protection: i32) -> i32;
}

/// 1: is the IPv4 address a subscriber's? Here, the addresses whose last byte
/// is a multiple of 7.
extern "sysv64" fn is_subscribed(address: u64) -> u64 {
    ((address & 0xff) % 7 == 0) as u64
}

/// 2: five numbers mixed into 32 bits.
extern "sysv64" fn mix(a: u64, b: u64, c: u64, d: u64, e: u64) -> u64 {
    let sum = [b, c, d, e].iter().fold(a, |sum, next| sum.wrapping_mul(31).wrapping_add(*next));
    (sum >> 32) ^ (sum & 0xffff_ffff)
}

// How the page enters them: with the stack aligned.
ndakoleem::helper_entry!(is_subscribed_entry, is_subscribed);
ndakoleem::helper_entry!(mix_entry, mix);

/// Where perf looks for it: the kernel's
/// tools/perf/Documentation/jit-interface.txt fixes the name. What is there
/// already may belong to somebody else, or be a link: it is not written to.
fn write_map(map: &[u8]) -> Outcome<()> {
    let name = format!("/tmp/perf-{}.map", process::id());
    _ = fs::remove_file(&name);
    let written = File::create_new(&name).and_then(|mut file| file.write_all(map));
    Ok(written.map_err(|_| format!("{name}: cannot be written"))?)
}

/// Room for any page; made before the translation, since a map says where the
/// page stands.
fn mapping(name: &str) -> Outcome<*mut u8> {
    let anywhere = MAP_PRIVATE | MAP_ANONYMOUS;
    let at = unsafe { mmap(ptr::null_mut(), CODE_ENOUGH, PROT_READ | PROT_WRITE, anywhere, -1, 0) };
    if at as isize == -1 {
        return Err(format!("{name}: its page cannot be mapped").into());
    }
    Ok(at)
}

/// The code in its mapping, executable and no longer writable.
fn loaded(name: &str, code: &[u8], at: *mut u8) -> Outcome<PageFunction> {
    unsafe {
        ptr::copy_nonoverlapping(code.as_ptr(), at, code.len());
        if mprotect(at, CODE_ENOUGH, PROT_READ | PROT_EXEC) != 0 {
            return Err(format!("{name}: its page cannot be made executable").into());
        }
        Ok(std::mem::transmute::<*mut u8, PageFunction>(at))
    }
}

/// A filter, where it was read from, and its helpers' addresses.
struct Filter {
    name: String,
    program: Vec<u8>,
    addresses: [u64; 2],
}

impl Filter {
    fn new(name: String) -> Outcome<Filter> {
        let addresses = [is_subscribed_entry as *const () as u64, mix_entry as *const () as u64];
        Ok(Filter { program: read(&name)?, name, addresses })
    }

    fn helpers(&self) -> Helpers<'_> {
        Helpers { ids: &[1, 2], addresses: &self.addresses }
    }

    fn is_refused(&self, refusal: Refusal) -> String {
        format!("{} is refused: {refusal}", self.name)
    }
}

fn load(filter: &Filter, flags: Flags, perf_map: bool) -> Outcome<PageFunction> {
    let (mut page, mut text) = (Page::new(), [0; MAP_ENOUGH]);
    let Filter { name, program, .. } = filter;
    let at = mapping(name)?;
    let map = page.translate_mapped(program, flags, filter.helpers(), at as u64, &mut text);
    let map = map.map_err(|refusal| filter.is_refused(refusal))?;
    println!("{name}: {} slots, {} bytes of code", program.len() / 8, page.code().len());
    let function = loaded(name, page.code(), at)?;
    if perf_map {
        write_map(map)?;
    }
    Ok(function)
}

/// A raw page has the second argument in r2, as the model has the packet's
/// length there.
fn keeps(page: PageFunction, raw: bool, data: &[u8]) -> bool {
    let mut buffer = data.to_vec();
    buffer.resize(data.len() + RAW_LEAST, 0);
    let start = buffer.as_mut_ptr();
    let mut packet = Packet { data: start, data_end: unsafe { start.add(data.len()) } };
    let (mbuff, length) = if raw {
        (ptr::null_mut(), data.len())
    } else {
        (&mut packet as *mut Packet, size_of::<Packet>())
    };
    unsafe { page(mbuff, length, start, data.len(), 0, 0) != 0 }
}

/// A filter whose packets are run on the model too, and what came of it.
struct Comparison<'a> {
    filter: &'a Filter,
    model: Box<Model>,
    differ: usize,
    stopped: usize,
}

impl Comparison<'_> {
    fn compare(&mut self, packet: &[u8], keep: bool) -> Outcome<()> {
        let Filter { program, .. } = self.filter;
        let ran = self.model.run(program, self.filter.helpers(), CODE_ENOUGH, packet);
        let ended = ran.map_err(|refusal| self.filter.is_refused(refusal))?;
        match ended {
            Ended::Exit(_) => self.differ += (ended.is_kept() != keep) as usize,
            _ => self.stopped += 1,
        }
        Ok(())
    }
}

fn read(name: &str) -> Outcome<Vec<u8>> {
    Ok(std::fs::read(name).map_err(|error| format!("{name} cannot be read: {error}"))?)
}

fn number_at(bytes: &[u8], at: usize, swapped: bool) -> usize {
    let number = u32::from_le_bytes([bytes[at], bytes[at + 1], bytes[at + 2], bytes[at + 3]]);
    (if swapped { number.swap_bytes() } else { number }) as usize
}

/// The packets of a pcap, in either byte order.
fn packets(pcap: &[u8]) -> Outcome<Vec<&[u8]>> {
    let magic = if pcap.len() < FILE_HEADER { 0 } else { number_at(pcap, 0, false) };
    let swapped = match magic {
        0xa1b2_c3d4 | 0xa1b2_3c4d => false,
        0xd4c3_b2a1 | 0x4d3c_b2a1 => true,
        _ => return Err("it is no pcap".into()),
    };
    let (mut rest, mut found) = (&pcap[FILE_HEADER..], Vec::new());
    while !rest.is_empty() {
        let inside = "it ends inside a packet";
        if rest.len() < PACKET_HEADER {
            return Err(inside.into());
        }
        let length = number_at(rest, 8, swapped);
        rest = &rest[PACKET_HEADER..];
        found.push(rest.get(..length).ok_or(inside)?);
        rest = &rest[length..];
    }
    Ok(found)
}

/// Once over a pcap's packets, which are numbered from 1, as tcpdump and tshark
/// number them.
fn run_once(
    page: PageFunction,
    raw: bool,
    packets: &[&[u8]],
    shown: bool,
    mut model: Option<Comparison>,
) -> Outcome<()> {
    let (mut kept, mut bytes) = (0, 0);
    if shown {
        println!("packet  length  verdict");
    }
    for (at, packet) in packets.iter().enumerate() {
        let keep = keeps(page, raw, packet);
        if let Some(model) = &mut model {
            model.compare(packet, keep)?;
        }
        kept += keep as usize;
        bytes += if keep { packet.len() } else { 0 };
        if shown {
            println!("{:6}  {:6}  {}", at + 1, packet.len(), if keep { "kept" } else { "-" });
        }
    }
    if shown {
        println!("kept {kept} of {} packets, {bytes} bytes", packets.len());
    }
    if let Some(Comparison { differ, stopped, .. }) = model {
        println!("on the model {differ} verdicts differ, and {stopped} packets stop it");
    }
    Ok(())
}

/// The first time with the model, where there is one.
fn run(
    page: PageFunction,
    raw: bool,
    name: &str,
    times: usize,
    model: Option<Comparison>,
) -> Outcome<()> {
    let pcap = read(name)?;
    let packets = packets(&pcap).map_err(|why| format!("{name}: {why}"))?;
    run_once(page, raw, &packets, true, model)?;
    (1..times).try_for_each(|_| run_once(page, raw, &packets, false, None))
}

/// How often: a number from 1 up, of nine digits at the most.
fn times_of(word: &str) -> Option<usize> {
    let is_number = word.len() <= 9 && word.bytes().all(|byte| byte.is_ascii_digit());
    word.parse().ok().filter(|times| is_number && *times > 0)
}

/// What the loader is asked for.
struct Asked {
    flags: Flags,
    model: bool,
    perf_map: bool,
    times: usize,
    filter: String,
    pcap: String,
}

/// None where the words are no way to ask for anything.
fn asked(mut words: impl Iterator<Item = String>) -> Option<Asked> {
    let mut flags = Flags { use_mbuff: true, ..Flags::default() };
    let (mut model, mut perf_map, mut times) = (false, false, 1);
    let filter = loop {
        let word = words.next()?;
        match word.as_str() {
            "--raw" => flags.use_mbuff = false,
            "--standard" => flags.standard = true,
            "--compact" => flags.compact = true,
            "--model" => model = true,
            "--perf-map" => perf_map = true,
            "--times" => times = times_of(&words.next()?)?,
            _ => break word,
        }
    };
    let pcap = words.next()?;
    // The model is of standard mode, and r1 is the packet.
    let modelled = !flags.use_mbuff && flags.standard;
    let good = words.next().is_none() && (modelled || !model);
    good.then_some(Asked { flags, model, perf_map, times, filter, pcap })
}

fn load_and_run(asked: Asked) -> Outcome<()> {
    let Asked { flags, model, perf_map, times, filter, pcap } = asked;
    let filter = Filter::new(filter)?;
    let page = load(&filter, flags, perf_map)?;
    let model =
        model.then(|| Comparison { filter: &filter, model: Box::default(), differ: 0, stopped: 0 });
    run(page, !flags.use_mbuff, &pcap, times, model)
}

fn main() -> ExitCode {
    let Some(asked) = asked(std::env::args().skip(1)) else {
        eprintln!(
            "usage: loader [--raw] [--standard] [--compact] [--model] [--perf-map] [--times N] FILTER PCAP"
        );
        return 2.into();
    };
    match load_and_run(asked) {
        Ok(()) => 0.into(),
        Err(sentence) => {
            eprintln!("loader: {sentence}");
            1.into()
        }
    }
}

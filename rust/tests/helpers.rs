//! How a page enters its helpers, and that `helper_entry!` makes it right:
//! filters that call a helper outside local calls, inside one, and inside two,
//! by an address that is loaded as in rbpf, and by a compact constant.

mod mapping;

use std::arch::{asm, global_asm};
use std::hint::black_box;

use ndakoleem::{Flags, Helpers, Page};

use mapping::Mapping;

// RSP at its own entry: 8 modulo 16 by the calling convention.
global_asm!(".globl stack_pointer", "stack_pointer:", "mov rax, rsp", "ret");
extern "sysv64" {
    fn stack_pointer() -> u64;
}

/// MOVAPS wants so much.
#[repr(align(16))]
struct Kept([u64; 2]);

/// Stores to the stack with MOVAPS, and gives RSP at the entry of a function
/// that it calls. Anything wrong with the place, the value or the arguments
/// gives 1, which is no stack pointer.
extern "sysv64" fn stores(a: u64, b: u64, c: u64, d: u64, e: u64) -> u64 {
    let mut kept = Kept([a, b]);
    let at = black_box(&raw mut kept);
    let inside = unsafe {
        asm!("movaps xmm7, [{at}]", "movaps [{at}], xmm7", at = in(reg) at, out("xmm7") _);
        stack_pointer()
    };
    let good = at as usize % 16 == 0 && kept.0 == [1, 2] && (c, d, e) == (3, 4, 5);
    if good {
        inside
    } else {
        1
    }
}
ndakoleem::helper_entry!(stores_entry, stores);

/// As Rust compiles it: this one must not store, since it would crash.
extern "sysv64" fn plain() -> u64 {
    // Something is done behind the call, so that it is no jump.
    black_box(unsafe { stack_pointer() })
}

/// r1 to r5 are set to 1 to 5, then comes the helper's call, in the innermost
/// of so many functions.
fn filter(local_calls: usize) -> Vec<u8> {
    let exit = [0x95, 0, 0, 0, 0, 0, 0, 0];
    let mut program = [[0x85, 0x10, 0, 0, 1, 0, 0, 0], exit].concat().repeat(local_calls);
    program.extend((1..=5).flat_map(|number| [0xb7, number, 0, 0, number, 0, 0, 0]));
    program.extend([[0x85, 0, 0, 0, 7, 0, 0, 0], exit].concat());
    program
}

/// What the helper gives, modulo 16, inside no local call, one and two; the same
/// with compact constants.
fn called(helper: *const ()) -> [u64; 3] {
    let [rbpfs, compact] = [false, true].map(|compact| called_from(compact, helper));
    assert_eq!(rbpfs, compact);
    rbpfs
}

fn called_from(compact: bool, helper: *const ()) -> [u64; 3] {
    [0, 1, 2].map(|local_calls| {
        let helpers = Helpers { ids: &[7], addresses: &[helper as u64] };
        let flags = Flags { compact, ..Flags::default() };
        let mut page = Page::new();
        let code = page.translate(&filter(local_calls), flags, helpers).expect("accepted");
        let result = Mapping::of(code).function()(0, 0, [0].as_mut_ptr(), 0, 0, 0);
        result % 16
    })
}

#[test]
fn a_helper_is_entered_8_bytes_off() {
    assert_eq!(called(stack_pointer as *const ()), [0, 8, 0]);
}

#[test]
fn so_is_what_it_calls() {
    assert_eq!(called(plain as *const ()), [0, 8, 0]);
}

#[test]
fn an_entry_aligns_the_stack() {
    assert_eq!(called(stores_entry as *const ()), [8, 8, 8]);
}

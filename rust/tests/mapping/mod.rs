//! A page's code in an executable mapping of its own, for the tests that run it.

use ndakoleem::CODE_ENOUGH;

// What the C library has for mappings, on x86-64 Linux.
const PROT_READ_WRITE: i32 = 3;
const PROT_READ_EXEC: i32 = 5;
const MAP_PRIVATE_ANONYMOUS: i32 = 0x22;
extern "C" {
    fn mmap(
        at: *mut u8,
        length: usize,
        protection: i32,
        flags: i32,
        file: i32,
        offset: i64,
    ) -> *mut u8;
    fn mprotect(at: *mut u8, length: usize, protection: i32) -> i32;
    fn munmap(at: *mut u8, length: usize) -> i32;
}

/// r2 is the second argument.
pub type PageFunction = extern "sysv64" fn(usize, usize, *mut u8, usize, usize, usize) -> u64;

/// Unmapped when it is dropped.
pub struct Mapping(*mut u8);

impl Mapping {
    pub fn of(code: &[u8]) -> Mapping {
        unsafe {
            let none = std::ptr::null_mut();
            let at = mmap(none, CODE_ENOUGH, PROT_READ_WRITE, MAP_PRIVATE_ANONYMOUS, -1, 0);
            assert_ne!(at as isize, -1);
            at.copy_from_nonoverlapping(code.as_ptr(), code.len());
            assert_eq!(mprotect(at, CODE_ENOUGH, PROT_READ_EXEC), 0);
            Mapping(at)
        }
    }

    pub fn function(&self) -> PageFunction {
        unsafe { std::mem::transmute::<*mut u8, PageFunction>(self.0) }
    }
}

impl Drop for Mapping {
    fn drop(&mut self) {
        unsafe { munmap(self.0, CODE_ENOUGH) };
    }
}

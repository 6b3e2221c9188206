//! How a helper in Rust is entered.

/// Makes an entry for a helper: a function that aligns the stack and then calls
/// the helper. Its address goes into [`Helpers::addresses`](crate::Helpers).
///
/// A page calls its helpers with RSP 8 bytes off what the calling convention
/// says, and inside every other local call it is right (`docs/DIFFERENCES.md`,
/// A19, as in rbpf). A helper that is entered so crashes where it, or whatever
/// it calls, keeps an SSE value on the stack. The entry is right wherever it is
/// called from.
///
/// The helper is an `extern "sysv64" fn` that takes up to five `u64` and gives
/// one. The entry's name becomes a symbol of the program, so it has to be its
/// own.
///
/// ```
/// extern "sysv64" fn half(number: u64) -> u64 {
///     number / 2
/// }
/// ndakoleem::helper_entry!(half_entry, half);
///
/// let addresses = [half_entry as *const () as u64];
/// let helpers = ndakoleem::Helpers { ids: &[1], addresses: &addresses };
/// ```
#[macro_export]
macro_rules! helper_entry {
    ($vis:vis $entry:ident, $helper:path) => {
        ::core::arch::global_asm!(
            concat!(".globl ", stringify!($entry)),
            concat!(stringify!($entry), ":"),
            "push rbp",
            "mov rbp, rsp",
            "and rsp, -16",
            "call {helper}",
            "leave",
            "ret",
            helper = sym $helper,
        );
        extern "C" {
            $vis fn $entry();
        }
    };
}

//! What becomes of a panic: its file, line and words go to the output, and the sandbox traps at an `ebreak`.
use crate::Output;
use core::alloc::Layout;
use core::arch::asm;
use core::fmt::Write;
use core::panic::PanicInfo;

#[panic_handler]
fn panicked(info: &PanicInfo) -> ! {
    // Where the output has no room there is nobody to tell.
    let _ = writeln!(Output, "{}", info);
    // SAFETY: control doesn't come back from a trap.
    unsafe { asm!("ebreak", options(noreturn)) }
}

#[alloc_error_handler]
fn out_of_memory(layout: Layout) -> ! {
    panic!("no room for {} bytes", layout.size())
}

//! What a Rust program in a sandbox stands on: the gates, memory for `alloc`, and what becomes of a panic.
//!
//! A program is a file that begins with `#![no_std]` and `#![no_main]`, and has `sfi_guest::main!(run);` where `run` is
//! its first function, whose result is the exit code. Compiled for another machine than the sandboxes', the same program
//! reads standard input and writes standard output, and `std` has the memory.
#![no_std]
#![cfg_attr(target_arch = "riscv32", feature(alloc_error_handler))]

extern crate alloc;
#[cfg(not(target_arch = "riscv32"))]
extern crate std;

mod gates;
#[cfg(target_arch = "riscv32")]
mod memory;
mod output;
#[cfg(target_arch = "riscv32")]
mod panicking;

pub use gates::*;
pub use output::Output;

use alloc::vec::Vec;

/// The most bytes that one call of `get` or `put` takes.
pub const LONGEST: usize = 65536;

/// Why a word wasn't posted.
#[derive(Clone, Copy, PartialEq, Eq, Debug)]
pub enum NotPosted {
    /// The mailbox has as many words as it can hold.
    Full,
    /// There is no sandbox of that number.
    Nobody,
}

/// A word that was in the sandbox's mailbox, and the number of the sandbox that posted it.
#[derive(Clone, Copy, PartialEq, Eq, Debug)]
pub struct Message {
    pub word: u32,
    pub sender: u32,
}

/// The rest of the input.
pub fn rest_of_input() -> Vec<u8> {
    let mut input = Vec::new();
    let mut piece = [0; 256];
    loop {
        match get(&mut piece) {
            0 => return input,
            count => input.extend_from_slice(&piece[..count]),
        }
    }
}

/// Writes all bytes to the output, and says whether there was room for them.
pub fn put_all(bytes: &[u8]) -> bool {
    bytes.chunks(LONGEST).all(put)
}

/// Names the function that runs first: it has no parameters, and its result is the exit code.
#[macro_export]
macro_rules! main {
    ($function:path) => {
        #[no_mangle]
        pub extern "C" fn main() -> i32 {
            $function()
        }
    };
}

/// Writes text to the output, as `std`'s macro of this name.
#[macro_export]
macro_rules! print {
    ($($words:tt)*) => {
        $crate::Output.print(::core::format_args!($($words)*))
    };
}

/// Writes text and the end of its line to the output.
#[macro_export]
macro_rules! println {
    () => { $crate::print!("\n") };
    ($form:literal $($words:tt)*) => {
        $crate::print!("{}\n", ::core::format_args!($form $($words)*))
    };
}

//! Panics where the input's first byte says: at an index, at an overflow, without room, or with words of its own.
#![no_std]
#![no_main]

extern crate alloc;

use alloc::vec::Vec;
use sfi_guest::println;

fn run() -> i32 {
    let input = sfi_guest::rest_of_input();
    let numbers: Vec<u32> = (0..4).collect();
    println!("before");
    match input.first() {
        Some(b'i') => numbers[input.len() + 3] as i32,
        Some(b'o') => (i32::MAX - input.len() as i32)
            .checked_add(2)
            .expect("too large"),
        Some(b'm') => Vec::<u8>::with_capacity(1 << 24).capacity() as i32,
        Some(b'w') => panic!("{} bytes, {:?}", input.len(), numbers),
        _ => 0,
    }
}

sfi_guest::main!(run);

//! Packs its input at three levels by the crate miniz_oxide, and unpacks it again. The exit code is the number of levels at
//! which that gave other bytes.
#![no_std]
#![no_main]

use miniz_oxide::deflate::compress_to_vec_zlib;
use miniz_oxide::inflate::decompress_to_vec_zlib;
use sfi_guest::{println, put_all, rest_of_input};

const LEVELS: [u8; 3] = [1, 6, 9];

/// Whether packing keeps the input; what was packed goes to the output.
fn is_kept(input: &[u8], level: u8) -> bool {
    let packed = compress_to_vec_zlib(input, level);
    println!("level {level}: {} of {} bytes", packed.len(), input.len());
    put_all(&packed) && decompress_to_vec_zlib(&packed).map_or(false, |unpacked| unpacked == input)
}

fn run() -> i32 {
    let input = rest_of_input();
    LEVELS.iter().filter(|&&level| !is_kept(&input, level)).count() as i32
}

sfi_guest::main!(run);

//! Writes a grey picture of 64 columns, the bytes of its input, with each pixel the median of the nine around it.
#![no_std]
#![no_main]

extern crate alloc;

use alloc::vec;

const WIDTH: usize = 64;

fn median(mut nine: [u8; 9]) -> u8 {
    for place in 1..nine.len() {
        let mut hole = place;
        while hole > 0 && nine[hole - 1] > nine[hole] {
            nine.swap(hole - 1, hole);
            hole -= 1;
        }
    }
    nine[4]
}

/// The index of a neighbour, which at an edge is the pixel at the edge.
fn beside(index: usize, step: usize, length: usize) -> usize {
    (index + step).saturating_sub(1).min(length - 1)
}

fn filtered(picture: &[u8], height: usize, made: &mut [u8]) {
    for row in 0..height {
        for column in 0..WIDTH {
            let mut nine = [0; 9];
            for (place, pixel) in nine.iter_mut().enumerate() {
                *pixel = picture
                    [beside(row, place / 3, height) * WIDTH + beside(column, place % 3, WIDTH)];
            }
            made[row * WIDTH + column] = median(nine);
        }
    }
}

fn run() -> i32 {
    let picture = sfi_guest::rest_of_input();
    let height = picture.len() / WIDTH;
    let mut made = vec![0; height * WIDTH];
    filtered(&picture, height, &mut made);
    sfi_guest::put_all(&made);
    height as i32
}

sfi_guest::main!(run);

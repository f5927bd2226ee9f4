//! Tries what the other programs don't: words to itself, blocks that are freed and grown, and the low places of numbers.
#![no_std]
#![no_main]

extern crate alloc;

use alloc::boxed::Box;
use alloc::collections::{BTreeSet, VecDeque};
use alloc::format;
use alloc::rc::Rc;
use alloc::string::{String, ToString};
use alloc::vec::Vec;
use sfi_guest::{post, println, take, NotPosted};

/// More words than a mailbox has room for, and a sandbox that isn't there.
fn words() -> u32 {
    let posted = (0..20).filter(|&word| post(0, word * word).is_ok()).count();
    println!(
        "{} posted, {:?}, {}",
        posted,
        post(0, 0),
        post(100, 0) == Err(NotPosted::Nobody)
    );
    sfi_guest::yield_turn();
    let mut sum = 0;
    while let Some(message) = take() {
        sum += message.word + message.sender;
    }
    println!("{} taken, then {:?}", sum, take());
    sum
}

/// Far more memory than the heap has, if what is dropped weren't taken again.
fn blocks() -> u64 {
    let mut kept: VecDeque<Vec<u64>> = VecDeque::new();
    let mut sum = 0_u64;
    for turn in 0..400_u64 {
        let mut numbers = Vec::new();
        for number in 0..turn % 97 + 20 {
            numbers.push(number.wrapping_mul(0x9e37_79b9_7f4a_7c15) ^ turn);
        }
        numbers.shrink_to_fit();
        kept.push_back(numbers);
        if kept.len() > 12 {
            sum = kept
                .pop_front()
                .iter()
                .flatten()
                .fold(sum, |sum, number| sum.rotate_left(7).wrapping_add(*number));
        }
    }
    sum
}

#[repr(align(64))]
struct Aligned(u8);

trait Shape {
    fn area(&self) -> f64;
}

struct Circle(f64);
struct Square(f64);

impl Shape for Circle {
    fn area(&self) -> f64 {
        self.0 * self.0 * core::f64::consts::PI
    }
}

impl Shape for Square {
    fn area(&self) -> f64 {
        self.0 * self.0
    }
}

fn numbers() {
    let shapes: [Box<dyn Shape>; 3] = [
        Box::new(Circle(1.5)),
        Box::new(Square(-2.25)),
        Box::new(Circle(1e-9)),
    ];
    for shape in &shapes {
        println!("{} {:e} {:10.4}", shape.area(), shape.area(), shape.area());
    }
    println!(
        "{:?} {:?}",
        "3.0625e2".parse::<f64>(),
        "twelve".parse::<i32>().map_err(|error| error.to_string())
    );
    println!("{} {:?}", u128::MAX / 12345, i64::MIN.checked_div(-1));
    println!(
        "{:?}",
        (u64::MAX / 3).to_string().chars().rev().collect::<String>()
    );
    let shared = Rc::new(format!("{:08b}", 0x5a));
    let two = [Rc::clone(&shared), shared];
    println!("{:?} {}", two, Rc::strong_count(&two[0]));
    let letters: BTreeSet<char> = "what is sorted"
        .chars()
        .filter(|letter| letter.is_alphabetic())
        .collect();
    println!("{:#?}", letters.range('o'..).collect::<Vec<_>>());
    let aligned: Vec<Box<Aligned>> = (0..5).map(|number| Box::new(Aligned(number))).collect();
    println!(
        "{}",
        aligned
            .iter()
            .all(|block| (&**block as *const Aligned as usize) % 64 == 0 && block.0 < 5)
    );
}

fn run() -> i32 {
    let sum = words();
    println!("{:016x}", blocks());
    numbers();
    (sum % 251) as i32
}

sfi_guest::main!(run);

//! Runs the sandboxes of an image with the services of the console (docs/GATES.md), and prints what `sfi run` prints.
//!
//!     console IMAGE [ROUNDS [QUANTUM [INPUT]]]     # IMAGE holds the image's own bytes, INPUT is hexadecimal
use sfi_run::console::Console;
use sfi_run::{Event, Sandbox, World};
use std::error::Error;

/// What `sfi run` prints of a sandbox.
fn line(console: &mut Console, sandbox: &mut Sandbox) -> String {
    let state = match sandbox.event() {
        Event::Ready | Event::Call(_) | Event::Stopped => "ready".to_string(),
        Event::Exited(number) => format!("exit={number}"),
        Event::Trapped { cause, address } => format!("trap={cause:?} at={address:08x}"),
    };
    let (number, steps) = (sandbox.number(), sandbox.steps());
    let output = console.output(number);
    let digits: String = output.iter().map(|it| format!("{it:02x}")).collect();
    format!("sandbox={number} {state} steps={steps} out={digits}")
}

fn bytes_of(digits: &str) -> Result<Vec<u8>, Box<dyn Error>> {
    let pairs = digits.as_bytes().chunks(2);
    pairs
        .map(|it| Ok(u8::from_str_radix(std::str::from_utf8(it)?, 16)?))
        .collect()
}

fn main() -> Result<(), Box<dyn Error>> {
    let words: Vec<String> = std::env::args().collect();
    let word = |index: usize, absent: &str| words.get(index).cloned().unwrap_or(absent.to_string());
    let mut world = World::load(&std::fs::read(word(1, ""))?)?;
    let (rounds, quantum): (u32, u32) = (word(2, "1").parse()?, word(3, "1000").parse()?);
    let mut console = Console::new(world.len(), &bytes_of(&word(4, ""))?)?;
    for _ in 0..rounds {
        for number in 0..world.len() {
            console.turn(&mut world.sandbox(number).unwrap(), quantum)?;
        }
    }
    for number in 0..world.len() {
        println!(
            "{}",
            line(&mut console, &mut world.sandbox(number).unwrap())
        );
    }
    Ok(())
}

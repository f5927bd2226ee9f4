//! Calls a plug-in as a function: examples/run/turn.s turns a text round, and has the host put it into upper case.
//!
//!     function IMAGE TEXT ..
use sfi_run::{Call, CallError, Sandbox, World};
use std::error::Error;

const STEPS: u64 = 10_000; // of a call

fn upper(sandbox: &mut Sandbox, at: u32, length: u32) -> Result<u32, CallError> {
    let text = sandbox.read_vec(at, length)?.to_ascii_uppercase();
    sandbox.write(at, &text)?;
    Ok(length)
}

fn serve(sandbox: &mut Sandbox, call: Call) -> bool {
    let number = upper(sandbox, call.a0, call.a1).unwrap_or(u32::MAX);
    sandbox.reply(number, call.a1).is_ok()
}

/// Calls the function on a text, which gets what it makes of it. The number is the function's answer.
fn call(sandbox: &mut Sandbox, function: u32, text: &mut [u8]) -> Result<u32, Box<dyn Error>> {
    let at = sandbox.data().base;
    sandbox.write(at, text)?;
    let number = sandbox.call(function, &[at, text.len() as u32], STEPS, serve)?;
    sandbox.read(at, text)?;
    Ok(number)
}

fn main() -> Result<(), Box<dyn Error>> {
    let mut words = std::env::args().skip(1);
    let mut world = World::load(&std::fs::read(words.next().unwrap_or_default())?)?;
    let mut sandbox = world.sandbox(0).unwrap();
    let function = sandbox.registers().pc + 16; // the bundle after its start
    sandbox.serve(STEPS, |sandbox, call| sandbox.exit(call.a0).is_ok()); // at its start it exits
    for text in words {
        let mut text = text.into_bytes();
        let number = call(&mut sandbox, function, &mut text)?;
        println!("{} {number}", String::from_utf8_lossy(&text));
    }
    Ok(())
}

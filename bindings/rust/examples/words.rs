//! Calls functions of a plug-in in C: examples/run/words_plugin.c begins each word of a text with a capital letter, and asks
//! the host for its price. Then one is entered that never ends, and is cut off.
//!
//!     words IMAGE TEXT ..
use sfi_run::{Call, CallError, Event, Sandbox, World};
use std::error::Error;

const EXIT: u32 = 0;
const PRICE: u32 = 2;
const STEPS: u64 = 10_000; // of a call

fn serve(sandbox: &mut Sandbox, call: Call) -> bool {
    let replied = match call.service {
        EXIT => sandbox.exit(call.a0),
        PRICE => {
            let price = call.a0.wrapping_mul(10).wrapping_add(call.a1); // it chose both
            sandbox.reply(price, call.a1)
        }
        _ => sandbox.reply(u32::MAX, call.a1),
    };
    replied.is_ok()
}

fn returned(sandbox: &mut Sandbox) -> Result<u32, Box<dyn Error>> {
    match sandbox.serve(STEPS, serve) {
        Event::Exited(number) => Ok(number),
        event => Err(format!("the plug-in didn't return: {event:?}").into()),
    }
}

/// What the plug-in's table says. It may say anything: wrong addresses are errors of the calls.
struct Table {
    capitalize: u32,
    ask_forever: u32,
    text: u32,
    room: u32,
}

fn table(sandbox: &mut Sandbox) -> Result<Table, Box<dyn Error>> {
    let at = returned(sandbox)?; // main exits with its address
    let mut bytes = [[0; 4]; 4];
    for (place, word) in (0..).zip(&mut bytes) {
        sandbox.read(at.wrapping_add(4 * place), word)?;
    }
    let [capitalize, ask_forever, text, room] = bytes.map(u32::from_le_bytes);
    Ok(Table {
        capitalize,
        ask_forever,
        text,
        room,
    })
}

/// What the plug-in makes of a text, in its place; the number is its price.
fn capitalize(
    sandbox: &mut Sandbox,
    table: &Table,
    text: &mut [u8],
) -> Result<u32, Box<dyn Error>> {
    let length = text.len() as u32;
    if length > table.room {
        return Err(CallError::OutsideData.into());
    }
    sandbox.write(table.text, text)?;
    let number = sandbox.call(table.capitalize, &[table.text, length], STEPS, serve)?;
    sandbox.read(table.text, text)?;
    Ok(number)
}

fn main() -> Result<(), Box<dyn Error>> {
    let mut words = std::env::args().skip(1);
    let mut world = World::load(&std::fs::read(words.next().unwrap_or_default())?)?;
    let mut sandbox = world.sandbox(0).unwrap();
    let table = table(&mut sandbox)?;
    for text in words {
        let mut text = text.into_bytes();
        let number = capitalize(&mut sandbox, &table, &mut text)?;
        println!("{} {number}", String::from_utf8_lossy(&text));
    }
    sandbox.enter(table.ask_forever, &[0; 8])?;
    let ended = match sandbox.serve(STEPS, serve) {
        Event::Exited(_) => "exited",
        _ => "cut off",
    };
    println!("{ended} after {} steps", sandbox.steps());
    Ok(())
}

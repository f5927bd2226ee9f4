//! Two plug-ins exchange words through the host, and one of them doesn't end: examples/run/squares.s.
//!
//!     messages IMAGE [ROUNDS [QUANTUM]]
//!
//! Each round has a turn of each. When the first has exited, or the rounds are used, what still runs is cut off.
use sfi_run::{Call, Event, Sandbox, World};
use std::collections::VecDeque;
use std::error::Error;

const EXIT: u32 = 0;
const YIELD: u32 = 3;
const POST: u32 = 4;
const TAKE: u32 = 5;
const ROOM: usize = 16; // words that wait for one plug-in

type Mail = Vec<VecDeque<(u32, u32)>>;

fn post(mail: &mut Mail, from: u32, to: u32, word: u32) -> u32 {
    match mail.get_mut(to as usize) {
        Some(waiting) if waiting.len() < ROOM => {
            println!("{from} -> {to}: {word}");
            waiting.push_back((word, from + 1));
            0
        }
        _ => u32::MAX,
    }
}

/// Replies to a call. Whether the turn goes on.
fn serve(mail: &mut Mail, sandbox: &mut Sandbox, call: Call) -> bool {
    let me = sandbox.number();
    let (a0, a1) = match call.service {
        EXIT => return sandbox.exit(call.a0).is_err(),
        YIELD => (call.a0, call.a1),
        POST => (post(mail, me, call.a0, call.a1), call.a1),
        TAKE => mail[me as usize].pop_front().unwrap_or((0, 0)),
        _ => (u32::MAX, call.a1),
    };
    sandbox.reply(a0, a1).is_ok() && call.service != YIELD
}

fn main() -> Result<(), Box<dyn Error>> {
    let words: Vec<String> = std::env::args().collect();
    let number = |index: usize, absent: u64| words.get(index).map_or(Ok(absent), |it| it.parse());
    let (rounds, quantum) = (number(2, 20)?, number(3, 100)?);
    let mut world = World::load(&std::fs::read(words.get(1).map_or("", |it| it))?)?;
    let mut mail = vec![VecDeque::new(); world.len() as usize];
    for _ in 0..rounds {
        for number in 0..world.len() {
            world
                .sandbox(number)
                .unwrap()
                .serve(quantum, |sandbox, call| serve(&mut mail, sandbox, call));
        }
        if let Event::Exited(_) = world.sandbox(0).unwrap().event() {
            break;
        }
    }
    for number in 0..world.len() {
        let mut sandbox = world.sandbox(number).unwrap();
        match sandbox.event() {
            Event::Exited(code) => println!("{number} exited with {code}"),
            _ => println!("{number} is cut off after {} steps", sandbox.steps()),
        }
    }
    Ok(())
}

//! Tests of runs that another thread or a time ends, and of what runs leave that are cut short.
use sfi_run::{names, Call, Event, NotReturned, Sandbox, World};
use std::sync::atomic::{AtomicBool, Ordering};
use std::time::{Duration, Instant};
use std::{cell::Cell, thread};

mod common;
use common::built;

const SOON: Duration = Duration::from_millis(20);
const LOOPS: &str = "
.sandbox 4096
.gate tell 5
        la   s0, count
again:  lw   t0, 0(s0)
        addi t0, t0, 7
        sw   t0, 0(s0)
        andi a0, t0, 1023
        bnez a0, again
        mv   a0, t0
        call tell
        sw   a0, 4(s0)
        j    again
.data
count:  .word 0, 0
";

fn answers(sandbox: &mut Sandbox, call: Call) -> bool {
    sandbox.reply(call.a0.wrapping_mul(77), call.a1).is_ok()
}

/// Tries a call that never ends, and after it another one.
fn ends(set: impl FnOnce(&mut Sandbox), wanted: NotReturned) {
    let image = built(include_str!("../../calls.s"));
    let at = |name| names::export(&image, 0, name).unwrap();
    let mut world = World::load(&image).unwrap();
    let mut sandbox = world.sandbox(0).unwrap();
    sandbox.stop().unwrap();
    set(&mut sandbox);
    let spun = sandbox.call(at("spin"), &[7], u64::MAX, |_, _| false);
    assert_eq!(spun, Err(wanted));
    let parsed = sandbox.call(at("parse"), &[7], u64::MAX, answers);
    assert_eq!(parsed, Err(wanted), "the limit is the next call's, too");
    sandbox.set_interrupt(None);
    sandbox.set_deadline(None);
    assert_eq!(sandbox.call(at("get"), &[61], 100, |_, _| false), Ok(1061));
}

#[test]
fn another_thread_ends_a_call() {
    static STOP: AtomicBool = AtomicBool::new(false);
    let thread = thread::spawn(|| {
        thread::sleep(SOON);
        STOP.store(true, Ordering::Release);
    });
    ends(
        |sandbox| sandbox.set_interrupt(Some(&STOP)),
        NotReturned::Interrupted,
    );
    thread.join().unwrap();
}

#[test]
fn a_time_ends_a_call() {
    let before = Instant::now();
    ends(
        |sandbox| sandbox.set_deadline(Some(before + SOON)),
        NotReturned::TimedOut,
    );
    assert!(before.elapsed() >= SOON);
}

#[test]
fn a_handler_ends_the_call_that_it_serves() {
    let stop = AtomicBool::new(false);
    let image = built(include_str!("../../calls.s"));
    let sum_by = names::export(&image, 0, "sum_by").unwrap();
    let mut world = World::load(&image).unwrap();
    let mut sandbox = world.sandbox(0).unwrap();
    sandbox.stop().unwrap();
    sandbox.set_interrupt(Some(&stop));
    let calls = Cell::new(0);
    let summed = sandbox.call(sum_by, &[5], u64::MAX, |sandbox, call| {
        calls.set(calls.get() + 1);
        stop.store(calls.get() == 2, Ordering::Relaxed);
        answers(sandbox, call)
    });
    assert_eq!((summed, calls.get()), (Err(NotReturned::Interrupted), 2));
}

/// Runs a sandbox until it has done so many steps, unless it is cut.
fn run_to(sandbox: &mut Sandbox, end: u64) {
    let left = end - sandbox.steps();
    sandbox.serve(left, answers);
}

/// Has a sandbox do so many steps in runs that a time cuts, and the last one without it, so that all are done.
fn cut(sandbox: &mut Sandbox, steps: u64, runs: u32) {
    let end = sandbox.steps() + steps;
    for run in 0..runs {
        sandbox.set_deadline(Some(
            Instant::now() + Duration::from_micros(u64::from(run) * 40),
        ));
        run_to(sandbox, end);
    }
    sandbox.set_deadline(None);
    run_to(sandbox, end);
}

#[test]
fn runs_that_are_cut_go_on_as_one() {
    let image = built(LOOPS);
    let (mut first, mut second) = (World::load(&image).unwrap(), World::load(&image).unwrap());
    let (mut whole, mut pieces) = (first.sandbox(0).unwrap(), second.sandbox(0).unwrap());
    for steps in [1, 99_999, 100_000, 100_001, 3_000_000, 12_345_678] {
        whole.serve(steps, answers);
        cut(&mut pieces, steps, 20);
        let data = whole.data();
        let read = |it: &mut Sandbox| it.read_vec(data.base, data.size).unwrap();
        assert_eq!(whole.steps(), pieces.steps());
        assert_eq!(whole.registers(), pieces.registers());
        assert_eq!(read(&mut whole), read(&mut pieces));
        assert!(matches!(pieces.event(), Event::Ready | Event::Call(_)));
    }
}

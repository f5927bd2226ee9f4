//! Tests of calls of functions that don't return, and of 64 bits: bindings/calls.s is that of all languages' tests, which have
//! the same cases.
use sfi_run::{names, Call, Event, NotReturned, Sandbox, World};
use std::error::Error;
use std::fmt;

mod common;
use common::built;

const STEPS: u64 = 10_000;

/// A host's own error, or why a call didn't return.
#[derive(Debug, PartialEq)]
enum Failed {
    Unserved,
    Ended(NotReturned),
}

impl fmt::Display for Failed {
    fn fmt(&self, to: &mut fmt::Formatter<'_>) -> fmt::Result {
        write!(to, "{self:?}")
    }
}

impl Error for Failed {}

impl From<NotReturned> for Failed {
    fn from(why: NotReturned) -> Failed {
        Failed::Ended(why)
    }
}

struct Plugin {
    image: Vec<u8>,
    world: World,
}

impl Plugin {
    fn new() -> Plugin {
        let image = built(include_str!("../../calls.s"));
        let mut world = World::load(&image).unwrap();
        world.sandbox(0).unwrap().stop().unwrap();
        Plugin { image, world }
    }

    fn at(&self, name: &str) -> u32 {
        names::export(&self.image, 0, name).unwrap()
    }
}

/// The addresses of what the plug-in has.
#[derive(Clone, Copy)]
struct At {
    get: u32,
    noted: u32,
    parse: u32,
    sum_by: u32,
    wide: u32,
    wild: u32,
    spin: u32,
}

impl At {
    fn of(plugin: &Plugin) -> At {
        At {
            get: plugin.at("get"),
            noted: plugin.at("noted"),
            parse: plugin.at("parse"),
            sum_by: plugin.at("sum_by"),
            wide: plugin.at("wide"),
            wild: plugin.at("wild"),
            spin: plugin.at("spin"),
        }
    }
}

/// What a handler does to the sandbox, and whether it then answers that the run goes on.
#[derive(Clone, Copy, Debug, PartialEq)]
enum Does {
    Refuses,
    Fails,
    SaysNothing,
    Stops,
    Resets,
    EntersAnother,
    CallsAnother,
    SetsRegisters,
    CallsBackByHand,
}

fn handler(does: Does, at: At) -> impl FnMut(&mut Sandbox, Call) -> Result<bool, Failed> {
    move |sandbox, _| {
        match does {
            Does::Refuses => return Ok(false),
            Does::Fails => return Err(Failed::Unserved),
            Does::SaysNothing => {}
            Does::Stops => sandbox.stop().unwrap(),
            Does::Resets => sandbox.reset(),
            Does::EntersAnother => {
                sandbox.stop().unwrap();
                sandbox.enter(at.get, &[1; 8]).unwrap();
            }
            Does::CallsAnother => {
                sandbox.stop().unwrap();
                assert_eq!(sandbox.call(at.get, &[1], STEPS, |_, _| false), Ok(1001));
            }
            Does::SetsRegisters => {
                let registers = sandbox.registers();
                sandbox.set_registers(&registers).unwrap();
            }
            Does::CallsBackByHand => {
                sandbox.call_back(at.spin, &[0; 8]).unwrap();
            }
        }
        Ok(true)
    }
}

/// How a call of a function ends whose handler does that: by `call`, but where it fails.
fn ended(sandbox: &mut Sandbox, at: At, function: u32, does: Does) -> Failed {
    let mut serve = handler(does, at);
    if does == Does::Fails {
        return sandbox
            .try_call(function, &[7], STEPS, |sandbox, call| {
                serve(sandbox, call).map(|_| (0, 0))
            })
            .unwrap_err();
    }
    let called = sandbox.call(function, &[7], STEPS, |sandbox, call| {
        serve(sandbox, call).unwrap()
    });
    Failed::Ended(called.unwrap_err())
}

fn is_right(sandbox: &mut Sandbox, at: At) {
    assert_eq!(sandbox.call(at.get, &[61], STEPS, |_, _| false), Ok(1061));
    let answers = |sandbox: &mut Sandbox, call: Call| sandbox.reply(call.a0, 0).is_ok();
    assert_eq!(sandbox.call(at.sum_by, &[5], STEPS, answers), Ok(10));
}

fn noted(sandbox: &mut Sandbox, at: At) -> u32 {
    let bytes = sandbox.read_vec(at.noted, 4).unwrap();
    u32::from_le_bytes(bytes.try_into().unwrap())
}

/// What is called, what its handler does, and how that call ends.
fn cases(at: At) -> Vec<(u32, Does, Failed)> {
    let gone = || Failed::Ended(NotReturned::Gone);
    let trapped = NotReturned::Trapped {
        cause: sfi_run::Cause::Store,
        address: 0x017f_fffc,
    };
    vec![
        (at.parse, Does::Refuses, NotReturned::Refused.into()),
        (at.parse, Does::Fails, Failed::Unserved),
        (at.parse, Does::SaysNothing, NotReturned::Refused.into()),
        (at.parse, Does::Stops, NotReturned::Stopped.into()),
        (at.parse, Does::Resets, gone()),
        (at.parse, Does::EntersAnother, gone()),
        (at.parse, Does::CallsAnother, gone()),
        (at.parse, Does::SetsRegisters, gone()),
        (at.parse, Does::CallsBackByHand, gone()),
        (at.wild, Does::Refuses, trapped.into()),
        (at.spin, Does::Refuses, NotReturned::StepsUsed.into()),
    ]
}

#[test]
fn a_call_ends() {
    let at = At::of(&Plugin::new());
    for (function, does, wanted) in cases(at) {
        let mut plugin = Plugin::new();
        let mut sandbox = plugin.world.sandbox(0).unwrap();
        assert_eq!(ended(&mut sandbox, at, function, does), wanted, "{does:?}");
        let event = sandbox.event();
        assert!(
            !matches!(event, Event::Ready | Event::Call(_)),
            "{does:?}: {event:?}"
        );
        let left = if does == Does::Resets { 0 } else { 7 };
        assert_eq!(noted(&mut sandbox, at), left, "{does:?}");
        is_right(&mut sandbox, at);
    }
}

#[test]
fn a_call_back_ends() {
    let at = At::of(&Plugin::new());
    for (function, does, wanted) in cases(at) {
        let mut plugin = Plugin::new();
        let mut sandbox = plugin.world.sandbox(0).unwrap();
        let is_gone = wanted == Failed::Ended(NotReturned::Gone);
        let mut found = Vec::new();
        // the steps of what is called back count, too
        let sum = sandbox.call(at.sum_by, &[3], 2 * STEPS, |sandbox, call| {
            if call.a0 == 1 {
                let before = sandbox.registers();
                found.push(ended(sandbox, at, function, does));
                if !is_gone {
                    assert_eq!(sandbox.registers(), before, "{does:?}");
                    assert_eq!(noted(sandbox, at), 7, "{does:?}");
                    assert_eq!(sandbox.call(at.get, &[61], STEPS, |_, _| false), Ok(1061));
                }
            }
            let _ = sandbox.reply(call.a0, 0);
            true
        });
        let wanted_sum = if is_gone {
            Err(NotReturned::Gone)
        } else {
            Ok(3)
        };
        assert_eq!((sum, found), (wanted_sum, vec![wanted]), "{does:?}");
        is_right(&mut sandbox, at);
    }
}

#[test]
fn an_error_passes_through_calls_around_it() {
    let mut plugin = Plugin::new();
    let at = At::of(&plugin);
    let mut sandbox = plugin.world.sandbox(0).unwrap();
    let outer = sandbox.try_call(at.sum_by, &[3], STEPS, |sandbox, call| {
        sandbox
            .try_call(at.parse, &[call.a0], STEPS, |_, _| Err(Failed::Unserved))
            .map(|_| (0, 0))
    });
    assert_eq!((outer, noted(&mut sandbox, at)), (Err(Failed::Unserved), 2));
    is_right(&mut sandbox, at);
}

#[test]
fn no_frame_is_left() {
    let mut plugin = Plugin::new();
    let at = At::of(&plugin);
    let mut sandbox = plugin.world.sandbox(0).unwrap();
    for does in [Does::Refuses, Does::Fails, Does::SaysNothing] {
        for _ in 0..2000 {
            ended(&mut sandbox, at, at.parse, does);
        }
        is_right(&mut sandbox, at);
        let sum = sandbox.call(at.sum_by, &[5], 1 << 20, |sandbox, call| {
            for _ in 0..500 {
                ended(sandbox, at, at.parse, does);
            }
            sandbox.reply(call.a0, 0).is_ok()
        });
        assert_eq!(sum, Ok(10));
        is_right(&mut sandbox, at);
    }
}

#[test]
fn a_handler_that_panics() {
    let mut plugin = Plugin::new();
    let at = At::of(&plugin);
    let mut sandbox = plugin.world.sandbox(0).unwrap();
    let caught = std::panic::catch_unwind(std::panic::AssertUnwindSafe(|| {
        let _ = sandbox.call(at.parse, &[7], STEPS, |_, _| panic!("a handler's own"));
    }));
    assert!(caught.is_err());
    assert_eq!(sandbox.event(), Event::Stopped);
    is_right(&mut sandbox, at);
}

#[test]
fn what_cannot_be_called() {
    let mut plugin = Plugin::new();
    let at = At::of(&plugin);
    let mut sandbox = plugin.world.sandbox(0).unwrap();
    let refuses = |sandbox: &mut Sandbox, pc: u32, why: NotReturned| {
        let before = (sandbox.registers(), sandbox.event(), sandbox.steps());
        assert_eq!(sandbox.call(pc, &[1], STEPS, |_, _| false), Err(why));
        assert_eq!(
            (sandbox.registers(), sandbox.event(), sandbox.steps()),
            before
        );
    };
    refuses(&mut sandbox, 8, NotReturned::NoFunction);
    refuses(&mut sandbox, at.get + 2, NotReturned::NoFunction);
    sandbox.enter(at.spin, &[0; 8]).unwrap();
    refuses(&mut sandbox, at.get, NotReturned::Busy);
    sandbox.stop().unwrap();
    sandbox.enter(at.parse, &[3; 8]).unwrap();
    assert!(matches!(sandbox.turn(100), Event::Call(_)));
    refuses(&mut sandbox, 8, NotReturned::NoFunction);
    assert_eq!(sandbox.reply(0, 0), Ok(()));
}

#[test]
fn arguments_results_and_answers() {
    let mut plugin = Plugin::new();
    let at = At::of(&plugin);
    let mut sandbox = plugin.world.sandbox(0).unwrap();
    let none = |_: &mut Sandbox, _: Call| false;
    let wide = sandbox.call64(at.wide, &[1u32, 2], STEPS, none);
    assert_eq!(wide, Ok(0x2_0000_0001));
    let wide = sandbox.call64(at.wide, &[-2, i32::MIN], STEPS, none);
    assert_eq!(wide, Ok(0x8000_0000_ffff_fffe));
    assert_eq!(
        sandbox.call(at.wide, &[u32::MAX; 8], STEPS, none),
        Ok(u32::MAX)
    );
    let no_arguments: [u32; 0] = [];
    assert_eq!(sandbox.call(at.get, &no_arguments, STEPS, none), Ok(1000));
    let asked = sandbox.try_call(at.parse, &[6], STEPS, |_, call| {
        Ok::<_, NotReturned>((call.a0, 9))
    });
    assert_eq!(asked, Ok(0x9_0000_0006));
    let asked = sandbox.try_call(at.parse, &[6], STEPS, |sandbox, call| {
        sandbox.reply(call.a0, 8).unwrap(); // by itself: what it answers counts no more
        Ok::<_, NotReturned>((0, 0))
    });
    assert_eq!(asked, Ok(0x8_0000_0006));
    let asked = sandbox.call(at.parse, &[6], STEPS, |sandbox, _| sandbox.exit(5).is_ok());
    assert_eq!(asked, Ok(5));
    assert_eq!(
        NotReturned::Busy.to_string(),
        "the sandbox is in the midst of a run, which `turn` and `serve` go on with, and `stop` ends"
    );
}

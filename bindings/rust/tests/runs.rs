//! Tests of the crate. The addresses, registers and numbers that are wanted are those of docs/IMAGE.md and docs/GATES.md.
use sfi_run::modules::Module;
use sfi_run::{
    Call, CallError, Cause, ChangeError, Event, Finding, LoadError, NotReturned, Region, Sandbox,
    World,
};
mod common;
use common::{built, built_with};

const CODE: u32 = 0x0100_0000; // of the first sandbox
const DATA: u32 = 0x0180_0000;
// It posts twice what it has, and exits with the reply's a1.
const TWICE: &str = ".sandbox 4096
.gate exit 0
.gate post 4
        li   a0, 5
        add  a1, a0, a0
        call post
        mv   a0, a1
        call exit
";

fn word(number: u32) -> [u8; 4] {
    number.to_le_bytes()
}

/// The image of one sandbox of 256 bytes, whose code is 64 times ebreak.
fn smallest() -> Vec<u8> {
    let head = [1, CODE, 256, DATA, 256, CODE, 0, 0];
    let code = [0x0010_0073; 64];
    let words = head.into_iter().chain(code).flat_map(word);
    b"SFI1".iter().copied().chain(words).collect()
}

fn twice() -> World {
    World::load(&built(TWICE)).unwrap()
}

#[test]
fn what_is_not_accepted_is_not_loaded() {
    let image = smallest();
    // docs/IMAGE.md: 1 is the magic, 3 bytes that are cut short, 11 bytes that are left
    assert_eq!(World::load(b"SFI9").err(), Some(LoadError::NoImage(1)));
    assert_eq!(
        World::load(&image[..image.len() - 1]).err(),
        Some(LoadError::NoImage(3))
    );
    let longer = [&image[..], &[0]].concat();
    let trailing = World::load(&longer).err().unwrap();
    assert_eq!(trailing, LoadError::NoImage(11));
    assert_eq!(
        trailing.to_string(),
        "the bytes are no image: layout fault 11 Trailing"
    );
    let mut broken = image.clone();
    broken[36..40].copy_from_slice(&word(0x001c_0c13)); // addi x24, x24, 1
    broken[40..44].copy_from_slice(&word(0x001c_0c13));
    let refused = LoadError::Refused {
        findings: 2,
        first: Finding {
            sandbox: 0,
            address: CODE,
            rule: 4,
        },
    };
    assert_eq!(World::load(&broken).err(), Some(refused));
    assert_eq!(
        refused.to_string(),
        "rules are broken in the image: findings=2 first=V4 sandbox=0 at=01000000"
    );
    let mut world = World::load(&image).unwrap();
    assert_eq!(world.len(), 1);
    assert!(world.sandbox(1).is_none());
    let trapped = Event::Trapped {
        cause: Cause::Break,
        address: CODE,
    };
    assert_eq!(world.sandbox(0).unwrap().turn(1), trapped);
}

#[test]
fn the_beginning() {
    let mut world = twice();
    let mut sandbox = world.sandbox(0).unwrap();
    let mut wanted = [0; 32];
    (wanted[2], wanted[24], wanted[25], wanted[26], wanted[27]) =
        (DATA + 4080, CODE, 240, DATA, 4095);
    assert_eq!(sandbox.registers().x, wanted);
    assert_eq!(sandbox.registers().pc, CODE + 32); // after the stubs of two gates
    assert_eq!(
        (sandbox.data(), sandbox.event(), sandbox.steps()),
        (
            Region {
                base: DATA,
                size: 4096
            },
            Event::Ready,
            0
        )
    );
}

#[test]
fn a_call_gets_one_reply() {
    let mut world = twice();
    let mut sandbox = world.sandbox(0).unwrap();
    assert_eq!(sandbox.reply(1, 2), Err(CallError::NotWaiting));
    let told = sandbox.turn(1000);
    let steps = sandbox.steps();
    let call = Event::Call(Call {
        service: 4,
        a0: 5,
        a1: 10,
        more: [0; 6],
        gate: 1,
        pc: CODE + 16,
        steps,
    });
    assert_eq!(told, call);
    assert_eq!(
        (sandbox.turn(1000), sandbox.event(), sandbox.steps()),
        (call, call, steps)
    );
    assert_eq!(sandbox.reply(1, 77), Ok(()));
    assert_eq!(
        (sandbox.steps(), sandbox.event()),
        (steps + 1, Event::Ready)
    );
    assert_eq!(sandbox.reply(1, 77), Err(CallError::NotWaiting));
    assert_eq!(sandbox.exit(1), Err(CallError::NotWaiting));
    assert!(matches!(
        sandbox.turn(1000),
        Event::Call(Call {
            service: 0,
            a0: 77,
            ..
        })
    ));
    assert_eq!(sandbox.exit(77), Ok(()));
    assert_eq!(sandbox.event(), Event::Exited(77));
}

#[test]
fn stops_and_registers() {
    let mut world = twice();
    let mut sandbox = world.sandbox(0).unwrap();
    assert_eq!(sandbox.until(&[], 1), Event::Ready);
    let told = sandbox.until(&[0, CODE + 16], 1000);
    assert!(matches!(told, Event::Call(Call { service: 4, .. })));
    let kept = sandbox.registers();
    assert_eq!(
        sandbox.call_back(CODE + 2, &[5; 8]),
        Err(CallError::NotEntered)
    );
    assert_eq!(sandbox.call_back(CODE, &[5; 8]), Ok(kept));
    let there = sandbox.registers();
    assert_eq!((there.pc, there.x[2], there.x[17]), (CODE, kept.x[2], 5));
    assert_eq!(sandbox.stop(), Ok(()));
    assert_eq!(sandbox.set_registers(&kept), Ok(()));
    assert_eq!(sandbox.event(), told);
    let mut other = kept;
    other.x[26] += 1;
    assert_eq!(sandbox.set_registers(&other), Err(CallError::NotEntered));
    assert_eq!(sandbox.registers(), kept);
}

#[test]
fn data_and_entries() {
    let mut world = twice();
    let mut sandbox = world.sandbox(0).unwrap();
    let mut bytes = [9; 2];
    assert_eq!(
        sandbox.write(DATA + 4095, &[1, 2]),
        Err(CallError::OutsideData)
    );
    assert_eq!(sandbox.write(DATA + 254, &[1, 2]), Ok(()));
    assert_eq!(
        sandbox.read(DATA + 4095, &mut bytes),
        Err(CallError::OutsideData)
    );
    assert_eq!(bytes, [9; 2]);
    assert_eq!(sandbox.read_vec(DATA + 253, 3), Ok(vec![0, 1, 2]));
    assert_eq!(
        sandbox.read_vec(DATA, u32::MAX),
        Err(CallError::OutsideData)
    );
    assert_eq!(sandbox.write(CODE, &[0]), Err(CallError::OutsideData));
    let start = sandbox.registers().pc;
    let arguments = [1, 2, 3, 4, 5, 6, 7, 8];
    assert_eq!(sandbox.enter(start, &arguments), Err(CallError::NotEntered));
    sandbox.turn(1000);
    assert_eq!(sandbox.exit(3), Ok(()));
    assert_eq!(
        sandbox.enter(start + 4, &arguments),
        Err(CallError::NotEntered)
    );
    assert_eq!(sandbox.enter(start, &arguments), Ok(()));
    assert_eq!(sandbox.registers().x[10..18], arguments);
}

/// At its start it exits. sum returns the sum of its arguments, and asked the answer to a post of them.
const SUM: &str = ".sandbox 4096
.gate post 4
.gate exit 0
        call exit
sum:    add  a0, a0, a1
        ret
asked:  mv   s0, ra
        call post
        jr   s0
";

#[test]
fn functions_return() {
    let mut world = World::load(&built(SUM)).unwrap();
    let mut sandbox = world.sandbox(0).unwrap();
    let (sum, asked) = (CODE + 48, CODE + 64); // behind two gates and the start, each a bundle
    let (two, six) = ([2, 3, 0, 0, 0, 0, 0, 0], [6, 7, 0, 0, 0, 0, 0, 0]);
    let none = |_: &mut Sandbox, _: Call| false;
    assert_eq!(sandbox.call(sum, &two, 100, none), Err(NotReturned::Busy));
    sandbox.turn(100);
    sandbox.exit(0).unwrap();
    assert_eq!(sandbox.call(sum, &two, 100, none), Ok(5));
    let product = |sandbox: &mut Sandbox, call: Call| sandbox.reply(call.a0 * call.a1, 0).is_ok();
    assert_eq!(sandbox.call(asked, &six, 100, product), Ok(42));
    let unserved = sandbox.call(asked, &six, 100, none);
    assert_eq!(unserved, Err(NotReturned::Refused));
    let cut = sandbox.call(sum, &two, 1, none);
    assert_eq!(
        (cut, sandbox.event()),
        (Err(NotReturned::StepsUsed), Event::Stopped)
    );
}

/// The same steps, whatever the turns.
#[test]
fn served_turns_have_the_steps_that_were_given() {
    let mut ends = Vec::new();
    for most in [1, 2, 3, 7, 1000] {
        let mut world = twice();
        let mut sandbox = world.sandbox(0).unwrap();
        loop {
            let before = sandbox.steps();
            let event = sandbox.serve(most, |sandbox, call| match call.service {
                0 => sandbox.exit(call.a0).is_ok(),
                _ => sandbox.reply(0, 9).is_ok(),
            });
            assert!(sandbox.steps() - before <= most);
            if let Event::Exited(number) = event {
                ends.push((sandbox.steps(), number));
                break;
            }
        }
    }
    ends.dedup();
    assert_eq!(ends.len(), 1);
    assert_eq!(ends[0].1, 9);
}

#[test]
fn a_call_that_is_left() {
    let mut world = twice();
    let mut sandbox = world.sandbox(0).unwrap();
    for _ in 0..2 {
        assert!(matches!(
            sandbox.serve(1000, |_, _| true),
            Event::Call(Call { service: 4, .. })
        ));
    }
}

/// It calls once, and loops then.
const LOOPS: &str = ".sandbox 4096
.gate put 1
        li   a1, 7
        call put
on:     j    on
";

/// The budget of a turn holds whatever the closure does, also where it runs the sandbox itself.
#[test]
fn a_served_turn_keeps_its_budget() {
    for own in [0, 50, 99, 200] {
        let mut world = World::load(&built(LOOPS)).unwrap();
        let mut sandbox = world.sandbox(0).unwrap();
        let mut used = 0;
        let event = sandbox.serve(100, |sandbox, call| {
            sandbox.reply(0, call.a1).unwrap();
            sandbox.turn(own);
            used = sandbox.steps();
            true
        });
        assert!(used > u64::from(own)); // the reply is a step, too
        assert_eq!((event, sandbox.steps()), (Event::Ready, used.max(100)));
    }
}

#[test]
fn what_loops_is_stopped_and_entered_again() {
    let mut world = World::load(&built(LOOPS)).unwrap();
    let mut sandbox = world.sandbox(0).unwrap();
    let start = sandbox.registers().pc;
    assert!(matches!(sandbox.turn(100), Event::Call(_)));
    sandbox.reply(0, 0).unwrap();
    assert_eq!(sandbox.turn(100), Event::Ready);
    sandbox.write(DATA, &[7]).unwrap();
    let (steps, registers) = (sandbox.steps(), sandbox.registers());
    assert_eq!(sandbox.stop(), Ok(()));
    assert_eq!(sandbox.stop(), Err(CallError::NotRunning));
    assert_eq!(sandbox.turn(100), Event::Stopped);
    assert_eq!((sandbox.steps(), sandbox.registers()), (steps, registers));
    assert_eq!(sandbox.read_vec(DATA, 1), Ok(vec![7]));
    assert_eq!(sandbox.enter(start, &[0; 8]), Ok(()));
    assert!(matches!(sandbox.turn(100), Event::Call(_)));
    assert_eq!(sandbox.stop(), Ok(()));
    assert_eq!(sandbox.reply(0, 0), Err(CallError::NotWaiting));
}

#[test]
fn reset() {
    let mut world = World::load(&built(LOOPS)).unwrap();
    let mut sandbox = world.sandbox(0).unwrap();
    let first = (sandbox.registers(), sandbox.read_vec(DATA, 4096));
    assert!(matches!(sandbox.turn(100), Event::Call(_)));
    sandbox.write(DATA + 4095, &[7]).unwrap();
    sandbox.reset();
    assert_eq!((sandbox.registers(), sandbox.read_vec(DATA, 4096)), first);
    assert_eq!((sandbox.event(), sandbox.steps()), (Event::Ready, 0));
}

#[test]
fn a_call_that_is_kept_gets_no_second_reply() {
    let mut world = twice();
    let mut sandbox = world.sandbox(0).unwrap();
    let Event::Call(first) = sandbox.turn(1000) else {
        panic!()
    };
    assert_eq!(sandbox.reply_to(&first, 1, 77), Ok(()));
    let Event::Call(second) = sandbox.turn(1000) else {
        panic!()
    };
    assert_eq!(sandbox.reply_to(&first, 9, 9), Err(CallError::NotWaiting));
    assert_eq!(sandbox.event(), Event::Call(second));
    assert_eq!(sandbox.reply_to(&second, 1, 1), Ok(()));
}

/// A world goes from thread to thread, and several use it under a lock.
#[test]
fn threads() {
    use std::sync::{Arc, Mutex};
    let world = std::thread::spawn(|| World::load(&built(LOOPS)).unwrap());
    let mut world = world.join().unwrap();
    let mut sandbox = world.sandbox(0).unwrap();
    assert!(matches!(sandbox.turn(1000), Event::Call(_)));
    sandbox.reply(0, 0).unwrap();
    let before = sandbox.steps();
    let world = Arc::new(Mutex::new(world));
    let turns = (0..4).map(|_| {
        let world = Arc::clone(&world);
        std::thread::spawn(move || {
            for _ in 0..100 {
                let mut world = world.lock().unwrap();
                assert_eq!(world.sandbox(0).unwrap().turn(10), Event::Ready);
            }
        })
    });
    for thread in turns.collect::<Vec<_>>() {
        thread.join().unwrap();
    }
    let after = world.lock().unwrap().sandbox(0).unwrap().steps();
    assert_eq!(after, before + 4 * 100 * 10);
}

/// The worlds of a module are what the image's is, share nothing that changes, and outlive it in other threads.
#[test]
fn modules() {
    let image = built(LOOPS);
    let mut module = Module::new(&image).unwrap();
    let mut first = module.instance().unwrap();
    let mut loaded = World::load(&image).unwrap();
    let data = loaded.sandbox(0).unwrap().data();
    first.sandbox(0).unwrap().turn(1000);
    first.sandbox(0).unwrap().write(data.base, b"mine").unwrap();
    let mut second = module.instance().unwrap();
    for world in [&mut second, &mut loaded] {
        let mut sandbox = world.sandbox(0).unwrap();
        assert_eq!(
            (sandbox.steps(), sandbox.read_vec(data.base, 4).unwrap()),
            (0, vec![0; 4])
        );
    }
    let worlds: Vec<World> = (0..4).map(|_| module.instance().unwrap()).collect();
    drop(module);
    let threads = worlds.into_iter().map(|mut world| {
        std::thread::spawn(move || matches!(world.sandbox(0).unwrap().turn(1000), Event::Call(_)))
    });
    for thread in threads.collect::<Vec<_>>() {
        assert!(thread.join().unwrap());
    }
    assert_eq!(
        second.sandbox(0).unwrap().registers(),
        loaded.sandbox(0).unwrap().registers()
    );
    assert!(matches!(
        Module::new(&image[1..]),
        Err(LoadError::NoImage(1))
    ));
}

/// A module of it beside the usual places.
fn module_at(source: &str, place: u32) -> Module {
    let at = format!("{:08x}:{:08x}", CODE + place, DATA + place);
    Module::new(&built_with(source, &["--at", &at])).unwrap()
}

#[test]
fn sandboxes_come_and_go() {
    let mut other = module_at(TWICE, 0x10_0000);
    let mut near = module_at(TWICE, 0x1000); // data within the guard zone
    let mut world = twice();
    let told = world.sandbox(0).unwrap().turn(1000);
    assert_eq!(world.add(&mut near), Err(ChangeError::Meets));
    assert_eq!(world.add(&mut other), Ok(1));
    assert_eq!(world.add(&mut other), Err(ChangeError::Meets));
    assert_eq!((world.len(), world.sandbox(0).unwrap().event()), (2, told));
    let mut added = world.sandbox(1).unwrap();
    assert!(matches!(added.turn(1000), Event::Call(_)));
    added.reply(0, 8).unwrap();
    assert_eq!(world.remove(2), Err(ChangeError::NoSandbox));
    assert_eq!(world.remove(0), Ok(()));
    assert!(world.sandbox(1).is_none());
    let mut left = world.sandbox(0).unwrap();
    assert_eq!(left.data().base, DATA + 0x10_0000);
    assert!(matches!(
        left.turn(100),
        Event::Call(Call {
            service: 0,
            a0: 8,
            ..
        })
    ));
    assert_eq!(world.add(&mut near), Ok(1));
    assert_eq!((world.remove(1), world.remove(0)), (Ok(()), Ok(())));
    assert!(world.is_empty());
}

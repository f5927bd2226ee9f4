//! Tests of snapshots: a restored world goes on as the first one does, step by step, and what is no snapshot of an image is refused.
//! bindings/counts.s is that of all languages' tests.
use sfi_run::modules::Module;
use sfi_run::snapshots::{restore, take, NotTaken, WrongSnapshot};
use sfi_run::{CallError, Event, Region, Registers, Sandbox, World};
use std::{env, fs};

mod common;
use common::built;

const STEPS: usize = 400; // that both worlds do one by one
const HEAD: usize = 44; // bytes of a snapshot before its first sandbox
const COUNTS: &str = include_str!("../../counts.s");
const LOOPS: &str = "
.sandbox 4096
.gate put 1
        li   a1, 7
        call put
on:     j    on
";

/// What a sandbox is.
type State = (Event, Registers, u64, Region, Vec<u8>);

fn state(world: &mut World) -> Vec<State> {
    let of = |mut it: Sandbox| {
        let data = it.data();
        let bytes = it.read_vec(data.base, data.size).unwrap();
        (it.event(), it.registers(), it.steps(), data, bytes)
    };
    (0..world.len())
        .map(|number| of(world.sandbox(number).unwrap()))
        .collect()
}

/// A step of each sandbox, or an answer.
fn step(world: &mut World) {
    for number in 0..world.len() {
        let mut sandbox = world.sandbox(number).unwrap();
        if let Event::Call(call) = sandbox.turn(1) {
            match call.service {
                0 => sandbox.exit(call.a0),
                _ => sandbox.reply(call.a0.wrapping_mul(77).wrapping_add(call.a1), call.a1),
            }
            .unwrap();
        }
    }
}

/// A snapshot, taken as soon as each sandbox stands where it can be.
fn settled(world: &mut World, image: &[u8]) -> Vec<u8> {
    loop {
        match take(world, image) {
            Ok(snapshot) => return snapshot,
            Err(_) => step(world),
        }
    }
}

fn restored(image: &[u8], snapshot: &[u8]) -> Result<World, WrongSnapshot> {
    restore(World::load(image).unwrap(), image, snapshot)
}

fn go_on_alike(first: &mut World, second: &mut World) {
    assert_eq!(state(first), state(second));
    for _ in 0..STEPS {
        step(first);
        step(second);
        assert_eq!(state(first), state(second));
    }
}

#[test]
fn it_goes_on_as_the_first_would() {
    for line in ["", ".format 2\n", ".format words\n", ".format single\n"] {
        let image = built(&format!("{line}{COUNTS}"));
        let mut module = Module::new(&image).unwrap();
        let mut world = World::load(&image).unwrap();
        for steps in [0, 1, 37, 98, 151, 199] {
            (0..steps).for_each(|_| step(&mut world));
            let snapshot = settled(&mut world, &image);
            assert!(snapshot.starts_with(b"SNAP"));
            let before = state(&mut world);
            assert_eq!(take(&mut world, &image).as_ref(), Ok(&snapshot));
            assert_eq!(state(&mut world), before);
            let mut second = restore(module.instance().unwrap(), &image, &snapshot).unwrap();
            assert_eq!(take(&mut second, &image), Ok(snapshot));
            go_on_alike(&mut world, &mut second);
        }
    }
}

#[test]
fn each_way_to_stand() {
    type Way = fn(&mut Sandbox) -> Result<(), CallError>;
    let ways: [Way; 5] = [
        |_| Ok(()),
        |it| {
            it.turn(100);
            Ok(())
        },
        |it| {
            it.turn(100);
            it.exit(42)
        },
        |it| it.stop(),
        |it| {
            it.turn(100);
            it.stop()
        },
    ];
    let image = built(LOOPS);
    for way in ways {
        let mut world = World::load(&image).unwrap();
        way(&mut world.sandbox(0).unwrap()).unwrap();
        let snapshot = take(&mut world, &image).unwrap();
        let mut second = restored(&image, &snapshot).unwrap();
        go_on_alike(&mut world, &mut second);
    }
}

#[test]
fn a_call_waits_in_both_and_a_reset_forgets_the_steps() {
    let image = built(LOOPS);
    let mut world = World::load(&image).unwrap();
    assert!(matches!(
        world.sandbox(0).unwrap().turn(100),
        Event::Call(_)
    ));
    let snapshot = take(&mut world, &image).unwrap();
    let mut second = restored(&image, &snapshot).unwrap();
    for it in [&mut world, &mut second] {
        it.sandbox(0).unwrap().reply(1, 2).unwrap();
    }
    assert_eq!(state(&mut world), state(&mut second));
    for it in [&mut world, &mut second] {
        it.sandbox(0).unwrap().reset();
    }
    assert_eq!(state(&mut world), state(&mut second));
    assert_eq!(second.sandbox(0).unwrap().steps(), 0);
}

#[test]
fn steps_go_with_the_sandbox_where_another_is_removed() {
    let image = built(COUNTS);
    let mut world = World::load(&image).unwrap();
    (0..9).for_each(|_| step(&mut world));
    let snapshot = settled(&mut world, &image);
    let mut second = restored(&image, &snapshot).unwrap();
    for it in [&mut world, &mut second] {
        it.remove(0).unwrap();
    }
    assert_eq!(state(&mut world), state(&mut second));
}

#[test]
fn what_cannot_be_taken() {
    let image = built(".sandbox 4096\n nop\n nop\n ebreak\n");
    let mut world = World::load(&image).unwrap();
    world.sandbox(0).unwrap().turn(1);
    let before = state(&mut world);
    let within = NotTaken::Within {
        sandbox: 0,
        pc: before[0].1.pc,
    };
    assert_eq!(take(&mut world, &image), Err(within));
    assert!(within.to_string().contains("within a bundle"));
    assert_eq!(state(&mut world), before);
    world.sandbox(0).unwrap().turn(300);
    assert_eq!(take(&mut world, &image), Err(NotTaken::Trapped(0)));
}

/// The CRC-32 of ISO 3309, bit by bit.
fn sum(bytes: &[u8]) -> u32 {
    !bytes.iter().fold(u32::MAX, |sum, byte| {
        (0..8).fold(sum ^ u32::from(*byte), |sum, _| {
            sum >> 1 ^ if sum & 1 == 1 { 0xedb8_8320 } else { 0 }
        })
    })
}

/// With the right sum of what else it has.
fn resummed(mut snapshot: Vec<u8>) -> Vec<u8> {
    let end = snapshot.len() - 4;
    let right = sum(&snapshot[..end]).to_le_bytes();
    snapshot[end..].copy_from_slice(&right);
    snapshot
}

#[test]
fn another_image_changed_bytes_and_lengths() {
    let image = built(COUNTS);
    let snapshot = settled(&mut World::load(&image).unwrap(), &image);
    let other = built(&COUNTS.replace(".word 5", ".word 6"));
    let digest = snapshot[8..40].try_into().unwrap();
    let found = restored(&other, &snapshot).err();
    assert_eq!(found, Some(WrongSnapshot::OtherImage(digest)));
    let broken = Some(WrongSnapshot::Broken);
    for at in 0..snapshot.len() {
        let mut changed = snapshot.clone();
        changed[at] ^= 1 << (at % 8);
        assert_eq!(restored(&image, &changed).err(), broken);
        assert_eq!(restored(&image, &snapshot[..at]).err(), broken);
    }
    for length in 4..snapshot.len() {
        let found = restored(&image, &resummed(snapshot[..length].to_vec())).err();
        let wanted = [
            broken,
            Some(WrongSnapshot::OtherImage(image_of(&snapshot[..length]))),
        ];
        assert!(wanted.contains(&found), "{length}: {found:?}");
    }
    let longer = [&snapshot[..], &[0]].concat();
    assert_eq!(restored(&image, &longer).err(), broken);
    assert_eq!(restored(&image, &resummed(longer)).err(), broken);
}

/// Of which image a snapshot is that is cut and summed anew; zeros where it says none.
fn image_of(cut: &[u8]) -> [u8; 32] {
    let summed = resummed(cut.to_vec());
    summed
        .get(8..40)
        .map_or([0; 32], |it| it.try_into().unwrap())
}

#[test]
fn forged_words() {
    let image = built(COUNTS);
    let snapshot = settled(&mut World::load(&image).unwrap(), &image);
    let stands = WrongSnapshot::CannotStand(0);
    for (at, word, wanted) in [
        (0, 0, WrongSnapshot::Broken),
        (4, 2, WrongSnapshot::Broken),
        (40, 1, WrongSnapshot::Broken),
        (40, 99, WrongSnapshot::Broken),
        (HEAD, 4, stands),
        (HEAD, 9, stands),
        (HEAD, 2, stands),
        (HEAD, 3, stands),
        (HEAD + 8, 0x0100_0002, stands),
        (HEAD + 8, 0, stands),
        (HEAD + 12, 1, stands),
        (HEAD + 12 + 4 * 26, 5, stands),
        (HEAD + 12 + 4 * 24, 0, stands),
        (HEAD + 148, 0x0190_0000, WrongSnapshot::OtherSandboxes),
        (HEAD + 152, 511, WrongSnapshot::Broken),
        (HEAD + 152, u32::MAX, WrongSnapshot::Broken),
    ] {
        let mut forged = snapshot.clone();
        forged[at..at + 4].copy_from_slice(&u32::to_le_bytes(word));
        let found = restored(&image, &resummed(forged)).err();
        assert_eq!(found, Some(wanted), "{at}: {word}");
    }
}

#[test]
fn a_world_of_fewer_sandboxes() {
    let image = built(COUNTS);
    let mut world = World::load(&image).unwrap();
    let snapshot = settled(&mut world, &image);
    world.remove(1).unwrap();
    let found = restore(world, &image, &snapshot).err();
    assert_eq!(found, Some(WrongSnapshot::OtherSandboxes));
}

/// SFI_SNAPSHOT names a snapshot that another language took, and SFI_IMAGE the image.
#[test]
#[ignore = "examples/run/test.sh has such a snapshot"]
fn one_that_another_language_took() {
    let [image, snapshot] =
        ["SFI_IMAGE", "SFI_SNAPSHOT"].map(|it| fs::read(env::var_os(it).unwrap()).unwrap());
    let mut world = restored(&image, &snapshot).unwrap();
    assert_eq!(take(&mut world, &image), Ok(snapshot));
}

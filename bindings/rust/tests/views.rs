//! Tests of which engine a world has, and of the data of a native one, by examples/run/tally.s, which adds its argument to a word of
//! its data, at first 100. Worlds are native where SFI_RUN_LIBRARY is libsfi_run_native.a.
mod common;

use common::built;
use sfi_run::{Engine, Event, World};

const TALLY: &str = include_str!("../../../examples/run/tally.s");

fn has_native() -> bool {
    std::env::var("SFI_RUN_LIBRARY").is_ok_and(|it| it.ends_with("libsfi_run_native.a"))
}

#[test]
fn bytes_are_the_data() {
    let image = built(&TALLY.replace(".sandbox 256", ".sandbox 4096"));
    let mut world = World::load(&image).unwrap();
    if !has_native() {
        assert_eq!(world.engine(), Engine::Interpreter);
        assert!(world.sandbox(0).unwrap().bytes().is_none());
        return;
    }
    assert_eq!(world.engine(), Engine::Native);
    let mut sandbox = world.sandbox(0).unwrap();
    let data = sandbox.data();
    assert_eq!(sandbox.bytes().unwrap().len(), data.size as usize);
    assert_eq!(sandbox.bytes().unwrap()[..4], 100u32.to_le_bytes());
    sandbox.bytes().unwrap()[..4].copy_from_slice(&7u32.to_le_bytes());
    assert_eq!(sandbox.read_vec(data.base, 4), Ok(vec![7, 0, 0, 0]));
    sandbox.write(data.base + 3, &[1]).unwrap();
    let start = sandbox.registers().pc;
    sandbox.stop().unwrap();
    sandbox.enter(start, &[5; 8]).unwrap();
    let event = sandbox.serve(100, |sandbox, call| sandbox.exit(call.a0).is_ok());
    assert_eq!(event, Event::Exited(0x0100_000C));
    assert_eq!(sandbox.bytes().unwrap()[..4], [12, 0, 0, 1]);
}

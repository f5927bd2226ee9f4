//! Hands a plug-in numbers, of which it keeps a sum; at the word "new" it begins anew, as for another client.
//!
//!     tally IMAGE NUMBER|new ..    # IMAGE is that of examples/run/tally.s
use sfi_run::World;
use std::error::Error;

fn main() -> Result<(), Box<dyn Error>> {
    let mut words = std::env::args().skip(1);
    let mut world = World::load(&std::fs::read(words.next().unwrap_or_default())?)?;
    let mut plugin = world.sandbox(0).unwrap();
    let start = plugin.registers().pc;
    plugin.stop()?;
    for word in words {
        if word == "new" {
            plugin.reset();
            plugin.stop()?;
        } else {
            let number: u32 = word.parse()?;
            println!("{}", plugin.call(start, &[number], 1000, |_, _| false)?);
        }
    }
    Ok(())
}

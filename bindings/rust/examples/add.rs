//! Calls a function of a plug-in by its name: add IMAGE
use sfi_run::{names, World};

fn main() -> Result<(), Box<dyn std::error::Error>> {
    let image = std::fs::read(std::env::args().nth(1).unwrap_or_default())?;
    let mut world = World::load(&image)?;
    let mut plugin = world.sandbox(0).unwrap();
    plugin.stop()?;
    let add = names::export(&image, 0, "add")?;
    let sum = plugin.call(add, &[2, 3], 1000, |_, _| false)?;
    println!("{sum}");
    Ok(())
}

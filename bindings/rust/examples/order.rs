//! Calls both ways: order IMAGE, of examples/run/order_plugin.c. The plug-in's qsort sorts by a function of the host, which
//! calls a function of the plug-in while that call waits; and the host's sort goes by the same function of the plug-in.
use sfi_run::{names, Call, NotReturned, Sandbox, World};

const STEPS: u64 = 100_000;

fn print(items: &[u32]) {
    let texts: Vec<String> = items.iter().map(u32::to_string).collect();
    println!("{}", texts.join(" "));
}

fn main() -> Result<(), Box<dyn std::error::Error>> {
    let image = std::fs::read(std::env::args().nth(1).unwrap_or_default())?;
    let mut world = World::load(&image)?;
    let mut plugin = world.sandbox(0).unwrap();
    let [numbers, sort, digit] =
        ["numbers", "sort", "digit"].map(|name| names::export(&image, 0, name));
    let (numbers, sort, digit) = (numbers?, sort?, digit?);
    let compare = names::import(&image, 0, "compare")?;
    let digit_of = |plugin: &mut Sandbox, number: u32| -> Result<u32, NotReturned> {
        plugin.call(digit, &[number], STEPS, |_, _| false)
    };
    let serve = |plugin: &mut Sandbox, call: Call| -> Result<(u32, u32), NotReturned> {
        if call.pc != compare {
            return Err(NotReturned::Refused);
        }
        let order = digit_of(plugin, call.a0)?.wrapping_sub(digit_of(plugin, call.a1)?);
        Ok((order, call.a1))
    };
    let mut items = [17u32, 42, 93, 28, 5, 61];
    plugin.stop()?;
    plugin.write(numbers, &items.map(u32::to_le_bytes).concat())?;
    plugin.try_call(sort, &[items.len() as u32], STEPS, serve)?;
    let sorted = plugin.read_vec(numbers, 24)?;
    print(
        &sorted
            .chunks_exact(4)
            .map(|word| u32::from_le_bytes(word.try_into().unwrap()))
            .collect::<Vec<_>>(),
    );
    items.sort_by_key(|&number| digit_of(&mut plugin, number).unwrap_or_default());
    print(&items);
    Ok(())
}

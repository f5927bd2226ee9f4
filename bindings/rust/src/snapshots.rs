//! Snapshots: the sandboxes of a world as bytes, and a world again that goes on as that would have.
//!
//! ```no_run
//! use sfi_run::{snapshots, World};
//!
//! let image = std::fs::read("hi.image")?;
//! let mut world = World::load(&image)?;
//! let kept = snapshots::take(&mut world, &image)?;
//! let again = snapshots::restore(World::load(&image)?, &image, &kept)?;
//! # Ok::<(), Box<dyn std::error::Error>>(())
//! ```
//!
//! A snapshot has the data, registers and steps of each sandbox, and how it stands; what a [`Console`](crate::console::Console)
//! keeps isn't in it. It is restored by the calls that every host has: so whatever the bytes are, each sandbox stays in its own
//! data. Who can write a snapshot decides what its sandboxes' data are and where their code goes on, and no more. The bytes are those of
//! sfi_run_snapshot.h, which says what they mean.
use crate::sums::{crc32, sha256};
use crate::{CallError, Event, Region, Registers, Sandbox, World};
use std::error::Error;
use std::fmt;

const MAGIC: &[u8] = b"SNAP";
const VERSION: u32 = 1;
const SUM: usize = 4;
/// How a sandbox stands, by the numbers of sfi_run.h.
const READY: u32 = 1;
const CALL: u32 = 2;
const EXITED: u32 = 3;
const STOPPED: u32 = 5;

/// Why no snapshot of a world is taken now. It is taken after some more steps, or at the next call.
#[derive(Clone, Copy, Debug, PartialEq, Eq)]
pub enum NotTaken {
    /// The sandbox of that number has trapped.
    Trapped(u32),
    /// It stands within a bundle, or in words between the steps of an address, where no host may have it go on.
    Within {
        /// Its number.
        sandbox: u32,
        /// Where it stands.
        pc: u32,
    },
}

/// Why no world is restored.
#[derive(Clone, Copy, Debug, PartialEq, Eq)]
pub enum WrongSnapshot {
    /// The bytes are no whole snapshot of this version.
    Broken,
    /// They are a snapshot of another image, which has this SHA-256.
    OtherImage([u8; 32]),
    /// They have other sandboxes than the world.
    OtherSandboxes,
    /// The sandbox of that number can't stand as they say.
    CannotStand(u32),
}

impl fmt::Display for NotTaken {
    fn fmt(&self, to: &mut fmt::Formatter<'_>) -> fmt::Result {
        match self {
            NotTaken::Trapped(sandbox) => write!(to, "sandbox {sandbox} has trapped"),
            NotTaken::Within { sandbox, pc } => write!(
                to,
                "sandbox {sandbox} stands at {pc:08x}, within a bundle or the steps of an address"
            ),
        }
    }
}

impl fmt::Display for WrongSnapshot {
    fn fmt(&self, to: &mut fmt::Formatter<'_>) -> fmt::Result {
        match self {
            WrongSnapshot::Broken => {
                to.write_str("the bytes are no whole snapshot of this version")
            }
            WrongSnapshot::OtherImage(digest) => {
                to.write_str("it is a snapshot of another image, whose SHA-256 is ")?;
                digest.iter().try_for_each(|byte| write!(to, "{byte:02x}"))
            }
            WrongSnapshot::OtherSandboxes => {
                to.write_str("its sandboxes aren't those of the world")
            }
            WrongSnapshot::CannotStand(sandbox) => {
                write!(to, "sandbox {sandbox} can't stand as it says")
            }
        }
    }
}

impl Error for NotTaken {}
impl Error for WrongSnapshot {}

/// What a snapshot has of a sandbox.
struct Taken {
    kind: u32,
    /// With which it exited, or else 0.
    number: u32,
    registers: Registers,
    steps: u64,
    region: Region,
    data: Vec<u8>,
}

/// How a sandbox stands, as a number, and that with which it exited or 0; nothing where it has trapped.
fn kind_of(event: Event) -> Option<(u32, u32)> {
    match event {
        Event::Ready => Some((READY, 0)),
        Event::Call(_) => Some((CALL, 0)),
        Event::Exited(number) => Some((EXITED, number)),
        Event::Stopped => Some((STOPPED, 0)),
        Event::Trapped { .. } => None,
    }
}

/// Whether a host may have a sandbox go on with the registers that it has. Nothing changes.
fn goes_on(sandbox: &mut Sandbox, kind: u32, registers: &Registers) -> bool {
    kind == EXITED // it stands at the call by which it exited
        || sandbox.set_registers(registers).is_ok() && (kind != STOPPED || sandbox.stop().is_ok())
}

impl Taken {
    fn of(sandbox: &mut Sandbox) -> Result<Taken, NotTaken> {
        let (registers, region) = (sandbox.registers(), sandbox.data());
        let trapped = NotTaken::Trapped(sandbox.number());
        let (kind, number) = kind_of(sandbox.event()).ok_or(trapped)?;
        if !goes_on(sandbox, kind, &registers) {
            return Err(NotTaken::Within {
                sandbox: sandbox.number(),
                pc: registers.pc,
            });
        }
        let mut data = vec![0; region.size as usize];
        sandbox
            .read(region.base, &mut data)
            .expect("the region is that of its data");
        Ok(Taken {
            kind,
            number,
            registers,
            steps: sandbox.steps(),
            region,
            data,
        })
    }

    fn put(&self, to: &mut Vec<u8>) {
        let mut words = vec![self.kind, self.number, self.registers.pc];
        words.extend(self.registers.x);
        to.extend(words.into_iter().flat_map(u32::to_le_bytes));
        to.extend(self.steps.to_le_bytes());
        to.extend(
            [self.region.base, self.region.size]
                .into_iter()
                .flat_map(u32::to_le_bytes),
        );
        to.extend(&self.data);
    }

    /// That with which the bytes begin, which are cut there.
    fn parsed(from: &mut &[u8]) -> Option<Taken> {
        let (kind, number) = (word(from)?, word(from)?);
        let mut registers = Registers {
            pc: word(from)?,
            x: [0; 32],
        };
        for register in &mut registers.x {
            *register = word(from)?;
        }
        let steps = u64::from(word(from)?) | u64::from(word(from)?) << 32;
        let region = Region {
            base: word(from)?,
            size: word(from)?,
        };
        Some(Taken {
            kind,
            number,
            registers,
            steps,
            region,
            data: cut(from, region.size as usize)?.to_vec(),
        })
    }

    /// Has a new sandbox stand as that did. Whether it can.
    fn put_back(&self, sandbox: &mut Sandbox) -> Result<bool, CallError> {
        sandbox.write(self.region.base, &self.data)?;
        sandbox.set_registers(&self.registers)?;
        match self.kind {
            EXITED => sandbox.exit(self.number)?,
            STOPPED => sandbox.stop()?,
            _ => {}
        }
        sandbox.count_steps_from(self.steps);
        let kind = kind_of(sandbox.event()).map(|(kind, _)| kind);
        Ok(kind == Some(self.kind) && sandbox.registers() == self.registers)
    }
}

/// The first bytes, so many, which are cut off.
fn cut<'bytes>(from: &mut &'bytes [u8], count: usize) -> Option<&'bytes [u8]> {
    let first = from.get(..count)?;
    *from = &from[count..];
    Some(first)
}

fn word(from: &mut &[u8]) -> Option<u32> {
    cut(from, 4)?.try_into().ok().map(u32::from_le_bytes)
}

/// Takes a snapshot of a world of that image, in which nothing changes.
pub fn take(world: &mut World, image: &[u8]) -> Result<Vec<u8>, NotTaken> {
    let mut bytes = [MAGIC, &VERSION.to_le_bytes(), &sha256(image)].concat();
    bytes.extend(world.len().to_le_bytes());
    for number in 0..world.len() {
        if let Some(mut sandbox) = world.sandbox(number) {
            Taken::of(&mut sandbox)?.put(&mut bytes);
        }
    }
    bytes.extend(crc32(&bytes).to_le_bytes());
    Ok(bytes)
}

/// What a snapshot has of each sandbox of the image with that SHA-256.
fn parsed(snapshot: &[u8], digest: [u8; 32]) -> Result<Vec<Taken>, WrongSnapshot> {
    let broken = WrongSnapshot::Broken;
    let end = snapshot.len().checked_sub(SUM).ok_or(broken)?;
    let (mut from, mut sum) = snapshot.split_at(end);
    if word(&mut sum) != Some(crc32(from))
        || cut(&mut from, MAGIC.len()) != Some(MAGIC)
        || word(&mut from) != Some(VERSION)
    {
        return Err(broken);
    }
    let found = cut(&mut from, digest.len()).and_then(|it| it.try_into().ok());
    let found: [u8; 32] = found.ok_or(broken)?;
    if found != digest {
        return Err(WrongSnapshot::OtherImage(found));
    }
    let count = word(&mut from).ok_or(broken)?;
    let taken: Option<Vec<Taken>> = (0..count).map(|_| Taken::parsed(&mut from)).collect();
    taken.filter(|_| from.is_empty()).ok_or(broken)
}

/// Has the sandboxes of a world, which was just made of that image, stand as those of a snapshot did. On an error the world is
/// dropped.
pub fn restore(mut world: World, image: &[u8], snapshot: &[u8]) -> Result<World, WrongSnapshot> {
    let taken = parsed(snapshot, sha256(image))?;
    if taken.len() != world.len() as usize {
        return Err(WrongSnapshot::OtherSandboxes);
    }
    for (number, it) in (0..).zip(&taken) {
        let other = WrongSnapshot::OtherSandboxes;
        let mut sandbox = world.sandbox(number).ok_or(other)?;
        if sandbox.data() != it.region {
            return Err(other);
        }
        if it.put_back(&mut sandbox) != Ok(true) {
            return Err(WrongSnapshot::CannotStand(number));
        }
    }
    Ok(world)
}

//! Runs sandboxes of untrusted RISC-V code, by Suygapid's proved library.
//!
//! An image is checked and loaded into a [`World`], its sandboxes get turns, and where one calls a gate the program is
//! handed the call, serves it, and replies:
//!
//! ```no_run
//! use sfi_run::{Event, World};
//!
//! let image = std::fs::read("hi.image")?;
//! let mut world = World::load(&image)?;
//! let mut sandbox = world.sandbox(0).unwrap();
//! while let Event::Call(call) = sandbox.turn(10_000) {
//!     match call.service {
//!         0 => sandbox.exit(call.a0)?,
//!         _ => sandbox.reply(call.a1, call.a1)?,
//!     }
//! }
//! println!("{:?} after {} steps", sandbox.event(), sandbox.steps());
//! # Ok::<(), Box<dyn std::error::Error>>(())
//! ```
//!
//! Whatever the sandbox does, and whatever is written, entered and replied, it reads and writes its own data alone. What it
//! leaves there, and passes in a call, may be any bytes and numbers at all: test them before you rely on them.
#![deny(missing_docs)]
#![allow(unknown_lints, unexpected_cfgs)] // build.rs sets `native`
use std::ptr;

mod calls;
pub mod console;
mod errors;
mod limits;
pub mod modules;
pub mod names;
pub mod sizes;
pub mod snapshots;
mod sums;
mod sys;
pub mod values;
mod views;
pub use calls::{Argument, NotReturned};
pub use errors::{CallError, ChangeError, Finding, LoadError};
pub use sys::{Region, Registers};

/// Why a sandbox trapped. Accepted code never meets the first two.
#[derive(Clone, Copy, Debug, PartialEq, Eq)]
pub enum Cause {
    /// A byte of the instruction isn't there.
    Fetch,
    /// The bytes are no instruction.
    Illegal,
    /// `ebreak`.
    Break,
    /// A load in a guard zone.
    Load,
    /// A store there.
    Store,
}

/// A call of a gate, at which a sandbox stands.
#[derive(Clone, Copy, Debug, PartialEq, Eq)]
pub struct Call {
    /// The gate's service.
    pub service: u32,
    /// The first argument.
    pub a0: u32,
    /// The second argument.
    pub a1: u32,
    /// The other arguments, a2 to a7.
    pub more: [u32; 6],
    /// The gate's place among the sandbox's gates, 0 to 63.
    pub gate: u32,
    /// The gate's address.
    pub pc: u32,
    /// How many steps the sandbox had done when it came to this call: a reply is a step, so no later call has as few, unless
    /// the sandbox is entered or its registers are set.
    pub steps: u64,
}

/// How a sandbox stands.
#[derive(Clone, Copy, Debug, PartialEq, Eq)]
pub enum Event {
    /// It can take a turn, and doesn't stand at a call.
    Ready,
    /// It stands at a call, and waits for a reply.
    Call(Call),
    /// It has stopped, by [`Sandbox::exit`] with this number.
    Exited(u32),
    /// It has stopped, at an instruction that trapped.
    Trapped {
        /// Why.
        cause: Cause,
        /// The address of the access, or else the pc.
        address: u32,
    },
    /// It has stopped, by [`Sandbox::stop`].
    Stopped,
}

impl Event {
    fn of(raw: &sys::Event, steps: impl FnOnce() -> u64) -> Event {
        match raw.kind {
            1 => Event::Ready,
            2 => Event::Call(Call {
                service: raw.number,
                a0: raw.a[0],
                a1: raw.a[1],
                more: std::array::from_fn(|place| raw.a[place + 2]),
                gate: raw.gate,
                pc: raw.pc,
                steps: steps(),
            }),
            3 => Event::Exited(raw.number),
            4 => Event::Trapped {
                cause: Cause::of(raw.number),
                address: raw.a[0],
            },
            5 => Event::Stopped,
            kind => {
                unreachable!("a sandbox of the world, and a library of this version: kind {kind}")
            }
        }
    }
}

impl Cause {
    fn of(number: u32) -> Cause {
        match number {
            1 => Cause::Fetch,
            2 => Cause::Illegal,
            3 => Cause::Break,
            4 => Cause::Load,
            5 => Cause::Store,
            _ => unreachable!("a library of this version: cause {number}"),
        }
    }
}

/// The sandboxes of an image, to which those of others may be added. It is freed when it is dropped. It may go from thread to thread; since each call borrows it
/// alone, one call at a time uses it, as the library asks:
///
/// ```
/// fn sends(world: sfi_run::World) {
///     std::thread::spawn(move || drop(world)).join().unwrap();
/// }
/// ```
///
/// In the forked child of a process that had threads no call may be made, nor a world dropped.
pub struct World {
    raw: sys::World,
    /// Of each sandbox, how many steps it had done where it was restored, less those that the library counts since.
    before: Vec<u64>,
}

// SAFETY: the library keeps nothing of a thread's own, and lets any thread make a call, one at a time. That is proved of what
// the pointer leads to (`Send` of `HeldWorld` in crates/sfi_run).
unsafe impl Send for World {}

impl World {
    /// Checks an image's own bytes, and makes the world of its sandboxes, each ready at its start.
    pub fn load(image: &[u8]) -> Result<World, LoadError> {
        let mut raw = sys::World {
            held: 0,
            at: ptr::null_mut(),
        };
        // SAFETY: the bytes can be read, a world of zeros is none, and the verdict can be written.
        LoadError::of(|verdict| unsafe {
            sys::sfi_run_load(image.as_ptr(), image.len(), &mut raw, verdict)
        })?;
        Ok(World::of(raw))
    }

    /// That of a world that is there.
    fn of(mut raw: sys::World) -> World {
        // SAFETY: nothing else uses it.
        let before = vec![0; unsafe { sys::sfi_run_count(&mut raw) }];
        World { raw, before }
    }

    /// Adds the sandboxes of a module, beside those that are there, of which nothing changes: each ready at its start, with the
    /// numbers from the answer on. On an error nothing changes. A console has to be made anew.
    pub fn add(&mut self, module: &mut modules::Module) -> Result<u32, ChangeError> {
        let mut first = 0;
        // SAFETY: nothing else uses the world and the module during the call.
        let status = unsafe { sys::sfi_run_add(&mut self.raw, &mut module.raw, &mut first) };
        changed(status)?;
        // SAFETY: as above.
        self.before
            .resize(unsafe { sys::sfi_run_count(&mut self.raw) }, 0);
        Ok(first)
    }

    /// Removes a sandbox, whatever it did: what it had is gone, and each one of a higher number has a number less by one then, as
    /// [`Vec::remove`] has it: do the same to what you keep of each. Nothing else of them changes, and on an error nothing does.
    /// A console has to be made anew.
    pub fn remove(&mut self, number: u32) -> Result<(), ChangeError> {
        // SAFETY: nothing else uses the world.
        changed(unsafe { sys::sfi_run_remove(&mut self.raw, number) })?;
        self.before.remove(number as usize);
        Ok(())
    }

    /// How many sandboxes there are: of one image 1 to 16.
    pub fn len(&self) -> u32 {
        self.before.len() as u32
    }

    /// How its sandboxes run. They do by native code where the crate is linked with libsfi_run_native.a (`SFI_RUN_LIBRARY`), on Linux
    /// on x86-64, and the data of each are whole pages.
    pub fn engine(&self) -> Engine {
        #[cfg(native)]
        // SAFETY: the call only looks.
        if unsafe { sys::sfi_run_engine(&self.raw) } == NATIVE {
            return Engine::Native;
        }
        Engine::Interpreter
    }

    /// Whether all sandboxes were removed.
    pub fn is_empty(&self) -> bool {
        self.before.is_empty()
    }

    /// A sandbox by its number from 0, or none where there is no such one.
    pub fn sandbox(&mut self, number: u32) -> Option<Sandbox<'_>> {
        Some(Sandbox {
            world: &mut self.raw,
            before: self.before.get_mut(number as usize)?,
            number,
            stands: Stands::default(),
            limit: limits::Limit::default(),
        })
    }
}

/// How the sandboxes of a world run.
#[derive(Clone, Copy, Debug, PartialEq, Eq)]
pub enum Engine {
    /// At least one of them step by step.
    Interpreter,
    /// All by native code that was made of their images.
    Native,
}

/// `SFI_RUN_NATIVE` of sfi_run_native.h.
#[cfg(native)]
const NATIVE: u32 = 2;

/// What a status says of a change of a world.
fn changed(status: u32) -> Result<(), ChangeError> {
    match status {
        0 => Ok(()),
        3 => Err(ChangeError::NoSandbox),
        4 => Err(ChangeError::Meets),
        5 => Err(ChangeError::Full),
        6 => Err(ChangeError::NoMemory),
        status => unreachable!("a library of this version: status {status}"),
    }
}

impl Drop for World {
    fn drop(&mut self) {
        // SAFETY: nothing uses it after this.
        unsafe { sys::sfi_run_free(&mut self.raw) }
    }
}

/// A sandbox of a world.
pub struct Sandbox<'world> {
    world: &'world mut sys::World,
    before: &'world mut u64,
    number: u32,
    stands: Stands,
    limit: limits::Limit<'world>,
}

/// What was done to a sandbox, since it was borrowed: all of it goes through that.
#[derive(Clone, Copy, Default, PartialEq, Eq)]
struct Stands {
    /// How many replies, stops and entries there were.
    moves: u64,
    /// How many there were at the last entry: a reset, and registers that are set, are entries, too.
    entered: u64,
}

impl Sandbox<'_> {
    /// Whether a call did what it is for, after which the sandbox has gone on.
    fn moved(&mut self, is_done: bool) -> bool {
        self.stands.moves += u64::from(is_done);
        is_done
    }

    /// The same of a call that enters it.
    fn entered(&mut self, is_done: bool) -> bool {
        if self.moved(is_done) {
            self.stands.entered = self.stands.moves;
        }
        is_done
    }
}

// SAFETY, of all calls below: the world was loaded and isn't freed, and is borrowed here alone; the other arguments are
// numbers, or have the lengths that are handed over with them.
impl Sandbox<'_> {
    /// Its number in the world, from 0.
    pub fn number(&self) -> u32 {
        self.number
    }

    /// Runs it for at most `steps` steps, and no further than its next call: how it stands then. An instruction that is
    /// done and a call that is replied to are a step each. One that stands at a call already, or has stopped, does none.
    pub fn turn(&mut self, steps: u32) -> Event {
        let mut raw = sys::Event::default();
        unsafe { sys::sfi_run_turn(self.world, self.number, steps, &mut raw) };
        Event::of(&raw, || self.steps())
    }

    /// The same, but the turn ends, too, before an instruction at one of the addresses `stops`. Its first step is made in any
    /// case, so that it goes on from a stop.
    pub fn until(&mut self, stops: &[u32], steps: u32) -> Event {
        let mut raw = sys::Event::default();
        unsafe {
            let (first, count) = (stops.as_ptr(), stops.len());
            sys::sfi_run_until(self.world, self.number, first, count, steps, &mut raw)
        };
        Event::of(&raw, || self.steps())
    }

    /// How it stands.
    pub fn event(&mut self) -> Event {
        let mut raw = sys::Event::default();
        unsafe { sys::sfi_run_event(self.world, self.number, &mut raw) };
        Event::of(&raw, || self.steps())
    }

    /// A turn of at most `steps` steps in all, in which `serve` replies to each call and says whether the turn goes on: how
    /// it stands then. A call that comes when all steps are used is left for the next turn, and so is one without a reply.
    /// Steps that `serve` itself has the sandbox do count, too: where they use up all that are left, the turn is over. So it is by
    /// [`set_interrupt`](Self::set_interrupt) and [`set_deadline`](Self::set_deadline).
    pub fn serve(&mut self, steps: u64, serve: impl FnMut(&mut Self, Call) -> bool) -> Event {
        self.served(steps, serve).0
    }

    /// The same, and why its limit ended the turn, if it did.
    fn served(
        &mut self,
        steps: u64,
        mut serve: impl FnMut(&mut Self, Call) -> bool,
    ) -> (Event, Option<NotReturned>) {
        let end = self.counted().saturating_add(steps);
        loop {
            let now = self.counted();
            let cause = self.limit.cause();
            if now > end || cause.is_some() {
                return (self.event(), cause); // `serve` had it run on, or its limit ends it
            }
            let event = self.turn(self.limit.turn(end - now));
            let done = self.counted();
            match event {
                Event::Ready if done < end => {} // there were more steps than this turn takes
                Event::Call(call) if done < end => {
                    let before = self.stands;
                    if !serve(self, call) || self.stands == before || self.counted() == done {
                        return (self.event(), None);
                    }
                }
                _ => return (event, None),
            }
        }
    }

    /// Replies to the call at which it stands: it goes on after it in its next turn, with these in a0 and a1. The error is
    /// [`CallError::NotWaiting`].
    pub fn reply(&mut self, a0: u32, a1: u32) -> Result<(), CallError> {
        let is_done = unsafe { sys::sfi_run_reply(self.world, self.number, a0, a1) };
        self.moved(is_done)
            .then_some(())
            .ok_or(CallError::NotWaiting)
    }

    /// The same, but only where it still stands at this call, for a host that keeps a call and replies later: a later call
    /// isn't replied to in its place. The error is [`CallError::NotWaiting`].
    pub fn reply_to(&mut self, call: &Call, a0: u32, a1: u32) -> Result<(), CallError> {
        if self.event() != Event::Call(*call) {
            return Err(CallError::NotWaiting);
        }
        self.reply(a0, a1)
    }

    /// The other reply: it stops at the call, with that number. The error is [`CallError::NotWaiting`].
    pub fn exit(&mut self, number: u32) -> Result<(), CallError> {
        let is_done = unsafe { sys::sfi_run_exit(self.world, self.number, number) };
        self.moved(is_done)
            .then_some(())
            .ok_or(CallError::NotWaiting)
    }

    /// Fills `bytes` with its data from an address on. The error, with which they stay, is [`CallError::OutsideData`].
    pub fn read(&mut self, at: u32, bytes: &mut [u8]) -> Result<(), CallError> {
        let is_done = unsafe {
            let (room, length) = (bytes.as_mut_ptr(), bytes.len());
            sys::sfi_run_read(self.world, self.number, at, length, room, length)
        };
        is_done.then_some(()).ok_or(CallError::OutsideData)
    }

    /// The `count` bytes of its data from address `at` on. The error is [`CallError::OutsideData`]; it takes no memory then.
    pub fn read_vec(&mut self, at: u32, count: u32) -> Result<Vec<u8>, CallError> {
        if count > self.data().size {
            return Err(CallError::OutsideData);
        }
        let mut bytes = vec![0; count as usize];
        self.read(at, &mut bytes)?;
        Ok(bytes)
    }

    /// Writes all of `bytes` into its data from an address on. The error, with which these stay, is
    /// [`CallError::OutsideData`].
    pub fn write(&mut self, at: u32, bytes: &[u8]) -> Result<(), CallError> {
        let is_done =
            unsafe { sys::sfi_run_write(self.world, self.number, at, bytes.as_ptr(), bytes.len()) };
        is_done.then_some(()).ok_or(CallError::OutsideData)
    }

    /// Stops it, whether it is ready or stands at a call: no turn runs it, and it takes no reply. Its data, pc, registers and
    /// steps stay, and [`enter`](Self::enter) may enter it again. The error is [`CallError::NotRunning`].
    pub fn stop(&mut self) -> Result<(), CallError> {
        let is_done = unsafe { sys::sfi_run_stop(self.world, self.number) };
        self.moved(is_done)
            .then_some(())
            .ok_or(CallError::NotRunning)
    }

    /// Takes it back to what it was when its world was loaded, whatever it did and wherever it stands: its data, pc and
    /// registers are those of then, it is ready, and has done 0 steps.
    pub fn reset(&mut self) {
        let is_done = unsafe { sys::sfi_run_reset(self.world, self.number) };
        self.entered(is_done);
        *self.before = 0;
    }

    /// Makes it ready at pc, where it has stopped, with these arguments in a0 to a7. A function that returns calls its first
    /// gate of service 0. Its data stay, and its steps are counted on. The error is [`CallError::NotEntered`].
    pub fn enter(&mut self, pc: u32, arguments: &[u32; 8]) -> Result<(), CallError> {
        let is_done =
            unsafe { sys::sfi_run_enter(self.world, self.number, pc, arguments.as_ptr()) };
        self.entered(is_done)
            .then_some(())
            .ok_or(CallError::NotEntered)
    }

    /// Makes it ready at pc, where it stands at a call, with these arguments in a0 to a7, on the stack of that call. The pc and
    /// registers of the call are the answer: once the function has exited, [`set_registers`](Self::set_registers) has it stand
    /// at the call again. In a handler of [`call`](Self::call) a function is called by that: this ends what the handler serves.
    /// The error is [`CallError::NotEntered`].
    pub fn call_back(&mut self, pc: u32, arguments: &[u32; 8]) -> Result<Registers, CallError> {
        let mut kept = Registers::default();
        let is_done = unsafe {
            sys::sfi_run_call_back(self.world, self.number, pc, arguments.as_ptr(), &mut kept)
        };
        self.entered(is_done)
            .then_some(kept)
            .ok_or(CallError::NotEntered)
    }

    /// How many steps it has done.
    pub fn steps(&mut self) -> u64 {
        self.before.wrapping_add(self.counted())
    }

    /// How many of them the library counts: those before it was restored aren't among them.
    fn counted(&mut self) -> u64 {
        unsafe { sys::sfi_run_steps(self.world, self.number) }
    }

    /// Has it have done so many steps.
    pub(crate) fn count_steps_from(&mut self, steps: u64) {
        *self.before = steps.wrapping_sub(self.counted());
    }

    /// Its pc and registers.
    pub fn registers(&mut self) -> Registers {
        let mut registers = Registers::default();
        unsafe { sys::sfi_run_registers(self.world, self.number, &mut registers) };
        registers
    }

    /// Makes it ready with this pc and these registers, whether it was ready, stood at a call or had stopped; x0 stays 0. The
    /// error is [`CallError::NotEntered`], where no bundle or word of its code begins at pc, or a reserved or typed register
    /// would hold what it mustn't. With registers that are put aside at a call, and put back, it stands at that call again:
    /// [`Sandbox::reply`] replies to it, or a new event tells of it.
    pub fn set_registers(&mut self, registers: &Registers) -> Result<(), CallError> {
        let is_done = unsafe { sys::sfi_run_set_registers(self.world, self.number, registers) };
        self.entered(is_done)
            .then_some(())
            .ok_or(CallError::NotEntered)
    }

    /// Where its data lie.
    pub fn data(&mut self) -> Region {
        let mut data = Region::default();
        unsafe { sys::sfi_run_data(self.world, self.number, &mut data) };
        data
    }
}

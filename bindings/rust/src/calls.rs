//! Calls of functions, each of which is over when its caller gets the answer or the reason why there is none.
use crate::{Call, CallError, Cause, Event, Registers, Sandbox, Stands};
use std::error::Error;
use std::fmt;

/// Why a call of a function is over without a result. But for the first two, the sandbox has stopped then, with its data as
/// they are, or stands again at the call at which it was called; and the next call of it is right.
#[derive(Clone, Copy, Debug, PartialEq, Eq)]
pub enum NotReturned {
    /// No bundle or word of the sandbox's code begins there. Nothing ran.
    NoFunction,
    /// The sandbox is in the midst of a run, which [`Sandbox::turn`] and [`Sandbox::serve`] go on with, and [`Sandbox::stop`]
    /// ends. Nothing ran.
    Busy,
    /// It trapped.
    Trapped {
        /// Why.
        cause: Cause,
        /// The address of the access, or else the pc.
        address: u32,
    },
    /// Its steps are used. What may take more steps is begun by [`Sandbox::enter`], and goes on by [`Sandbox::serve`].
    StepsUsed,
    /// Its time is over: [`Sandbox::set_deadline`].
    TimedOut,
    /// Another thread, or a handler, ended it: [`Sandbox::set_interrupt`].
    Interrupted,
    /// A call of a gate got no reply, or its handler answered false.
    Refused,
    /// A handler stopped the sandbox.
    Stopped,
    /// A handler reset or entered the sandbox, or set its registers: it has stopped, also where another call stood around this.
    Gone,
}

impl fmt::Display for NotReturned {
    fn fmt(&self, to: &mut fmt::Formatter<'_>) -> fmt::Result {
        let why = match self {
            NotReturned::NoFunction => "no bundle or word of the sandbox's code begins there",
            NotReturned::Busy => {
                "the sandbox is in the midst of a run, which `turn` and `serve` go on with, and `stop` ends"
            }
            NotReturned::Trapped { cause, address } => {
                return write!(
                    to,
                    "the call is over: it trapped, {cause:?} at {address:08x}; the sandbox can be called"
                )
            }
            NotReturned::StepsUsed => {
                "the call is over: its steps are used (what may take more steps is begun by `enter`, and goes on by \
                 `serve`); the sandbox can be called"
            }
            NotReturned::TimedOut => {
                "the call is over: its time is over; the sandbox can be called"
            }
            NotReturned::Interrupted => {
                "the call is over: it is interrupted; the sandbox can be called"
            }
            NotReturned::Refused => {
                "the call is over: it calls a gate, and no handler replied; the sandbox can be called"
            }
            NotReturned::Stopped => {
                "the call is over: a handler stopped the sandbox, which can be called"
            }
            NotReturned::Gone => {
                "the call is over: a handler reset or entered the sandbox, or set its registers; it has stopped"
            }
        };
        to.write_str(why)
    }
}

impl Error for NotReturned {}

/// What a function takes: a number of at most 32 bits, of which a negative one is taken modulo 2^32.
pub trait Argument: Copy {
    /// It, as a register holds it.
    fn word(self) -> u32;
}

macro_rules! arguments {
    ($($kind:ty),*) => {$(
        impl Argument for $kind {
            fn word(self) -> u32 {
                self as u32
            }
        }
    )*};
}

arguments!(u8, u16, u32, i8, i16, i32, bool);

/// How many arguments a call has: more than eight aren't compiled.
struct Count<const N: usize>;

impl<const N: usize> Count<N> {
    const IS_RIGHT: () = assert!(N <= 8, "a function has at most eight arguments");
}

/// A function that was entered, and is over when this is dropped, also by a panic of a handler.
pub(crate) struct Frame<'sandbox, 'world> {
    pub(crate) sandbox: &'sandbox mut Sandbox<'world>,
    /// How the sandbox was entered for it.
    entered: u64,
    /// The registers of the call at which it was called, if it stood at one, and what had been done to it.
    kept: Option<(Registers, Stands)>,
}

impl Frame<'_, '_> {
    /// Whether a handler entered the sandbox for something else: of the frame nothing is left then.
    fn is_gone(&self) -> bool {
        self.sandbox.stands.entered != self.entered
    }
}

impl Drop for Frame<'_, '_> {
    fn drop(&mut self) {
        match self.kept {
            Some((registers, stands)) if !self.is_gone() => {
                let _ = self.sandbox.set_registers(&registers); // which it had: it may hold them
                self.sandbox.stands = stands;
            }
            _ => {
                let _ = self.sandbox.stop(); // where it hasn't stopped already
            }
        }
    }
}

impl<'world> Sandbox<'world> {
    /// Calls a function: enters it at pc, with at most eight arguments, runs it for at most `steps` steps in all, and answers its
    /// result, with which it exits. `serve` replies to its calls of gates of other services, as in [`serve`](Self::serve), and
    /// may call functions, too: while one waits for its reply, the other runs on its stack, and then it waits again. Where it
    /// doesn't return, the call is over, as [`NotReturned`] says; so it is where `serve` panics. No arguments are `&[0u32; 0]`.
    pub fn call<A: Argument, const N: usize>(
        &mut self,
        pc: u32,
        arguments: &[A; N],
        steps: u64,
        serve: impl FnMut(&mut Self, Call) -> bool,
    ) -> Result<u32, NotReturned> {
        self.call64(pc, arguments, steps, serve)
            .map(|result| result as u32)
    }

    /// The same of a function whose result has 64 bits, as a `long long` or a `double` ([`f64::from_bits`]). Of one whose result
    /// has 32, the upper half is what it leaves in a1.
    pub fn call64<A: Argument, const N: usize>(
        &mut self,
        pc: u32,
        arguments: &[A; N],
        steps: u64,
        mut serve: impl FnMut(&mut Self, Call) -> bool,
    ) -> Result<u64, NotReturned> {
        self.called(pc, arguments, steps, |sandbox, call| {
            Ok(serve(sandbox, call))
        })
    }

    /// The same, but `serve` answers a0 and a1 of the reply, unless it has replied itself; or an error of its own, with which the
    /// call is over, too, and which passes on.
    pub fn try_call<A: Argument, const N: usize, E: From<NotReturned>>(
        &mut self,
        pc: u32,
        arguments: &[A; N],
        steps: u64,
        mut serve: impl FnMut(&mut Self, Call) -> Result<(u32, u32), E>,
    ) -> Result<u64, E> {
        self.called(pc, arguments, steps, |sandbox, call| {
            let before = sandbox.stands;
            let (a0, a1) = serve(sandbox, call)?;
            Ok(sandbox.stands != before || sandbox.reply(a0, a1).is_ok())
        })
    }

    fn called<A: Argument, const N: usize, E: From<NotReturned>>(
        &mut self,
        pc: u32,
        arguments: &[A; N],
        steps: u64,
        serve: impl FnMut(&mut Self, Call) -> Result<bool, E>,
    ) -> Result<u64, E> {
        let () = Count::<N>::IS_RIGHT;
        let mut words = [0; 8];
        for (word, argument) in words.iter_mut().zip(arguments) {
            *word = argument.word();
        }
        let frame = self.frame(pc, &words)?;
        frame.run(steps, serve)
    }

    /// Enters a function. Where it can't be entered, nothing changes.
    pub(crate) fn frame(
        &mut self,
        pc: u32,
        words: &[u32; 8],
    ) -> Result<Frame<'_, 'world>, NotReturned> {
        let found = self.stands;
        let mut kept = None;
        if self.enter(pc, words).is_err() {
            match (self.call_back(pc, words), self.event()) {
                (Ok(registers), _) => kept = Some((registers, found)),
                (Err(_), Event::Ready) => return Err(NotReturned::Busy),
                (Err(_), _) => return Err(NotReturned::NoFunction),
            }
        }
        Ok(Frame {
            entered: self.stands.entered,
            sandbox: self,
            kept,
        })
    }
}

impl<'world> Frame<'_, 'world> {
    /// Sets the registers with which it begins.
    pub(crate) fn set_registers(&mut self, registers: &Registers) -> Result<(), CallError> {
        self.sandbox.set_registers(registers)?;
        self.entered = self.sandbox.stands.entered;
        Ok(())
    }

    /// Its result, or why there is none: the error of `serve`, if it answered one.
    pub(crate) fn run<E: From<NotReturned>>(
        self,
        steps: u64,
        mut serve: impl FnMut(&mut Sandbox<'world>, Call) -> Result<bool, E>,
    ) -> Result<u64, E> {
        let (mut high, mut goes_on, mut own) = (0, true, None);
        let entered = self.entered;
        let (event, cut) = self.sandbox.served(steps, |sandbox, call| {
            if call.service == 0 {
                high = call.a1;
                return sandbox.exit(call.a0).is_ok();
            }
            goes_on = serve(sandbox, call).unwrap_or_else(|error| {
                own = Some(error);
                false
            });
            goes_on && sandbox.stands.entered == entered
        });
        if let Some(error) = own {
            return Err(error);
        }
        let why = match event {
            _ if self.is_gone() => NotReturned::Gone,
            Event::Trapped { cause, address } => NotReturned::Trapped { cause, address },
            Event::Stopped => NotReturned::Stopped,
            Event::Exited(low) if goes_on => return Ok(u64::from(high) << 32 | u64::from(low)),
            Event::Ready if goes_on => cut.unwrap_or(NotReturned::StepsUsed),
            Event::Exited(_) | Event::Ready => NotReturned::Refused,
            Event::Call(_) => cut.unwrap_or(NotReturned::Refused),
        };
        Err(why.into())
    }
}

//! What ends a run beside its steps: another thread, and a time.
use crate::{NotReturned, Sandbox};
use std::sync::atomic::{AtomicBool, Ordering};
use std::time::Instant;

/// How many steps a run may take before it looks at its limit again: interpreted about a millisecond.
const STEPS: u32 = 100_000;

#[derive(Clone, Copy, Default)]
pub(crate) struct Limit<'world> {
    interrupt: Option<&'world AtomicBool>,
    deadline: Option<Instant>,
}

impl Limit<'_> {
    /// Why no more turn of a run may begin, if so.
    pub(crate) fn cause(&self) -> Option<NotReturned> {
        let is_set = |it: &AtomicBool| it.load(Ordering::Acquire);
        if self.interrupt.map_or(false, is_set) {
            return Some(NotReturned::Interrupted);
        }
        let is_late = |deadline| Instant::now() >= deadline;
        self.deadline
            .map_or(false, is_late)
            .then_some(NotReturned::TimedOut)
    }

    /// How many steps the next turn of a run has, which has so many left.
    pub(crate) fn turn(&self, left: u64) -> u32 {
        let most = match self {
            Limit {
                interrupt: None,
                deadline: None,
            } => u32::MAX,
            _ => STEPS,
        };
        u32::try_from(left).map_or(most, |left| left.min(most))
    }
}

impl<'world> Sandbox<'world> {
    /// Ends runs by [`serve`](Self::serve), and calls of functions, while the flag is set, as any thread may at any time: about a
    /// millisecond later, and at once those that begin then. A run that it ended goes on in the next one. `None` takes it back.
    pub fn set_interrupt(&mut self, interrupt: Option<&'world AtomicBool>) {
        self.limit.interrupt = interrupt;
    }

    /// Ends them likewise from that time on.
    pub fn set_deadline(&mut self, deadline: Option<Instant>) {
        self.limit.deadline = deadline;
    }
}

//! The console of `sfi run`, ready made: the library's own host for sandboxes, whose services docs/GATES.md lists.
use crate::{sys, Sandbox};
use std::error::Error;
use std::fmt;
use std::ptr;

/// There was no memory for a console, or for what a sandbox put: then the sandbox stands at that call.
#[derive(Clone, Copy, Debug, PartialEq, Eq)]
pub struct NoMemory;

impl fmt::Display for NoMemory {
    fn fmt(&self, to: &mut fmt::Formatter<'_>) -> fmt::Result {
        to.write_str("there was no memory for the console")
    }
}

impl Error for NoMemory {}

/// What a console keeps of each sandbox of a world: its output, how far it has read the input, and its mailbox.
pub struct Console {
    raw: sys::Console,
}

// SAFETY: as of a world; that is proved of what the pointer leads to (`Send` of `HeldConsole` in crates/sfi_run).
unsafe impl Send for Console {}

impl Console {
    /// A console for `sandboxes` sandboxes, each of which reads the same input from its beginning.
    pub fn new(sandboxes: u32, input: &[u8]) -> Result<Console, NoMemory> {
        let mut raw = sys::Console {
            held: 0,
            at: ptr::null_mut(),
        };
        // SAFETY: the bytes can be read, and a console of zeros is none.
        let is_made =
            unsafe { sys::sfi_run_console_new(sandboxes, input.as_ptr(), input.len(), &mut raw) };
        is_made.then_some(Console { raw }).ok_or(NoMemory)
    }

    /// A turn of a sandbox, for at most `steps` steps, each call of which the console answers: it ends at a yield, too. A call
    /// that comes when the steps are used is answered in the next turn.
    pub fn turn(&mut self, sandbox: &mut Sandbox, steps: u32) -> Result<(), NoMemory> {
        let before = sandbox.steps();
        // SAFETY: the console was made and isn't freed, the world was loaded and isn't freed, and both are borrowed here alone.
        let is_done = unsafe {
            sys::sfi_run_console_turn(&mut self.raw, sandbox.world, sandbox.number, steps)
        };
        let has_gone_on = sandbox.steps() != before;
        sandbox.moved(has_gone_on);
        is_done.then_some(()).ok_or(NoMemory)
    }

    /// What a sandbox has put; nothing where there is none of that number.
    pub fn output(&mut self, sandbox: u32) -> Vec<u8> {
        // SAFETY: as above; the room has the length that is handed over with it.
        unsafe {
            let mut bytes = vec![0; sys::sfi_run_console_written(&mut self.raw, sandbox)];
            let (room, length) = (bytes.as_mut_ptr(), bytes.len());
            sys::sfi_run_console_read(&mut self.raw, sandbox, 0, room, length);
            bytes
        }
    }
}

impl Drop for Console {
    fn drop(&mut self) {
        // SAFETY: nothing uses it after this.
        unsafe { sys::sfi_run_console_free(&mut self.raw) }
    }
}

//! Text to the output.
use core::fmt::{Arguments, Error, Result, Write};

/// The sandbox's output, which `write!` takes.
#[derive(Clone, Copy, Debug)]
pub struct Output;

impl Output {
    /// Writes what a `print!` says. It panics where the output has no room, as that of `std`.
    pub fn print(mut self, words: Arguments) {
        self.write_fmt(words).expect("the output has no room");
    }
}

impl Write for Output {
    fn write_str(&mut self, text: &str) -> Result {
        if crate::put_all(text.as_bytes()) {
            Ok(())
        } else {
            Err(Error)
        }
    }
}

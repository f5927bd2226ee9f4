//! The gates of a sandbox, which docs/GATES.md describes.
use crate::{Message, NotPosted, LONGEST};

#[repr(C)]
struct TakenWord {
    word: u32,
    sender_plus_one: u32,
}

#[cfg(target_arch = "riscv32")]
mod raw {
    use super::TakenWord;

    extern "C" {
        pub(super) fn exit_with(code: i32) -> !;
        pub(super) fn put(bytes: *const u8, length: u32) -> i32;
        pub(super) fn get(bytes: *mut u8, length: u32) -> i32;
        pub(super) fn yield_turn();
        pub(super) fn post_word(to: u32, word: u32) -> i32;
        pub(super) fn take_word() -> TakenWord;
    }
}

/// The same over standard input and output, for a program compiled natively: it is the one sandbox, number 0.
#[cfg(not(target_arch = "riscv32"))]
mod raw {
    use super::TakenWord;
    use std::io::{stdin, stdout, Read, Write};
    use std::slice::{from_raw_parts, from_raw_parts_mut};
    use std::sync::Mutex;
    use std::vec::Vec;

    const MAILBOX: usize = 16;

    static WORDS: Mutex<Vec<u32>> = Mutex::new(Vec::new());

    pub(super) unsafe fn exit_with(code: i32) -> ! {
        std::process::exit(code)
    }

    pub(super) unsafe fn put(bytes: *const u8, length: u32) -> i32 {
        let bytes = from_raw_parts(bytes, length as usize);
        let mut output = stdout();
        match output.write_all(bytes).and_then(|()| output.flush()) {
            Ok(()) => length as i32,
            Err(_) => -1,
        }
    }

    pub(super) unsafe fn get(bytes: *mut u8, length: u32) -> i32 {
        let bytes = from_raw_parts_mut(bytes, length as usize);
        stdin().read(bytes).unwrap_or(0) as i32
    }

    pub(super) unsafe fn yield_turn() {}

    pub(super) unsafe fn post_word(to: u32, word: u32) -> i32 {
        let mut words = WORDS.lock().unwrap();
        if to != 0 {
            return -1;
        }
        if words.len() == MAILBOX {
            return 1;
        }
        words.push(word);
        0
    }

    pub(super) unsafe fn take_word() -> TakenWord {
        let mut words = WORDS.lock().unwrap();
        let is_held = !words.is_empty();
        TakenWord {
            word: if is_held { words.remove(0) } else { 0 },
            sender_plus_one: is_held as u32,
        }
    }
}

/// Ends the program with a code.
pub fn exit(code: i32) -> ! {
    // SAFETY: the gate takes a number, and doesn't return.
    unsafe { raw::exit_with(code) }
}

/// Writes at most `LONGEST` bytes to the output, and says whether it did: there may be no room for them.
pub fn put(bytes: &[u8]) -> bool {
    // SAFETY: the gate reads these bytes.
    bytes.len() <= LONGEST && unsafe { raw::put(bytes.as_ptr(), bytes.len() as u32) >= 0 }
}

/// Reads the next bytes of the input, and answers how many: 0 at its end.
pub fn get(bytes: &mut [u8]) -> usize {
    let length = bytes.len().min(LONGEST);
    // SAFETY: the gate writes into these bytes, and no more of them.
    unsafe { raw::get(bytes.as_mut_ptr(), length as u32) as usize }
}

/// Ends the turn; the call returns in the next turn of this sandbox.
pub fn yield_turn() {
    // SAFETY: the gate changes nothing of the program's.
    unsafe { raw::yield_turn() }
}

/// Puts a word at the end of the mailbox of a sandbox, and doesn't wait.
pub fn post(to: u32, word: u32) -> Result<(), NotPosted> {
    // SAFETY: the gate takes two numbers.
    match unsafe { raw::post_word(to, word) } {
        0 => Ok(()),
        1 => Err(NotPosted::Full),
        _ => Err(NotPosted::Nobody),
    }
}

/// Takes the oldest word out of this sandbox's mailbox, and doesn't wait.
pub fn take() -> Option<Message> {
    // SAFETY: the gate answers two numbers.
    let taken = unsafe { raw::take_word() };
    taken.sender_plus_one.checked_sub(1).map(|sender| Message {
        word: taken.word,
        sender,
    })
}

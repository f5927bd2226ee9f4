//! Calls of functions by their names, with values of Rust's types in the place of words: by signatures, as images claim them
//! (docs/IMAGE.md) or hosts state them.
//!
//! ```no_run
//! use sfi_run::{values::Function, World};
//!
//! let image = std::fs::read("plugin.image")?;
//! let mut world = World::load(&image)?;
//! let mut plugin = world.sandbox(0).unwrap();
//! plugin.stop()?;
//! let add = Function::find(&image, 0, "add")?;
//! let sum: i32 = add.call(&mut plugin, (2, 3), 10_000, |_, _| false)?;
//! # Ok::<(), Box<dyn std::error::Error>>(())
//! ```
use crate::calls::Frame;
use crate::names::{self, NameError};
use crate::{Call, NotReturned, Sandbox};
use std::error::Error;
use std::fmt;

/// How many bytes of the stack a call may take where the image doesn't say how much it has.
const ROOM: u32 = 1024;
/// The stack begins so far below the data's end, and below the room above it.
const TOP: u64 = 16;
/// What the stack pointer is a multiple of.
const STACK_UNIT: u64 = 16;

/// Why there is no [`Function`] of a name.
#[derive(Clone, Debug, PartialEq, Eq)]
pub enum FindError {
    /// The image has no table with the name.
    Name(NameError),
    /// The image claims no signature of it, and none was stated.
    NoSignature,
    /// What was stated is no signature: letters in brackets and one of a result.
    NoSuchSignature(String),
    /// The image claims another signature than what was stated.
    WrongSignature {
        /// What was stated.
        stated: String,
        /// What the image claims.
        claimed: String,
    },
}

impl From<NameError> for FindError {
    fn from(why: NameError) -> FindError {
        FindError::Name(why)
    }
}

impl fmt::Display for FindError {
    fn fmt(&self, to: &mut fmt::Formatter<'_>) -> fmt::Result {
        match self {
            FindError::Name(why) => why.fmt(to),
            FindError::NoSignature => to.write_str("the image claims no signature of it"),
            FindError::NoSuchSignature(stated) => write!(to, "{stated} is no signature"),
            FindError::WrongSignature { stated, claimed } => {
                write!(
                    to,
                    "its signature is stated as {stated}, and the image claims {claimed}"
                )
            }
        }
    }
}

impl Error for FindError {}

/// Why a call with values has no result. But for the last two, nothing ran.
#[derive(Clone, Debug, PartialEq, Eq)]
pub enum ValueError {
    /// The arguments or the result have other types than the signature.
    WrongArguments {
        /// The function's name.
        name: String,
        /// Its signature.
        signature: String,
        /// The signature that the given types have: of one that fits several letters the first.
        given: String,
    },
    /// A text has a byte 0 in it, at which the function would take it to end.
    ZeroInText,
    /// The texts and bytes take more of the sandbox's stack than a call may, which is half of what is left of it.
    TooLong {
        /// How many bytes they take.
        bytes: u64,
        /// How many they may take.
        most: u32,
    },
    /// The call is over without a result.
    NotReturned(NotReturned),
    /// It returned the address of a text that doesn't end within the sandbox's data, or isn't in UTF-8.
    NoText,
}

impl From<NotReturned> for ValueError {
    fn from(why: NotReturned) -> ValueError {
        ValueError::NotReturned(why)
    }
}

impl fmt::Display for ValueError {
    fn fmt(&self, to: &mut fmt::Formatter<'_>) -> fmt::Result {
        match self {
            ValueError::WrongArguments {
                name,
                signature,
                given,
            } => write!(to, "{name} has the signature {signature}, and is called as {given}"),
            ValueError::ZeroInText => to.write_str("a text that is passed has a byte 0 in it"),
            ValueError::TooLong { bytes, most } => write!(
                to,
                "the texts and bytes take {bytes} bytes of the sandbox's stack, and a call may take {most}"
            ),
            ValueError::NotReturned(why) => why.fmt(to),
            ValueError::NoText => {
                to.write_str("the address of no text in UTF-8 within the sandbox's data was returned")
            }
        }
    }
}

impl Error for ValueError {
    fn source(&self) -> Option<&(dyn Error + 'static)> {
        match self {
            ValueError::NotReturned(why) => Some(why),
            _ => None,
        }
    }
}

mod sealed {
    pub trait Sealed {}
}
use sealed::Sealed;

/// Bytes that lie on the sandbox's stack while a call lasts.
enum Bytes<'a> {
    /// With a 0 at its end.
    Text(Vec<u8>),
    Read(&'a [u8]),
    Written(&'a mut [u8]),
}

impl Bytes<'_> {
    fn as_slice(&self) -> &[u8] {
        match self {
            Bytes::Text(text) => text,
            Bytes::Read(bytes) => bytes,
            Bytes::Written(bytes) => bytes,
        }
    }

    /// How many bytes of the stack they take.
    fn room(&self) -> u64 {
        (self.as_slice().len() as u64 + STACK_UNIT - 1) / STACK_UNIT * STACK_UNIT
    }

    /// Whether it is a text that ends before its end.
    fn is_cut(&self) -> bool {
        matches!(self, Bytes::Text(text) if text[..text.len() - 1].contains(&0))
    }
}

/// What a call passes.
#[doc(hidden)]
#[derive(Default)]
pub struct Passed<'a> {
    /// The arguments' words. More than eight fit no signature.
    words: Vec<u32>,
    /// The bytes, and which word their address is.
    bytes: Vec<(usize, Bytes<'a>)>,
}

impl<'a> Passed<'a> {
    fn wide(&mut self, value: u64) {
        self.words.extend([value as u32, (value >> 32) as u32]);
    }

    fn lay(&mut self, bytes: Bytes<'a>) {
        self.bytes.push((self.words.len(), bytes));
        self.words.push(0);
    }
}

/// What a function of a signature takes: `i8` for `y`, `u8` for `c`, `i16` for `h`, `u16` for `k`, `bool` for `t`, `i32` for `i`,
/// `u32` for `u` and `p`, `i64` for `l`, `u64` for `m`, `f32` for `f`, `f64` for `d`, `&str` for `s`, `&[u8]` for `b`, and
/// `&mut [u8]` for `w`, to which what the function wrote there is copied when it returns.
pub trait Value<'a>: Sealed {
    /// The letters that it fits.
    #[doc(hidden)]
    const LETTERS: &'static str;
    #[doc(hidden)]
    fn pass(self, to: &mut Passed<'a>);
}

macro_rules! values {
    ($($kind:ty, $letters:literal, |$value:ident, $to:ident| $passes:expr;)*) => {$(
        impl Sealed for $kind {}
        impl<'a> Value<'a> for $kind {
            const LETTERS: &'static str = $letters;
            fn pass(self, $to: &mut Passed<'a>) {
                let $value = self;
                $passes
            }
        }
    )*};
}

values! {
    i8, "y", |value, to| to.words.push(value as u32);
    i16, "h", |value, to| to.words.push(value as u32);
    i32, "i", |value, to| to.words.push(value as u32);
    u8, "c", |value, to| to.words.push(value.into());
    u16, "k", |value, to| to.words.push(value.into());
    u32, "up", |value, to| to.words.push(value);
    bool, "t", |value, to| to.words.push(value.into());
    i64, "l", |value, to| to.wide(value as u64);
    u64, "m", |value, to| to.wide(value);
    f32, "f", |value, to| to.words.push(value.to_bits());
    f64, "d", |value, to| to.wide(value.to_bits());
}

impl Sealed for &str {}
impl<'a> Value<'a> for &'a str {
    const LETTERS: &'static str = "s";
    fn pass(self, to: &mut Passed<'a>) {
        to.lay(Bytes::Text([self.as_bytes(), &[0]].concat()));
    }
}

impl Sealed for &[u8] {}
impl<'a> Value<'a> for &'a [u8] {
    const LETTERS: &'static str = "b";
    fn pass(self, to: &mut Passed<'a>) {
        let size = self.len() as u32; // a longer one is refused
        to.lay(Bytes::Read(self));
        to.words.push(size);
    }
}

impl Sealed for &mut [u8] {}
impl<'a> Value<'a> for &'a mut [u8] {
    const LETTERS: &'static str = "w";
    fn pass(self, to: &mut Passed<'a>) {
        let size = self.len() as u32; // a longer one is refused
        to.lay(Bytes::Written(self));
        to.words.push(size);
    }
}

/// The arguments of a call: a tuple of at most eight [`Value`]s.
pub trait Arguments<'a> {
    /// The letters that each fits.
    #[doc(hidden)]
    const LETTERS: &'static [&'static str];
    #[doc(hidden)]
    fn pass(self, to: &mut Passed<'a>);
}

macro_rules! tuples {
    ($($($name:ident)*;)*) => {$(
        impl<'a, $($name: Value<'a>),*> Arguments<'a> for ($($name,)*) {
            const LETTERS: &'static [&'static str] = &[$($name::LETTERS),*];
            #[allow(non_snake_case, unused_variables)]
            fn pass(self, to: &mut Passed<'a>) {
                let ($($name,)*) = self;
                $($name.pass(to);)*
            }
        }
    )*};
}

tuples! {
    ;
    A;
    A B;
    A B C;
    A B C D;
    A B C D E;
    A B C D E F;
    A B C D E F G;
    A B C D E F G H;
}

/// What a function of a signature returns: `i8` for `y`, `u8` for `c`, `i16` for `h`, `u16` for `k`, of which the lowest bits count,
/// `bool` for `t`, which is true unless the lowest 8 bits are 0, `i32` for `i`, `u32` for `u` and `p`, `i64` for `l`, `u64` for `m`,
/// `f32` for `f`, `f64` for `d`, `()` for `v`, and `Option<String>` for `s`, which is none of the address 0.
pub trait Returned: Sealed + Sized {
    /// The letters that it fits.
    #[doc(hidden)]
    const LETTERS: &'static str;
    #[doc(hidden)]
    fn of(result: u64, sandbox: &mut Sandbox<'_>) -> Result<Self, ValueError>;
}

macro_rules! returned {
    ($($kind:ty, $letters:literal, |$result:ident| $value:expr;)*) => {$(
        impl Returned for $kind {
            const LETTERS: &'static str = $letters;
            fn of($result: u64, _: &mut Sandbox<'_>) -> Result<$kind, ValueError> {
                Ok($value)
            }
        }
    )*};
}

impl Sealed for () {}
returned! {
    i8, "y", |result| result as i8;
    u8, "c", |result| result as u8;
    i16, "h", |result| result as i16;
    u16, "k", |result| result as u16;
    bool, "t", |result| result as u8 != 0;
    i32, "i", |result| result as i32;
    u32, "up", |result| result as u32;
    i64, "l", |result| result as i64;
    u64, "m", |result| result;
    f32, "f", |result| f32::from_bits(result as u32);
    f64, "d", |result| f64::from_bits(result);
    (), "v", |_result| ();
}

impl Sealed for Option<String> {}
impl Returned for Option<String> {
    const LETTERS: &'static str = "s";
    fn of(result: u64, sandbox: &mut Sandbox<'_>) -> Result<Option<String>, ValueError> {
        match result as u32 {
            0 => Ok(None),
            at => {
                let text = text_at(sandbox, at).ok_or(ValueError::NoText)?;
                String::from_utf8(text)
                    .map(Some)
                    .map_err(|_| ValueError::NoText)
            }
        }
    }
}

/// The bytes from an address of the sandbox's data on up to the first that is 0, if there is one.
fn text_at(sandbox: &mut Sandbox<'_>, mut at: u32) -> Option<Vec<u8>> {
    let data = sandbox.data();
    let end = u64::from(data.base) + u64::from(data.size);
    let (mut text, mut piece) = (Vec::new(), [0; 256]);
    loop {
        let count = end.checked_sub(at.into())?.min(piece.len() as u64) as usize;
        let piece = &mut piece[..count];
        sandbox.read(at, piece).ok()?;
        if let Some(size) = piece.iter().position(|&byte| byte == 0) {
            text.extend(&piece[..size]);
            return Some(text);
        }
        if piece.is_empty() {
            return None;
        }
        text.extend(&*piece);
        at = at.checked_add(count as u32)?;
    }
}

/// A function of an image, with its signature.
#[derive(Clone, Debug, PartialEq, Eq)]
pub struct Function {
    name: String,
    address: u32,
    signature: String,
    /// How many bytes the stack has, if the image claims it, and how many lie above it.
    stack: Option<u32>,
    above: u32,
}

impl Function {
    /// An export of that sandbox of the image, with the signature that the image claims of it: the claim of its author, who may
    /// err or lie, so that a function may take its arguments otherwise; it does so in its sandbox.
    pub fn find(image: &[u8], sandbox: u32, name: &str) -> Result<Function, FindError> {
        let signature = names::signature(image, sandbox, name)?.ok_or(FindError::NoSignature)?;
        Function::of(image, sandbox, name, signature)
    }

    /// The same, of which the host knows the signature, as `"(ii)i"`: the image needn't claim it, and mustn't claim another.
    pub fn stated(
        image: &[u8],
        sandbox: u32,
        name: &str,
        signature: &str,
    ) -> Result<Function, FindError> {
        let stated = signature.to_string();
        if !names::is_signature(signature) {
            return Err(FindError::NoSuchSignature(stated));
        }
        match names::signature(image, sandbox, name)? {
            Some(claimed) if claimed != stated => {
                Err(FindError::WrongSignature { stated, claimed })
            }
            _ => Function::of(image, sandbox, name, stated),
        }
    }

    fn of(
        image: &[u8],
        sandbox: u32,
        name: &str,
        signature: String,
    ) -> Result<Function, FindError> {
        Ok(Function {
            address: names::export(image, sandbox, name)?,
            name: name.to_string(),
            signature,
            stack: names::import(image, sandbox, ".stack").ok(),
            above: names::import(image, sandbox, ".room").unwrap_or(0),
        })
    }

    /// Its address.
    pub fn address(&self) -> u32 {
        self.address
    }

    /// Its signature, as `(ii)i`.
    pub fn signature(&self) -> &str {
        &self.signature
    }

    /// Calls it, as [`Sandbox::call`] does, with a tuple of [`Value`]s, and answers its result, which is one of [`Returned`].
    /// Texts and bytes lie on the sandbox's stack while the call lasts: `&mut [u8]` gets what is left there once it returned.
    pub fn call<'a, 'world, A: Arguments<'a>, R: Returned>(
        &self,
        sandbox: &mut Sandbox<'world>,
        arguments: A,
        steps: u64,
        mut serve: impl FnMut(&mut Sandbox<'world>, Call) -> bool,
    ) -> Result<R, ValueError> {
        self.fits(A::LETTERS, R::LETTERS)?;
        let mut passed = Passed::default();
        arguments.pass(&mut passed);
        if passed.bytes.iter().any(|(_, bytes)| bytes.is_cut()) {
            return Err(ValueError::ZeroInText);
        }
        let mut words = [0; 8];
        words[..passed.words.len()].copy_from_slice(&passed.words);
        let mut frame = sandbox.frame(self.address, &words)?;
        let places = self.lay(&mut frame, &passed)?;
        let result = frame.run(steps, |sandbox, call| {
            Ok::<_, NotReturned>(serve(sandbox, call))
        })?;
        for ((_, bytes), at) in passed.bytes.into_iter().zip(places) {
            if let Bytes::Written(bytes) = bytes {
                let _ = sandbox.read(at, bytes); // which were written there
            }
        }
        R::of(result, sandbox)
    }

    /// Whether types are those of the signature.
    fn fits(&self, arguments: &[&str], result: &str) -> Result<(), ValueError> {
        let letters = self.signature[1..].chars().filter(|&letter| letter != ')');
        let types = arguments.iter().chain([&result]);
        if letters.clone().count() == arguments.len() + 1
            && letters
                .zip(types.clone())
                .all(|(letter, fits)| fits.contains(letter))
        {
            return Ok(());
        }
        let first: Vec<&str> = types.map(|fits| &fits[..1]).collect();
        let (result, arguments) = first.split_last().expect("there is a result");
        Err(ValueError::WrongArguments {
            name: self.name.clone(),
            signature: self.signature.clone(),
            given: format!("({}){result}", arguments.concat()),
        })
    }

    /// How many bytes of the stack a call may take: half of what is left where the stack pointer is so far below the data's end.
    fn most(&self, used: u32) -> u32 {
        let size = match self.stack {
            Some(size) => size,
            None => return ROOM,
        };
        let frames = u64::from(used).saturating_sub(u64::from(self.above) + TOP);
        (u64::from(size).saturating_sub(frames) / 2) as u32
    }

    /// Lays the bytes below the stack pointer of the function that was entered, which gets their addresses.
    fn lay(&self, frame: &mut Frame<'_, '_>, passed: &Passed<'_>) -> Result<Vec<u32>, ValueError> {
        let mut places = Vec::new();
        if passed.bytes.is_empty() {
            return Ok(places);
        }
        let mut registers = frame.sandbox.registers();
        let data = frame.sandbox.data();
        let there = registers.x[2].saturating_sub(data.base);
        let most = self.most(data.size.saturating_sub(there)).min(there);
        let bytes = passed.bytes.iter().map(|(_, bytes)| bytes.room()).sum();
        let too_long = ValueError::TooLong { bytes, most };
        if bytes > most.into() {
            return Err(too_long);
        }
        for (word, bytes) in &passed.bytes {
            let at = registers.x[2] - bytes.room() as u32; // which is no less than the data's base
            if frame.sandbox.write(at, bytes.as_slice()).is_err() {
                return Err(too_long);
            }
            registers.x[2] = at;
            registers.x[10 + word] = at;
            places.push(at);
        }
        frame.set_registers(&registers).map_err(|_| too_long)?;
        Ok(places)
    }
}

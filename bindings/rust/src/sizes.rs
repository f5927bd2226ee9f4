//! A host's own limits, below those of images' formats:
//!
//! ```no_run
//! # let image: Vec<u8> = Vec::new();
//! use sfi_run::sizes::{check, Sizes};
//!
//! check(&image, Sizes { code: 1 << 20, data: 1 << 24 })?; // before memory is asked for
//! let world = sfi_run::World::load(&image)?;
//! # Ok::<(), Box<dyn std::error::Error>>(())
//! ```
use std::error::Error;
use std::fmt;

/// Bytes before the first sandbox's numbers; of these numbers; and of a gate.
const FRONT: usize = 8;
const NUMBERS: usize = 28;
const GATE: usize = 8;
/// The most sandboxes of an image.
const MOST: u32 = 16;

/// The most bytes of code and of data that a host takes in a sandbox; `u32::MAX` for any number.
#[derive(Clone, Copy, Debug, PartialEq, Eq)]
pub struct Sizes {
    /// Of code.
    pub code: u32,
    /// Of data.
    pub data: u32,
}

/// What a sandbox has too many bytes of.
#[derive(Clone, Copy, Debug, PartialEq, Eq)]
pub enum Region {
    /// The code.
    Code,
    /// The data.
    Data,
}

/// The first sandbox of an image that has more bytes than a host takes.
#[derive(Clone, Copy, Debug, PartialEq, Eq)]
pub struct TooLarge {
    /// Its place in the image, counted from 0.
    pub sandbox: u32,
    /// What is too large.
    pub region: Region,
    /// How many bytes it has.
    pub size: u32,
    /// How many the host takes at most.
    pub most: u32,
}

impl fmt::Display for TooLarge {
    fn fmt(&self, to: &mut fmt::Formatter<'_>) -> fmt::Result {
        let what = match self.region {
            Region::Code => "code",
            Region::Data => "data",
        };
        write!(
            to,
            "sandbox {} has {} bytes of {what}, and this host takes at most {}",
            self.sandbox, self.size, self.most
        )
    }
}

impl Error for TooLarge {}

/// Says which sandbox of an image has more bytes than that. Nothing else is looked at: of bytes that are no image nothing is said,
/// and [`World::load`](crate::World::load) refuses them.
///
/// # Errors
///
/// [`TooLarge`], of the first such sandbox.
pub fn check(image: &[u8], most: Sizes) -> Result<(), TooLarge> {
    let count = image.get(4..FRONT).map_or(0, |it| number(it, 0));
    let mut at = FRONT;
    for sandbox in 0..count.min(MOST) {
        let fields = match image.get(at..).and_then(|it| it.get(..NUMBERS)) {
            Some(fields) => fields,
            None => break,
        };
        let (code, data) = (number(fields, 1), number(fields, 3));
        let tested = [
            (Region::Code, code, most.code),
            (Region::Data, data, most.data),
        ];
        if let Some(&(region, size, most)) = tested.iter().find(|(_, size, most)| size > most) {
            return Err(TooLarge {
                sandbox,
                region,
                size,
                most,
            });
        }
        let gates = (number(fields, 5) as usize).saturating_mul(GATE);
        at = [NUMBERS, gates, code as usize, number(fields, 6) as usize]
            .iter()
            .fold(at, |sum, size| sum.saturating_add(*size));
    }
    Ok(())
}

/// The number in four bytes, the lowest first, that has this place among such numbers.
fn number(bytes: &[u8], place: usize) -> u32 {
    let lowest_first = bytes[4 * place..][..4].iter().rev();
    lowest_first.fold(0, |sum, byte| sum << 8 | u32::from(*byte))
}

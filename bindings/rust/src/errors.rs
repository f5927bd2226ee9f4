//! Why a call of the library made, changed or did nothing.
use crate::sys;
use std::error::Error;
use std::fmt;

/// The layout's faults, from 1 on.
const FAULTS: [&str; 12] = [
    "",
    "Magic",
    "Count",
    "Short",
    "Code",
    "Data",
    "GuardRoom",
    "Start",
    "Gates",
    "Init",
    "Overlap",
    "Trailing",
];

/// A rule that is broken, and where.
#[derive(Clone, Copy, Debug, PartialEq, Eq)]
pub struct Finding {
    /// The sandbox's place in the image, counted from 0.
    pub sandbox: u32,
    /// That of the instruction's first byte, or of the bytes that are none; for V9 the gate's.
    pub address: u32,
    /// 1 for V1, and so on.
    pub rule: u32,
}

/// Why there is no world of an image.
#[derive(Clone, Copy, Debug, PartialEq, Eq)]
pub enum LoadError {
    /// Rules are broken in it.
    Refused {
        /// How often, at least once: `sfi check --report` tells all.
        findings: u32,
        /// The first, by sandbox and then by address.
        first: Finding,
    },
    /// The bytes are no image, by the layout's fault of this number, 1 to 11, as `sfi check` names it.
    NoImage(u32),
    /// The image is accepted, and there was no memory for its world.
    NoMemory,
    /// The library that is linked doesn't agree with this crate's version in major and minor: it has this number, with major,
    /// minor and patch in the bits from 16, 8 and 0 on.
    OtherVersion(u32),
}

/// A call that changed nothing, as what it asks for isn't so.
#[derive(Clone, Copy, Debug, PartialEq, Eq)]
pub enum CallError {
    /// A reply to a sandbox that stands at no call, or to another call than that at which it stands.
    NotWaiting,
    /// An address that isn't one of the sandbox's data.
    OutsideData,
    /// An entry into a sandbox that hasn't stopped, or at an address where no bundle or word of its code begins; or registers
    /// that it mustn't hold.
    NotEntered,
    /// A sandbox that is to be stopped, and has stopped already.
    NotRunning,
}

/// Why a world got or lost no sandbox.
#[derive(Clone, Copy, Debug, PartialEq, Eq)]
pub enum ChangeError {
    /// There is no sandbox of that number.
    NoSandbox,
    /// A sandbox that was to be added would lie on an address that one of the world's takes up with its code, or its data and
    /// their guard zones. `sfi move` gives an image with other places.
    Meets,
    /// There would be more sandboxes than numbers of 32 bits.
    Full,
    /// There was no memory for it.
    NoMemory,
}

impl fmt::Display for ChangeError {
    fn fmt(&self, to: &mut fmt::Formatter<'_>) -> fmt::Result {
        to.write_str(match self {
            ChangeError::NoSandbox => "there is no sandbox of that number",
            ChangeError::Meets => "a sandbox would lie where one of the world does",
            ChangeError::Full => "there would be more sandboxes than numbers of 32 bits",
            ChangeError::NoMemory => "there was no memory for the change of the world",
        })
    }
}

impl fmt::Display for LoadError {
    fn fmt(&self, to: &mut fmt::Formatter<'_>) -> fmt::Result {
        match self {
            LoadError::Refused { findings, first } => write!(
                to,
                "rules are broken in the image: findings={findings} first=V{} sandbox={} at={:08x}",
                first.rule, first.sandbox, first.address
            ),
            LoadError::NoImage(fault) => write!(
                to,
                "the bytes are no image: layout fault {fault} {}",
                FAULTS.get(*fault as usize).unwrap_or(&"")
            ),
            LoadError::NoMemory => to.write_str("there was no memory for the image"),
            LoadError::OtherVersion(number) => {
                let [_, major, minor, patch] = number.to_be_bytes();
                write!(
                    to,
                    "the library has another version: {major}.{minor}.{patch}"
                )
            }
        }
    }
}

impl fmt::Display for CallError {
    fn fmt(&self, to: &mut fmt::Formatter<'_>) -> fmt::Result {
        to.write_str(match self {
            CallError::NotWaiting => "the sandbox stands at no call, or at another one",
            CallError::OutsideData => "an address isn't one of the sandbox's data",
            CallError::NotEntered => {
                "the sandbox hasn't stopped, no bundle or word begins there, or a register mustn't hold that"
            }
            CallError::NotRunning => "the sandbox has stopped already",
        })
    }
}

impl LoadError {
    /// What the status and the verdict of `make` say, which is called if the library is of this crate's version.
    pub(crate) fn of(make: impl FnOnce(&mut sys::Verdict) -> u32) -> Result<(), LoadError> {
        sys::has_this_version().map_err(LoadError::OtherVersion)?;
        let mut verdict = sys::Verdict::default();
        match make(&mut verdict) {
            0 => Ok(()),
            1 => Err(LoadError::Refused {
                findings: verdict.findings,
                first: Finding {
                    sandbox: verdict.sandbox,
                    address: verdict.address,
                    rule: verdict.rule,
                },
            }),
            2 => Err(LoadError::NoImage(verdict.layout_fault)),
            3 => Err(LoadError::NoMemory),
            status => unreachable!("a library of this version: status {status}"),
        }
    }
}

impl Error for LoadError {}
impl Error for CallError {}
impl Error for ChangeError {}

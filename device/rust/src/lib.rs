//! Suygapid's libsfi_device for a firmware in Rust: judges images, runs their sandboxes by turns, answers their calls, and
//! keeps the versions of a plug-in in flash; [`Plugins`] does all of it for a firmware. The headers of the folder above say what each call does; docs/DEVICE.md, what the
//! firmware owes the theorem. The firmware links libsfi_device.a: `RUSTFLAGS="-L native=FOLDER"`.
#![no_std]
#![deny(missing_docs, unsafe_op_in_unsafe_fn)]
pub mod ffi;
mod plugins;
mod sandbox;
mod store;

pub use ffi::{Call, Claim, Fault, News, Outcome, Part, State, Status, StoreStatus, Verdict};
pub use plugins::{Host, Place, Plugin, Plugins, Turns};
pub use sandbox::{check, check_between, Accepted, Caller, Entry, Firmware, Machine, Refused, Sandbox, Service};
pub use store::{digest, Device, Setup, Store};

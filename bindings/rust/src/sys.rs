//! The calls of sfi_run.h, as C has them. The header says what each does, and what a caller owes.
use std::ffi::c_void;

#[repr(C)]
pub struct World {
    pub held: u32,
    pub at: *mut c_void,
}

#[repr(C)]
pub struct Module {
    pub held: u32,
    pub at: *mut c_void,
}

#[repr(C)]
pub struct Console {
    pub held: u32,
    pub at: *mut c_void,
}

/// `SFI_RUN_VERSION_NUMBER` of the header that these are copied from.
pub const VERSION_NUMBER: u32 = version_number(env!("CARGO_PKG_VERSION").as_bytes());

const fn version_number(text: &[u8]) -> u32 {
    let (mut whole, mut part, mut at) = (0, 0, 0);
    while at < text.len() {
        if text[at] == b'.' {
            whole = (whole + part) * 256;
            part = 0;
        } else {
            part = part * 10 + (text[at] - b'0') as u32;
        }
        at += 1;
    }
    whole + part
}

/// `struct sfi_verdict` of sfi.h, with its `struct sfi_finding` as the last three.
#[repr(C)]
#[derive(Default)]
pub struct Verdict {
    pub status: u32,
    pub layout_fault: u32,
    pub sandboxes: u32,
    pub bundles: u32,
    pub findings: u32,
    pub sandbox: u32,
    pub address: u32,
    pub rule: u32,
}

#[repr(C)]
#[derive(Default)]
pub struct Event {
    pub kind: u32,
    pub number: u32,
    pub gate: u32,
    pub pc: u32,
    pub a: [u32; 8],
}

/// The addresses of a sandbox's data.
#[repr(C)]
#[derive(Clone, Copy, Debug, Default, PartialEq, Eq)]
pub struct Region {
    /// The first address.
    pub base: u32,
    /// How many bytes there are.
    pub size: u32,
}

/// The registers of a sandbox.
#[repr(C)]
#[derive(Clone, Copy, Debug, Default, PartialEq, Eq)]
pub struct Registers {
    /// The address of the next instruction.
    pub pc: u32,
    /// The registers x0 to x31.
    pub x: [u32; 32],
}

#[cfg(native)]
extern "C" {
    pub fn sfi_run_engine(world: *const World) -> u32;
    pub fn sfi_native_data(world: *mut World, sandbox: u32) -> *mut u8;
}

extern "C" {
    pub fn sfi_run_version() -> u32;
    pub fn sfi_run_module_new(
        image: *const u8,
        length: usize,
        module: *mut Module,
        verdict: *mut Verdict,
    ) -> u32;
    pub fn sfi_run_module_free(module: *mut Module);
    pub fn sfi_run_instance(module: *mut Module, world: *mut World) -> bool;
    pub fn sfi_run_add(world: *mut World, module: *mut Module, first: *mut u32) -> u32;
    pub fn sfi_run_remove(world: *mut World, sandbox: u32) -> u32;
    pub fn sfi_run_load(
        image: *const u8,
        length: usize,
        world: *mut World,
        verdict: *mut Verdict,
    ) -> u32;
    pub fn sfi_run_free(world: *mut World);
    pub fn sfi_run_count(world: *mut World) -> usize;
    pub fn sfi_run_export(
        image: *const u8,
        length: usize,
        sandbox: u32,
        name: *const u8,
        size: usize,
        address: *mut u32,
    ) -> u32;
    pub fn sfi_run_import(
        image: *const u8,
        length: usize,
        sandbox: u32,
        name: *const u8,
        size: usize,
        address: *mut u32,
    ) -> u32;
    pub fn sfi_run_export_at(
        image: *const u8,
        length: usize,
        sandbox: u32,
        index: u32,
        name: *mut u8,
        name_size: *mut u32,
        address: *mut u32,
    ) -> u32;
    pub fn sfi_run_import_at(
        image: *const u8,
        length: usize,
        sandbox: u32,
        index: u32,
        name: *mut u8,
        name_size: *mut u32,
        address: *mut u32,
    ) -> u32;
    pub fn sfi_run_api(image: *const u8, length: usize, sandbox: u32, version: *mut u32) -> u32;
    pub fn sfi_run_turn(world: *mut World, sandbox: u32, steps: u32, event: *mut Event) -> u32;
    pub fn sfi_run_until(
        world: *mut World,
        sandbox: u32,
        stops: *const u32,
        count: usize,
        steps: u32,
        event: *mut Event,
    ) -> u32;
    pub fn sfi_run_event(world: *mut World, sandbox: u32, event: *mut Event) -> u32;
    pub fn sfi_run_reply(world: *mut World, sandbox: u32, a0: u32, a1: u32) -> bool;
    pub fn sfi_run_exit(world: *mut World, sandbox: u32, number: u32) -> bool;
    pub fn sfi_run_read(
        world: *mut World,
        sandbox: u32,
        at: u32,
        length: usize,
        bytes: *mut u8,
        room: usize,
    ) -> bool;
    pub fn sfi_run_write(
        world: *mut World,
        sandbox: u32,
        at: u32,
        bytes: *const u8,
        length: usize,
    ) -> bool;
    pub fn sfi_run_console_new(
        sandboxes: u32,
        input: *const u8,
        length: usize,
        console: *mut Console,
    ) -> bool;
    pub fn sfi_run_console_free(console: *mut Console);
    pub fn sfi_run_console_turn(
        console: *mut Console,
        world: *mut World,
        sandbox: u32,
        steps: u32,
    ) -> bool;
    pub fn sfi_run_console_written(console: *mut Console, sandbox: u32) -> usize;
    pub fn sfi_run_console_read(
        console: *mut Console,
        sandbox: u32,
        from: usize,
        bytes: *mut u8,
        room: usize,
    ) -> bool;
    pub fn sfi_run_stop(world: *mut World, sandbox: u32) -> bool;
    pub fn sfi_run_reset(world: *mut World, sandbox: u32) -> bool;
    pub fn sfi_run_enter(world: *mut World, sandbox: u32, pc: u32, arguments: *const u32) -> bool;
    pub fn sfi_run_steps(world: *mut World, sandbox: u32) -> u64;
    pub fn sfi_run_registers(world: *mut World, sandbox: u32, registers: *mut Registers) -> bool;
    pub fn sfi_run_call_back(
        world: *mut World,
        sandbox: u32,
        pc: u32,
        arguments: *const u32,
        kept: *mut Registers,
    ) -> bool;
    pub fn sfi_run_set_registers(
        world: *mut World,
        sandbox: u32,
        registers: *const Registers,
    ) -> bool;
    pub fn sfi_run_data(world: *mut World, sandbox: u32, data: *mut Region) -> bool;
}

/// Whether the library agrees with this crate's version in major and minor; if not, which it has.
pub fn has_this_version() -> Result<(), u32> {
    // SAFETY: it takes nothing.
    let version = unsafe { sfi_run_version() };
    if version / 256 == VERSION_NUMBER / 256 {
        Ok(())
    } else {
        Err(version)
    }
}

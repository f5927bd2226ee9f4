//! board.h for Rust.
use core::{ptr, slice};
use sfi_device::{ffi, Claim, Device, Machine, Place};

pub const SECTOR: u32 = 0x40000;

/// An update as it comes. Its image lies behind it.
#[repr(C)]
pub struct Update {
    pub claim: Claim,
    pub signature: [u8; 64],
}

mod board_h {
    use super::*;
    extern "C" {
        pub static cfi_flash: ffi::Flash;
        pub fn next_update(plugin: u32) -> *const Update;
        pub fn is_signed(host: *mut core::ffi::c_void, claim: *const Claim, signature: *const u8) -> bool;
        pub fn tell(plugin: u32, what: *const u8, number: u32);
        pub fn need(is_right: bool, what: *const u8);
        pub fn power_off() -> !;
        pub fn interrupt_after(ticks: u32);
    }
}

/// Asked for once for each plug-in.
pub fn place(plugin: u32) -> Place {
    let image = (0x8020_0000 + plugin * 0x40000) as *mut u8;
    // SAFETY: board.ld has the firmware lie below, and updates come further up.
    unsafe {
        let image = slice::from_raw_parts_mut(image, SECTOR as usize);
        Place::new(0x8010_0000 + plugin * 0x10000, 0x10000, 0x8040_4000 + plugin * 0x4000, 4096, image)
    }
}

pub struct Board;

// SAFETY: start.S stays in M-mode, with all interrupts off but the timer's, and has traps come to the library.
unsafe impl Machine for Board {
    extern "C" fn interrupt_after(ticks: u32) {
        unsafe { board_h::interrupt_after(ticks) }
    }
}

pub struct Flash {
    pub plugin: u32,
}

// SAFETY of these: the slices are as long as the calls say.
impl Device for Flash {
    const SECTOR_SIZE: u32 = SECTOR;
    const PAGE_SIZE: u32 = 64;
    fn read(&mut self, address: u32, bytes: &mut [u8]) -> bool {
        let (to, length) = (bytes.as_mut_ptr(), bytes.len() as u32);
        unsafe { board_h::cfi_flash.read.map_or(false, |read| read(ptr::null_mut(), address, to, length)) }
    }
    fn erase_sector(&mut self, address: u32) -> bool {
        unsafe { board_h::cfi_flash.erase_sector.map_or(false, |erase| erase(ptr::null_mut(), address)) }
    }
    fn program_page(&mut self, address: u32, bytes: &[u8]) -> bool {
        unsafe { board_h::cfi_flash.program_page.map_or(false, |program| program(ptr::null_mut(), address, bytes.as_ptr())) }
    }
    fn is_signed(&mut self, claim: &Claim, signature: &[u8; 64]) -> bool {
        unsafe { board_h::is_signed(ptr::addr_of_mut!(self.plugin).cast(), claim, signature.as_ptr()) }
    }
}

impl Update {
    pub fn image(&self) -> &[u8] {
        // SAFETY: it came with so many bytes behind it, and stays.
        unsafe { slice::from_raw_parts((self as *const Update).add(1).cast(), self.claim.length as usize) }
    }
}

pub fn next_update(plugin: u32) -> Option<&'static Update> {
    // SAFETY: updates stay where they came.
    unsafe { board_h::next_update(plugin).as_ref() }
}

/// `what` ends in a zero.
pub fn tell(plugin: u32, what: &[u8], number: u32) {
    unsafe { board_h::tell(plugin, what.as_ptr(), number) }
}

pub fn need(is_right: bool, what: &[u8]) {
    unsafe { board_h::need(is_right, what.as_ptr()) }
}

/// Called by start.S.
#[no_mangle]
extern "C" fn main() -> ! {
    crate::run();
    unsafe { board_h::power_off() }
}

#[panic_handler]
fn panicked(_: &core::panic::PanicInfo<'_>) -> ! {
    unsafe { board_h::need(false, b"no panic\0".as_ptr()) };
    unsafe { board_h::power_off() }
}

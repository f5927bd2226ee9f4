//! Updates that survive.
use crate::ffi::{self, Claim, StoreStatus};
use core::ffi::c_void;
use core::mem::MaybeUninit;
use core::{ptr, slice};

/// The firmware's flash, and what it says of updates. Each function of the flash answers false where the flash failed.
pub trait Device {
    /// A multiple of 256.
    const SECTOR_SIZE: u32;
    /// A power of two, at most 256.
    const PAGE_SIZE: u32;
    /// Reads bytes.
    fn read(&mut self, address: u32, bytes: &mut [u8]) -> bool;
    /// Makes each bit of a sector 1.
    fn erase_sector(&mut self, address: u32) -> bool;
    /// Makes bits of a page 0.
    fn program_page(&mut self, address: u32, bytes: &[u8]) -> bool;
    /// Whether the vendor signed a claim.
    fn is_signed(&mut self, claim: &Claim, signature: &[u8; 64]) -> bool;
    /// From a trial's start to its end a watchdog resets the device, if it has one.
    fn watch(&mut self, _on: bool) {}
    /// Whether the device has a counter.
    const HAS_COUNTER: bool = false;
    /// A counter that can't be set back, outside the flash: the least sequence number that runs.
    fn counter(&mut self) -> u32 {
        0
    }
    /// Raises it, or answers false.
    fn raise_counter(&mut self, _least_sequence: u32) -> bool {
        false
    }
}

/// Where a plug-in's versions and their record lie in flash.
#[derive(Clone, Copy)]
pub struct Setup {
    /// The address of two sectors.
    pub records: u32,
    /// That of each version's image.
    pub areas: [u32; 2],
    /// The bytes of an area, in whole sectors.
    pub area_size: u32,
    /// How often a version is started before it is kept: at least 1.
    pub trial_starts: u32,
}

/// The versions of a plug-in.
pub struct Store<D: Device> {
    raw: ffi::Store,
    flash: ffi::Flash,
    device: D,
}

// SAFETY of these: the library calls them with the device that `call` has set, which nothing else borrows then, and with bytes
// of its own.
unsafe extern "C" fn read<D: Device>(host: *mut c_void, address: u32, bytes: *mut u8, length: u32) -> bool {
    unsafe { (*host.cast::<D>()).read(address, slice::from_raw_parts_mut(bytes, length as usize)) }
}
unsafe extern "C" fn erase_sector<D: Device>(host: *mut c_void, address: u32) -> bool {
    unsafe { (*host.cast::<D>()).erase_sector(address) }
}
unsafe extern "C" fn program_page<D: Device>(host: *mut c_void, address: u32, bytes: *const u8) -> bool {
    unsafe { (*host.cast::<D>()).program_page(address, slice::from_raw_parts(bytes, D::PAGE_SIZE as usize)) }
}
unsafe extern "C" fn is_signed<D: Device>(host: *mut c_void, claim: *const Claim, signature: *const u8) -> bool {
    unsafe { (*host.cast::<D>()).is_signed(&*claim, &*signature.cast::<[u8; 64]>()) }
}
unsafe extern "C" fn watch<D: Device>(host: *mut c_void, on: bool) {
    unsafe { (*host.cast::<D>()).watch(on) }
}
unsafe extern "C" fn read_counter<D: Device>(host: *mut c_void) -> u32 {
    unsafe { (*host.cast::<D>()).counter() }
}
unsafe extern "C" fn raise_counter<D: Device>(host: *mut c_void, least_sequence: u32) -> bool {
    unsafe { (*host.cast::<D>()).raise_counter(least_sequence) }
}

pub(crate) fn done(status: StoreStatus) -> Result<(), StoreStatus> {
    if status == StoreStatus::Done {
        Ok(())
    } else {
        Err(status)
    }
}

pub(crate) fn flash_of<D: Device>() -> ffi::Flash {
    ffi::Flash {
        sector_size: D::SECTOR_SIZE,
        page_size: D::PAGE_SIZE,
        read: Some(read::<D>),
        erase_sector: Some(erase_sector::<D>),
        program_page: Some(program_page::<D>),
    }
}

/// One that isn't open, and has no flash and no host yet.
pub(crate) fn raw_store<D: Device>(setup: &Setup) -> ffi::Store {
    // SAFETY: zeros are such a store.
    let mut raw = unsafe { MaybeUninit::<ffi::Store>::zeroed().assume_init() };
    (raw.records, raw.areas) = (setup.records, setup.areas);
    (raw.area_size, raw.trial_starts) = (setup.area_size, setup.trial_starts);
    raw.is_signed = Some(is_signed::<D>);
    raw.watch = Some(watch::<D>);
    if D::HAS_COUNTER {
        raw.read_counter = Some(read_counter::<D>);
        raw.raise_counter = Some(raise_counter::<D>);
    }
    raw
}

impl<D: Device> Store<D> {
    /// Reads the latest record, after each reset.
    pub fn open(device: D, setup: Setup) -> Result<Self, StoreStatus> {
        let mut store = Store { raw: raw_store::<D>(&setup), flash: flash_of::<D>(), device };
        done(store.call(|raw| unsafe { ffi::sfi_device_store_open(raw) }))?;
        Ok(store)
    }

    /// A call of the library. The store may have moved since the last.
    fn call(&mut self, call: impl FnOnce(*mut ffi::Store) -> StoreStatus) -> StoreStatus {
        self.raw.flash = &self.flash;
        self.raw.host = ptr::addr_of_mut!(self.device).cast();
        call(&mut self.raw)
    }

    /// The area of the version to judge and start, or `NoVersion`.
    pub fn choose(&mut self) -> Result<u32, StoreStatus> {
        let mut area = 0;
        done(self.call(|raw| unsafe { ffi::sfi_device_store_choose(raw, &mut area) }))?;
        Ok(area)
    }

    /// What the vendor said of an area's version: its length, say.
    pub fn claim(&self, area: u32) -> Claim {
        self.raw.record.versions[area as usize].claim
    }

    /// The device, to read an image.
    pub fn device(&mut self) -> &mut D {
        &mut self.device
    }

    /// The chosen version works.
    pub fn keep(&mut self) -> Result<(), StoreStatus> {
        done(self.call(|raw| unsafe { ffi::sfi_device_store_keep(raw) }))
    }

    /// It doesn't, or isn't accepted: it never runs again.
    pub fn reject(&mut self) -> Result<(), StoreStatus> {
        done(self.call(|raw| unsafe { ffi::sfi_device_store_reject(raw) }))
    }

    /// Begins an update, beside the chosen version.
    pub fn begin(&mut self, claim: &Claim, signature: &[u8; 64]) -> Result<(), StoreStatus> {
        done(self.call(|raw| unsafe { ffi::sfi_device_store_begin(raw, claim, signature.as_ptr()) }))
    }

    /// Its next bytes.
    pub fn write(&mut self, bytes: &[u8]) -> Result<(), StoreStatus> {
        let length = u32::try_from(bytes.len()).map_err(|_| StoreStatus::WrongLength)?;
        done(self.call(|raw| unsafe { ffi::sfi_device_store_write(raw, bytes.as_ptr(), length) }))
    }

    /// All of it is written.
    pub fn finish(&mut self) -> Result<(), StoreStatus> {
        done(self.call(|raw| unsafe { ffi::sfi_device_store_finish(raw) }))
    }

    /// The device, after the last use of the store.
    pub fn into_device(self) -> D {
        self.device
    }
}

/// The SHA-256 of bytes.
pub fn digest(bytes: &[u8]) -> [u8; 32] {
    let (mut hash, mut digest) = (MaybeUninit::<ffi::Sha256>::uninit(), [0; 32]);
    // SAFETY: begin writes all of the hash; each chunk can be read.
    unsafe {
        ffi::sfi_device_sha256_begin(hash.as_mut_ptr());
        for chunk in bytes.chunks(1 << 16) {
            ffi::sfi_device_sha256_add(hash.as_mut_ptr(), chunk.as_ptr(), chunk.len() as u32);
        }
        ffi::sfi_device_sha256_end(hash.as_mut_ptr(), digest.as_mut_ptr());
    }
    digest
}

//! Plug-ins from flash.
use crate::ffi::{self, Claim, Fault, News, State, Status, StoreStatus};
use crate::store::{done, flash_of, raw_store};
use crate::{Device, Firmware, Setup};
use core::array;
use core::ffi::c_void;
use core::mem::MaybeUninit;
use core::ptr;

/// Where each version of a plug-in lies, and the memory of its image while that is judged and run.
pub struct Place {
    raw: ffi::Place,
    image: &'static mut [u8],
}

impl Place {
    /// The code of a version may be shorter.
    ///
    /// # Safety
    /// From these addresses on there is memory, in which nothing else of the firmware lies, nor in the 4096 bytes before and
    /// after the data.
    pub unsafe fn new(code_base: u32, code_size: u32, data_base: u32, data_size: u32, image: &'static mut [u8]) -> Self {
        Place { raw: ffi::Place { code_base, code_size, data_base, data_size }, image }
    }
}

/// What a firmware says of one plug-in. The flash of each is its own.
pub struct Plugin<D> {
    /// Its flash.
    pub device: D,
    /// Where its versions lie there.
    pub setup: Setup,
    /// And where the one that runs does in memory.
    pub place: Place,
}

/// What becomes of plug-ins is told to the firmware's host.
pub trait Host {
    /// A version, by its sequence number, came or went.
    fn tells(&mut self, number: u32, news: News, version: u32);
    /// Feeds the watchdog, before each round of turns.
    fn feed(&mut self) {}
}

/// How long plug-ins run.
#[derive(Clone, Copy)]
pub struct Turns {
    /// The ticks of a turn.
    pub ticks: u32,
    /// The turns in which a version has to report, after each start.
    pub on_trial: u32,
}

/// Plug-ins, of each of which the version that its store chooses runs.
pub struct Plugins<'host, D: Device, H: Host, const N: usize> {
    raw: ffi::Plugins,
    plugins: [ffi::Plugin; N],
    devices: [D; N],
    flash: ffi::Flash,
    firmware: Firmware<'host, H>,
}

// SAFETY of both: the library calls them with the host that `Firmware` borrows, while no service has it.
unsafe extern "C" fn tells<H: Host>(host: *mut c_void, number: u32, news: News, version: u32) {
    unsafe { (*host.cast::<H>()).tells(number, news, version) }
}
unsafe extern "C" fn feed<H: Host>(host: *mut c_void) {
    unsafe { (*host.cast::<H>()).feed() }
}

fn raw_plugin<D: Device>(plugin: &mut Plugin<D>) -> ffi::Plugin {
    // SAFETY: zeros are a plug-in that isn't open.
    let mut raw = unsafe { MaybeUninit::<ffi::Plugin>::zeroed().assume_init() };
    raw.store = raw_store::<D>(&plugin.setup);
    raw.place = plugin.place.raw;
    if plugin.place.image.len() >= plugin.setup.area_size as usize {
        raw.image = plugin.place.image.as_mut_ptr(); // else there is none, and it isn't opened
    }
    raw
}

impl<'host, D: Device, H: Host, const N: usize> Plugins<'host, D, H, N> {
    /// Opens the stores, closes the guard zones and tries them, and starts what the stores choose: after each reset, first.
    pub fn open(firmware: Firmware<'host, H>, mut plugins: [Plugin<D>; N], turns: Turns) -> Result<Self, Fault> {
        let raw = ffi::Plugins {
            firmware: ptr::null(),
            plugins: ptr::null_mut(),
            count: N as u32,
            turn_ticks: turns.ticks,
            trial_turns: turns.on_trial,
            write_code: None,
            feed: Some(feed::<H>),
            tells: Some(tells::<H>),
            is_open: false,
            is_working: false,
        };
        let raws = array::from_fn(|number| raw_plugin(&mut plugins[number]));
        let devices = plugins.map(|plugin| plugin.device);
        let mut all = Plugins { raw, plugins: raws, devices, flash: flash_of::<D>(), firmware };
        let fault = all.call(|raw| unsafe { ffi::sfi_device_plugins_open(raw) });
        match fault.status {
            Status::Done => Ok(all),
            _ => Err(fault),
        }
    }

    /// A call of the library, with all that it is told of. That may have moved since the last.
    fn call<R>(&mut self, call: impl FnOnce(*mut ffi::Plugins) -> R) -> R {
        for (plugin, device) in self.plugins.iter_mut().zip(&mut self.devices) {
            plugin.store.flash = &self.flash;
            plugin.store.host = ptr::addr_of_mut!(*device).cast();
        }
        self.raw.plugins = self.plugins.as_mut_ptr();
        self.raw.firmware = &self.firmware.raw;
        call(&mut self.raw)
    }

    /// A turn for each that is ready; then each that has reported is kept, and what doesn't work gives way to its older version.
    pub fn run(&mut self) {
        self.call(|raw| unsafe { ffi::sfi_device_plugins_run(raw) });
    }

    /// Whether a plug-in takes an update: its version is kept, or it has none.
    pub fn may_update(&mut self, number: u32) -> bool {
        self.call(|raw| unsafe { ffi::sfi_device_plugins_may_update(raw, number) })
    }

    /// Begins an update.
    pub fn begin(&mut self, number: u32, claim: &Claim, signature: &[u8; 64]) -> Result<(), StoreStatus> {
        done(self.call(|raw| unsafe { ffi::sfi_device_plugins_begin(raw, number, claim, signature.as_ptr()) }))
    }

    /// Its next bytes.
    pub fn write(&mut self, number: u32, bytes: &[u8]) -> Result<(), StoreStatus> {
        let length = u32::try_from(bytes.len()).map_err(|_| StoreStatus::WrongLength)?;
        done(self.call(|raw| unsafe { ffi::sfi_device_plugins_write(raw, number, bytes.as_ptr(), length) }))
    }

    /// All of it is written: the new version is started.
    pub fn finish(&mut self, number: u32) -> Result<(), StoreStatus> {
        done(self.call(|raw| unsafe { ffi::sfi_device_plugins_finish(raw, number) }))
    }

    /// Whether a plug-in is ready, or how it has stopped.
    pub fn state(&self, number: u32) -> State {
        self.plugins.get(number as usize).map_or(State::Empty, |plugin| plugin.sandbox.state)
    }
}

//! The declarations of sfi_device.h, sfi_device_store.h and sfi_device_plugins.h, which say what each is. tests/layouts.rs compares them.
#![allow(missing_docs)]
use core::ffi::c_void;

macro_rules! numbers {
    ($name:ident: $($variant:ident = $number:literal),*) => {
        #[repr(u32)]
        #[derive(Clone, Copy, Debug, PartialEq, Eq)]
        pub enum $name { $($variant = $number),* }
    };
}

numbers!(Status: Done = 0, NotAccepted = 1, CheckerStopped = 2, NoSandbox = 3, NoGuards = 4, NoEntry = 5, NoMemory = 6,
    CodeIsHost = 7, DataIsHost = 8, OtherRules = 9, EntryDiffers = 10, GuardIsOpen = 11, DataIsClosed = 12, IsMirrored = 13,
    BadPlace = 14, BadStore = 15, Busy = 16, NoZoneAtZero = 17);
numbers!(State: Empty = 0, Ready = 1, Exited = 2, Trapped = 3);
numbers!(Outcome: Replied = 0, GoesOn = 1, Yielded = 2, Left = 3);
numbers!(News: Starts = 0, IsRefused = 1, IsKept = 2, GaveUp = 3);
numbers!(StoreStatus: Done = 0, BadSetup = 1, NoVersion = 2, FlashFailed = 3, TooEarly = 4, WrongLength = 5, TooOld = 6,
    NotSigned = 7, Differs = 8);

macro_rules! structs {
    ($($name:ident { $($field:ident: $kind:ty),* $(,)? })*) => {
        $(#[repr(C)]
        #[derive(Clone, Copy)]
        pub struct $name { $(pub $field: $kind),* })*

        /// The size of each structure, and where its fields are.
        pub fn layouts(mut each: impl FnMut(&str, &str, usize)) {
            $(each(stringify!($name), "", core::mem::size_of::<$name>());
            $(each(stringify!($name), stringify!($field), {
                let it = core::mem::MaybeUninit::<$name>::uninit();
                // SAFETY: nothing is read.
                unsafe { core::ptr::addr_of!((*it.as_ptr()).$field) as usize - it.as_ptr() as usize }
            });)*)*
        }
    };
}

pub type Service = unsafe extern "C" fn(host: *mut c_void, caller: *mut Sandbox, call: *mut Call) -> Outcome;

structs! {
    Fault { status: Status, address: u32, other: u32 }
    Gate { address: u32, service: u32 }
    Part {
        format: u32, code_base: u32, code_size: u32, data_base: u32, data_size: u32, start: u32, gate_count: u32, first_count: u32,
        code: *const u8, first: *const u8, gates: [Gate; 64],
    }
    Frame { x: [u32; 32], pc: u32, host_stack: u32, retired_before: u32, retired_after: u32, called: u32, firmware: *const Firmware,
        last_gate: *const Gate,
        last_gate_number: u32 }
    Sandbox {
        part: Part, frame: Frame, state: State, exit_code: u32, has_reported: bool, trap: *const u8, trap_address: u32, steps: u64,
    }
    Call { service: u32, a0: u32, a1: u32 }
    Firmware {
        services: *const Option<Service>, service_count: u32, host: *mut c_void,
        interrupt_after: Option<extern "C" fn(ticks: u32)>, answer_interrupt: Option<extern "C" fn(cause: u32) -> bool>,
    }
    Finding { sandbox: u32, address: u32, rule: u32 }
    Verdict { status: u32, layout_fault: u32, sandboxes: u32, bundles: u32, findings: u32, first: Finding }
    Flash {
        sector_size: u32, page_size: u32,
        read: Option<unsafe extern "C" fn(host: *mut c_void, address: u32, bytes: *mut u8, length: u32) -> bool>,
        erase_sector: Option<unsafe extern "C" fn(host: *mut c_void, address: u32) -> bool>,
        program_page: Option<unsafe extern "C" fn(host: *mut c_void, address: u32, bytes: *const u8) -> bool>,
    }
    Claim { sequence: u32, least_sequence: u32, length: u32, digest: [u8; 32] }
    StoredVersion { state: u32, starts: u32, claim: Claim, signature: [u8; 64] }
    Record {
        layout: u32, generation: u32, least_sequence: u32, versions: [StoredVersion; 2], check: [u8; 12],
    }
    Store {
        flash: *const Flash, host: *mut c_void, records: u32, areas: [u32; 2], area_size: u32, trial_starts: u32,
        is_signed: Option<unsafe extern "C" fn(host: *mut c_void, claim: *const Claim, signature: *const u8) -> bool>,
        watch: Option<unsafe extern "C" fn(host: *mut c_void, on: bool)>,
        read_counter: Option<unsafe extern "C" fn(host: *mut c_void) -> u32>,
        raise_counter: Option<unsafe extern "C" fn(host: *mut c_void, least_sequence: u32) -> bool>,
        record: Record, place: u32, is_chosen: bool, chosen: u32, is_taking: bool, target: u32, taken: u32,
        update: StoredVersion, page: [u8; 256],
    }
    Place { code_base: u32, code_size: u32, data_base: u32, data_size: u32 }
    Plugin { store: Store, place: Place, image: *mut u8, sandbox: Sandbox, version: u32, turns: u32, is_kept: bool }
    Plugins {
        firmware: *const Firmware, plugins: *mut Plugin, count: u32, turn_ticks: u32, trial_turns: u32,
        write_code: Option<unsafe extern "C" fn(address: u32, bytes: *const u8, length: u32)>,
        feed: Option<unsafe extern "C" fn(host: *mut c_void)>,
        tells: Option<unsafe extern "C" fn(host: *mut c_void, number: u32, news: News, version: u32)>,
        is_open: bool, is_working: bool,
    }
    Sha256 { state: [u32; 8], length: u32, block: [u8; 64] }
}

#[link(name = "sfi_device", kind = "static")]
extern "C" {
    pub fn sfi_device_check(
        image: *const u8,
        length: u32,
        between_pieces: Option<unsafe extern "C" fn(host: *mut c_void)>,
        host: *mut c_void,
        verdict: *mut Verdict,
    ) -> Status;
    pub fn sfi_device_tell(image: *const u8, length: u32, number: u32, part: *mut Part) -> Status;
    pub fn sfi_device_empty(sandbox: *mut Sandbox);
    pub fn sfi_device_enter_start(sandbox: *mut Sandbox, part: *const Part);
    pub fn sfi_device_enter_again(sandbox: *mut Sandbox, pc: u32, arguments: *const u32) -> bool;
    pub fn sfi_device_turn(firmware: *const Firmware, sandbox: *mut Sandbox, ticks: u32);
    pub fn sfi_device_own_bytes(sandbox: *const Sandbox, address: u32, length: u32) -> *mut u8;
    pub fn sfi_device_close_guards(number: u32, part: *const Part) -> Fault;
    pub fn sfi_device_write_protection() -> Fault;
    pub fn sfi_device_try_guards(firmware: *const Firmware, part: *const Part) -> Fault;
    pub fn sfi_device_are_apart(one: *const Part, other: *const Part) -> bool;
    pub fn sfi_device_store_open(store: *mut Store) -> StoreStatus;
    pub fn sfi_device_store_choose(store: *mut Store, area: *mut u32) -> StoreStatus;
    pub fn sfi_device_store_keep(store: *mut Store) -> StoreStatus;
    pub fn sfi_device_store_reject(store: *mut Store) -> StoreStatus;
    pub fn sfi_device_store_begin(store: *mut Store, claim: *const Claim, signature: *const u8) -> StoreStatus;
    pub fn sfi_device_store_write(store: *mut Store, bytes: *const u8, length: u32) -> StoreStatus;
    pub fn sfi_device_store_finish(store: *mut Store) -> StoreStatus;
    pub fn sfi_device_exit(host: *mut c_void, caller: *mut Sandbox, call: *mut Call) -> Outcome;
    pub fn sfi_device_yield(host: *mut c_void, caller: *mut Sandbox, call: *mut Call) -> Outcome;
    pub fn sfi_device_report(host: *mut c_void, caller: *mut Sandbox, call: *mut Call) -> Outcome;
    pub fn sfi_device_plugins_open(all: *mut Plugins) -> Fault;
    pub fn sfi_device_plugins_run(all: *mut Plugins);
    pub fn sfi_device_plugins_may_update(all: *const Plugins, number: u32) -> bool;
    pub fn sfi_device_plugins_begin(all: *mut Plugins, number: u32, claim: *const Claim, signature: *const u8) -> StoreStatus;
    pub fn sfi_device_plugins_write(all: *mut Plugins, number: u32, bytes: *const u8, length: u32) -> StoreStatus;
    pub fn sfi_device_plugins_finish(all: *mut Plugins, number: u32) -> StoreStatus;
    pub fn sfi_device_sha256_begin(hash: *mut Sha256);
    pub fn sfi_device_sha256_add(hash: *mut Sha256, bytes: *const u8, length: u32);
    pub fn sfi_device_sha256_end(hash: *mut Sha256, digest: *mut u8);
}

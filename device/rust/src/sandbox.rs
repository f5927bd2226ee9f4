//! Images and sandboxes.
use crate::ffi::{self, Call, Outcome, Part, State, Status, Verdict};
use core::ffi::c_void;
use core::marker::PhantomData;
use core::mem::MaybeUninit;
use core::ptr;

/// An image that the checker accepted. Its bytes stay as they are as long as it is borrowed.
pub struct Accepted<'image> {
    image: &'image [u8],
}

/// Why an image isn't accepted: the checker's verdict, or `CheckerStopped`.
#[derive(Clone, Copy)]
pub struct Refused {
    /// `NotAccepted`, or `CheckerStopped`
    pub status: Status,
    /// Of `NotAccepted`
    pub verdict: Verdict,
}

fn length_of(bytes: &[u8]) -> u32 {
    u32::try_from(bytes.len()).unwrap_or(u32::MAX)
}

unsafe extern "C" fn between<F: FnMut()>(host: *mut c_void) {
    // SAFETY: `check_between` has the library call it, with its function, which nothing else borrows then.
    unsafe { (*host.cast::<F>())() }
}

/// Judges an image where it lies.
pub fn check(image: &[u8]) -> Result<Accepted<'_>, Refused> {
    check_between(image, || ())
}

/// Judges an image in pieces, and calls a function after each: in it sandboxes of other images may have turns.
pub fn check_between<F: FnMut()>(image: &[u8], mut between_pieces: F) -> Result<Accepted<'_>, Refused> {
    let mut verdict = MaybeUninit::<Verdict>::zeroed();
    let host = ptr::addr_of_mut!(between_pieces).cast();
    // SAFETY: the slice can be read, and zeros are a verdict.
    let (status, verdict) = unsafe {
        let status = ffi::sfi_device_check(image.as_ptr(), length_of(image), Some(between::<F>), host, verdict.as_mut_ptr());
        (status, verdict.assume_init())
    };
    match status {
        Status::Done => Ok(Accepted { image }),
        status => Err(Refused { status, verdict }),
    }
}

impl Accepted<'_> {
    /// What the image says of a sandbox: `NotAccepted` where another image was judged since.
    pub fn part(&self, number: u32) -> Result<Part, Status> {
        let mut part = MaybeUninit::<Part>::zeroed();
        // SAFETY: the slice can be read; zeros are a part, in which pointers are null.
        let (status, part) = unsafe {
            let status = ffi::sfi_device_tell(self.image.as_ptr(), length_of(self.image), number, part.as_mut_ptr());
            (status, part.assume_init())
        };
        match status {
            Status::Done => Ok(part),
            status => Err(status),
        }
    }
}

/// What answers a gate.
pub trait Service<H> {
    /// It has to be right for any a0 and a1, at any time.
    fn answer(host: &mut H, caller: &mut Caller<'_>, call: &mut Call) -> Outcome;
}

/// The sandbox that called.
pub struct Caller<'turn> {
    sandbox: &'turn mut ffi::Sandbox,
}

impl Caller<'_> {
    /// Bytes of its data from an address on, or none where one of them isn't its own.
    pub fn own_bytes(&mut self, address: u32, length: u32) -> Option<&mut [u8]> {
        // SAFETY: what isn't null is data of this sandbox, which makes no step while it is borrowed.
        unsafe {
            let bytes = ffi::sfi_device_own_bytes(self.sandbox, address, length);
            (!bytes.is_null()).then(|| core::slice::from_raw_parts_mut(bytes, length as usize))
        }
    }
}

unsafe extern "C" fn answered<H, S: Service<H>>(host: *mut c_void, caller: *mut ffi::Sandbox, call: *mut Call) -> Outcome {
    // SAFETY: the library calls it in a turn, with the host that `Firmware` borrows, and with a sandbox and a call of its own.
    unsafe { S::answer(&mut *host.cast::<H>(), &mut Caller { sandbox: &mut *caller }, &mut *call) }
}

/// The entry of a table of services, for firmwares with such a host.
#[repr(transparent)]
pub struct Entry<H>(Option<ffi::Service>, PhantomData<fn(H) -> H>);

impl<H> Entry<H> {
    /// No service: the reply is `u32::MAX`, in a0.
    pub const NONE: Self = Entry(None, PhantomData);
    /// The caller exits with a0.
    pub const EXIT: Self = Entry(Some(ffi::sfi_device_exit), PhantomData);
    /// The caller's turn ends.
    pub const YIELD: Self = Entry(Some(ffi::sfi_device_yield), PhantomData);
    /// The caller works: [`crate::Plugins`] keeps its version.
    pub const REPORT: Self = Entry(Some(ffi::sfi_device_report), PhantomData);

    /// A service of the firmware's own.
    pub const fn of<S: Service<H>>() -> Self {
        Entry(Some(answered::<H, S>), PhantomData)
    }
}

/// The processor that the firmware runs on.
///
/// # Safety
/// The firmware runs in the mode that the library was built for, with interrupts off but in turns, and its traps come to the
/// library. Neither function touches the firmware's host or a sandbox; `interrupt_after` has the timer interrupt once; and
/// `answer_interrupt` knows no interrupt by which the processor tells of an access that failed.
pub unsafe trait Machine {
    /// Has the timer interrupt after so many ticks.
    extern "C" fn interrupt_after(ticks: u32);
    /// Quiets an interrupt other than the timer's, and says whether it is one of the firmware's.
    fn answer_interrupt(_cause: u32) -> bool {
        false
    }
}

extern "C" fn answered_interrupt<M: Machine>(cause: u32) -> bool {
    M::answer_interrupt(cause)
}

/// What a firmware gives: a host, services by the numbers that images give their gates, and its machine.
pub struct Firmware<'host, H> {
    pub(crate) raw: ffi::Firmware,
    host: PhantomData<&'host mut H>,
}

impl<'host, H> Firmware<'host, H> {
    /// Of the machine the type is what counts.
    pub fn new<M: Machine>(host: &'host mut H, services: &'host [Entry<H>], _machine: M) -> Self {
        let raw = ffi::Firmware {
            services: services.as_ptr().cast(), // an entry is one of C
            service_count: length_in(services),
            host: (host as *mut H).cast(),
            interrupt_after: Some(M::interrupt_after),
            answer_interrupt: Some(answered_interrupt::<M>),
        };
        Firmware { raw, host: PhantomData }
    }

    /// Tries that loads in the part's guard zones trap, and none in its data.
    ///
    /// # Safety
    /// It is before any interrupt but the timer's is on, and a load there does nothing else.
    pub unsafe fn try_guards(&mut self, part: &Part) -> Status {
        // SAFETY: as the caller says.
        unsafe { ffi::sfi_device_try_guards(&self.raw, part).status }
    }
}

fn length_in<T>(table: &[T]) -> u32 {
    u32::try_from(table.len()).unwrap_or(u32::MAX)
}

/// A sandbox of an accepted image.
pub struct Sandbox<'image> {
    raw: ffi::Sandbox,
    image: PhantomData<&'image [u8]>,
}

impl<'image> Sandbox<'image> {
    /// One that is ready at its start.
    ///
    /// # Safety
    /// The part is of that image. Code and data are in their places, and the premises of the theorem are kept as long as this
    /// is ready: nothing else writes its code or its data, and its guard zones trap.
    pub unsafe fn start(_image: &Accepted<'image>, part: &Part) -> Self {
        let mut raw = MaybeUninit::<ffi::Sandbox>::zeroed();
        // SAFETY: zeros are an empty sandbox.
        let raw = unsafe {
            ffi::sfi_device_enter_start(raw.as_mut_ptr(), part);
            raw.assume_init()
        };
        Sandbox { raw, image: PhantomData }
    }

    /// One turn, of at most so many ticks.
    pub fn turn<H>(&mut self, firmware: &mut Firmware<'_, H>, ticks: u32) {
        // SAFETY: as `start` and `Machine` ask.
        unsafe { ffi::sfi_device_turn(&firmware.raw, &mut self.raw, ticks) }
    }

    /// Makes one that has stopped ready at pc. False, and nothing is changed, where it can't be.
    pub fn enter_again(&mut self, pc: u32, arguments: &[u32; 8]) -> bool {
        // SAFETY: the sandbox and the arguments are there.
        unsafe { ffi::sfi_device_enter_again(&mut self.raw, pc, arguments.as_ptr()) }
    }

    /// Whether it is ready, or how it has stopped.
    pub fn state(&self) -> State {
        self.raw.state
    }

    /// Of one that has exited.
    pub fn exit_code(&self) -> Option<u32> {
        (self.raw.state == State::Exited).then_some(self.raw.exit_code)
    }

    /// Of one that a trap stopped: pc, and the first byte of the access, or else pc.
    pub fn trap(&self) -> Option<(u32, u32)> {
        (self.raw.state == State::Trapped).then_some((self.raw.frame.pc, self.raw.trap_address))
    }
}

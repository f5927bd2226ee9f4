//! The data of a sandbox that runs natively, where they lie.
#[cfg(native)]
use crate::sys;
use crate::Sandbox;
#[cfg(native)]
use std::slice;

impl Sandbox<'_> {
    /// All its data, to be read and written where they lie: the first byte is that of address [`data`](Self::data)`().base`. The
    /// borrow sees to it that nothing runs meanwhile. None where the sandbox goes step by step ([`engine`](crate::World::engine)):
    /// then [`read`](Self::read) and [`write`](Self::write) copy.
    pub fn bytes(&mut self) -> Option<&mut [u8]> {
        #[cfg(native)]
        {
            let length = self.data().size as usize;
            // SAFETY: the world is there and the sandbox in it.
            let first = unsafe { sys::sfi_native_data(self.world, self.number) };
            // SAFETY: unless that is null its data are that many bytes and stay where they are until it is removed or the world freed
            // (sfi_run_native.h); both are borrowed as long as the answer, so no call is made then, and nothing else has the bytes.
            (!first.is_null()).then(|| unsafe { slice::from_raw_parts_mut(first, length) })
        }
        #[cfg(not(native))]
        None
    }
}

//! Images that are checked and decoded once, for many worlds.
use crate::{sys, LoadError, World};
use std::ptr;

/// An image, checked and decoded. Its worlds share the decoded code, which nothing writes, and each has its data, registers and
/// steps for itself. They may be dropped in any order, and after the module; a thread may have each of them:
///
/// ```no_run
/// # fn main() -> Result<(), Box<dyn std::error::Error>> {
/// let image = std::fs::read("hi.image")?;
/// let mut module = sfi_run::modules::Module::new(&image)?;
/// let worlds = (0..4).map(|_| module.instance()).collect::<Result<Vec<_>, _>>()?;
/// for mut world in worlds {
///     std::thread::spawn(move || world.sandbox(0).unwrap().turn(10_000));
/// }
/// # Ok(())
/// # }
/// ```
///
/// Or its sandboxes come into a world beside those of others: [`World::add`].
///
/// It is freed when it is dropped. What is said of a [`World`] and threads holds of it, too.
pub struct Module {
    pub(crate) raw: sys::Module,
}

// SAFETY: as of a world (`Send` of `HeldModule` in crates/sfi_run).
unsafe impl Send for Module {}

impl Module {
    /// Checks and decodes an image's own bytes. An error is one of [`World::load`].
    pub fn new(image: &[u8]) -> Result<Module, LoadError> {
        let mut raw = sys::Module {
            held: 0,
            at: ptr::null_mut(),
        };
        // SAFETY: the bytes can be read, a module of zeros is none, and the verdict can be written.
        LoadError::of(|verdict| unsafe {
            sys::sfi_run_module_new(image.as_ptr(), image.len(), &mut raw, verdict)
        })?;
        Ok(Module { raw })
    }

    /// A world of the image: what [`World::load`] makes of its bytes, with nothing checked or decoded anew. The error is
    /// [`LoadError::NoMemory`].
    pub fn instance(&mut self) -> Result<World, LoadError> {
        let mut raw = sys::World {
            held: 0,
            at: ptr::null_mut(),
        };
        // SAFETY: nothing else uses the module during the call, and a world of zeros is none.
        if unsafe { sys::sfi_run_instance(&mut self.raw, &mut raw) } {
            Ok(World::of(raw))
        } else {
            Err(LoadError::NoMemory)
        }
    }
}

impl Drop for Module {
    fn drop(&mut self) {
        // SAFETY: nothing uses it after this.
        unsafe { sys::sfi_run_module_free(&mut self.raw) }
    }
}

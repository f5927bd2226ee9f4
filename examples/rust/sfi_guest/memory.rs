//! Memory for `alloc`: blocks whose sizes are powers of two. Those that were freed are taken again by the next that asks
//! for their size; the rest comes from the heap, by the sandbox's runtime.
use core::alloc::{GlobalAlloc, Layout};
use core::cell::Cell;
use core::ptr::null_mut;

const SMALLEST: usize = 8;
/// A block lies at a multiple of its size, or of this, where that is less.
const MOST_ALIGNED: usize = 64;

extern "C" {
    /// The next bytes of the heap, or of none its end; null where there is no room.
    fn __heap_more(more: i32) -> *mut u8;
}

/// A block that was freed begins with the address of the next one of its size.
type Block = *mut u8;

struct Heap {
    /// The last freed block of each size, by the size's logarithm.
    freed: [Cell<Block>; usize::BITS as usize],
}

// SAFETY: a sandbox has one thread.
unsafe impl Sync for Heap {}

#[allow(clippy::declare_interior_mutable_const)]
const NONE: Cell<Block> = Cell::new(null_mut());

#[global_allocator]
static HEAP: Heap = Heap {
    freed: [NONE; usize::BITS as usize],
};

fn size_of_block(layout: Layout) -> Option<usize> {
    layout
        .size()
        .max(layout.align())
        .max(SMALLEST)
        .checked_next_power_of_two()
}

impl Heap {
    fn freed_of(&self, size: usize) -> &Cell<Block> {
        &self.freed[size.trailing_zeros() as usize]
    }

    /// A block that nobody had before; null where the heap's rest is smaller.
    fn fresh(&self, size: usize) -> Block {
        // SAFETY: without bytes nothing is given out.
        let end = unsafe { __heap_more(0) } as usize;
        let skipped = end.wrapping_neg() & (size.min(MOST_ALIGNED) - 1);
        let wanted = size.checked_add(skipped).and_then(|it| i32::try_from(it).ok());
        // SAFETY: what is given out is nobody else's.
        let given = wanted.map_or(null_mut(), |it| unsafe { __heap_more(it) });
        if given.is_null() {
            return given;
        }
        // SAFETY: `size` bytes from there on are those that were given out.
        unsafe { given.add(skipped) }
    }
}

// SAFETY: each block that is given out is in the heap, apart from all others that are, and as large and aligned as asked.
unsafe impl GlobalAlloc for Heap {
    unsafe fn alloc(&self, layout: Layout) -> *mut u8 {
        let size = match size_of_block(layout) {
            Some(size) if layout.align() <= MOST_ALIGNED => size,
            _ => return null_mut(),
        };
        let first = self.freed_of(size).get();
        if first.is_null() {
            return self.fresh(size);
        }
        self.freed_of(size).set((first as *const Block).read());
        first
    }

    unsafe fn dealloc(&self, at: *mut u8, layout: Layout) {
        if let Some(size) = size_of_block(layout) {
            (at as *mut Block).write(self.freed_of(size).get());
            self.freed_of(size).set(at);
        }
    }

    unsafe fn realloc(&self, at: *mut u8, layout: Layout, new_size: usize) -> *mut u8 {
        let wanted = Layout::from_size_align_unchecked(new_size, layout.align());
        if size_of_block(wanted) == size_of_block(layout) {
            return at;
        }
        let moved = self.alloc(wanted);
        if !moved.is_null() {
            moved.copy_from_nonoverlapping(at, layout.size().min(new_size));
            self.dealloc(at, layout);
        }
        moved
    }
}

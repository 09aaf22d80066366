//! Memory for a linker, a seat, a memo, a view or a renewal, that isn't moved.
use crate::raw::Opaque;
use std::alloc::{alloc, dealloc, handle_alloc_error, Layout};
use std::ptr::NonNull;

pub struct Block {
    at: NonNull<Opaque>,
    layout: Layout,
}

impl Block {
    /// A block of at least one byte. Nothing is written in it.
    pub fn new(size: usize, align: usize) -> Block {
        let layout = Layout::from_size_align(size.max(1), align).expect("the library asks for a size and a power of two");
        // SAFETY: the layout has a byte at least.
        let at = unsafe { alloc(layout) }.cast::<Opaque>();
        Block { at: NonNull::new(at).unwrap_or_else(|| handle_alloc_error(layout)), layout }
    }

    pub fn at(&self) -> *mut Opaque {
        self.at.as_ptr()
    }
}

impl Drop for Block {
    fn drop(&mut self) {
        // SAFETY: it is of this layout, and nothing of it is used after this.
        unsafe { dealloc(self.at.as_ptr().cast(), self.layout) }
    }
}

//! Handles that are freed when they are dropped.
use crate::ffi::{self, Handle};
use std::cell::UnsafeCell;
use std::fmt;

/// A handle that only this value has. It is never copied: a move copies its bytes and forgets the old ones.
///
/// The cell lets the calls of a look take `&self`. It makes the type one that is not `Sync`, so that no two threads are
/// in calls with one handle at a time. It is transparent over the handle, so handles of a slice lie as those of C do.
#[repr(transparent)]
pub(crate) struct Owned<T: Handle>(UnsafeCell<T>);

impl<T: Handle> Owned<T> {
    /// Takes over a handle that is empty, or as the library left it.
    pub fn of(handle: T) -> Owned<T> {
        Owned(UnsafeCell::new(handle))
    }

    /// The handle for one call of the library. It is empty or as the library left it, and in no other call, except that
    /// a [`Subscriber`](crate::Subscriber) or a [`PreparedUpdate`](crate::PreparedUpdate) may be in several that only
    /// read it: no other thread has a reference to it else, and the library calls nothing back.
    pub fn at(&self) -> *mut T {
        self.0.get()
    }
}

/// An empty handle.
impl<T: Handle> Default for Owned<T> {
    fn default() -> Owned<T> {
        Owned::of(T::EMPTY)
    }
}

/// What the library keeps behind a handle is not shown.
impl<T: Handle> fmt::Debug for Owned<T> {
    fn fmt(&self, out: &mut fmt::Formatter<'_>) -> fmt::Result {
        out.write_str("..")
    }
}

impl<T: Handle> Drop for Owned<T> {
    fn drop(&mut self) {
        if self.0.get_mut().is_full() {
            // SAFETY: the handle is as the library left it, and in no other call, since this has it by `&mut`.
            unsafe { ffi::camel_empty(self.at().cast()) }
        }
    }
}

// SAFETY: the library proves that what a handle holds may be used by another thread. Each way by which Rust sends a
// value makes the calls before it happen before those behind it; docs/LIBRARY.md ("What nothing checks") says why that
// suffices, and what the toolchain itself asks.
unsafe impl<T: Handle> Send for Owned<T> {}

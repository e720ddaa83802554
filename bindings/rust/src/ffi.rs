//! What the crate has of `camel.h`: its declarations, and what they are here. Nothing of this module is public.
use std::ffi::c_void;
use std::fmt;
use std::hash::{Hash, Hasher};

macro_rules! structures {
    ($(pub struct $name:ident { $(pub $field:ident: $type:ty,)+ })+) => { $(
        #[repr(C)]
        #[derive(Clone, Copy, Debug, PartialEq, Eq, Hash)]
        pub struct $name { $(pub $field: $type,)+ }

        /// All of it is 0.
        impl Default for $name {
            #[inline]
            fn default() -> $name {
                // SAFETY: it has numbers, bools and pointers only, and all of these may be 0.
                unsafe { std::mem::zeroed() }
            }
        }
    )+ };
}

macro_rules! sizes {
    ($($name:ident)+) => {
        /// As `camel_layouts` tells them.
        pub const SIZES: &[usize] = &[$(size_of::<$name>()),+];
    };
}

// A test reads these files too, and only it calls `camel_layouts`.
#[allow(dead_code)]
#[path = "declared.rs"]
mod declared;
pub use declared::*;

pub type Status = u32;
pub const OK: Status = 0;

/// An address: its first octets, 1 to ROOM. Those behind them may be any.
#[repr(C)]
#[derive(Clone, Copy)]
pub struct Octets<const ROOM: usize> {
    length: u8,
    octets: [u8; ROOM],
}

impl<const ROOM: usize> Octets<ROOM> {
    /// These octets, of which there are at most ROOM.
    pub fn of(octets: &[u8]) -> Octets<ROOM> {
        let mut array = [0; ROOM];
        array[..octets.len()].copy_from_slice(octets);
        Octets {
            length: octets.len() as u8,
            octets: array,
        }
    }

    pub fn get(&self) -> &[u8] {
        first(&self.octets, self.length)
    }
}

impl<const ROOM: usize> Default for Octets<ROOM> {
    fn default() -> Octets<ROOM> {
        Octets::of(&[])
    }
}

impl<const ROOM: usize> PartialEq for Octets<ROOM> {
    fn eq(&self, other: &Octets<ROOM>) -> bool {
        self.get() == other.get()
    }
}

impl<const ROOM: usize> Eq for Octets<ROOM> {}

impl<const ROOM: usize> Hash for Octets<ROOM> {
    fn hash<H: Hasher>(&self, state: &mut H) {
        self.get().hash(state);
    }
}

impl<const ROOM: usize> fmt::Debug for Octets<ROOM> {
    fn fmt(&self, out: &mut fmt::Formatter<'_>) -> fmt::Result {
        write_octets(self.get(), out)
    }
}

/// Writes octets in hexadecimal.
pub fn write_octets(octets: &[u8], out: &mut fmt::Formatter<'_>) -> fmt::Result {
    octets
        .iter()
        .try_for_each(|octet| write!(out, "{octet:02x}"))
}

/// The first so many items of an array, or all of it.
pub fn first<T>(items: &[T], count: impl Into<usize>) -> &[T] {
    items.get(..count.into()).unwrap_or(items)
}

/// A handle: words of the caller's memory, empty if all of its bytes are 0.
pub trait Handle {
    const EMPTY: Self;
    fn is_full(&self) -> bool;
}

macro_rules! handles {
    ($($name:ident)+) => { $(
        #[repr(C)]
        pub struct $name {
            at: *mut c_void,
            is_full: bool,
        }

        impl Handle for $name {
            const EMPTY: $name = $name { at: std::ptr::null_mut(), is_full: false };

            fn is_full(&self) -> bool {
                self.is_full
            }
        }
    )+ };
}

handles! { Store Session Subscriber Update Imsis }

//! Going through the records of a store, as for a dump.
use crate::error::find;
use crate::ffi::{first, write_octets};
use crate::handle::Owned;
use crate::{Imsi, ffi};
use std::fmt;
use std::iter::FusedIterator;
use std::ops::Deref;

/// The most octets of an [`Argument`].
pub const MAX_ARGUMENT: usize = ffi::MAX_ARGUMENT;

/// The IMSIs that have a record, of one front: each once, in no order that is promised. It has memory of its own, holds
/// nobody up, and outlives the store.
#[derive(Debug)]
pub struct Imsis(pub(crate) Owned<ffi::Imsis>);

impl Iterator for Imsis {
    type Item = Imsi;

    fn next(&mut self) -> Option<Imsi> {
        // SAFETY: the handle is fit for a call, as `Owned` says; what is written is apart from it.
        let next =
            find(|imsi, is_there| unsafe { ffi::camel_next_imsi(self.0.at(), imsi, is_there) });
        // What the library answered else, which safe code does not meet, is no IMSI.
        next.and_then(|imsi| imsi.map(Imsi::of_raw).transpose())
            .unwrap_or_default()
    }
}

/// Behind the last IMSI there is none.
impl FusedIterator for Imsis {}

/// The argument of an InsertSubscriberData, in BER: at most [`MAX_ARGUMENT`] octets, with the IMSI among them. It is
/// written in hexadecimal.
#[derive(Clone, PartialEq, Eq)]
pub struct Argument(pub(crate) ffi::Argument);

impl Deref for Argument {
    type Target = [u8];

    fn deref(&self) -> &[u8] {
        first(&self.0.octets, self.0.count)
    }
}

impl AsRef<[u8]> for Argument {
    fn as_ref(&self) -> &[u8] {
        self
    }
}

impl fmt::Display for Argument {
    fn fmt(&self, out: &mut fmt::Formatter<'_>) -> fmt::Result {
        write_octets(self, out)
    }
}

impl fmt::Debug for Argument {
    fn fmt(&self, out: &mut fmt::Formatter<'_>) -> fmt::Result {
        write!(out, "Argument({self})")
    }
}

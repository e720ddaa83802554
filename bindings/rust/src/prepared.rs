//! Updates that are made before they are submitted: decoded, joined, and submitted together.
use crate::error::{done, error_at_place, read};
use crate::handle::Owned;
use crate::{Error, Imsi, MapFault, Operation, Update, Withdrawal, ffi};
use std::fmt;

/// An update that the library has read or decoded, and that is of no store. It may be submitted to any, and more than
/// once: by itself ([`Store::submit_prepared`](crate::Store::submit_prepared)) or with others, all or none
/// ([`Store::submit_all`](crate::Store::submit_all)). Threads may share it.
///
/// ```
/// use camel::{Operation, PreparedUpdate, Store, Update};
///
/// /// What the HLR sends of a subscriber at a location update, in one operation or in two.
/// fn location_update(
///     store: &mut Store,
///     imsi: camel::Imsi,
///     first: &[u8],
///     second: Option<&[u8]>,
/// ) -> Result<(), camel::Error> {
///     let register = PreparedUpdate::new(&Update::Register { imsi })?;
///     let mut insert = PreparedUpdate::from_map(Operation::InsertSubscriberData, Some(imsi), first)?;
///     if let Some(second) = second {
///         let next = PreparedUpdate::from_map(Operation::InsertSubscriberData, Some(imsi), second)?;
///         insert = insert.join(&next)?;
///     }
///     Ok(store.submit_all(&[register, insert])?)
/// }
/// ```
#[repr(transparent)]
pub struct PreparedUpdate(Owned<ffi::Update>);

// SAFETY: the calls that are made by a shared reference take the handle as const, and several such calls may be made
// with it at the same time.
unsafe impl Sync for PreparedUpdate {}

impl PreparedUpdate {
    /// Reads an update.
    ///
    /// # Errors
    /// [`Error::DataMissing`] and [`Error::UnexpectedDataValue`] of its data, as those of
    /// [`Store::submit`](crate::Store::submit). [`Error::OutOfMemory`]: try again.
    pub fn new(update: &Update) -> Result<PreparedUpdate, Error> {
        // SAFETY: the handle is empty, and in no other call; `taken` hands over all else, apart from it.
        read(|made: &mut Owned<_>| {
            update.taken(|kind, imsi, what, lists| unsafe {
                ffi::camel_update_of_nonnull(kind, imsi, what, lists, made.at())
            })
        })
        .map(PreparedUpdate)
    }

    /// Decodes what an operation of MAP brings, from the octets of its argument, as
    /// [`Store::submit_map`](crate::Store::submit_map) takes them. The IMSI is that of the dialogue, if it has one.
    ///
    /// # Errors
    /// [`Error::MalformedOctets`] to [`Error::OtherImsi`], [`Error::DataMissing`] and [`Error::UnexpectedDataValue`]:
    /// the argument has a fault, at the place that is said. [`Error::OutOfMemory`]: try again.
    pub fn from_map(
        operation: Operation,
        imsi: Option<Imsi>,
        argument: &[u8],
    ) -> Result<PreparedUpdate, MapFault> {
        let made = Owned::default();
        // SAFETY: the handle is empty, and in no other call; `taken` hands over all else, apart from it.
        operation.taken(imsi, argument, |code, imsi, octets, count, place| unsafe {
            ffi::camel_update_of_map_nonnull(code, imsi, octets, count, made.at(), place)
        })?;
        Ok(PreparedUpdate(made))
    }

    /// The join of this Insert and the next one of the same dialogue: what one operation brings that has the lists of
    /// both. Of the rows of a CSI that came in both, those of the next one stand. An HLR may split criteria over several
    /// operations: those of the next one are behind those of this one. Of a camelCapabilityHandling that came in both,
    /// that of the next one stands.
    ///
    /// # Errors
    /// [`Error::NoInsert`]: one of the two is no Insert. [`Error::OtherSubscriber`]: they are of
    /// different subscribers. [`Error::UnexpectedDataValue`]: criteria have more than 10 entries then, or two of a
    /// detection point of the CSI. [`Error::OutOfMemory`]: try again.
    pub fn join(&self, next: &PreparedUpdate) -> Result<PreparedUpdate, Error> {
        // SAFETY: the handles are fit for a call that reads them, as `Owned` says, and the one to be filled is apart
        // from both.
        read(|joined: &mut Owned<_>| unsafe {
            ffi::camel_update_join(self.0.at(), next.0.at(), joined.at())
        })
        .map(PreparedUpdate)
    }

    /// What came with it: of an Insert, which lists and how many items, and the camelCapabilityHandling of each CSI.
    ///
    /// # Errors
    /// [`Error::Unknown`] only, which safe code does not meet.
    pub fn parts(&self) -> Result<UpdateParts, Error> {
        // SAFETY: the handle is fit for a call, as `Owned` says, and the parts are apart from it.
        UpdateParts::of_raw(read(|parts| unsafe {
            ffi::camel_update_parts_of(self.0.at(), parts)
        })?)
    }
}

impl TryFrom<&Update> for PreparedUpdate {
    type Error = Error;

    fn try_from(update: &Update) -> Result<PreparedUpdate, Error> {
        PreparedUpdate::new(update)
    }
}

impl fmt::Debug for PreparedUpdate {
    fn fmt(&self, out: &mut fmt::Formatter<'_>) -> fmt::Result {
        let mut fields = out.debug_struct("PreparedUpdate");
        if let Ok(parts) = self.parts() {
            fields.field("parts", &parts);
        }
        fields.finish_non_exhaustive()
    }
}

/// What came with an update.
#[derive(Clone, Copy, Debug, PartialEq, Eq)]
pub enum UpdateParts {
    /// A Register.
    Register {
        /// The subscriber.
        imsi: Imsi,
    },
    /// An Insert.
    Insert {
        /// The subscriber.
        imsi: Imsi,
        /// How many items came in each list.
        counts: ItemCounts,
        /// The camelCapabilityHandling of each CSI.
        capabilities: CapabilityHandling,
    },
    /// A Delete.
    Delete {
        /// The subscriber.
        imsi: Imsi,
        /// The CSIs that are named.
        what: Withdrawal,
    },
    /// A Cancel.
    Cancel {
        /// The subscriber.
        imsi: Imsi,
    },
    /// A ClearAll.
    ClearAll,
}

/// How many items came in each list of an Insert, ignored ones among them: 1 to 10, or 0 if the list did not come.
#[derive(Clone, Copy, Debug, Default, PartialEq, Eq)]
pub struct ItemCounts {
    /// The rows of the O-CSI.
    pub o: u8,
    /// The criteria of the O-CSI.
    pub o_criteria: u8,
    /// The rows of the VT-CSI.
    pub vt: u8,
    /// The criteria of the VT-CSI.
    pub t_criteria: u8,
}

/// The camelCapabilityHandling of each CSI of an Insert, by which a switch chooses the version of CAP: the phase of
/// CAMEL, 1 to 16 by TS 29.002. None if it did not come.
#[derive(Clone, Copy, Debug, Default, PartialEq, Eq)]
pub struct CapabilityHandling {
    /// Of the O-CSI.
    pub o: Option<u32>,
    /// Of the VT-CSI.
    pub vt: Option<u32>,
}

impl UpdateParts {
    fn of_raw(parts: ffi::UpdateParts) -> Result<UpdateParts, Error> {
        let imsi = Imsi::of_raw(parts.imsi);
        match parts.kind {
            ffi::UPDATE_REGISTER => Ok(UpdateParts::Register { imsi: imsi? }),
            ffi::UPDATE_INSERT => Ok(UpdateParts::Insert {
                imsi: imsi?,
                counts: ItemCounts {
                    o: parts.o_rows,
                    o_criteria: parts.o_criteria,
                    vt: parts.vt_rows,
                    t_criteria: parts.t_criteria,
                },
                capabilities: CapabilityHandling {
                    o: parts.has_o_capability.then_some(parts.o_capability),
                    vt: parts.has_vt_capability.then_some(parts.vt_capability),
                },
            }),
            ffi::UPDATE_DELETE => Ok(UpdateParts::Delete {
                imsi: imsi?,
                what: Withdrawal::of_raw(parts.withdrawal),
            }),
            ffi::UPDATE_CANCEL => Ok(UpdateParts::Cancel { imsi: imsi? }),
            ffi::UPDATE_CLEAR_ALL => Ok(UpdateParts::ClearAll),
            other => Err(Error::Unknown(other.into())),
        }
    }
}

error_at_place! {
    /// Why updates were not submitted, or not committed, and which one the store rejects. It becomes its [`Error`] by
    /// `?`.
    Rejected {
        /// The index of the update that the store rejects; None if it rejects none of them, as when memory is refused.
        at: "update"
    }
}

/// What a call says of updates. It is handed their handles, their count, and the index of the one that the store
/// rejects, which it writes. The pointer and the count are of one slice, whose items are transparent over the handles;
/// the pointer of a slice of none is not null, and the index is apart from them.
pub(crate) fn taken(
    updates: &[PreparedUpdate],
    call: impl FnOnce(*const ffi::Update, usize, *mut usize) -> ffi::Status,
) -> Result<(), Rejected> {
    let mut rejected = updates.len();
    let status = call(updates.as_ptr().cast(), updates.len(), &mut rejected);
    done(status).map_err(|error| Rejected {
        error,
        at: (rejected < updates.len()).then_some(rejected),
    })
}

#[cfg(test)]
mod tests {
    use super::*;

    #[test]
    fn parts_of_unknown_kinds_are_errors() {
        let of_kind = |kind, number| {
            UpdateParts::of_raw(ffi::UpdateParts {
                kind,
                imsi: ffi::Imsi { number },
                ..Default::default()
            })
        };
        for kind in [0, 6, 255] {
            let unknown = Err(Error::Unknown(kind.into()));
            assert_eq!(of_kind(kind, 5 << 56 | 26201), unknown);
        }
        assert_eq!(of_kind(ffi::UPDATE_REGISTER, 0), Err(Error::Malformed));
    }
}

//! The store: its one writer.
use crate::error::{done, read};
use crate::ffi::Handle;
use crate::handle::Owned;
use crate::{
    Error, Imsi, MapFault, Operation, PreparedUpdate, Receipt, Rejected, Session, Update, ffi,
    prepared, session,
};
use std::slice;

/// The most sessions of a store.
pub const MAX_SESSIONS: usize = 64;

/// The most updates that a store may take in its life.
pub const MAX_UPDATES: u64 = i64::MAX as u64;

/// The choices that are made if the standards leave a point open.
#[derive(Clone, Copy, Debug, PartialEq, Eq, Hash)]
#[repr(u8)]
pub enum Profile {
    /// Numbering plans are not compared.
    One = 1,
    /// A listed number matches destinations of its own numbering plan only.
    Two = 2,
}

/// Counts of a store.
#[derive(Clone, Copy, Debug, Default, PartialEq, Eq)]
#[non_exhaustive]
pub struct Counts {
    /// How many subscribers have a record in what is published.
    pub subscribers: u64,
    /// How many updates are published.
    pub published: u64,
    /// How many updates are accepted, and not published.
    pub pending: u64,
    /// How many publications have failed with [`Error::Held`].
    pub held: u64,
}

/// The sessions whose looks hold the next publication up: their places in what [`Store::open`] gave, from 0 on, in
/// ascending order.
#[derive(Clone, Debug, PartialEq, Eq)]
pub struct Holders(u64);

impl Holders {
    /// One bit for each of them: bit i is that of the session at place i.
    pub fn bits(&self) -> u64 {
        self.0
    }
}

impl Iterator for Holders {
    type Item = usize;

    fn next(&mut self) -> Option<usize> {
        let place = self.0.trailing_zeros();
        self.0 &= self.0.wrapping_sub(1);
        (place < u64::BITS).then_some(place as usize)
    }

    fn size_hint(&self) -> (usize, Option<usize>) {
        let count = self.0.count_ones() as usize;
        (count, Some(count))
    }
}

impl ExactSizeIterator for Holders {}

/// The writer of a store. It may move to another thread, and is not shared.
///
/// A store that is dropped ends, and leaves what looks hold to them; what is pending is dropped.
///
/// ```compile_fail,E0277
/// fn is_shared<T: Sync>() {}
/// is_shared::<camel::Store>();
/// ```
#[derive(Debug)]
pub struct Store(Owned<ffi::Store>);

impl Store {
    /// Opens a store of 1 to [`MAX_SESSIONS`] sessions, which takes 1 to [`MAX_UPDATES`] updates in its life; a great
    /// limit takes no memory. The sessions decide under the profile, and no further one can be made. The seed is secret
    /// and random, as [`random_seed`](crate::random_seed) gives one, so that nobody who chooses IMSIs makes look-ups
    /// slow.
    ///
    /// # Errors
    /// No store is made then. [`Error::Malformed`]: the number of sessions or the limit is out of its range.
    /// [`Error::OutOfMemory`]: try again. [`Error::NoPlace`]: a session got no place; no run meets it.
    /// [`Error::OtherVersion`]: the library that is linked is not that of this crate.
    pub fn open(
        session_count: usize,
        limit: u64,
        profile: Profile,
        seed: u64,
    ) -> Result<(Store, Vec<Session>), Error> {
        if !(1..=MAX_SESSIONS).contains(&session_count) {
            return Err(Error::Malformed);
        }
        let store = Store(Owned::default());
        let mut handles = [const { ffi::Session::EMPTY }; MAX_SESSIONS];
        // SAFETY: all handles are empty, and the array has at least as many as are said.
        let status = unsafe {
            ffi::camel_open_version(
                ffi::ABI_VERSION,
                store.0.at(),
                handles.as_mut_ptr(),
                session_count,
                limit,
                profile as u8,
                seed,
            )
        };
        // Also after an error: a handle that is not empty is freed then.
        let sessions = handles
            .into_iter()
            .take(session_count)
            .map(Session::of)
            .collect();
        done(status)?;
        Ok((store, sessions))
    }

    /// Submits an update. No call sees it before it is published.
    ///
    /// # Errors
    /// The store is as before. [`Error::UnidentifiedSubscriber`]: an Insert or a Delete of an IMSI without a record.
    /// [`Error::DataMissing`]: a list without items, a number criterion without numbers and lengths, or criteria
    /// without their CSI. [`Error::UnexpectedDataValue`]: data out of their range, more than 10 items of a list, or
    /// two of a detection point of the CSI. [`Error::HistoryFull`]: the store has accepted as many updates as its
    /// limit; publications and looks go on. [`Error::OutOfMemory`]: submit it again.
    pub fn submit(&mut self, update: &Update) -> Result<(), Error> {
        // SAFETY: the handle is fit for a call, as `Owned` says; `taken` hands over all else, apart from it.
        done(update.taken(|kind, imsi, what, lists| unsafe {
            ffi::camel_submit_change_nonnull(self.0.at(), kind, imsi, what, lists)
        }))
    }

    /// Submits what an operation of MAP brings, by the octets of its argument: the parameter of the TCAP invoke, in BER
    /// as docs/RULES.md ("MAP arguments") says. A length is definite, in up to four octets, or indefinite, at most 16
    /// deep, and no string that is read is in pieces. The IMSI is that of the dialogue, if the dialogue has one. No
    /// call sees the update before it is published.
    ///
    /// # Errors
    /// The store is as before. [`Error::MalformedOctets`] to [`Error::OtherImsi`], [`Error::DataMissing`] and
    /// [`Error::UnexpectedDataValue`]: the argument has a fault, at the place that is said. The errors of
    /// [`submit`](Store::submit) else, at no place.
    pub fn submit_map(
        &mut self,
        operation: Operation,
        imsi: Option<Imsi>,
        argument: &[u8],
    ) -> Result<(), MapFault> {
        // SAFETY: the handle is fit for a call, as `Owned` says; `taken` hands over all else, apart from it.
        operation.taken(imsi, argument, |code, imsi, octets, count, place| unsafe {
            ffi::camel_submit_map_nonnull(self.0.at(), code, imsi, octets, count, place)
        })
    }

    /// Submits a copy of an update that is made already. It may be submitted again. No call sees it before it is
    /// published.
    ///
    /// # Errors
    /// The store is as before. The errors of [`submit`](Store::submit), but those of its data.
    pub fn submit_prepared(&mut self, update: &PreparedUpdate) -> Result<(), Error> {
        Ok(self.submit_all(slice::from_ref(update))?)
    }

    /// Submits copies of several updates in their order: all of them are accepted, or none is. So the Register and the
    /// Insert of a location update are taken or rejected as one. No call sees them before they are published.
    ///
    /// # Errors
    /// The store is as before. The first update that the store rejects over those before it is named, with an error of
    /// [`submit_prepared`](Store::submit_prepared). Of several, a Cancel or a ClearAll, which leaves no record, is
    /// rejected with [`Error::UnexpectedDataValue`]; a single one may be of any kind. [`Error::OutOfMemory`]: submit
    /// them again.
    pub fn submit_all(&mut self, updates: &[PreparedUpdate]) -> Result<(), Rejected> {
        // SAFETY: the handle is fit for a call, as `Owned` says, and so are those of the updates, which are only read;
        // `taken` hands over all else, apart from them.
        prepared::taken(updates, |updates, count, rejected| unsafe {
            ffi::camel_submit_all_nonnull(self.0.at(), updates, count, rejected)
        })
    }

    /// Publishes all that is pending, also if nothing is, and gives a receipt of all that is published. For a receipt
    /// without a publication there is [`receipt`](Store::receipt).
    ///
    /// # Errors
    /// All is pending as before. [`Error::Held`]: a look is held that began before the last publication, of a session
    /// that [`holders`](Store::holders) names. Publish again once it is left; updates may be submitted meanwhile.
    /// [`Error::OutOfMemory`]: publish again.
    pub fn publish(&mut self) -> Result<Receipt, Error> {
        self.publish_to(&mut [])?;
        self.receipt()
    }

    /// Publishes all that is pending, and has these sessions of the store, at most [`MAX_SESSIONS`], learn it: from
    /// then on each shows it. So a switch with one event loop needs no receipt. A forgotten [`Look`](crate::Look) of
    /// these sessions is left before, also if the call fails.
    ///
    /// # Errors
    /// All is pending as before. Those of [`publish`](Store::publish). [`Error::OtherStore`]: a session is of another
    /// store. [`Error::Malformed`]: there are more than [`MAX_SESSIONS`].
    pub fn publish_to(&mut self, sessions: &mut [Session]) -> Result<(), Error> {
        // SAFETY: each handle is fit for a call, as `Owned` says, and in no other, since this has them by `&mut`; the
        // pointer and the count are as `with_handles` says.
        done(session::with_handles(sessions, |sessions, count| unsafe {
            ffi::camel_publish_to_nonnull(self.0.at(), sessions, count)
        })?)
    }

    /// What a switch with one event loop does with the updates of an operation: submits copies of them, as
    /// [`submit_all`](Store::submit_all) does, publishes them, and has these sessions learn it, as
    /// [`publish_to`](Store::publish_to) does. What was pending before the call is dropped: a switch that commits
    /// submits nothing else.
    ///
    /// # Errors
    /// None of the updates is shown, so the HLR may be answered with an error. The first update that the store rejects
    /// is named, with an error of [`submit_all`](Store::submit_all). All other errors are at no update, and those of
    /// [`publish_to`](Store::publish_to). After one of an update, or [`Error::Held`], nothing is pending. After
    /// [`Error::OtherStore`] or [`Error::Malformed`], all is as before. After [`Error::OutOfMemory`] some may be
    /// pending, which the next commit drops.
    pub fn commit(
        &mut self,
        updates: &[PreparedUpdate],
        sessions: &mut [Session],
    ) -> Result<(), Rejected> {
        // SAFETY: each handle is fit for a call, as `Owned` says, and those of the store and the sessions are in no
        // other, since this has them by `&mut`; the pointer and the count of the sessions are as `with_handles` says;
        // `taken` hands over all else, apart from them.
        session::with_handles(sessions, |sessions, session_count| {
            prepared::taken(updates, |updates, count, rejected| unsafe {
                ffi::camel_commit_nonnull(
                    self.0.at(),
                    updates,
                    count,
                    sessions,
                    session_count,
                    rejected,
                )
            })
        })
        .map_err(|error| Rejected { error, at: None })?
    }

    /// Drops all that is pending, as if it had not been submitted: the accepted updates are the published ones again,
    /// which also count for the limit. So a switch that answers the HLR with an error, after a publication that failed,
    /// does not show the data later. It takes no memory if no Cancel and no ClearAll is pending. Else it goes through
    /// all published records.
    ///
    /// # Errors
    /// All is pending as before. [`Error::OutOfMemory`]: drop it again later.
    pub fn drop_pending(&mut self) -> Result<(), Error> {
        // SAFETY: the handle is fit for a call, as `Owned` says.
        done(unsafe { ffi::camel_drop_pending(self.0.at()) })
    }

    /// A receipt of all that is published. It fails only as the library does of itself, which safe code does not meet.
    pub fn receipt(&self) -> Result<Receipt, Error> {
        // SAFETY: the handle is fit for a call, as `Owned` says, and the receipt is apart from it.
        read(|receipt| unsafe { ffi::camel_receipt_of(self.0.at(), receipt) }).map(Receipt)
    }

    /// The sessions whose looks hold the next publication up; none if it goes through now. It fails as
    /// [`receipt`](Store::receipt) does.
    pub fn holders(&mut self) -> Result<Holders, Error> {
        // SAFETY: the handle is fit for a call, as `Owned` says, and the bits are apart from it.
        read(|sessions| unsafe { ffi::camel_holders(self.0.at(), sessions) }).map(Holders)
    }

    /// How many subscribers and updates there are, and how often a publication was held. It fails as
    /// [`receipt`](Store::receipt) does.
    pub fn counts(&self) -> Result<Counts, Error> {
        // SAFETY: the handle is fit for a call, as `Owned` says, and the counts are apart from it.
        let counts: ffi::Counts =
            read(|counts| unsafe { ffi::camel_counts_of(self.0.at(), counts) })?;
        Ok(Counts {
            subscribers: counts.subscribers,
            published: counts.published,
            pending: counts.pending,
            held: counts.held,
        })
    }

    /// Ends the store; what is pending is dropped. Sessions find then that it has ended ([`Error::NoLook`]).
    ///
    /// # Errors
    /// A look is held: the [`Closing`] is to be closed again, or dropped, which leaves the data to the look. Each look
    /// that begins later finds that the store has ended.
    pub fn close(self) -> Result<(), Closing> {
        // SAFETY: the handle is fit for a call, as `Owned` says. After an error it is full still, and goes on into the
        // Closing.
        done(unsafe { ffi::camel_close(self.0.at()) }).map_err(|why| Closing { store: self, why })
    }
}

/// A store that has ended, and whose data a look holds. Whoever closes it again learns when they are freed. If it is
/// dropped, the look has the data to itself.
#[derive(Debug)]
pub struct Closing {
    store: Store,
    why: Error,
}

impl Closing {
    /// Why its data are not freed: [`Error::Held`].
    pub fn why(&self) -> Error {
        self.why
    }

    /// Tries again.
    ///
    /// # Errors
    /// As [`Store::close`].
    pub fn close(self) -> Result<(), Closing> {
        self.store.close()
    }
}

/// Why its data are not freed, for `?`. The store is dropped: the look has the data to itself.
impl From<Closing> for Error {
    fn from(closing: Closing) -> Error {
        closing.why()
    }
}

#[cfg(test)]
mod tests {
    use super::*;

    #[test]
    fn holders_are_the_places_of_their_bits() {
        for (bits, places) in [
            (0, vec![]),
            (1, vec![0]),
            (1 << 63, vec![63]),
            (0b1011, vec![0, 1, 3]),
            (u64::MAX, (0..64).collect()),
        ] {
            let holders = Holders(bits);
            assert_eq!(holders.bits(), bits);
            assert_eq!(holders.len(), places.len());
            assert_eq!(holders.collect::<Vec<_>>(), places);
        }
    }
}

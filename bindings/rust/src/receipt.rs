//! What sessions are told of a publication by, and what a call keeps.
use crate::error::{find, read};
use crate::handle::Owned;
use crate::{Answer, DetectionPoint, Error, Event, Row, Session, ffi};
use std::fmt;

/// A receipt of all that was published when it was made: plain data, which may be copied and shared. Any number of
/// sessions may learn it.
#[derive(Clone, Copy, PartialEq, Eq, Hash)]
pub struct Receipt(pub(crate) ffi::Receipt);

impl Receipt {
    /// How many updates it is of.
    pub fn front(&self) -> u64 {
        self.0.front
    }
}

/// The secret seed of the store is not shown.
impl fmt::Debug for Receipt {
    fn fmt(&self, out: &mut fmt::Formatter<'_>) -> fmt::Result {
        out.debug_struct("Receipt")
            .field("front", &self.front())
            .finish_non_exhaustive()
    }
}

/// The record of a subscriber, which a call keeps from its set-up to its later detection points, whatever the HLR sends
/// meanwhile. It holds nobody up, and outlives the store. Threads may share it, and decide by it at the same time.
#[derive(Debug)]
pub struct Subscriber(pub(crate) Owned<ffi::Subscriber>);

// SAFETY: the calls that are made by a shared reference take the handle as const, and several such calls may be made
// with it at the same time.
unsafe impl Sync for Subscriber {}

impl Subscriber {
    /// Decides an event by the record. The front of the answer is that of the look in which the record was kept. The
    /// event is one of the record's own subscriber: its IMSI is not compared. The session counts the decision, and
    /// neither looks nor learns: it is that of the calling thread, of whichever store, also of one that has ended.
    ///
    /// # Errors
    /// The record and the session are as before: [`Error::Unknown`] only, which safe code does not meet.
    #[inline]
    pub fn decide(&self, session: &mut Session, event: &Event) -> Result<Answer, Error> {
        // SAFETY: both handles are fit for a call, as `Owned` says; the event and the answer are apart from them.
        Answer::of_raw(read(|answer| unsafe {
            ffi::camel_decide_kept(session.handle.at(), self.0.at(), &event.0, answer)
        })?)
    }

    /// The row of the record at a detection point, as [`Session::row`]; None if there is none.
    ///
    /// # Errors
    /// As [`decide`](Subscriber::decide).
    pub fn row(&self, dp: DetectionPoint) -> Result<Option<Row>, Error> {
        // SAFETY: the handle is fit for a call that reads it, as `Owned` says; what is written is apart from it.
        let row = find(|row, is_there| unsafe {
            ffi::camel_kept_row_at(self.0.at(), dp.number(), row, is_there)
        })?;
        Ok(row.map(Row))
    }
}

//! Sessions: what call-control threads decide their calls by.
use crate::error::{done, find, read};
use crate::handle::Owned;
use crate::{
    Answer, Argument, Criteria, Decisions, DetectionPoint, Error, Event, Imsi, Imsis, MAX_SESSIONS,
    Receipt, Row, Subscriber, ffi,
};
use std::marker::PhantomData;
use std::{array, mem};

/// What one call-control thread decides its calls by. No call takes a lock, waits or yields, and none but
/// [`keep`](Session::keep), [`set_up`](Session::set_up), [`imsis`](Session::imsis) and
/// [`encode_record`](Session::encode_record) takes memory.
///
/// Each call has a look of its own; [`look`](Session::look) has several over one front. The front of a session never
/// goes back.
///
/// A session is in one call at a time, which the compiler sees to: it is not shared between threads, and has no other
/// call while it looks.
///
/// ```compile_fail,E0499
/// fn two_looks(session: &mut camel::Session) -> Result<(), camel::Error> {
///     let first = session.look()?;
///     let second = session.look()?;
///     first.leave();
///     Ok(second.leave())
/// }
/// ```
///
/// ```compile_fail,E0277
/// fn is_shared<T: Sync>() {}
/// is_shared::<camel::Session>();
/// ```
#[derive(Debug)]
pub struct Session {
    pub(crate) handle: Owned<ffi::Session>,
    /// Whether a look has begun and is not left. No call of this type finds it so, except behind a forgotten [`Look`].
    is_looking: bool,
}

impl Session {
    pub(crate) fn of(handle: ffi::Session) -> Session {
        Session {
            handle: Owned::of(handle),
            is_looking: false,
        }
    }

    /// Decides an event, over a front that extends all that the session saw and learnt.
    ///
    /// # Errors
    /// The session is as before. [`Error::NoLook`]: the store has ended.
    #[inline]
    pub fn decide(&mut self, event: &Event) -> Result<Answer, Error> {
        self.looking()?.decide(event)
    }

    /// Begins a look, which holds one front until it is left or dropped. It lets the next publication go through, and
    /// holds up the one after it: leave it before anything that takes long.
    ///
    /// # Errors
    /// As [`decide`](Session::decide).
    pub fn look(&mut self) -> Result<Look<'_>, Error> {
        let look = self.looking()?;
        // SAFETY: the handle is fit for a call, as `Owned` says.
        done(unsafe { ffi::camel_look(look.at()) })?;
        look.session.is_looking = true;
        Ok(look)
    }

    /// Learns a receipt: from then on the session sees at least what it is of. Any number of sessions may learn it.
    ///
    /// # Errors
    /// [`Error::OtherStore`]: the receipt is of another store than the session. [`Error::NoLook`]: the session's own
    /// store has ended. The session sees what it saw.
    pub fn learn(&mut self, receipt: &Receipt) -> Result<(), Error> {
        self.leave_forgotten()?;
        // SAFETY: the handle is fit for a call, as `Owned` says, and the receipt is apart from it.
        done(unsafe { ffi::camel_learn(self.handle.at(), &receipt.0) })
    }

    /// How many events the session, its looks and the records that were asked with it have decided, by detection point
    /// and reason. It fails only as the library does of itself, which safe code does not meet.
    pub fn decisions(&self) -> Result<Decisions, Error> {
        // SAFETY: the handle is fit for a call, as `Owned` says, and the counts are apart from it.
        read(|counts| unsafe { ffi::camel_decisions_of(self.handle.at(), counts) }).map(Decisions)
    }

    /// The row that is stored for a subscriber at a detection point; None if there is none.
    ///
    /// # Errors
    /// As [`decide`](Session::decide).
    pub fn row(&mut self, imsi: Imsi, dp: DetectionPoint) -> Result<Option<Row>, Error> {
        self.looking()?.row(imsi, dp)
    }

    /// The criteria that are stored for a subscriber at a detection point; None if there are none. They are there even
    /// if there is no row, and have no effect then.
    ///
    /// # Errors
    /// As [`decide`](Session::decide).
    pub fn criteria(&mut self, imsi: Imsi, dp: DetectionPoint) -> Result<Option<Criteria>, Error> {
        self.looking()?.criteria(imsi, dp)
    }

    /// Keeps the record of a subscriber, for the later detection points of a call; None if there is no record.
    ///
    /// # Errors
    /// As [`decide`](Session::decide), and [`Error::OutOfMemory`]: ask again; the session may have seen a later front.
    pub fn keep(&mut self, imsi: Imsi) -> Result<Option<Subscriber>, Error> {
        self.looking()?.keep(imsi)
    }

    /// Decides the event of a call's set-up, at detection point 2 or 12, and keeps the record of its subscriber, over
    /// one front.
    ///
    /// # Errors
    /// As [`keep`](Session::keep). Nothing is decided.
    pub fn set_up(&mut self, event: &Event) -> Result<(Answer, Option<Subscriber>), Error> {
        self.looking()?.set_up(event)
    }

    /// Lists the IMSIs that have a record, of one front. The list has memory of its own, and holds nobody up.
    ///
    /// # Errors
    /// As [`keep`](Session::keep).
    pub fn imsis(&mut self) -> Result<Imsis, Error> {
        self.looking()?.imsis()
    }

    /// Encodes the record of a subscriber, as the argument of the InsertSubscriberData that makes it where the
    /// subscriber has just registered; None if there is no record. After a restart
    /// [`PreparedUpdate::from_map`](crate::PreparedUpdate::from_map) decodes it.
    ///
    /// # Errors
    /// As [`keep`](Session::keep).
    pub fn encode_record(&mut self, imsi: Imsi) -> Result<Option<Argument>, Error> {
        self.looking()?.encode_record(imsi)
    }

    /// A look that has not begun: each of its calls has a look of its own in the library.
    #[inline]
    fn looking(&mut self) -> Result<Look<'_>, Error> {
        self.leave_forgotten()?;
        Ok(Look {
            session: self,
            stays: PhantomData,
        })
    }

    /// Leaves the look of a [`Look`] that was forgotten, so that each look is of its own call again.
    #[inline]
    fn leave_forgotten(&mut self) -> Result<(), Error> {
        if mem::take(&mut self.is_looking) {
            // SAFETY: the handle is fit for a call, as `Owned` says.
            done(unsafe { ffi::camel_leave(self.handle.at()) })?;
        }
        Ok(())
    }
}

impl Drop for Session {
    fn drop(&mut self) {
        // If the library refuses that, the handle is freed as it is.
        let _ = self.leave_forgotten();
    }
}

/// Makes a call of the library over the handles of sessions, which it is handed side by side, and has no look of a
/// forgotten [`Look`] go on. The pointer is not null, and the count is at most [`MAX_SESSIONS`].
///
/// # Errors
/// [`Error::Malformed`] of more sessions, and no call is made.
pub(crate) fn with_handles<R>(
    sessions: &mut [Session],
    call: impl FnOnce(*mut ffi::Session, usize) -> R,
) -> Result<R, Error> {
    let mut handles: [Owned<ffi::Session>; MAX_SESSIONS] = array::from_fn(|_| Owned::default());
    let places = handles.get_mut(..sessions.len()).ok_or(Error::Malformed)?;
    sessions.iter_mut().try_for_each(Session::leave_forgotten)?;
    let swap = |places: &mut [Owned<ffi::Session>], sessions: &mut [Session]| {
        for (place, session) in places.iter_mut().zip(sessions) {
            mem::swap(place, &mut session.handle);
        }
    };
    swap(places, sessions);
    let answer = call(places.as_mut_ptr().cast(), places.len());
    swap(places, sessions);
    Ok(answer)
}

/// A look of a session: all that it returns is of one front. It is left when it is dropped.
///
/// Its calls are those of a [`Session`], over its front. After an error it is as before: [`Error::Unknown`], which safe
/// code does not meet, and of [`keep`](Look::keep), [`set_up`](Look::set_up), [`imsis`](Look::imsis) and
/// [`encode_record`](Look::encode_record) also [`Error::OutOfMemory`]: ask again.
///
/// A look holds up the writer, so it stays in its thread: no future that may move to another thread holds one over an
/// `await`. The compiler counts a look until the end of the block in which it has a name, also behind
/// [`leave`](Look::leave). So it gets a block of its own before an `await`:
///
/// ```
/// async fn dialogue(_answer: &camel::Answer) {}
///
/// async fn set_up(session: &mut camel::Session, event: &camel::Event) -> Result<(), camel::Error> {
///     let answer = {
///         let look = session.look()?;
///         look.decide(event)?
///     };
///     dialogue(&answer).await;
///     Ok(())
/// }
///
/// fn is_sent<T: Send>(future: T) -> T {
///     future
/// }
/// fn spawned(session: &mut camel::Session, event: &camel::Event) {
///     let _future = is_sent(set_up(session, event));
/// }
/// ```
///
/// ```compile_fail,E0277
/// fn is_sent<T: Send>() {}
/// is_sent::<camel::Look<'static>>();
/// ```
#[derive(Debug)]
pub struct Look<'s> {
    session: &'s mut Session,
    /// A pointer is not `Send`.
    stays: PhantomData<*const ()>,
}

impl Look<'_> {
    /// The handle for one call of the library, as [`Owned::at`] says.
    #[inline]
    fn at(&self) -> *mut ffi::Session {
        self.session.handle.at()
    }

    /// Decides an event, as [`Session::decide`].
    #[inline]
    pub fn decide(&self, event: &Event) -> Result<Answer, Error> {
        // SAFETY: the handle is fit for a call; the event and the answer are apart from it.
        Answer::of_raw(read(|answer| unsafe {
            ffi::camel_decide(self.at(), &event.0, answer)
        })?)
    }

    /// The row of a subscriber at a detection point, as [`Session::row`].
    pub fn row(&self, imsi: Imsi, dp: DetectionPoint) -> Result<Option<Row>, Error> {
        // SAFETY: the handle is fit for a call; what is read and written is apart from it.
        let found = find(|row, is_there| unsafe {
            ffi::camel_row_at(self.at(), &imsi.raw(), dp.number(), row, is_there)
        })?;
        Ok(found.map(Row))
    }

    /// The criteria of a subscriber at a detection point, as [`Session::criteria`].
    pub fn criteria(&self, imsi: Imsi, dp: DetectionPoint) -> Result<Option<Criteria>, Error> {
        // SAFETY: the handle is fit for a call; what is read and written is apart from it.
        let found = find(|criteria, is_there| unsafe {
            ffi::camel_criteria_at(self.at(), &imsi.raw(), dp.number(), criteria, is_there)
        })?;
        Ok(found.map(|criteria| Criteria::of_raw(criteria, dp)))
    }

    /// Keeps the record of a subscriber, as [`Session::keep`].
    pub fn keep(&self, imsi: Imsi) -> Result<Option<Subscriber>, Error> {
        // SAFETY: the handles are fit for a call, and that of the record is empty; all else is apart from them.
        let kept = find(|record: &mut Owned<_>, is_there| unsafe {
            ffi::camel_keep(self.at(), &imsi.raw(), record.at(), is_there)
        })?;
        Ok(kept.map(Subscriber))
    }

    /// Decides the event of a call's set-up and keeps the record of its subscriber, as [`Session::set_up`].
    pub fn set_up(&self, event: &Event) -> Result<(Answer, Option<Subscriber>), Error> {
        let (record, mut is_there) = (Owned::default(), false);
        // SAFETY: the handles are fit for a call, and that of the record is empty; all else is apart from them.
        let answer = read(|answer| unsafe {
            ffi::camel_set_up(self.at(), &event.0, answer, record.at(), &mut is_there)
        })?;
        let kept = is_there.then_some(Subscriber(record));
        Ok((Answer::of_raw(answer)?, kept))
    }

    /// Lists the IMSIs that have a record, as [`Session::imsis`]. The list does not hold the look.
    pub fn imsis(&self) -> Result<Imsis, Error> {
        // SAFETY: the handles are fit for a call, and that of the list is empty.
        read(|imsis: &mut Owned<_>| unsafe { ffi::camel_imsis_of(self.at(), imsis.at()) })
            .map(Imsis)
    }

    /// Encodes the record of a subscriber, as [`Session::encode_record`].
    pub fn encode_record(&self, imsi: Imsi) -> Result<Option<Argument>, Error> {
        // SAFETY: the handle is fit for a call; what is read and written is apart from it.
        let argument = find(|argument, is_there| unsafe {
            ffi::camel_encode_record(self.at(), &imsi.raw(), argument, is_there)
        })?;
        Ok(argument.map(Argument))
    }

    /// Leaves the look, as a drop does.
    pub fn leave(self) {}
}

impl Drop for Look<'_> {
    fn drop(&mut self) {
        // A look that has begun can be left. What the library answered else would change nothing for the caller.
        let _ = self.session.leave_forgotten();
    }
}

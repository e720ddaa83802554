//! The stores. Each is a map from IMSI to record, with readers and one writer.
#[cfg(feature = "library")]
pub mod library;
pub mod maps;
pub mod urcu_qsbr;

use crate::data::{Event, Imsi, Outcome, Record, Update};

pub trait Store {
    type Reader: Reader;
    type Writer: Writer;

    /// An empty store.
    fn open(readers: usize) -> (Self::Writer, Vec<Self::Reader>);
}

pub trait Reader: Send {
    /// A call in the form that the store takes. It is made before the time of its decision begins.
    type Call: From<Event> + Sync;

    /// The thread begins to decide, or ends.
    fn enter(&mut self) {}
    fn leave(&mut self) {}

    fn decide(&mut self, call: &Self::Call) -> Outcome;
}

pub trait Writer: Send {
    type Update: Prepared;

    /// Each decision that begins afterwards is made over all updates of the batch, which is left empty.
    fn publish(&mut self, batch: &mut Vec<Self::Update>);
}

/// An update in the form that a store takes. It is made before the time of its publication begins.
pub trait Prepared: Sized {
    /// None if the store does nothing for the update.
    fn of(update: Update) -> Option<Self>;
}

/// An update of a peer, with a record in the form that the peer keeps. A Register changes nothing there: the Insert
/// behind it puts the record.
pub enum Change<R> {
    Put(Imsi, R),
    Remove(Imsi),
}

impl<R: From<Record>> Prepared for Change<R> {
    fn of(update: Update) -> Option<Change<R>> {
        match update {
            Update::Register(_) => None,
            Update::Insert(imsi, record) => Some(Change::Put(imsi, record.into())),
            Update::Cancel(imsi) => Some(Change::Remove(imsi)),
        }
    }
}

/// A record in the form that a peer keeps.
pub trait Kept: From<Record> + Clone + Send + Sync {
    /// The decision for a call at DP 2 over the record of its IMSI, if there is one.
    fn decide(found: Option<&Self>, event: &Event) -> Outcome;
}

//! Updates: what the HLR sends.
use crate::{Imsi, OCriteria, Row, TCriteria, ffi};

/// An update of the subscriber data.
#[derive(Clone, Debug, PartialEq, Eq)]
pub enum Update {
    /// Gives the IMSI an empty record; a record that is there is emptied.
    Register {
        /// The subscriber.
        imsi: Imsi,
    },
    /// What an InsertSubscriberData brings, for a subscriber who has a record.
    Insert {
        /// The subscriber.
        imsi: Imsi,
        /// The lists that came.
        csis: Csis,
    },
    /// What a DeleteSubscriberData removes, for a subscriber who has a record.
    Delete {
        /// The subscriber.
        imsi: Imsi,
        /// The CSIs that are named.
        what: Withdrawal,
    },
    /// CancelLocation: the IMSI has no record afterwards.
    Cancel {
        /// The subscriber.
        imsi: Imsi,
    },
    /// No IMSI has a record afterwards.
    ClearAll,
}

/// The lists of an Insert. One that is `None` did not come, and one that came has 1 to 10 items.
///
/// Rows that come take the place of the stored rows and criteria. Criteria without rows take the place of the stored
/// criteria, and need a stored CSI, also one without rows. Items of other detection points than those below are
/// ignored, and count among the ten.
#[derive(Clone, Debug, Default, PartialEq, Eq)]
pub struct Csis {
    /// The rows of the O-CSI: those of DP 2 and 4 count.
    pub o: Option<Vec<Row>>,
    /// The criteria of the O-CSI: those of DP 2 and 4 count.
    pub o_criteria: Option<Vec<OCriteria>>,
    /// The rows of the VT-CSI: those of DP 12, 13 and 14 count.
    pub vt: Option<Vec<Row>>,
    /// The criteria of the VT-CSI: those of DP 12, 13 and 14 count.
    pub t_criteria: Option<Vec<TCriteria>>,
}

/// What a Delete removes, each with its criteria. What is not there is no fault.
#[derive(Clone, Copy, Debug, Default, PartialEq, Eq)]
pub struct Withdrawal {
    /// The O-CSI.
    pub o: bool,
    /// The VT-CSI.
    pub vt: bool,
    /// Both.
    pub everything: bool,
}

impl Update {
    /// What a call says of the update. It is handed the kind, and the IMSI, the withdrawal and the lists, of which it
    /// reads what is of the kind. The pointers are fit for the call.
    pub(crate) fn taken(
        &self,
        call: impl FnOnce(
            u8,
            *const ffi::Imsi,
            *const ffi::Withdrawal,
            *const ffi::Lists,
        ) -> ffi::Status,
    ) -> ffi::Status {
        let (none, no_csis) = (ffi::Withdrawal::default(), Csis::default());
        let (kind, imsi, what, csis) = match self {
            Update::Register { imsi } => (ffi::UPDATE_REGISTER, imsi.raw(), none, &no_csis),
            Update::Insert { imsi, csis } => (ffi::UPDATE_INSERT, imsi.raw(), none, csis),
            Update::Delete { imsi, what } => (ffi::UPDATE_DELETE, imsi.raw(), what.raw(), &no_csis),
            Update::Cancel { imsi } => (ffi::UPDATE_CANCEL, imsi.raw(), none, &no_csis),
            Update::ClearAll => (ffi::UPDATE_CLEAR_ALL, Default::default(), none, &no_csis),
        };
        call(kind, &imsi, &what, &csis.raw())
    }
}

impl Csis {
    /// The lists, where they lie. Each pointer and count are of one slice, whose items are transparent over those of
    /// the library, and the pointer of a slice of none is not null.
    fn raw(&self) -> ffi::Lists {
        ffi::Lists {
            o: lists_of(&self.o, &self.o_criteria),
            vt: lists_of(&self.vt, &self.t_criteria),
        }
    }
}

/// The lists of a CSI, where they lie. `C` is transparent over the criteria of the library.
fn lists_of<C>(rows: &Option<Vec<Row>>, criteria: &Option<Vec<C>>) -> ffi::CsiLists {
    let (has_rows, has_criteria) = (rows.is_some(), criteria.is_some());
    let rows = rows.as_deref().unwrap_or_default();
    let criteria = criteria.as_deref().unwrap_or_default();
    ffi::CsiLists {
        rows: rows.as_ptr().cast(),
        row_count: rows.len(),
        criteria: criteria.as_ptr().cast(),
        criteria_count: criteria.len(),
        has_rows,
        has_criteria,
    }
}

impl Withdrawal {
    pub(crate) fn of_raw(what: ffi::Withdrawal) -> Withdrawal {
        let ffi::Withdrawal { o, vt, everything } = what;
        Withdrawal { o, vt, everything }
    }

    fn raw(self) -> ffi::Withdrawal {
        let Withdrawal { o, vt, everything } = self;
        ffi::Withdrawal { o, vt, everything }
    }
}

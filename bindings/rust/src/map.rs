//! Arguments of MAP, as the octets that come from the HLR.
use crate::error::{done, error_at_place};
use crate::{Error, Imsi, ffi};

/// An operation of MAP by which the HLR changes subscriber data (TS 29.002).
#[derive(Clone, Copy, Debug, PartialEq, Eq, Hash)]
#[repr(u8)]
pub enum Operation {
    /// The HLR ends the registration of a subscriber.
    CancelLocation = 3,
    /// The HLR sends subscriber data.
    InsertSubscriberData = 7,
    /// The HLR withdraws subscriber data.
    DeleteSubscriberData = 8,
}

impl Operation {
    /// The operation of a local code. None for any other operation of MAP.
    pub const fn of_code(code: u8) -> Option<Operation> {
        match code {
            3 => Some(Operation::CancelLocation),
            7 => Some(Operation::InsertSubscriberData),
            8 => Some(Operation::DeleteSubscriberData),
            _ => None,
        }
    }

    /// Its local code.
    pub const fn code(self) -> u8 {
        self as u8
    }

    /// What a call says of the octets of an argument of the operation. It is handed the operation's code, the IMSI of
    /// the dialogue, of which the number 0 says that the dialogue has none, the octets with their count, and the place
    /// that it writes. The pointers are fit for the call, apart from each other, and the one of no octets is not null.
    pub(crate) fn taken(
        self,
        imsi: Option<Imsi>,
        argument: &[u8],
        call: impl FnOnce(u8, *const ffi::Imsi, *const u8, usize, *mut u64) -> ffi::Status,
    ) -> Result<(), MapFault> {
        let dialogue = imsi.map(Imsi::raw).unwrap_or_default();
        let (octets, count) = (argument.as_ptr(), argument.len());
        let mut place = ffi::NO_OCTET;
        let status = call(self.code(), &dialogue, octets, count, &mut place);
        done(status).map_err(|error| MapFault {
            error,
            place: (place != ffi::NO_OCTET).then_some(place as usize),
        })
    }
}

error_at_place! {
    /// Why octets were not submitted, or are no update, and where. It becomes its [`Error`] by `?`.
    MapFault {
        /// The octet of the argument, from 0, at which its first fault is; None if the fault is none of the argument.
        place: "octet"
    }
}

//! Why a call did nothing, and calls of the library that answer so.
use crate::ffi;
use std::fmt;

/// The errors, each with its number and its words.
macro_rules! errors {
    ($($(#[$docs:meta])+ $name:ident = $code:literal, $words:literal;)+) => {
        /// Why a call did nothing: the statuses of `camel.h`.
        ///
        /// Each call says what stands after its errors.
        #[derive(Clone, Copy, Debug, PartialEq, Eq, Hash)]
        #[non_exhaustive]
        pub enum Error {
            $($(#[$docs])+ $name,)+
            /// The library returned a number that this crate does not know.
            Unknown(u32),
        }

        impl Error {
            /// The number of the error, as in `camel.h`.
            pub const fn code(self) -> u32 {
                match self {
                    $(Error::$name => $code,)+
                    Error::Unknown(code) => code,
                }
            }

            /// The error of a status that is not `CAMEL_OK`.
            const fn of_status(status: ffi::Status) -> Error {
                match status {
                    $($code => Error::$name,)+
                    other => Error::Unknown(other),
                }
            }

            const fn words(self) -> &'static str {
                match self {
                    $(Error::$name => $words,)+
                    Error::Unknown(_) => "a number that is not known",
                }
            }
        }
    };
}

errors! {
    /// The IMSI has no record: unidentifiedSubscriber of TS 29.002 (5).
    UnidentifiedSubscriber = 5, "the IMSI has no record";
    /// Data are absent that have to come: dataMissing of TS 29.002 (35).
    DataMissing = 35, "data are missing";
    /// Data are out of their range: unexpectedDataValue of TS 29.002 (36).
    UnexpectedDataValue = 36, "a data value is not expected";
    /// The store has accepted as many updates as its limit (101).
    HistoryFull = 101, "the store has accepted as many updates as its limit";
    /// Memory was refused (102). The call may be made again.
    OutOfMemory = 102, "out of memory";
    /// A session got no place (103). No run meets it.
    NoPlace = 103, "a session got no place";
    /// The store has ended (104).
    NoLook = 104, "the store has ended";
    /// The octets of an argument are no elements of BER (401).
    MalformedOctets = 401, "the octets are no elements of BER";
    /// An argument lacks a field that must be there (402).
    MissingField = 402, "a field is missing";
    /// An argument has a field twice (403).
    FieldTwice = 403, "a field comes twice";
    /// An element of an argument is none of the type that must be there (404).
    WrongTag = 404, "an element has a wrong tag";
    /// Contents of an argument have a length that their type has not, or octets follow it (405).
    WrongLength = 405, "the contents have a wrong length";
    /// Neither the argument nor the dialogue has an IMSI (406).
    NoImsi = 406, "there is no IMSI";
    /// The argument has another IMSI than the dialogue (407).
    OtherImsi = 407, "the IMSI is not that of the dialogue";
    /// An update that is to be joined is no Insert (408).
    NoInsert = 408, "an update that is to be joined is no Insert";
    /// The updates that are to be joined are of different subscribers (409).
    OtherSubscriber = 409, "the updates are of different subscribers";
    /// A look is held (501): try again once it is left.
    Held = 501, "a look is held";
    /// What was handed in is not an IMSI, an address, a detection point or a number in range, or it has more items than
    /// there is room for: numbers, lengths, basic services or causes of a criterion, or sessions (502).
    Malformed = 502, "what was handed in is malformed";
    /// The handle is empty or of another kind, or the store has ended (503). Safe code does not meet it.
    WrongHandle = 503, "the handle is not of this call";
    /// The handle that is to be filled is not empty (504). Safe code does not meet it.
    FullHandle = 504, "the handle is not empty";
    /// The receipt is of another store than the session, or the session of another than the one that publishes (505).
    OtherStore = 505, "the receipt is of another store";
    /// The library has other layouts and functions than this crate (506).
    OtherVersion = 506, "the library is of another version";
}

impl fmt::Display for Error {
    fn fmt(&self, out: &mut fmt::Formatter<'_>) -> fmt::Result {
        write!(out, "{} ({})", self.words(), self.code())
    }
}

impl std::error::Error for Error {}

/// An error that may be at a place of what was handed in, and becomes its [`Error`] by `?`.
macro_rules! error_at_place {
    ($(#[$docs:meta])+ $name:ident { $(#[$place_docs:meta])+ $place:ident: $of:literal }) => {
        $(#[$docs])+
        #[derive(Clone, Copy, Debug, PartialEq, Eq, Hash)]
        pub struct $name {
            /// Why.
            pub error: Error,
            $(#[$place_docs])+
            pub $place: Option<usize>,
        }

        impl $name {
            /// The number of the error, as [`Error::code`].
            pub const fn code(self) -> u32 {
                self.error.code()
            }
        }

        impl std::fmt::Display for $name {
            fn fmt(&self, out: &mut std::fmt::Formatter<'_>) -> std::fmt::Result {
                match self.$place {
                    None => self.error.fmt(out),
                    Some(place) => write!(out, concat!("{} at ", $of, " {}"), self.error, place),
                }
            }
        }

        impl std::error::Error for $name {}

        impl From<$name> for Error {
            fn from(fault: $name) -> Error {
                fault.error
            }
        }
    };
}

pub(crate) use error_at_place;

/// Ok for `CAMEL_OK`, else the error of the status.
#[inline]
pub(crate) fn done(status: ffi::Status) -> Result<(), Error> {
    match status {
        ffi::OK => Ok(()),
        other => Err(Error::of_status(other)),
    }
}

/// What a call of the library writes.
#[inline]
pub(crate) fn read<T: Default>(call: impl FnOnce(&mut T) -> ffi::Status) -> Result<T, Error> {
    let mut value = T::default();
    done(call(&mut value))?;
    Ok(value)
}

/// What a call of the library writes if it is there.
pub(crate) fn find<T: Default>(
    call: impl FnOnce(&mut T, &mut bool) -> ffi::Status,
) -> Result<Option<T>, Error> {
    let mut is_there = false;
    let value = read(|value| call(value, &mut is_there))?;
    Ok(is_there.then_some(value))
}

#[cfg(test)]
mod tests {
    use super::*;
    use std::collections::BTreeSet;

    #[test]
    fn statuses_become_errors_of_their_number() {
        let of_map = [5, 35, 36].into_iter().chain(401..=409);
        let known: Vec<u32> = of_map.chain(101..=104).chain(501..=506).collect();
        assert_eq!(done(0), Ok(()));
        for status in 1..600 {
            let error = done(status).unwrap_err();
            assert_eq!(error.code(), status);
            assert_eq!(error != Error::Unknown(status), known.contains(&status));
        }
        let words = known.iter().map(|status| Error::of_status(*status).words());
        let apart: BTreeSet<_> = words.collect();
        assert_eq!(apart.len(), known.len(), "each has words of its own");
        let error: Box<dyn std::error::Error> = Box::new(Error::Held);
        assert_eq!(error.to_string(), "a look is held (501)");
    }
}

//! IMSIs and addresses.
use crate::error::read;
use crate::ffi::first;
use crate::{Error, ffi};
use std::fmt;
use std::num::NonZeroU64;
use std::ops::Deref;
use std::str::FromStr;

/// The nibble behind the last of an odd count of digits.
const FILLER: u8 = 15;

/// An IMSI in 8 octets, made once per call. Two are equal if their digits are, which it is written as. One of fewer
/// digits is less, and of as many the one whose digits are.
#[derive(Clone, Copy, PartialEq, Eq, PartialOrd, Ord, Hash)]
pub struct Imsi(NonZeroU64);

impl Imsi {
    /// The IMSI of TBCD octets as in MAP: 3 to 8 octets, a filler only as the last high nibble.
    ///
    /// # Errors
    /// [`Error::Malformed`] if they are no IMSI of 5 to 15 digits.
    pub fn from_tbcd(octets: &[u8]) -> Result<Imsi, Error> {
        // SAFETY: the pointer and the length are of one slice, and the IMSI is apart from it.
        Imsi::of_raw(read(|imsi| unsafe {
            ffi::camel_imsi_of_tbcd_nonnull(octets.as_ptr(), octets.len(), imsi)
        })?)
    }

    /// The IMSI of 5 to 15 characters `0` to `9`, as a `&str` or as octets. A `&str` may also be parsed.
    ///
    /// # Errors
    /// [`Error::Malformed`] if they are none.
    pub fn from_digits(digits: impl AsRef<[u8]>) -> Result<Imsi, Error> {
        let digits = digits.as_ref();
        // SAFETY: the pointer and the length are of one slice, and the IMSI is apart from it.
        Imsi::of_raw(read(|imsi| unsafe {
            ffi::camel_imsi_of_digits_nonnull(digits.as_ptr(), digits.len(), imsi)
        })?)
    }

    /// Its 5 to 15 digits, as characters.
    pub fn digits(self) -> ImsiDigits {
        let count = (self.0.get() >> 56) as u8;
        let mut value = self.0.get() & (u64::MAX >> 8);
        let mut characters = [b'0'; 15];
        for character in characters.iter_mut().take(count.into()).rev() {
            *character += (value % 10) as u8;
            value /= 10;
        }
        ImsiDigits { count, characters }
    }

    /// Its TBCD octets as in MAP, 3 to 8.
    pub fn tbcd(self) -> ImsiTbcd {
        let digits = self.digits();
        let mut octets = [0; 8];
        for (octet, pair) in octets.iter_mut().zip(digits.as_bytes().chunks(2)) {
            let high = pair.get(1).map_or(FILLER, |digit| digit & 15);
            *octet = high << 4 | pair[0] & 15;
        }
        ImsiTbcd {
            count: digits.len().div_ceil(2) as u8,
            octets,
        }
    }

    pub(crate) fn of_raw(imsi: ffi::Imsi) -> Result<Imsi, Error> {
        NonZeroU64::new(imsi.number)
            .map(Imsi)
            .ok_or(Error::Malformed)
    }

    pub(crate) fn raw(self) -> ffi::Imsi {
        ffi::Imsi {
            number: self.0.get(),
        }
    }
}

impl FromStr for Imsi {
    type Err = Error;

    fn from_str(digits: &str) -> Result<Imsi, Error> {
        Imsi::from_digits(digits)
    }
}

impl fmt::Display for Imsi {
    fn fmt(&self, out: &mut fmt::Formatter<'_>) -> fmt::Result {
        self.digits().fmt(out)
    }
}

impl fmt::Debug for Imsi {
    fn fmt(&self, out: &mut fmt::Formatter<'_>) -> fmt::Result {
        write!(out, "Imsi({self})")
    }
}

/// The digits of an [`Imsi`]: a text of the characters `0` to `9`.
#[derive(Clone, Copy)]
pub struct ImsiDigits {
    count: u8,
    characters: [u8; 15],
}

impl Deref for ImsiDigits {
    type Target = str;

    fn deref(&self) -> &str {
        std::str::from_utf8(first(&self.characters, self.count)).unwrap_or_default()
    }
}

impl fmt::Display for ImsiDigits {
    fn fmt(&self, out: &mut fmt::Formatter<'_>) -> fmt::Result {
        out.pad(self)
    }
}

impl fmt::Debug for ImsiDigits {
    fn fmt(&self, out: &mut fmt::Formatter<'_>) -> fmt::Result {
        fmt::Debug::fmt(&**self, out)
    }
}

/// The TBCD octets of an [`Imsi`], as [`Imsi::from_tbcd`] takes them.
#[derive(Clone, Copy)]
pub struct ImsiTbcd {
    count: u8,
    octets: [u8; 8],
}

impl Deref for ImsiTbcd {
    type Target = [u8];

    fn deref(&self) -> &[u8] {
        first(&self.octets, self.count)
    }
}

impl fmt::Debug for ImsiTbcd {
    fn fmt(&self, out: &mut fmt::Formatter<'_>) -> fmt::Result {
        write!(out, "{:02x?}", &**self)
    }
}

/// An address of the most octets that it has, which the call of the library makes.
macro_rules! address {
    ($(#[$docs:meta])+ $name:ident, $most:literal, $call:ident) => {
        $(#[$docs])+
        #[derive(Clone, Copy, PartialEq, Eq, Hash)]
        pub struct $name(pub(crate) ffi::$name);

        impl $name {
            /// The address of these octets.
            ///
            /// # Errors
            #[doc = concat!("[`Error::Malformed`] if there are none, or more than ", $most, ".")]
            pub fn new(octets: &[u8]) -> Result<$name, Error> {
                // SAFETY: the pointer and the length are of one slice, and the address is apart from it.
                read(|address| unsafe { ffi::$call(octets.as_ptr(), octets.len(), address) })
                    .map($name)
            }

            /// Its octets.
            pub fn octets(&self) -> &[u8] {
                self.0.get()
            }
        }

        impl TryFrom<&[u8]> for $name {
            type Error = Error;

            fn try_from(octets: &[u8]) -> Result<$name, Error> {
                $name::new(octets)
            }
        }

        impl fmt::Display for $name {
            fn fmt(&self, out: &mut fmt::Formatter<'_>) -> fmt::Result {
                fmt::Debug::fmt(&self.0, out)
            }
        }

        impl fmt::Debug for $name {
            fn fmt(&self, out: &mut fmt::Formatter<'_>) -> fmt::Result {
                write!(out, concat!(stringify!($name), "({})"), self)
            }
        }
    };
}

address! {
    /// An AddressString of TS 29.002, as the destination of a call: 1 to 20 octets, octet 1 with the nature of address
    /// and the numbering plan. It is written in hexadecimal.
    Address, 20, camel_address_of_nonnull
}

address! {
    /// An ISDN-AddressString, as a gsmSCF address or a number of a criterion: 1 to 9 octets. It is written in
    /// hexadecimal.
    IsdnAddress, 9, camel_isdn_address_of_nonnull
}

/// A forwarded-to number is the destination of the forwarded call.
impl From<IsdnAddress> for Address {
    fn from(number: IsdnAddress) -> Address {
        Address(ffi::Octets::of(number.octets()))
    }
}

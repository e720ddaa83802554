//! CAMEL phase 3 triggering for a VMSC/VLR (3GPP TS 23.078): safe Rust over `libwenqolo.a`.
//!
//! A [`Store`] has the CSIs of each subscriber ([`Csis`]), with their criteria, as the HLR sends them. Its one writer
//! submits an [`Update`] of each operation, or the octets of its argument, and publishes them; each call-control thread
//! has a [`Session`], and asks at trigger detection points 2, 4, 12, 13 and 14 whether a service is invoked. No call
//! takes a lock of its own, waits or yields. A [`PreparedUpdate`] is made before it is submitted: so data that an HLR
//! splits over operations are joined, and the updates of a location update are accepted together, or none of them is. A
//! switch with one event loop submits and publishes them by one call, [`Store::commit`], which shows all or nothing.
//!
//! ```
//! use camel::{Address, BasicService, Csis, Event, Imsi, IsdnAddress, MAX_UPDATES, Profile, Row, Store, Update};
//!
//! fn main() -> Result<(), camel::Error> {
//!     let (mut store, mut sessions) = Store::open(1, MAX_UPDATES, Profile::One, camel::random_seed())?;
//!     let imsi: Imsi = "262010000000001".parse()?;
//!     let scf = IsdnAddress::new(&[0x91, 0x94, 0x71, 0x16, 0x00, 0x00])?;
//!     let csis = Csis { o: Some(vec![Row::new(2, 100, scf)]), ..Csis::default() };
//!     store.submit(&Update::Register { imsi })?;
//!     store.submit(&Update::Insert { imsi, csis })?;
//!     let receipt = store.publish()?;
//!     sessions[0].learn(&receipt)?;
//!     let destination = Address::new(&[0x91, 0x21, 0x43, 0x65])?;
//!     let event = Event::collected_info(imsi, BasicService::Tele(0x11), destination);
//!     assert!(sessions[0].decide(&event)?.outcome.is_trigger());
//!     Ok(())
//! }
//! ```
//!
//! # Building
//!
//! `libwenqolo.a` is in the folder whose absolute path the environment variable `CAMEL_LIB_DIR` is, or else in
//! `out/library` at the top of the repository, or where it is installed:
//!
//! ```text
//! CAMEL_LIB_DIR=$HOME/wenqolo cargo build
//! ```
//!
//! # What this crate checks, and what it leaves to the switch
//!
//! The crate frees handles and never copies them, and lets a handle be in one call at a time, or in several that only
//! read it, so safe code reaches nothing that the library does not check. Four things are not seen by it: stores whose
//! receipts are told apart have different seeds, no call is made from a signal handler, none from the forked child of a
//! process with threads, and `malloc`, `realloc` and `free` of the program are of one allocator.
#![warn(missing_docs)]
#![deny(unsafe_op_in_unsafe_fn)]

mod answer;
mod criteria;
mod error;
mod event;
mod ffi;
mod handle;
mod map;
mod numbers;
mod prepared;
mod receipt;
mod records;
mod session;
mod store;
mod update;

pub use answer::{Answer, Decisions, OnFailure, Outcome, Reason};
pub use criteria::*;
pub use error::Error;
pub use event::{BasicService, Cause, DetectionPoint, Event};
pub use map::{MapFault, Operation};
pub use numbers::{Address, Imsi, ImsiDigits, ImsiTbcd, IsdnAddress};
pub use prepared::{CapabilityHandling, ItemCounts, PreparedUpdate, Rejected, UpdateParts};
pub use receipt::{Receipt, Subscriber};
pub use records::{Argument, Imsis, MAX_ARGUMENT};
pub use session::{Look, Session};
pub use store::{Closing, Counts, Holders, MAX_SESSIONS, MAX_UPDATES, Profile, Store};
pub use update::{Csis, Update, Withdrawal};

/// The version of the layouts and functions of the library that is linked. [`Store::open`] compares it.
pub fn abi_version() -> u32 {
    // SAFETY: the function takes nothing, and may be called at any time.
    unsafe { ffi::camel_abi_version() }
}

/// A seed for a store, of the random source by which std seeds its hash maps.
pub fn random_seed() -> u64 {
    use std::hash::{BuildHasher, Hasher, RandomState};
    RandomState::new().build_hasher().finish()
}

//! The store of the library, by the calls that `camel.h` declares, as a switch in C makes them.
use super::{Prepared, Reader, Store, Writer};
use crate::data::{Address, COLLECTED_INFO, Event, Outcome, Reason, Record, Row, Update};
use ffi::Handle;
use std::{iter, thread};

#[allow(dead_code)]
#[path = "../../../../bindings/rust/src/ffi.rs"]
mod ffi;

#[link(name = "wenqolo", kind = "static")]
unsafe extern "C" {}

/// As `CAMEL_MAX_UPDATES`, `CAMEL_PROFILE_1` and `CAMEL_HELD`.
const MAX_UPDATES: u64 = u64::MAX >> 1;
const PROFILE_1: u8 = 1;
const HELD: ffi::Status = 501;

/// By the numbers that the library has for them, from 1 on.
const REASONS: [Reason; ffi::REASONS - 1] = [
    Reason::Unknown,
    Reason::NoCsi,
    Reason::NotArmed,
    Reason::Emergency,
    Reason::Criteria,
];

pub struct Library;
pub struct Owner(ffi::Store);

/// A call may write the handle of its session. So each has cache lines of its own, which a processor takes in pairs.
#[repr(align(128))]
pub struct Session(ffi::Session);

// SAFETY: a store and a session may be used by any thread, by one at a time.
unsafe impl Send for Owner {}
unsafe impl Send for Session {}

/// An update with its rows and its entry of criteria as `camel.h` has them.
pub struct Change {
    kind: u8,
    imsi: ffi::Imsi,
    o: Rows,
    vt: Rows,
    criteria: Option<ffi::Criteria>,
}

/// At most two rows, of which so many are there.
type Rows = ([ffi::Row; 2], usize);

fn expect_ok(status: ffi::Status) {
    assert_eq!(status, ffi::OK, "libwenqolo returns this status");
}

impl Store for Library {
    type Reader = Session;
    type Writer = Owner;

    fn open(readers: usize) -> (Owner, Vec<Session>) {
        let mut store = ffi::Store::EMPTY;
        let empty = iter::repeat_with(|| ffi::Session::EMPTY);
        let mut sessions: Vec<_> = empty.take(readers).collect();
        let (version, opened) = (ffi::ABI_VERSION, sessions.as_mut_ptr());
        let (limit, profile, seed) = (MAX_UPDATES, PROFILE_1, 0);
        // SAFETY: all handles are empty, and there are so many sessions.
        expect_ok(unsafe {
            ffi::camel_open_version(version, &mut store, opened, readers, limit, profile, seed)
        });
        (Owner(store), sessions.into_iter().map(Session).collect())
    }
}

impl From<Event> for ffi::Event {
    fn from(event: Event) -> ffi::Event {
        let mut octets = [0; 20];
        octets[..9].copy_from_slice(&event.destination.octets);
        ffi::Event {
            imsi: ffi::Imsi { number: event.imsi },
            destination: ffi::Address {
                length: event.destination.length,
                octets,
            },
            basic: ffi::BasicService {
                is_bearer: event.is_bearer,
                code: event.basic,
            },
            dp: COLLECTED_INFO,
            is_forwarded: false,
            cause: 0,
        }
    }
}

impl Reader for Session {
    type Call = ffi::Event;

    #[inline]
    fn decide(&mut self, call: &ffi::Event) -> Outcome {
        let mut answer = ffi::Answer::NONE;
        // SAFETY: the session is used by this thread only.
        expect_ok(unsafe { ffi::camel_decide(&mut self.0, call, &mut answer) });
        if !answer.is_trigger {
            return Err(REASONS[usize::from(answer.reason) - 1]);
        }
        let scf = Address {
            octets: answer.scf.octets,
            length: answer.scf.length,
        };
        Ok(Row {
            key: answer.key,
            dp: answer.dp,
            is_release: answer.is_release,
            scf,
        })
    }
}

fn isdn_of(address: &Address) -> ffi::IsdnAddress {
    ffi::IsdnAddress {
        length: address.length,
        octets: address.octets,
    }
}

fn rows_of(rows: &[Row]) -> Rows {
    let mut made = [ffi::Row::NONE; 2];
    for (made, row) in made.iter_mut().zip(rows) {
        let (scf, handling) = (isdn_of(&row.scf), u32::from(row.is_release));
        *made = ffi::Row {
            dp: row.dp,
            key: row.key,
            scf,
            handling,
        };
    }
    (made, rows.len())
}

fn criteria_of(numbers: &[Address]) -> Option<ffi::Criteria> {
    let mut criteria = ffi::Criteria {
        dp: COLLECTED_INFO,
        has_number: true,
        ..ffi::Criteria::NONE
    };
    criteria.number.is_enabling = true;
    criteria.number.number_count = numbers.len() as u8;
    for (made, number) in criteria.number.numbers.iter_mut().zip(numbers) {
        *made = isdn_of(number);
    }
    (!numbers.is_empty()).then_some(criteria)
}

impl Prepared for Change {
    fn of(update: Update) -> Option<Change> {
        let (kind, imsi, record) = match update {
            Update::Register(imsi) => (ffi::UPDATE_REGISTER, imsi, Record::default()),
            Update::Insert(imsi, record) => (ffi::UPDATE_INSERT, imsi, record),
            Update::Cancel(imsi) => (ffi::UPDATE_CANCEL, imsi, Record::default()),
        };
        Some(Change {
            kind,
            imsi: ffi::Imsi { number: imsi },
            o: rows_of(&record.o),
            vt: rows_of(&record.vt),
            criteria: criteria_of(&record.numbers),
        })
    }
}

fn lists_of((rows, row_count): &Rows, criteria: &[ffi::Criteria]) -> ffi::CsiLists {
    ffi::CsiLists {
        rows: rows.as_ptr(),
        row_count: *row_count,
        criteria: criteria.as_ptr(),
        criteria_count: criteria.len(),
        has_rows: *row_count > 0,
        has_criteria: !criteria.is_empty(),
    }
}

impl Writer for Owner {
    type Update = Change;

    /// A look that a decision is made by holds a publication up until it is left.
    fn publish(&mut self, batch: &mut Vec<Change>) {
        for change in batch.iter() {
            let (kind, imsi) = (change.kind, &change.imsi);
            let lists = ffi::Lists {
                o: lists_of(&change.o, change.criteria.as_slice()),
                vt: lists_of(&change.vt, &[]),
            };
            let (store, what) = (&mut self.0, &ffi::Withdrawal::NONE);
            // SAFETY: one thread has the store, and each list has as many items as it says.
            expect_ok(unsafe { ffi::camel_submit_change_nonnull(store, kind, imsi, what, &lists) });
        }
        batch.clear();
        let mut none = ffi::Session::EMPTY;
        // SAFETY: one thread has the store, and no session is told.
        let mut publish = || unsafe { ffi::camel_publish_to_nonnull(&mut self.0, &mut none, 0) };
        let mut status = publish();
        while status == HELD {
            thread::yield_now();
            status = publish();
        }
        expect_ok(status);
    }
}

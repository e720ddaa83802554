//! What the tests of the crate share: subscribers, what the HLR sends of them, and calls of theirs.
#![allow(dead_code)] // No test uses all of it.
use camel::{
    Address, BasicService, Cause, DetectionPoint, Event, Imsi, IsdnAddress, Operation,
    PreparedUpdate, Update,
};

/// Each detection point at which calls are decided.
pub const POINTS: [DetectionPoint; 5] = [
    DetectionPoint::CollectedInfo,
    DetectionPoint::RouteSelectFailure,
    DetectionPoint::TerminatingAttempt,
    DetectionPoint::Busy,
    DetectionPoint::NoAnswer,
];

/// What an HLR sends in two operations of a dialogue: the O-CSI with service key 9 at detection point 2 and a
/// camelCapabilityHandling of 3, and the criteria of that detection point, which ask for forwarded calls.
pub const ROWS: &[u8] = &[
    0x30, 0x19, 0xad, 0x17, 0xa0, 0x15, 0x30, 0x10, 0x30, 0x0e, 0x0a, 0x01, 0x02, 0x02, 0x01, 0x09,
    0x80, 0x03, 0x91, 0x94, 0x71, 0x81, 0x01, 0x00, 0x80, 0x01, 0x03,
];
pub const CRITERIA: &[u8] = &[
    0x30, 0x0c, 0xad, 0x0a, 0xa4, 0x08, 0x30, 0x06, 0x0a, 0x01, 0x02, 0x82, 0x01, 0x00,
];

pub fn imsi() -> Imsi {
    Imsi::from_digits("262010000000001").unwrap()
}

pub fn other_imsi() -> Imsi {
    Imsi::from_digits("262010000000002").unwrap()
}

pub fn scf() -> IsdnAddress {
    IsdnAddress::new(&[0x91, 0x94, 0x71]).unwrap()
}

/// An event at detection point 2.
pub fn event_of(imsi: Imsi) -> Event {
    let destination = Address::new(&[0x91, 0x21]).unwrap();
    Event::collected_info(imsi, BasicService::Tele(0x11), destination)
}

pub fn event() -> Event {
    event_of(imsi())
}

/// An event at detection point 13.
pub fn busy() -> Event {
    Event::busy(imsi(), BasicService::Tele(0x11), Cause::of_octet(17))
}

pub fn prepared(update: Update) -> PreparedUpdate {
    PreparedUpdate::new(&update).unwrap()
}

pub fn register(imsi: Imsi) -> PreparedUpdate {
    prepared(Update::Register { imsi })
}

/// The update of an InsertSubscriberDataArg.
pub fn inserted(imsi: Imsi, argument: &[u8]) -> PreparedUpdate {
    PreparedUpdate::from_map(Operation::InsertSubscriberData, Some(imsi), argument).unwrap()
}

//! A record laid out for this workload, which a hash map keeps beside its key: in slots of 72 octets.
//!
//! A slot has what a decision at DP 2 reads: the row, and up to three listed numbers. Other rows lie in a block apart.
use crate::block::Block;
use crate::data::{
    Address, COLLECTED_INFO, EMERGENCY_CALLS, Event, Imsi, Outcome, Reason, Record, Row,
};
use crate::stores::Kept;

/// So many listed numbers have room.
const LISTED: usize = 3;

/// When the row is triggered.
#[derive(Clone, Copy, PartialEq)]
enum Rule {
    NoCsi,
    NotArmed,
    /// By a destination that begins with a listed number.
    Listed,
    /// By each destination: no number is listed.
    Any,
}

#[derive(Clone)]
pub struct Slot {
    row: Row,
    digits: [u64; LISTED],
    /// How far digits are shifted so that no more of them remain than the listed number has.
    shifts: [u8; LISTED],
    /// 255 if fewer are listed, which no destination has.
    natures: [u8; LISTED],
    rule: Rule,
    /// What else the record has.
    rest: Option<Block>,
}

const _: () = assert!(size_of::<(Imsi, Slot)>() == 72);

impl From<Record> for Slot {
    fn from(mut record: Record) -> Slot {
        let mut slot = Slot {
            row: Row::default(),
            digits: [0; LISTED],
            shifts: [0; LISTED],
            natures: [u8::MAX; LISTED],
            rule: if record.o.is_empty() {
                Rule::NoCsi
            } else {
                Rule::NotArmed
            },
            rest: None,
        };
        if let Some(at) = record.o.iter().position(|row| row.dp == COLLECTED_INFO) {
            slot.row = record.o.remove(at);
            slot.rule = if record.numbers.is_empty() {
                Rule::Any
            } else {
                Rule::Listed
            };
            for (place, number) in record.numbers.drain(..).take(LISTED).enumerate() {
                slot.digits[place] = number.digits();
                slot.shifts[place] = 64 - 4 * number.digit_count().max(1) as u8;
                slot.natures[place] = number.nature();
            }
        }
        let has_rest = !record.o.is_empty() || !record.vt.is_empty();
        slot.rest = has_rest.then(|| record.into());
        slot
    }
}

impl Kept for Slot {
    #[inline]
    fn decide(found: Option<&Slot>, event: &Event) -> Outcome {
        let slot = found.ok_or(Reason::Unknown)?;
        match slot.rule {
            Rule::NoCsi => return Err(Reason::NoCsi),
            Rule::NotArmed => return Err(Reason::NotArmed),
            Rule::Listed | Rule::Any => {}
        }
        if !event.is_bearer && event.basic == EMERGENCY_CALLS {
            Err(Reason::Emergency)
        } else if slot.rule == Rule::Listed && !slot.lists_prefix(&event.destination) {
            Err(Reason::Criteria)
        } else {
            Ok(slot.row)
        }
    }
}

impl Slot {
    /// Whether a listed number has the nature of the destination, and digits that the destination begins with. All
    /// three are compared, since a branch that the processor often mistakes takes longer.
    #[inline]
    fn lists_prefix(&self, destination: &Address) -> bool {
        let (digits, nature) = (destination.digits(), destination.nature());
        (0..LISTED).fold(false, |is_listed, place| {
            let differing = (self.digits[place] ^ digits) >> self.shifts[place];
            is_listed | ((differing == 0) & (self.natures[place] == nature))
        })
    }
}

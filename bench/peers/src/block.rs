//! A record as one block of octets, and the decision over it.
//!
//! A block has the count of the rows of the O-CSI, or `ABSENT`, whether it has an entry at DP 2, its rows, the entry,
//! and then the rows of the VT-CSI. So all that a call at DP 2 asks for lies at the beginning of the block.
use crate::data::{Address, COLLECTED_INFO, EMERGENCY_CALLS, Event, Outcome, Reason, Record, Row};
use crate::stores::Kept;

const ABSENT: u8 = 0xFF;

/// The count of listed numbers, and room for what further criteria would take: the counts of lengths and of basic
/// services, a call type and causes. A workload has none.
type EntryHead = [u8; 8];

/// The first octet of a listed number, the count of its digits, and its digits as `Address::digits` has them.
type FlatNumber = [u8; 10];

/// The service key, the detection point, the default call handling, and the gsmSCF address with its length.
type FlatRow = [u8; 16];

pub struct Block(Box<[u8]>);

impl From<Record> for Block {
    fn from(record: Record) -> Block {
        let rows = if record.o.is_empty() {
            ABSENT
        } else {
            record.o.len() as u8
        };
        let has_entry = rows != ABSENT && !record.numbers.is_empty();
        let mut block = vec![rows, u8::from(has_entry)];
        block.extend(record.o.iter().flat_map(flat_row));
        if has_entry {
            let mut head = EntryHead::default();
            head[0] = record.numbers.len() as u8;
            block.extend(head);
            block.extend(record.numbers.iter().flat_map(flat_number));
        }
        block.push(record.vt.len() as u8);
        block.extend(record.vt.iter().flat_map(flat_row));
        // The block gets memory of its own size.
        Block(block.as_slice().into())
    }
}

impl Clone for Block {
    fn clone(&self) -> Block {
        Block(self.0.clone())
    }

    /// A block of the same size is written over the old one, so that it stays where it is.
    fn clone_from(&mut self, other: &Block) {
        self.0.clone_from(&other.0);
    }
}

impl Kept for Block {
    #[inline]
    fn decide(found: Option<&Block>, event: &Event) -> Outcome {
        decide(found.map(Block::octets), event)
    }
}

impl Block {
    pub fn octets(&self) -> &[u8] {
        &self.0
    }
}

fn flat_row(row: &Row) -> FlatRow {
    let mut flat = [0; 16];
    flat[..4].copy_from_slice(&row.key.to_le_bytes());
    flat[4] = row.dp;
    flat[5] = u8::from(row.is_release);
    flat[6..15].copy_from_slice(&row.scf.octets);
    flat[15] = row.scf.length;
    flat
}

fn flat_number(number: &Address) -> FlatNumber {
    let mut flat = [0; 10];
    flat[0] = number.octets[0];
    flat[1] = number.digit_count() as u8;
    flat[2..].copy_from_slice(&number.digits().to_be_bytes());
    flat
}

fn row_of(flat: &FlatRow) -> Row {
    let [k0, k1, k2, k3, dp, release, octets @ .., length] = *flat;
    Row {
        key: u32::from_le_bytes([k0, k1, k2, k3]),
        dp,
        is_release: release != 0,
        scf: Address { octets, length },
    }
}

/// The decision for a call at DP 2 over the octets of the block of its IMSI.
#[inline]
pub fn decide(block: Option<&[u8]>, event: &Event) -> Outcome {
    let block = block.ok_or(Reason::Unknown)?;
    let Some((&[rows, has_entry], rest)) = block.split_first_chunk() else {
        return Err(Reason::Unknown);
    };
    if rows == ABSENT {
        return Err(Reason::NoCsi);
    }
    let (rows, rest) = rest.split_at(usize::from(rows) * size_of::<FlatRow>());
    let (rows, _) = rows.as_chunks();
    let mut rows = rows.iter();
    let row = rows.find(|row: &&FlatRow| row[4] == COLLECTED_INFO);
    let row = row.ok_or(Reason::NotArmed)?;
    if !event.is_bearer && event.basic == EMERGENCY_CALLS {
        return Err(Reason::Emergency);
    }
    if has_entry != 0 && !meets_entry(rest, &event.destination) {
        return Err(Reason::Criteria);
    }
    Ok(row_of(row))
}

/// Whether a listed number has the nature of the destination, and digits that the destination begins with.
#[inline]
fn meets_entry(entry: &[u8], destination: &Address) -> bool {
    let Some((head, rest)) = entry.split_first_chunk::<{ size_of::<EntryHead>() }>() else {
        return false;
    };
    if head[1..] != [0; 7] {
        return false;
    }
    let (numbers, _) = rest.as_chunks::<{ size_of::<FlatNumber>() }>();
    let digits = destination.digits();
    let mut numbers = numbers.iter().take(usize::from(head[0]));
    numbers.any(|&[first_octet, count, listed @ ..]| {
        let in_common = (u64::from_be_bytes(listed) ^ digits).leading_zeros() / 4;
        (first_octet ^ destination.octets[0]) & 0x70 == 0 && in_common >= u32::from(count)
    })
}

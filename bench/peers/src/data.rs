//! What a script gives to a store, and what the store returns.
/// An IMSI as `camel.h` has it: the count of its digits in the highest octet, and their value below.
pub type Imsi = u64;

/// The nibble behind the last digit of an address with an odd count of digits.
pub const FILLER: u8 = 15;

/// The teleservice of emergency calls.
pub const EMERGENCY_CALLS: u8 = 0x12;

pub const COLLECTED_INFO: u8 = 2;

/// An ISDN-AddressString: an octet with the nature of address (bits 765) and the numbering plan, and digits as TBCD.
#[derive(Clone, Copy, Debug, Default, PartialEq, Eq)]
pub struct Address {
    /// Zeros from the length on.
    pub octets: [u8; 9],
    pub length: u8,
}

impl Address {
    pub fn nature(&self) -> u8 {
        self.octets[0] >> 4 & 7
    }

    /// The digits as a word, the first in the highest nibble, and behind the last a filler. A filler is no digit of a
    /// listed number, so what a destination has behind one does not count.
    pub fn digits(&self) -> u64 {
        let [_, tbcd @ ..] = self.octets;
        let octets = u64::from_be_bytes(tbcd);
        let earlier = octets & 0x0F0F_0F0F_0F0F_0F0F;
        let later = octets >> 4 & 0x0F0F_0F0F_0F0F_0F0F;
        let behind = u64::MAX.checked_shr(8 * (u32::from(self.length) - 1));
        earlier << 4 | later | behind.unwrap_or(0)
    }

    /// How many digits are before the first filler.
    pub fn digit_count(&self) -> u32 {
        let digits = self.digits();
        (0..16)
            .take_while(|place| (digits >> (60 - 4 * place)) as u8 & 15 != FILLER)
            .count() as u32
    }
}

/// A row of a CSI.
#[derive(Clone, Copy, Debug, Default, PartialEq, Eq)]
pub struct Row {
    pub key: u32,
    pub dp: u8,
    /// Whether the call is released if the dialogue with the gsmSCF fails.
    pub is_release: bool,
    pub scf: Address,
}

/// The data of a subscriber. A CSI that is absent has no rows. Listed numbers enable an entry at DP 2.
#[derive(Clone, Debug, Default)]
pub struct Record {
    pub o: Vec<Row>,
    pub vt: Vec<Row>,
    pub numbers: Vec<Address>,
}

pub enum Update {
    Register(Imsi),
    Insert(Imsi, Record),
    Cancel(Imsi),
}

/// A call at DP 2. An event lies in one cache line.
#[derive(Clone, Copy, Debug)]
#[repr(align(32))]
pub struct Event {
    pub imsi: Imsi,
    pub destination: Address,
    pub is_bearer: bool,
    pub basic: u8,
}

/// Why an event triggers nothing, in the order in which the reasons are looked at.
#[derive(Clone, Copy, Debug, PartialEq, Eq)]
pub enum Reason {
    Unknown,
    NoCsi,
    NotArmed,
    Emergency,
    Criteria,
}

/// The row that an event triggers, or the first reason why it triggers none.
pub type Outcome = Result<Row, Reason>;

/// The bits of a service key that no update of a script changes: those above are the version of the record.
pub const STABLE: u32 = 0xF_FFFF;

/// What an outcome says, with these bits of the service key. The version is in the second octet of the gsmSCF address
/// too, so a row of two versions is found.
#[inline]
pub fn said(outcome: &Outcome, key_bits: u32) -> u64 {
    match outcome {
        Err(reason) => mixed(u64::MAX - *reason as u64, 0),
        Ok(row) => {
            let octets = u64::from_le_bytes(*row.scf.octets.first_chunk().expect("nine octets"));
            let last = octets >> (8 * (u32::from(row.scf.length) & 15) - 32) & 0xFFFF_FFFF;
            let first = (octets as u32) ^ (row.key >> 20 & 0x7F) << 8;
            let marks = u64::from(row.dp) | u64::from(row.is_release) << 8;
            let key = u64::from(row.key & key_bits) << 32;
            mixed(marks | key, u64::from(first) | last << 32)
        }
    }
}

fn mixed(first: u64, second: u64) -> u64 {
    let product =
        first.wrapping_mul(0x9E37_79B9_7F4A_7C15) ^ second.wrapping_mul(0xC2B2_AE3D_27D4_EB4F);
    product ^ (product >> 29)
}

/// What something found adds at a place of a list to its sum.
#[inline]
pub fn weighed(found: u64, place: u64) -> u64 {
    found.wrapping_mul(2 * place + 1)
}

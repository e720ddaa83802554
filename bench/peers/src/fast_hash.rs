//! A hash of one multiplication, for keys of one word.
use std::hash::{BuildHasherDefault, Hasher};

pub type FastState = BuildHasherDefault<FastHasher>;

#[derive(Default)]
pub struct FastHasher(u64);

impl Hasher for FastHasher {
    #[inline]
    fn write_u64(&mut self, word: u64) {
        let product = u128::from(word ^ self.0 ^ 0x9E37_79B9_7F4A_7C15) * 0xC2B2_AE3D_27D4_EB4F;
        // The upper half of the product depends on each bit of the word.
        self.0 = (product >> 64) as u64 ^ product as u64;
    }

    fn write(&mut self, octets: &[u8]) {
        octets
            .iter()
            .for_each(|octet| self.write_u64(u64::from(*octet)));
    }

    #[inline]
    fn finish(&self) -> u64 {
        self.0
    }
}

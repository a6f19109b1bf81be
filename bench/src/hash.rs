//! A quicker hash of a line than the standard library's: one multiplication, no secret key.

use std::hash::{BuildHasherDefault, Hasher};

pub type BuildQuick = BuildHasherDefault<Quick>;

#[derive(Default)]
pub struct Quick(u64);

impl Hasher for Quick {
    fn write_u128(&mut self, number: u128) {
        let low = number as u64 ^ self.0 ^ 0x9E37_79B9_7F4A_7C15;
        let high = (number >> 64) as u64 ^ 0xD6E8_FEB8_6659_FD93;
        let product = u128::from(low) * u128::from(high);
        self.0 = product as u64 ^ (product >> 64) as u64;
    }

    fn write(&mut self, bytes: &[u8]) {
        for &byte in bytes {
            self.write_u128(u128::from(byte));
        }
    }

    fn finish(&self) -> u64 {
        self.0
    }
}

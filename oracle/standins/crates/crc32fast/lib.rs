//! The checksum's name. No call of the index comes here.

pub struct Hasher;

impl Hasher {
    pub fn new() -> Hasher {
        Hasher
    }

    pub fn update(&mut self, _: &[u8]) {
        panic!("stand-in: crc32")
    }

    pub fn finalize(self) -> u32 {
        panic!("stand-in: crc32")
    }
}

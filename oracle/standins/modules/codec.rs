//! Names that log_batch.rs uses to encode and decode. No call of the index
//! comes here.

use crate::Result;

pub trait NumberEncoder {
    fn encode_var_u64(&mut self, _: u64) -> Result<()> {
        panic!("stand-in: codec")
    }

    fn encode_u32_le(&mut self, _: u32) -> Result<()> {
        panic!("stand-in: codec")
    }
}

impl NumberEncoder for Vec<u8> {}

pub fn decode_var_u64(_: &mut &[u8]) -> Result<u64> {
    panic!("stand-in: codec")
}

pub fn decode_u64(_: &mut &[u8]) -> Result<u64> {
    panic!("stand-in: codec")
}

pub fn decode_u32_le(_: &mut &[u8]) -> Result<u32> {
    panic!("stand-in: codec")
}

pub fn read_u8(_: &mut &[u8]) -> Result<u8> {
    panic!("stand-in: codec")
}

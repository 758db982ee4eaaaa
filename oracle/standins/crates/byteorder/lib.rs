//! Names of byteorder that log_batch.rs uses to encode and decode.
//! No call of the index comes here.

use std::io::{Read, Result, Write};

pub struct BigEndian;
pub struct LittleEndian;

pub trait ReadBytesExt: Read {
    fn read_u8(&mut self) -> Result<u8> {
        panic!("stand-in: read_u8")
    }
}

impl<R: Read + ?Sized> ReadBytesExt for R {}

pub trait WriteBytesExt: Write {
    fn write_u32<T>(&mut self, _: u32) -> Result<()> {
        panic!("stand-in: write_u32")
    }

    fn write_u64<T>(&mut self, _: u64) -> Result<()> {
        panic!("stand-in: write_u64")
    }
}

impl<W: Write + ?Sized> WriteBytesExt for W {}

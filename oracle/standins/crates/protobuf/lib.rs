//! The message trait's name. No message type exists here.

pub type ProtobufResult<T> = Result<T, ProtobufError>;

#[derive(Debug)]
pub struct ProtobufError;

pub trait Message {
    fn write_to_vec(&self, vec: &mut Vec<u8>) -> ProtobufResult<()>;
    fn write_to_bytes(&self) -> ProtobufResult<Vec<u8>>;
}

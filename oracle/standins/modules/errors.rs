//! The errors that the files name. MemTable gives two of them, EntryCompacted
//! and EntryNotFound.

#[derive(Debug)]
pub enum Error {
    InvalidArgument(String),
    Corruption(String),
    Io(std::io::Error),
    Protobuf(protobuf::ProtobufError),
    EntryCompacted,
    EntryNotFound,
    Full,
    Other(Box<dyn std::error::Error + Send + Sync>),
}

pub type Result<T> = std::result::Result<T, Error>;

impl From<std::io::Error> for Error {
    fn from(e: std::io::Error) -> Self {
        Error::Io(e)
    }
}

impl From<protobuf::ProtobufError> for Error {
    fn from(e: protobuf::ProtobufError) -> Self {
        Error::Protobuf(e)
    }
}

//! The one public module of lib.rs: the driver's way in.

pub use crate::log_batch::probe as batch;
pub use crate::log_batch::{
    Command, CompressionType, EntryIndexes, KeyValue, LogItem, LogItemContent, OpType,
};
pub use crate::memtable::{probe, EntryIndex};
pub use crate::pipe_log::{FileBlockHandle, FileId, FileSeq, LogQueue};
pub use crate::util::hash_u64;
pub use crate::Error;

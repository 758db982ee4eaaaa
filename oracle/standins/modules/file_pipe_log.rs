//! The trait that the recovery context implements.

use crate::log_batch::LogItemBatch;
use crate::pipe_log::{FileId, LogQueue};
use crate::Result;

pub trait ReplayMachine: Send {
    fn replay(&mut self, item_batch: LogItemBatch, file_id: FileId) -> Result<()>;
    fn merge(&mut self, rhs: Self, queue: LogQueue) -> Result<()>;
}

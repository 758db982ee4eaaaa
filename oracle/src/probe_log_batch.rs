//! A child of log_batch.rs: makes a batch of items as they are. The Rust's own
//! adders would set the entry offsets anew.

use super::*;

pub fn batch_of(items: Vec<LogItem>) -> LogItemBatch {
    LogItemBatch {
        items,
        item_size: 0,
        entries_size: 0,
        checksum: 0,
    }
}

/// Group numbers of the Clean commands in a batch, in order.
pub fn cleans(mut batch: LogBatch) -> Vec<u64> {
    batch.drain().map(|item| item.raft_group_id).collect()
}

/// Whether a key is reserved, by the rule that is not for tests.
pub fn reserved(key: &[u8]) -> bool {
    crate::is_internal_key(key, None)
}

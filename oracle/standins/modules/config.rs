//! The names that lib.rs exports. memtable.rs passes a Config on unread.

pub struct Config;

pub enum RecoveryMode {}

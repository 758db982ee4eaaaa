//! Queues, files and entry records.

/// A log queue.
#[derive(Clone, Copy, Debug, PartialEq, Eq, PartialOrd, Ord, Hash)]
pub enum Queue {
    Append,
    Rewrite,
}

impl Queue {
    #[inline]
    pub(crate) fn number(self) -> u64 {
        match self {
            Queue::Append => 0,
            Queue::Rewrite => 1,
        }
    }

    #[inline]
    pub(crate) fn of(number: u64) -> Queue {
        if number == 0 {
            Queue::Append
        } else {
            Queue::Rewrite
        }
    }
}

/// A log file: a sequence number within a queue.
#[derive(Clone, Copy, Debug, PartialEq, Eq, Hash)]
pub struct FileId {
    pub queue: Queue,
    pub seq: u64,
}

/// How an entry's block is compressed.
#[derive(Clone, Copy, Debug, PartialEq, Eq, Hash)]
pub enum Compression {
    None,
    Lz4,
}

/// Where a log entry lies: file, block, and the entry's place in the block.
#[derive(Clone, Copy, Debug, PartialEq, Eq, Hash)]
pub struct Entry {
    pub index: u64,
    pub file: FileId,
    pub block_offset: u64,
    pub block_len: u64,
    pub compression: Compression,
    pub offset: u32,
    pub len: u32,
}

impl Entry {
    /// An entry at the front of a file, with nothing in it.
    pub fn at(index: u64, file: FileId) -> Entry {
        Entry {
            index,
            file,
            block_offset: 0,
            block_len: 0,
            compression: Compression::None,
            offset: 0,
            len: 0,
        }
    }

    #[inline]
    pub(crate) fn row(&self) -> [u64; 8] {
        [
            self.index,
            self.file.queue.number(),
            self.file.seq,
            self.block_offset,
            self.block_len,
            self.compression as u64,
            u64::from(self.offset),
            u64::from(self.len),
        ]
    }

    /// The entry of a row that a call has given: its numbers are in range.
    #[inline]
    pub(crate) fn of_row(row: [u64; 8]) -> Entry {
        Entry {
            index: row[0],
            file: FileId { queue: Queue::of(row[1]), seq: row[2] },
            block_offset: row[3],
            block_len: row[4],
            compression: if row[5] == 0 { Compression::None } else { Compression::Lz4 },
            offset: row[6] as u32,
            len: row[7] as u32,
        }
    }
}

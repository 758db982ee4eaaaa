//! Batches as they are lent: rows of items, rows of entries, and bytes for keys and values.

use crate::{Entry, FileId, Queue};

const ENTRIES: u64 = 0;
const CLEAN: u64 = 1;
const COMPACT: u64 = 2;
const PUT: u64 = 3;
const DEL: u64 = 4;
const NO_FILE: u64 = 2;

/// The reserved key: a Put of it with one byte of value is a mark.
const RESERVED_KEY: &[u8] = b"__\x01";

/// What a marked batch is of its atomic group.
#[derive(Clone, Copy, Debug, PartialEq, Eq)]
pub enum Mark {
    Begin = 0,
    Middle = 1,
    End = 2,
}

/// The three slices of a lent batch, in the layout of include/galdnyrr.h. Any content stands for some batch.
#[derive(Clone, Copy, Debug)]
pub struct Rows<'a> {
    pub items: &'a [u64],
    pub entries: &'a [u64],
    pub bytes: &'a [u8],
}

/// A batch in the making: a file, and items in order.
#[derive(Clone, Debug)]
pub struct Batch {
    file: FileId,
    items: Vec<u64>,
    entries: Vec<u64>,
    bytes: Vec<u8>,
}

impl Batch {
    pub fn new(queue: Queue, seq: u64) -> Batch {
        Batch {
            file: FileId { queue, seq },
            items: Vec::new(),
            entries: Vec::new(),
            bytes: Vec::new(),
        }
    }

    #[inline]
    pub fn file(&self) -> FileId {
        self.file
    }

    /// The number of items.
    pub fn len(&self) -> usize {
        self.items.len() / 9
    }

    pub fn is_empty(&self) -> bool {
        self.items.is_empty()
    }

    /// Takes all items out; the file and the room stay.
    pub fn clear(&mut self) {
        self.items.clear();
        self.entries.clear();
        self.bytes.clear();
    }

    /// The same, for another file.
    pub fn restart(&mut self, queue: Queue, seq: u64) {
        self.file = FileId { queue, seq };
        self.clear();
    }

    #[inline]
    pub fn rows(&self) -> Rows<'_> {
        Rows { items: &self.items, entries: &self.entries, bytes: &self.bytes }
    }

    /// Adds a list of entries of a group.
    pub fn entries(&mut self, group: u64, entries: &[Entry]) -> &mut Batch {
        let at = self.entries.len() as u64 / 8;
        for entry in entries {
            self.entries.extend_from_slice(&entry.row());
        }
        self.item([group, ENTRIES, at, entries.len() as u64, 0, 0, 0, 0, 0])
    }

    /// Adds a Put of a key, whose file is the batch's.
    pub fn put(&mut self, group: u64, key: &[u8], value: &[u8]) -> &mut Batch {
        self.put_of(group, key, Some(value), Some(self.file))
    }

    /// Adds a Put of a key, with a value and a file that may be absent: a live rewrite reads neither.
    pub fn put_of(
        &mut self,
        group: u64,
        key: &[u8],
        value: Option<&[u8]>,
        file: Option<FileId>,
    ) -> &mut Batch {
        let (at, len) = self.bytes_of(key);
        let (c, d, e) = match value {
            Some(value) => {
                let (at, len) = self.bytes_of(value);
                (1, at, len)
            }
            None => (0, 0, 0),
        };
        let (f, g) = match file {
            Some(file) => (file.queue.number(), file.seq),
            None => (NO_FILE, 0),
        };
        self.item([group, PUT, at, len, c, d, e, f, g])
    }

    /// Adds a mark: in a replay into a Rewrite context the batch is a part of an atomic group, which is carried out as a whole.
    pub fn mark(&mut self, group: u64, mark: Mark) -> &mut Batch {
        self.put(group, RESERVED_KEY, &[mark as u8])
    }

    /// Adds a Del of a key.
    pub fn delete(&mut self, group: u64, key: &[u8]) -> &mut Batch {
        let (at, len) = self.bytes_of(key);
        self.item([group, DEL, at, len, 0, 0, 0, 0, 0])
    }

    /// Adds a Compact: entries below the index go.
    pub fn compact(&mut self, group: u64, index: u64) -> &mut Batch {
        self.item([group, COMPACT, index, 0, 0, 0, 0, 0, 0])
    }

    /// Adds a Clean: the group goes.
    pub fn clean(&mut self, group: u64) -> &mut Batch {
        self.item([group, CLEAN, 0, 0, 0, 0, 0, 0, 0])
    }

    fn bytes_of(&mut self, bytes: &[u8]) -> (u64, u64) {
        let at = self.bytes.len() as u64;
        self.bytes.extend_from_slice(bytes);
        (at, bytes.len() as u64)
    }

    fn item(&mut self, row: [u64; 9]) -> &mut Batch {
        self.items.extend_from_slice(&row);
        self
    }
}

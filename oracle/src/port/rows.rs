//! A list of items as the port is lent it: rows of items, rows of entries, bytes (include/galdnyrr.h).

use raft_engine::env::{Command, EntryIndex, FileId, LogItem, LogItemContent, OpType};

const ITEM_WIDTH: usize = 9;
const ENTRY_WIDTH: usize = 8;

#[derive(Clone, Default)]
pub struct Lent {
    pub items: Vec<u64>,
    pub entries: Vec<u64>,
    pub bytes: Vec<u8>,
}

impl Lent {
    pub fn of(items: &[LogItem]) -> Lent {
        let mut lent = Lent::default();
        items.iter().for_each(|i| lent.add(i));
        lent
    }

    pub fn rows(&self) -> galdnyrr::Rows<'_> {
        galdnyrr::Rows { items: &self.items, entries: &self.entries, bytes: &self.bytes }
    }

    pub fn item_count(&self) -> usize {
        self.items.len() / ITEM_WIDTH
    }

    fn add(&mut self, item: &LogItem) {
        let row = match &item.content {
            LogItemContent::EntryIndexes(list) => {
                let at = self.entries.len() / ENTRY_WIDTH;
                list.0.iter().for_each(|e| self.entries.extend_from_slice(&entry_row(e)));
                [0, at as u64, list.0.len() as u64, 0, 0, 0, 0, 0]
            }
            LogItemContent::Command(Command::Clean) => [1, 0, 0, 0, 0, 0, 0, 0],
            LogItemContent::Command(Command::Compact { index }) => [2, *index, 0, 0, 0, 0, 0, 0],
            LogItemContent::Kv(kv) => {
                let (a, b) = self.add_bytes(&kv.key);
                let (c, d, e) = match &kv.value {
                    Some(v) => {
                        let (d, e) = self.add_bytes(v);
                        (1, d, e)
                    }
                    None => (0, 0, 0),
                };
                let (f, g) = file(kv.file_id);
                match kv.op_type {
                    OpType::Put => [3, a, b, c, d, e, f, g],
                    OpType::Del => [4, a, b, 0, 0, 0, 0, 0],
                }
            }
        };
        self.items.push(item.raft_group_id);
        self.items.extend_from_slice(&row);
    }

    fn add_bytes(&mut self, bytes: &[u8]) -> (u64, u64) {
        let at = self.bytes.len() as u64;
        self.bytes.extend_from_slice(bytes);
        (at, bytes.len() as u64)
    }

    /// Makes row i one that is no item, in one of eight ways.
    pub fn spoil(&mut self, i: usize, way: u64) {
        let rows = (self.entries.len() / ENTRY_WIDTH) as u64;
        let bytes = self.bytes.len() as u64;
        let row = &mut self.items[i * ITEM_WIDTH + 1..(i + 1) * ITEM_WIDTH];
        let spoiled: [u64; 8] = match way {
            0 => [5, 0, 0, 0, 0, 0, 0, 0],
            1 => [u64::MAX, 0, 0, 0, 0, 0, 0, 0],
            2 => [0, rows, 1, 0, 0, 0, 0, 0],
            3 => [0, u64::MAX, 2, 0, 0, 0, 0, 0],
            4 => [3, 0, 0, 2, 0, 0, 0, 0],
            5 => [3, 0, bytes + 1, 1, 0, 0, 0, 1],
            6 => [3, 0, 0, 1, u64::MAX, 1, 0, 1],
            _ => [4, bytes, 1, 0, 0, 0, 0, 0],
        };
        row.copy_from_slice(&spoiled);
    }

    /// Cuts the last row short.
    pub fn cut(&mut self, by: usize) {
        self.items.truncate(self.items.len() - by);
    }
}

fn file(f: Option<FileId>) -> (u64, u64) {
    match f {
        Some(f) => (f.queue as u64, f.seq),
        None => (2, 0),
    }
}

/// An entry without a file is a row whose queue is none.
fn entry_row(e: &EntryIndex) -> [u64; 8] {
    let (queue, seq, offset, len) = match e.entries {
        Some(h) => (h.id.queue as u64, h.id.seq, h.offset, h.len as u64),
        None => (2, 0, 0, 0),
    };
    let (compression, at, size) = (e.compression_type as u64, e.entry_offset, e.entry_len);
    [e.index, queue, seq, offset, len, compression, u64::from(at), u64::from(size)]
}

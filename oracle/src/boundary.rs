//! Calls at the limits of one group's table: 63, 64 and 65 entries, 16 and 17
//! keys, index 2^63-1, lengths of 2^25. Then rewrites of every part of a small
//! table, key rewrites and spans, each also where it is refused.

use crate::text::Line;
use crate::world::MAX_INDEX;
use raft_engine::env::{CompressionType, EntryIndex, FileBlockHandle, FileId, LogQueue};

const LENGTH: u32 = 1 << 25;

fn list(start: u64, n: u64, queue: LogQueue, seq: u64) -> Vec<EntryIndex> {
    let entry = |index| EntryIndex {
        index,
        entries: Some(FileBlockHandle { id: FileId::new(queue, seq), offset: 0, len: 0 }),
        compression_type: CompressionType::None,
        entry_offset: 0,
        entry_len: LENGTH,
    };
    (start..start + n).map(entry).collect()
}

struct Lines(Vec<String>);

impl Lines {
    fn push(&mut self, line: Line) {
        self.0.push(line.0);
    }

    fn call(&mut self, t: u64, word: &str) {
        self.push(Line::of("t").number(t).word(word));
    }

    fn new_table(&mut self, t: u64) {
        self.push(Line::of("t").number(t).word("new").number(7));
    }

    fn put_list(&mut self, t: u64, word: &str, start: u64, n: u64) {
        let queue = if word == "replay_rewrite" { LogQueue::Rewrite } else { LogQueue::Append };
        self.push(Line::of("t").number(t).word(word).entries(&list(start, n, queue, 1)));
    }

    fn put(&mut self, t: u64, key: u8, queue: LogQueue) {
        let file = FileId::new(queue, u64::from(key));
        self.push(Line::of("t").number(t).word("put").bytes(&[key]).bytes(&[key, key]).file(file));
    }

    fn merge(&mut self, word: &str) {
        self.push(Line::of("t").number(0).word(word).number(1));
    }

    fn state(&mut self) {
        self.call(0, "first_index");
        self.call(0, "last_index");
        self.call(0, "count");
        self.call(0, "live");
    }
}

pub fn lines() -> Vec<String> {
    let mut l = Lines(vec!["script 0".to_string()]);
    for word in ["append", "replay_append", "replay_rewrite"] {
        entries(&mut l, word);
    }
    merged_entries(&mut l, "replay_append", "replay_append", "merge_newer_neighbor");
    merged_entries(&mut l, "replay_rewrite", "replay_rewrite", "merge_newer_neighbor");
    merged_entries(&mut l, "replay_rewrite", "replay_append", "merge_append_table");
    keys(&mut l);
    merged_keys(&mut l, LogQueue::Append, LogQueue::Append, "merge_newer_neighbor");
    merged_keys(&mut l, LogQueue::Rewrite, LogQueue::Append, "merge_append_table");
    top_index(&mut l);
    rewrites(&mut l);
    key_rewrites(&mut l);
    spans(&mut l);
    l.0
}

/// 63, 64, 65 entries; at 64 an overlap and a compaction make room.
fn entries(l: &mut Lines, word: &str) {
    l.new_table(0);
    l.put_list(0, word, 1, 32);
    l.put_list(0, word, 33, 31);
    l.state();
    l.put_list(0, word, 64, 2);
    l.put_list(0, word, 64, 1);
    l.put_list(0, word, 65, 1);
    l.put_list(0, word, 64, 2);
    l.put_list(0, word, 63, 2);
    l.state();
    l.push(Line::of("t").number(0).word("compact_to").number(2));
    l.put_list(0, word, 65, 1);
    l.put_list(0, word, 66, 1);
    for size in [(1 << 31) - 1, 1 << 31, (1 << 30) + 1, LENGTH as u64, 0] {
        let line = Line::of("t").number(0).word("fetch_entries_to").number(2).number(66);
        l.push(line.number(size));
    }
    l.state();
}

/// A merge to 64 entries, one to 65, and one that goes over the older ones.
fn merged_entries(l: &mut Lines, older: &str, newer: &str, merge: &str) {
    for (start, n) in [(33, 32), (34, 32), (33, 33), (33, 31), (2, 64)] {
        l.new_table(0);
        l.put_list(0, older, 1, 33.min(start - 1).max(32));
        l.new_table(1);
        l.put_list(1, newer, start, 32.min(n));
        if n > 32 {
            l.put_list(1, newer, start + 32, n - 32);
        }
        l.merge(merge);
        l.state();
    }
}

/// 16 and 17 keys; one that is there needs no room, a deleted one gives room.
fn keys(l: &mut Lines) {
    l.new_table(0);
    for key in 0..17 {
        l.put(0, key, LogQueue::Append);
    }
    l.put(0, 3, LogQueue::Rewrite);
    l.push(Line::of("t").number(0).word("delete").bytes(&[9]));
    l.put(0, 20, LogQueue::Append);
    l.put(0, 9, LogQueue::Append);
    l.push(Line::of("t").number(0).word("scan").word("-").word("-").number(1).number(16));
    l.state();
}

fn merged_keys(l: &mut Lines, older: LogQueue, newer: LogQueue, merge: &str) {
    for first in [7, 8, 9] {
        l.new_table(0);
        (0..8).for_each(|key| l.put(0, key, older));
        l.new_table(1);
        (first..first + 9).for_each(|key| l.put(1, key, newer));
        l.merge(merge);
        l.state();
    }
}

/// The highest index, with compactions and queries around it.
fn top_index(l: &mut Lines) {
    for word in ["append", "replay_append", "replay_rewrite"] {
        l.new_table(0);
        l.put_list(0, word, MAX_INDEX - 3, 4);
        l.state();
        for (begin, end) in [
            (MAX_INDEX - 3, MAX_INDEX + 1),
            (MAX_INDEX, MAX_INDEX + 1),
            (MAX_INDEX, MAX_INDEX + 2),
            (MAX_INDEX + 1, u64::MAX),
            (0, u64::MAX),
            (u64::MAX, 0),
        ] {
            let line = Line::of("t").number(0).word("fetch_entries_to").number(begin).number(end);
            l.push(line.word("-"));
        }
        for index in [MAX_INDEX, MAX_INDEX + 1, u64::MAX, 0] {
            l.push(Line::of("t").number(0).word("get_entry").number(index));
        }
        l.push(Line::of("t").number(0).word("compact_to").number(MAX_INDEX));
        l.state();
        l.put_list(0, word, MAX_INDEX, 1);
        l.put_list(0, word, MAX_INDEX - 1, 1);
        l.state();
    }
}

/// 5..8 in files 1, 1, 2, 3, wholly Append or with 5 and 6 rewritten before.
fn rewrites(l: &mut Lines) {
    for before in [0, 2] {
        for start in 4..=9 {
            for n in [1, 3] {
                for gate in [None, Some(1), Some(2)] {
                    one_rewrite(l, before, start, n, gate);
                }
            }
        }
    }
}

fn one_rewrite(l: &mut Lines, before: u64, start: u64, n: u64, gate: Option<u64>) {
    l.new_table(0);
    let mut entries = list(5, 2, LogQueue::Append, 1);
    entries.extend(list(7, 1, LogQueue::Append, 2));
    entries.extend(list(8, 1, LogQueue::Append, 3));
    l.push(Line::of("t").number(0).word("append").entries(&entries));
    let rewrite = Line::of("t").number(0).word("rewrite");
    if before > 0 {
        let entries = list(5, before, LogQueue::Rewrite, 4);
        l.push(rewrite.clone().number(1).entries(&entries));
    }
    let entries = list(start, n, LogQueue::Rewrite, 9);
    l.push(rewrite.maybe_number(gate).entries(&entries));
    l.call(0, "count");
    l.call(0, "live");
    l.call(0, "fetch_rewritten_entry_indexes");
}

fn key_rewrites(l: &mut Lines) {
    l.new_table(0);
    let file = FileId::new(LogQueue::Append, 5);
    l.push(Line::of("t").number(0).word("put").bytes(b"k").bytes(b"v").file(file));
    for (gate, seq) in [
        (None, 2),
        (Some(4), 2),
        (Some(5), 2),
        (Some(5), 1),
        (None, 1),
        (None, 2),
        (Some(0), 3),
        (None, 2),
    ] {
        let line = Line::of("t").number(0).word("rewrite_key").bytes(b"k");
        l.push(line.maybe_number(gate).number(seq));
        l.call(0, "live");
        l.call(0, "dump");
    }
    l.push(Line::of("t").number(0).word("rewrite_key").bytes(b"a").number(9).number(9));
    l.push(Line::of("t").number(0).word("get").bytes(b"a"));
    l.call(0, "live");
}

/// Spans set on one table, and merged.
fn spans(l: &mut Lines) {
    let span = |t: u64, start: u64, end: u64| {
        Line::of("t").number(t).word("apply_rewrite_atomic_group").number(start).number(end)
    };
    l.new_table(0);
    l.put_list(0, "replay_rewrite", 1, 2);
    for (start, end) in [(3, 5), (4, 9), (5, 5), (5, 8), (7, 9), (8, 9)] {
        l.push(span(0, start, end));
        l.push(Line::of("t").number(0).word("min_file_seq").number(1));
    }
    for (start, end) in [(8, 9), (9, 12), (0, 20), (12, 12)] {
        l.new_table(1);
        l.push(span(1, start, end));
        l.merge("merge_newer_neighbor");
        l.call(0, "dump");
    }
}

//! Scripts of contexts and the index: runs are replayed, merged and joined,
//! and the index takes live writes; queries stand in between.

use crate::text::Line;
use crate::world::{World, MAX_INDEX, RESERVED};
use raft_engine::env::{
    Command, EntryIndexes, FileId, KeyValue, LogItem, LogItemContent, LogQueue, OpType,
};
use std::collections::HashMap;

/// First numbers of the Append and the Rewrite contexts of a script.
const APPEND: u64 = 0;
const REWRITE: u64 = 10;

struct Script {
    w: World,
    lines: Vec<String>,
    /// Where each group of an object is thought to end.
    next: HashMap<(u64, u64), u64>,
    append_seq: u64,
    rewrite_seq: u64,
    /// The group of a Begin that may be gone on with.
    begun: Option<u64>,
    joined: bool,
}

pub fn script(seed: u64) -> Vec<String> {
    let mut s = Script::new(seed);
    let appends = s.runs(APPEND, LogQueue::Append);
    let rewrites = s.runs(REWRITE, LogQueue::Rewrite);
    s.merges(APPEND, appends);
    s.merges(REWRITE, rewrites);
    s.push(Line::of("c").number(REWRITE).word("join").number(APPEND));
    s.joined = true;
    s.look(REWRITE);
    for _ in 0..s.w.r.from_to(3, 14) {
        s.live_write();
        s.queries(REWRITE, 40);
    }
    s.look(REWRITE);
    s.lines
}

/// Append batches, each as the text behind `replay`, with its items.
pub fn append_batches(seed: u64) -> Vec<(String, Vec<LogItem>)> {
    let mut s = Script::new(seed);
    let n = s.w.r.from_to(1, 20);
    (0..n)
        .map(|_| {
            let seq = s.seq(LogQueue::Append);
            let items = s.items(APPEND, LogQueue::Append, seq);
            let file = FileId::new(LogQueue::Append, seq);
            (Line::default().file(file).items(&items).0, items)
        })
        .collect()
}

impl Script {
    fn new(seed: u64) -> Script {
        Script {
            w: World::new(seed),
            lines: vec![Line::of("script").number(seed).0],
            next: HashMap::new(),
            append_seq: 1,
            rewrite_seq: 1,
            begun: None,
            joined: false,
        }
    }

    fn push(&mut self, line: Line) {
        self.lines.push(line.0);
    }

    fn next(&self, object: u64, group: u64) -> u64 {
        self.next.get(&(object, group)).copied().unwrap_or(self.w.base)
    }

    /// One to four contexts of a queue, each with its batches.
    fn runs(&mut self, first: u64, queue: LogQueue) -> u64 {
        let n = self.w.r.from_to(1, 4);
        let mut begun = false;
        for object in first..first + n {
            self.push(Line::of("c").number(object).word("new").queue(queue));
            if begun {
                self.replay_all_groups(object, 2);
            }
            for _ in 0..self.w.r.from_to(0, 8) {
                self.replay(object, queue);
                self.queries(object, 50);
            }
            begun = queue == LogQueue::Rewrite && self.w.r.percent(20);
            if begun {
                self.replay_all_groups(object, 0);
            }
            self.look(object);
            self.carry_on(object, first + n);
        }
        n
    }

    /// The next run goes on where this one ends.
    fn carry_on(&mut self, object: u64, end: u64) {
        if object + 1 < end && self.w.r.percent(85) {
            for g in self.w.groups.clone() {
                let next = self.next(object, g);
                self.next.insert((object + 1, g), next);
            }
        }
    }

    fn seq(&mut self, queue: LogQueue) -> u64 {
        let up = self.w.r.percent(40) as u64;
        let seq = match queue {
            LogQueue::Append => &mut self.append_seq,
            LogQueue::Rewrite => &mut self.rewrite_seq,
        };
        *seq += up;
        let seq = *seq;
        let back = if queue == LogQueue::Rewrite { 16 } else { 6 };
        if self.w.r.percent(back) {
            return self.w.seq_near(seq);
        }
        seq
    }

    fn replay(&mut self, object: u64, queue: LogQueue) {
        let seq = self.seq(queue);
        let file = self.batch_file(queue, seq);
        let more = if self.begun.is_some() { 70 } else { 45 };
        let marked = queue == LogQueue::Rewrite && self.w.r.percent(more);
        let items = if marked {
            let group = self.begun.unwrap_or(self.w.group());
            let status = self.status();
            self.begun = if status < 2 && self.w.r.percent(80) { Some(group) } else { None };
            self.marked_items(object, group, status, seq)
        } else {
            self.items(object, queue, seq)
        };
        self.push(Line::of("c").number(object).word("replay").file(file).items(&items));
    }

    /// The batch's file; at times of the other queue.
    fn batch_file(&mut self, queue: LogQueue, seq: u64) -> FileId {
        let other = self.w.r.below(200) == 0;
        FileId::new(if other { other_queue(queue) } else { queue }, seq)
    }

    fn items(&mut self, object: u64, queue: LogQueue, seq: u64) -> Vec<LogItem> {
        let n = match self.w.r.below(30) {
            0 => 0,
            1 if self.w.wild => 33,
            2 => 32,
            n => n % 4 + 1,
        };
        (0..n)
            .map(|_| {
                let group = self.w.group();
                self.item(object, group, queue, seq)
            })
            .collect()
    }

    /// Items of one group with a mark at some place.
    fn marked_items(&mut self, object: u64, group: u64, status: u8, seq: u64) -> Vec<LogItem> {
        let n = if self.w.r.percent(5) { 20 } else { self.w.r.below(4) };
        let mut items: Vec<LogItem> =
            (0..n).map(|_| self.item(object, group, LogQueue::Rewrite, seq)).collect();
        let at = self.w.r.below(items.len() as u64 + 1) as usize;
        items.insert(at, put(group, RESERVED.to_vec(), Some(vec![status]), None));
        if self.w.wild && self.w.r.percent(10) {
            let other = self.w.group();
            items.push(put(other, RESERVED.to_vec(), Some(vec![1]), None));
        }
        items
    }

    /// Begins in one run what the next run ends, in every group, so that a
    /// merge finishes parts of several groups.
    fn replay_all_groups(&mut self, object: u64, status: u8) {
        for group in self.w.groups.clone() {
            let seq = self.seq(LogQueue::Rewrite);
            let items = self.marked_items(object, group, status, seq);
            let file = FileId::new(LogQueue::Rewrite, seq);
            self.push(Line::of("c").number(object).word("replay").file(file).items(&items));
        }
    }

    fn status(&mut self) -> u8 {
        match (self.w.r.below(20), self.begun) {
            (0, _) if self.w.wild => 3,
            (1..=9, None) | (1..=2, _) => 0,
            (10..=14, _) | (3..=4, _) => 1,
            _ => 2,
        }
    }

    fn item(&mut self, object: u64, group: u64, queue: LogQueue, seq: u64) -> LogItem {
        let mut item = match self.w.r.below(100) {
            0..=44 => self.entries_item(object, group, queue, seq),
            45..=69 => {
                let (key, value) = (self.w.key(), self.w.value());
                put(group, key, Some(value), Some(FileId::new(queue, seq)))
            }
            70..=79 => kv(group, KeyValue::new(OpType::Del, self.w.key(), None)),
            80..=91 => {
                let index = self.w.index(self.next(object, group));
                command(group, Command::Compact { index })
            }
            _ => {
                self.next.remove(&(object, group));
                command(group, Command::Clean)
            }
        };
        if self.w.wild && self.w.r.percent(4) {
            self.spoil(&mut item);
        }
        item
    }

    fn entries_item(&mut self, object: u64, group: u64, queue: LogQueue, seq: u64) -> LogItem {
        let next = self.next(object, group);
        let start = self.w.start(next);
        let n = self.w.list_len();
        let list = self.w.entries(start, n, queue, seq);
        if n > 0 {
            self.next.insert((object, group), start.saturating_add(n));
        }
        LogItem::new_entry_indexes(group, list)
    }

    /// Makes an item one that 01 refuses on sight.
    fn spoil(&mut self, item: &mut LogItem) {
        match &mut item.content {
            LogItemContent::EntryIndexes(list) => self.spoil_list(list),
            LogItemContent::Kv(kv) if kv.op_type == OpType::Put => match self.w.r.below(3) {
                0 => kv.value = None,
                1 => kv.file_id = None,
                _ => kv.file_id = kv.file_id.map(|f| FileId::new(other_queue(f.queue), f.seq)),
            },
            LogItemContent::Command(Command::Compact { index }) => *index = MAX_INDEX + 1,
            _ => {}
        }
    }

    fn spoil_list(&mut self, list: &mut EntryIndexes) {
        if list.0.is_empty() {
            return;
        }
        let at = self.w.r.below(list.0.len() as u64) as usize;
        let e = &mut list.0[at];
        match self.w.r.below(4) {
            0 => e.entries = None,
            1 => e.index = e.index.wrapping_add(2),
            2 => e.index = MAX_INDEX + 1,
            _ => {
                if let Some(h) = &mut e.entries {
                    h.id.queue = other_queue(h.id.queue);
                }
            }
        }
    }

    /// Merges neighbours in some order until one context is left.
    fn merges(&mut self, first: u64, n: u64) {
        let mut left: Vec<u64> = (first..first + n).collect();
        while left.len() > 1 {
            let at = self.w.r.below(left.len() as u64 - 1) as usize;
            let newer = left.remove(at + 1);
            let older = left[at];
            self.push(Line::of("c").number(older).word("merge").number(newer));
            for g in self.w.groups.clone() {
                if let Some(next) = self.next.get(&(newer, g)).copied() {
                    self.next.insert((older, g), next);
                }
            }
            self.look(older);
            self.queries(older, 70);
        }
    }

    fn live_write(&mut self) {
        if self.w.r.percent(55) {
            let seq = self.seq(LogQueue::Append);
            let file = self.batch_file(LogQueue::Append, seq);
            let items = self.items(REWRITE, LogQueue::Append, seq);
            self.push(Line::of("c").number(REWRITE).word("live_append").file(file).items(&items));
            return;
        }
        let mut seq = self.seq(LogQueue::Rewrite);
        if self.w.r.percent(25) {
            seq = self.w.r.below(seq.saturating_add(1));
        }
        let file = self.batch_file(LogQueue::Rewrite, seq);
        let near = self.append_seq;
        let gate = if self.w.r.percent(60) { Some(self.w.seq_near(near)) } else { None };
        let items: Vec<LogItem> =
            (0..self.w.r.from_to(1, 3)).map(|_| self.rewrite_item(seq)).collect();
        let line = Line::of("c").number(REWRITE).word("live_rewrite").file(file);
        self.push(line.maybe_number(gate).items(&items));
    }

    fn rewrite_item(&mut self, seq: u64) -> LogItem {
        let group = self.w.group();
        let mut item = match self.w.r.below(40) {
            0 => command(group, Command::Clean),
            1 => kv(group, KeyValue::new(OpType::Del, self.w.key(), None)),
            2 if self.w.wild => command(group, Command::Compact { index: 3 }),
            3..=20 => put(group, self.w.key(), None, None),
            _ => {
                let next = self.next(REWRITE, group);
                let start = next.saturating_sub(self.w.r.from_to(0, 9));
                let n = self.w.list_len();
                LogItem::new_entry_indexes(
                    group,
                    self.w.entries(start, n, LogQueue::Rewrite, seq),
                )
            }
        };
        if self.w.wild && self.w.r.percent(4) {
            self.spoil(&mut item);
        }
        item
    }

    /// Live counts and the whole state.
    fn look(&mut self, object: u64) {
        for word in ["live", "groups", "dump"] {
            self.push(Line::of("c").number(object).word(word));
        }
        if self.w.r.percent(30) {
            self.push(Line::of("c").number(object).word("is_empty"));
        }
        if self.w.r.percent(if self.joined { 60 } else { 3 }) {
            self.push(Line::of("c").number(object).word("cleaned"));
        }
    }

    fn queries(&mut self, object: u64, percent: u64) {
        while self.w.r.percent(percent) {
            let group = self.w.group();
            let next = self.next(object, group);
            let seq = if self.w.r.percent(50) { self.append_seq } else { self.rewrite_seq };
            let line = Line::of("q").number(object).number(group);
            let line = query(&mut self.w, line, next, seq);
            self.push(line);
        }
    }
}

/// A query of one group, appended to a line.
pub fn query(w: &mut World, line: Line, next: u64, seq: u64) -> Line {
    let near = w.seq_near(seq);
    match w.r.below(14) {
        0 => line.word("get").bytes(&w.key()),
        1 | 2 => scan(w, line),
        3 => line.word("get_entry").number(w.index(next)),
        4..=6 => fetch(w, line, next),
        7 => line.word("fetch_entry_indexes_before").number(near),
        8 => line.word("fetch_rewritten_entry_indexes"),
        9 => line.word("fetch_kvs_before").number(near),
        10 => line.word("fetch_rewritten_kvs"),
        11 => line.word("min_file_seq").number(w.r.below(2)),
        12 => line
            .word("has_at_least_some_entries_before")
            .number(w.r.below(2))
            .number(near)
            .number(w.r.below(8)),
        _ => {
            let words = ["first_index", "last_index", "rewrite_count", "count"];
            line.word(*w.r.pick(&words))
        }
    }
}

fn scan(w: &mut World, line: Line) -> Line {
    let start = if w.r.percent(60) { Some(w.key()) } else { None };
    let end = if w.r.percent(60) { Some(w.key()) } else { None };
    let count = if w.r.percent(5) { 0 } else { w.r.from_to(1, 6) };
    line.word("scan")
        .maybe_bytes(start.as_deref())
        .maybe_bytes(end.as_deref())
        .number(w.r.below(2))
        .number(count)
}

fn fetch(w: &mut World, line: Line, next: u64) -> Line {
    let begin = w.index(next);
    let end = match w.r.below(6) {
        0 => begin,
        1 => next,
        2 => w.index(next),
        _ => begin.saturating_add(w.r.from_to(1, 5)),
    };
    let size = match w.r.below(4) {
        0 => Some(w.r.below(60)),
        1 => Some(*w.r.pick(&[0, 1 << 25, (1 << 25) - 1, (1 << 26) + 1, u64::MAX])),
        _ => None,
    };
    line.word("fetch_entries_to").number(begin).number(end).maybe_number(size)
}

fn other_queue(q: LogQueue) -> LogQueue {
    match q {
        LogQueue::Append => LogQueue::Rewrite,
        LogQueue::Rewrite => LogQueue::Append,
    }
}

fn kv(group: u64, kv: KeyValue) -> LogItem {
    LogItem { raft_group_id: group, content: LogItemContent::Kv(kv) }
}

fn put(group: u64, key: Vec<u8>, value: Option<Vec<u8>>, file_id: Option<FileId>) -> LogItem {
    kv(group, KeyValue { op_type: OpType::Put, key, value, file_id })
}

fn command(group: u64, c: Command) -> LogItem {
    LogItem::new_command(group, c)
}

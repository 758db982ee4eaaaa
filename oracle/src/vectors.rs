//! Fixed lists of calls with the Rust's answers, for tests that need no Rust.

use crate::boundary;
use crate::drive::Driver;
use crate::generate::{query, script};
use crate::random::Random;
use crate::takes_lines;
use crate::text::Line;
use crate::world::{World, MAX_INDEX};
use raft_engine::env::{EntryIndex, FileId, LogQueue};

/// Prints calls with their answers.
fn print_answered(lines: &[String]) {
    let mut driver = Driver::new(true);
    for line in lines {
        println!("{}", line);
        let answers = driver.line(line).unwrap_or_else(|e| panic!("{}: {}", line, e));
        answers.iter().for_each(|a| println!("= {}", a));
    }
}

fn heading(name: &str, seed: u64, n: u64) {
    println!("# made by: oracle/target/release/oracle vectors {} {} {}", name, seed, n);
    println!("# the form of calls and answers is in oracle/README.md");
}

/// Scripts of one group's table.
pub fn memtable(seed: u64, n: u64) {
    heading("memtable", seed, n);
    print_answered(&boundary::lines());
    for s in seed..seed + n {
        print_answered(&table_script(s));
    }
}

/// Scripts of contexts and the index.
pub fn index(seed: u64, n: u64) {
    heading("index", seed, n);
    for s in seed..seed + n {
        print_answered(&script(s));
    }
}

/// Inputs of the program `takes` ("> ") with its output ("= ").
pub fn takes(seed: u64, n: u64) {
    heading("takes", seed, n);
    takes_lines::print(seed, n);
}

/// Group numbers, mixed, and their slots.
pub fn mix(seed: u64, n: u64) {
    heading("mix", seed, n);
    let mut groups: Vec<u64> = (0..20).collect();
    for i in 0..64 {
        groups.extend([(1 << i) - 1, 1 << i, u64::MAX - (1 << i)]);
    }
    let mut r = Random::new(seed);
    groups.extend((0..n).map(|_| r.next()));
    let lines: Vec<String> = groups.iter().map(|g| Line::of("mix").number(*g).0).collect();
    print_answered(&lines);
}

struct Tables {
    w: World,
    group: u64,
    lines: Vec<String>,
    next: [u64; 2],
    seq: u64,
    /// The key rewritten last, and to which number.
    moved: Option<(Vec<u8>, u64)>,
}

/// A table of Append replay, of Rewrite replay or of the index, with a second
/// one to merge.
fn table_script(seed: u64) -> Vec<String> {
    let mut w = World::new(seed);
    w.wild = false;
    if w.keys.len() < 15 {
        w.keys.truncate(5);
    }
    let group = w.group();
    let next = [w.base; 2];
    let lines = vec![Line::of("script").number(seed).0];
    let mut s = Tables { w, group, lines, next, seq: 1, moved: None };
    s.new_table(0);
    match seed % 4 {
        0 => s.recovery(LogQueue::Append),
        1 => s.recovery(LogQueue::Rewrite),
        _ => s.index(),
    }
    s.look();
    s.lines
}

impl Tables {
    fn table(&self, t: usize, word: &str) -> Line {
        Line::of("t").number(t as u64).word(word)
    }

    fn push(&mut self, line: Line) {
        self.lines.push(line.0);
    }

    fn new_table(&mut self, t: usize) {
        let line = self.table(t, "new").number(self.group);
        self.push(line);
    }

    fn look(&mut self) {
        for word in ["count", "live", "dump"] {
            let line = self.table(0, word);
            self.push(line);
        }
    }

    fn queries(&mut self, t: usize) {
        while self.w.r.percent(45) {
            let line = Line::of("t").number(t as u64);
            let line = query(&mut self.w, line, self.next[t], self.seq);
            self.push(line);
        }
    }

    fn some_seq(&mut self) -> u64 {
        self.seq += self.w.r.percent(50) as u64;
        let seq = self.seq;
        if self.w.r.percent(12) {
            return self.w.seq_near(seq);
        }
        seq
    }

    /// A list that 01 lets through: consecutive, no index above 2^63-1.
    fn list(&mut self, t: usize, queue: LogQueue) -> Vec<EntryIndex> {
        let start = self.w.start(self.next[t]).min(MAX_INDEX);
        let n = self.w.list_len().min(MAX_INDEX - start + 1);
        let seq = self.some_seq();
        let list = self.w.entries(start, n, queue, seq);
        if n > 0 {
            self.next[t] = start + n;
        }
        list
    }

    fn key(&mut self) -> Vec<u8> {
        loop {
            let key = self.w.plain_key();
            if key.len() <= 32 {
                return key;
            }
        }
    }

    fn put(&mut self, t: usize, queue: LogQueue) -> Line {
        let (key, value) = (self.key(), self.w.value());
        let file = FileId::new(queue, self.some_seq());
        self.table(t, "put").bytes(&key).bytes(&value).file(file)
    }

    fn delete(&mut self, t: usize) -> Line {
        let key = self.key();
        self.table(t, "delete").bytes(&key)
    }

    fn compact(&mut self, t: usize) -> Line {
        let index = self.w.index(self.next[t]).min(MAX_INDEX);
        self.table(t, "compact_to").number(index)
    }

    fn span(&mut self, t: usize) -> Line {
        let mut start = self.some_seq();
        if self.w.r.percent(25) {
            start = start.saturating_sub(2);
        }
        let end = start.saturating_add(self.w.r.below(4));
        self.table(t, "apply_rewrite_atomic_group").number(start).number(end)
    }

    /// A change of a table in replay.
    fn replay(&mut self, t: usize, queue: LogQueue) {
        let rewrite = queue == LogQueue::Rewrite;
        let line = match self.w.r.below(20) {
            0..=4 => self.put(t, queue),
            5..=6 => self.delete(t),
            7..=8 => self.compact(t),
            9..=10 if rewrite => self.span(t),
            _ => {
                let word = if rewrite { "replay_rewrite" } else { "replay_append" };
                let list = self.list(t, queue);
                self.table(t, word).entries(&list)
            }
        };
        self.push(line);
    }

    /// Replays into a table, and merges newer ones into it.
    fn recovery(&mut self, queue: LogQueue) {
        for _ in 0..self.w.r.from_to(1, 3) {
            for _ in 0..self.w.r.from_to(2, 7) {
                self.replay(0, queue);
                self.queries(0);
            }
            self.new_table(1);
            self.next[1] = self.next[0];
            for _ in 0..self.w.r.from_to(0, 5) {
                self.replay(1, queue);
            }
            let line = self.table(0, "merge_newer_neighbor").number(1);
            self.push(line);
            self.next[0] = self.next[1];
            self.queries(0);
        }
    }

    /// A Rewrite table takes an Append one, and then live writes.
    fn index(&mut self) {
        for _ in 0..self.w.r.from_to(0, 4) {
            self.replay(0, LogQueue::Rewrite);
        }
        self.new_table(1);
        self.next[1] = self.next[0];
        for _ in 0..self.w.r.from_to(0, 4) {
            self.replay(1, LogQueue::Append);
        }
        let line = self.table(0, "merge_append_table").number(1);
        self.push(line);
        self.next[0] = self.next[1];
        for _ in 0..self.w.r.from_to(6, 18) {
            self.live();
            self.queries(0);
        }
    }

    /// A live write.
    fn live(&mut self) {
        let line = match self.w.r.below(20) {
            0..=5 => {
                let list = self.list(0, LogQueue::Append);
                self.table(0, "append").entries(&list)
            }
            6..=10 => self.rewrite(),
            11..=13 => self.put(0, LogQueue::Append),
            14..=17 => self.rewrite_key(),
            18 => self.delete(0),
            _ => self.compact(0),
        };
        self.push(line);
    }

    fn gate(&mut self) -> Option<u64> {
        let seq = self.seq;
        if self.w.r.percent(60) {
            Some(self.w.seq_near(seq))
        } else {
            None
        }
    }

    fn rewrite(&mut self) -> Line {
        let gate = self.gate();
        let back = self.w.r.from_to(0, 12);
        let start = self.next[0].saturating_sub(back).min(MAX_INDEX);
        let n = self.w.list_len().min(MAX_INDEX - start + 1);
        let seq = self.some_seq();
        let list = self.w.entries(start, n, LogQueue::Rewrite, seq);
        self.table(0, "rewrite").maybe_number(gate).entries(&list)
    }

    /// Often the key that was moved last, to a number near its last one.
    fn rewrite_key(&mut self) -> Line {
        let mut key = self.key();
        let mut seq = self.some_seq();
        if let (Some((last, at)), true) = (self.moved.clone(), self.w.r.percent(60)) {
            key = last;
            seq = at.saturating_add(self.w.r.below(3)).saturating_sub(1);
        }
        self.moved = Some((key.clone(), seq));
        let gate = self.gate();
        self.table(0, "rewrite_key").bytes(&key).maybe_number(gate).number(seq)
    }
}

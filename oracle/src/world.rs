//! The small universe of one script: groups, keys, files, indexes.

use crate::random::Random;
use raft_engine::env::probe::slot;
use raft_engine::env::{CompressionType, EntryIndex, FileBlockHandle, FileId, LogQueue};

pub const MAX_INDEX: u64 = (1 << 63) - 1;
pub const RESERVED: [u8; 3] = [0x5f, 0x5f, 1];
const MAX_LENGTH: u32 = 1 << 25;

pub struct World {
    pub r: Random,
    pub groups: Vec<u64>,
    pub keys: Vec<Vec<u8>>,
    /// Most indexes lie a little above this one.
    pub base: u64,
    /// Whether items that 01 refuses on sight come up.
    pub wild: bool,
    /// Whether lists are long, so that 64 entries are reached.
    pub long: bool,
}

impl World {
    pub fn new(seed: u64) -> World {
        let mut r = Random::new(seed);
        let groups = groups(&mut r);
        let keys = keys(&mut r);
        let base = match r.below(20) {
            0 => 0,
            1 => MAX_INDEX - 12,
            2 => MAX_INDEX - 70,
            _ => r.from_to(1, 6),
        };
        let wild = r.percent(30);
        let long = r.percent(20);
        World { r, groups, keys, base, wild, long }
    }

    pub fn group(&mut self) -> u64 {
        *self.r.pick(&self.groups)
    }

    pub fn key(&mut self) -> Vec<u8> {
        self.r.pick(&self.keys).clone()
    }

    /// A key that is not reserved.
    pub fn plain_key(&mut self) -> Vec<u8> {
        loop {
            let key = self.key();
            if key != RESERVED {
                return key;
            }
        }
    }

    pub fn value(&mut self) -> Vec<u8> {
        let n = match self.r.below(12) {
            0 => 0,
            1 => 32,
            2 if self.wild => 33,
            n => n % 3 + 1,
        };
        (0..n).map(|_| self.r.below(256) as u8).collect()
    }

    pub fn length(&mut self) -> u32 {
        match self.r.below(24) {
            0..=3 => 0,
            4 => MAX_LENGTH,
            5 if self.wild => MAX_LENGTH + 1,
            n => n as u32,
        }
    }

    /// A file number near the given one.
    pub fn seq_near(&mut self, seq: u64) -> u64 {
        match self.r.below(20) {
            0 => 0,
            1 => u64::MAX,
            2..=5 => seq.saturating_sub(self.r.from_to(1, 3)),
            6..=8 => seq.saturating_add(self.r.from_to(1, 2)),
            _ => seq,
        }
    }

    /// How many entries a list has.
    pub fn list_len(&mut self) -> u64 {
        if self.long {
            return match self.r.below(8) {
                0 => 32,
                1 => 31,
                2 => 30,
                3 => 1,
                4 if self.wild => 33,
                _ => self.r.from_to(1, 32),
            };
        }
        match self.r.below(10) {
            0 => 0,
            n => n % 5 + 1,
        }
    }

    /// Where a list starts, if the group is thought to end before `next`.
    pub fn start(&mut self, next: u64) -> u64 {
        match self.r.below(20) {
            0 => next.saturating_add(self.r.from_to(1, 3)),
            1 => self.base.saturating_sub(self.r.from_to(0, 3)),
            2 => self.base + self.r.below(12),
            3..=7 => next.saturating_sub(self.r.from_to(1, 6)),
            _ => next,
        }
    }

    pub fn entry(&mut self, index: u64, file: FileId) -> EntryIndex {
        let compression_type =
            if self.r.percent(20) { CompressionType::Lz4 } else { CompressionType::None };
        EntryIndex {
            index,
            entries: Some(FileBlockHandle {
                id: file,
                offset: self.r.below(1000),
                len: self.r.below(100) as usize,
            }),
            compression_type,
            entry_offset: self.r.below(500) as u32,
            entry_len: self.length(),
        }
    }

    /// Consecutive entries; now and then a file changes within the list.
    pub fn entries(&mut self, start: u64, n: u64, queue: LogQueue, seq: u64) -> Vec<EntryIndex> {
        let mut seq = seq;
        let mut out = Vec::new();
        for i in 0..n {
            if self.r.percent(10) {
                seq = self.seq_near(seq);
            }
            out.push(self.entry(start.wrapping_add(i), FileId::new(queue, seq)));
        }
        out
    }

    /// A number to ask for or to compact to.
    pub fn index(&mut self, next: u64) -> u64 {
        match self.r.below(24) {
            0 => 0,
            1 => MAX_INDEX,
            2 => next,
            3 => next.saturating_add(self.r.from_to(1, 4)),
            _ => next.saturating_sub(self.r.from_to(0, 10)),
        }
    }
}

/// Few groups, some of them in one slot; ten at times, so that eight are passed.
fn groups(r: &mut Random) -> Vec<u64> {
    let n = if r.percent(10) { 10 } else { r.from_to(1, 4) };
    let mut out = vec![*r.pick(&[0, 1, 7, 3, u64::MAX, 1 << 63])];
    while (out.len() as u64) < n {
        let g = if r.percent(40) { same_slot(out[0], r) } else { r.below(40) };
        if !out.contains(&g) {
            out.push(g);
        }
    }
    out
}

fn same_slot(group: u64, r: &mut Random) -> u64 {
    let from = r.below(500);
    (from..).find(|g| *g != group && slot(*g) == slot(group)).unwrap()
}

fn keys(r: &mut Random) -> Vec<Vec<u8>> {
    let all: [&[u8]; 8] =
        [b"", b"k", b"k\0", b"k\x01", b"a", b"\xff", b"__", b"__\x01\0"];
    let mut out: Vec<Vec<u8>> = vec![RESERVED.to_vec(), vec![0x6b; 32]];
    for key in all {
        if r.percent(60) {
            out.push(key.to_vec());
        }
    }
    if r.percent(15) {
        out.extend((0..20).map(|i| vec![b'n', i]));
    }
    if r.percent(10) {
        out.push(vec![0x6b; 33]);
    }
    out
}

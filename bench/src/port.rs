//! The port's side.

use crate::work::{key, Item, Live, Query, Work, ASKED, GROUPS};
use crate::Side;
use galdnyrr::{Batch, Columns, Compression, Context, Entry, FileId, Index, Pairs, Queue, Records};
use std::hint::black_box;
use std::time::Instant;

fn batch(items: &[Item]) -> Batch {
    let mut b = Batch::new(Queue::Append, 1);
    for item in items {
        match item {
            Item::Entries(group, first, count, seq) => {
                let list: Vec<Entry> = (0..*count).map(|i| entry(first + i, *seq)).collect();
                b.entries(*group, &list)
            }
            Item::Put(group, key, value, seq) => {
                let file = FileId { queue: Queue::Append, seq: *seq };
                b.put_of(*group, key, Some(value), Some(file))
            }
            Item::Del(group, key) => b.delete(*group, key),
            Item::Compact(group, index) => b.compact(*group, *index),
        };
    }
    b
}

fn entry(index: u64, seq: u64) -> Entry {
    Entry {
        index,
        file: FileId { queue: Queue::Append, seq },
        block_offset: index * 64,
        block_len: 4096,
        compression: Compression::None,
        offset: 64,
        len: 64,
    }
}

fn replay_all(c: &mut Context, batches: &[Batch]) {
    for b in batches {
        c.replay(b).expect("a batch of the benchmark is taken");
    }
}

pub fn batches(work: &Work) -> Vec<Batch> {
    work.batches.iter().map(|b| batch(b)).collect()
}

pub fn replay(before: &Work, work: &Work) -> Side {
    let (before, work) = (batches(before), work.clone());
    let mut c = Context::new(Queue::Append);
    Box::new(move || {
        c.reset();
        replay_all(&mut c, &before);
        let lent = batches(&work);
        let start = Instant::now();
        replay_all(&mut c, &lent);
        let took = start.elapsed();
        black_box(&c);
        took
    })
}

pub fn query(before: &Work, query: Query) -> Side {
    let mut c = Context::new(Queue::Append);
    replay_all(&mut c, &batches(before));
    let keys: Vec<Vec<u8>> = (0..16).map(key).collect();
    let mut columns = Columns::with_room(64);
    let mut records = Records::with_room(64);
    let mut pairs = Pairs::with_room(16);
    let mut out = [0; 32];
    Box::new(move || {
        let area = c.area();
        let start = Instant::now();
        for i in 0..u64::from(ASKED) {
            let group = i % GROUPS + 1;
            match query {
                Query::FirstIndex => drop(black_box(area.first_index(group))),
                Query::LastIndex => drop(black_box(area.last_index(group))),
                Query::GetEntry => drop(black_box(area.get_entry(group, i % 32 + 1))),
                Query::Get(n) => {
                    let _ = black_box(area.get(group, &keys[(i % n) as usize], &mut out));
                }
                Query::Fetch(n) => {
                    let begin = i % (33 - n) + 1;
                    area.fetch_columns_to(group, begin, begin + n, None, &mut columns).unwrap();
                    black_box(&columns);
                }
                Query::FetchRecords(n) => {
                    let begin = i % (33 - n) + 1;
                    area.fetch_entries_to(group, begin, begin + n, None, &mut records).unwrap();
                    black_box(&records);
                }
                Query::Scan => {
                    area.scan(group, None, None, false, 16, &mut pairs).unwrap();
                    black_box(&pairs);
                }
                Query::MinFileSeq => drop(black_box(area.min_file_seq(group, Queue::Append))),
                Query::SomeBefore => {
                    let count = i as usize % 32 + 1;
                    let _ = black_box(area.has_at_least_some_entries_before(group, 1, count));
                }
            }
        }
        start.elapsed()
    })
}

fn context(batches: &[Batch]) -> Context {
    let mut c = Context::new(Queue::Append);
    replay_all(&mut c, batches);
    c
}

pub fn index(before: &[Batch]) -> Index {
    match Context::new(Queue::Rewrite).join(&context(before)) {
        Ok(index) => index,
        Err((_, refusal)) => panic!("{refusal}"),
    }
}

/// The entries of a batch from index 0 on, below every group's first: refused once they are checked.
fn below_first(items: &[Item]) -> Batch {
    let lower = |item: &Item| match item {
        Item::Entries(group, _, count, seq) => Item::Entries(*group, 0, *count, *seq),
        other => other.clone(),
    };
    batch(&items.iter().map(lower).collect::<Vec<_>>())
}

/// A rewrite of the entries of a batch, in a file of the Rewrite queue.
fn rewrite(items: &[Item]) -> Batch {
    let mut b = Batch::new(Queue::Rewrite, 1);
    for item in items {
        if let Item::Entries(group, first, count, _) = item {
            let list: Vec<Entry> =
                (0..*count).map(|i| Entry { file: b.file(), ..entry(first + i, 1) }).collect();
            b.entries(*group, &list);
        }
    }
    b
}

pub fn live(before: &Work, work: &Work, live: Live) -> Side {
    let (before, work) = (batches(before), work.clone());
    Box::new(move || {
        let mut i = index(&before);
        match live {
            Live::Append => {
                let lent = batches(&work);
                let start = Instant::now();
                lent.iter().for_each(|b| i.append(b).unwrap());
                start.elapsed()
            }
            Live::Check => {
                let lent: Vec<Batch> = work.batches.iter().map(|b| below_first(b)).collect();
                let start = Instant::now();
                for b in &lent {
                    let _ = black_box(i.append(b).unwrap_err());
                }
                start.elapsed()
            }
            Live::Rewrite => {
                let lent: Vec<Batch> = work.batches.iter().map(|b| rewrite(b)).collect();
                let start = Instant::now();
                lent.iter().for_each(|b| i.rewrite(Some(1), b).unwrap());
                start.elapsed()
            }
        }
    })
}

pub fn merge(older: &Work, newer: &Work) -> Side {
    let (older, newer) = (context(&batches(older)), context(&batches(newer)));
    Box::new(move || {
        let mut c = older.clone();
        let start = Instant::now();
        c.merge(&newer).unwrap();
        start.elapsed()
    })
}

pub fn join(append: &Work) -> Side {
    let append = context(&batches(append));
    Box::new(move || {
        let c = Context::new(Queue::Rewrite);
        let start = Instant::now();
        let joined = c.join(&append);
        let took = start.elapsed();
        assert!(joined.is_ok());
        took
    })
}

/// Batches cut into runs of one length, each replayed into a context and merged behind the ones before it.
pub fn recover(work: &Work, runs: usize) -> Side {
    let lent = batches(work);
    let mut whole = Context::new(Queue::Append);
    let mut run = Context::new(Queue::Append);
    Box::new(move || {
        let start = Instant::now();
        whole.reset();
        for part in lent.chunks(lent.len().div_ceil(runs)) {
            run.reset();
            replay_all(&mut run, part);
            whole.merge(&run).unwrap();
        }
        black_box(&whole);
        start.elapsed()
    })
}

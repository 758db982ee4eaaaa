//! The Rust's side.

use crate::work::{key, Item, Live, Query, Work, ASKED, GROUPS};
use crate::Side;
use raft_engine::env::probe::{self, Context, Index};
use raft_engine::env::{
    Command, CompressionType, EntryIndex, FileBlockHandle, FileId, KeyValue, LogItem,
    LogItemContent, LogQueue, OpType,
};
use std::hint::black_box;
use std::time::Instant;

const APPEND: LogQueue = LogQueue::Append;

fn item(item: &Item) -> LogItem {
    let of = |group: u64, content| LogItem { raft_group_id: group, content };
    match item {
        Item::Entries(group, first, count, seq) => {
            let list = (0..*count).map(|i| entry(first + i, *seq)).collect();
            LogItem::new_entry_indexes(*group, list)
        }
        Item::Put(group, key, value, seq) => of(
            *group,
            LogItemContent::Kv(KeyValue {
                op_type: OpType::Put,
                key: key.clone(),
                value: Some(value.clone()),
                file_id: Some(FileId::new(APPEND, *seq)),
            }),
        ),
        Item::Del(group, key) => {
            of(*group, LogItemContent::Kv(KeyValue::new(OpType::Del, key.clone(), None)))
        }
        Item::Compact(group, index) => {
            of(*group, LogItemContent::Command(Command::Compact { index: *index }))
        }
    }
}

fn entry(index: u64, seq: u64) -> EntryIndex {
    EntryIndex {
        index,
        entries: Some(FileBlockHandle { id: FileId::new(APPEND, seq), offset: index * 64, len: 4096 }),
        compression_type: CompressionType::None,
        entry_offset: 64,
        entry_len: 64,
    }
}

fn batches(work: &Work) -> Vec<Vec<LogItem>> {
    work.batches.iter().map(|b| b.iter().map(item).collect()).collect()
}

fn context(work: &Work) -> Context {
    let mut c = probe::new_context();
    batches(work).into_iter().for_each(|b| probe::replay(&mut c, b, FileId::new(APPEND, 1)));
    c
}

pub fn replay(before: &Work, work: &Work) -> Side {
    let (before, work) = (before.clone(), work.clone());
    Box::new(move || {
        let mut c = context(&before);
        let lent = batches(&work);
        let start = Instant::now();
        for batch in lent {
            probe::replay(&mut c, batch, FileId::new(APPEND, 1));
        }
        let took = start.elapsed();
        black_box(&c);
        took
    })
}

pub fn query(before: &Work, query: Query) -> Side {
    let c = context(before);
    let keys: Vec<Vec<u8>> = (0..16).map(key).collect();
    let mut list = Vec::with_capacity(64);
    let mut pairs = Vec::with_capacity(16);
    Box::new(move || {
        let tables = probe::context_tables(&c);
        let start = Instant::now();
        for i in 0..u64::from(ASKED) {
            let table = tables.get(i % GROUPS + 1).unwrap();
            let table = table.read();
            match query {
                Query::FirstIndex => drop(black_box(table.first_index())),
                Query::LastIndex => drop(black_box(table.last_index())),
                Query::GetEntry => drop(black_box(table.get_entry(i % 32 + 1))),
                Query::Get(n) => drop(black_box(table.get(&keys[(i % n) as usize]))),
                Query::Fetch(n) | Query::FetchRecords(n) => {
                    list.clear();
                    let begin = i % (33 - n) + 1;
                    table.fetch_entries_to(begin, begin + n, None, &mut list).unwrap();
                    black_box(&list);
                }
                Query::Scan => {
                    pairs.clear();
                    let push = |k: &[u8], v: &[u8]| {
                        pairs.push((k.to_vec(), v.to_vec()));
                        true
                    };
                    table.scan(None, None, false, push).unwrap();
                    black_box(&pairs);
                }
                Query::MinFileSeq => drop(black_box(table.min_file_seq(APPEND))),
                Query::SomeBefore => {
                    let gate = FileId::new(APPEND, 1);
                    black_box(table.has_at_least_some_entries_before(gate, i as usize % 32 + 1));
                }
            }
        }
        start.elapsed()
    })
}

pub fn index(before: &Work) -> Index {
    probe::join(probe::new_context(), context(before))
}

/// The entries of a rewrite are of the Rewrite queue.
fn rewritten(mut items: Vec<LogItem>) -> Vec<LogItem> {
    for item in &mut items {
        if let LogItemContent::EntryIndexes(list) = &mut item.content {
            for entry in &mut list.0 {
                if let Some(block) = &mut entry.entries {
                    block.id.queue = LogQueue::Rewrite;
                }
            }
        }
    }
    items
}

pub fn live(before: &Work, work: &Work, live: Live) -> Side {
    let (before, work) = (before.clone(), work.clone());
    Box::new(move || {
        let i = index(&before);
        let lent = batches(&work);
        match live {
            Live::Append | Live::Check => {
                let start = Instant::now();
                for batch in lent {
                    i.memtables.apply_append_writes(batch.into_iter());
                }
                start.elapsed()
            }
            Live::Rewrite => {
                let lent: Vec<_> = lent.into_iter().map(rewritten).collect();
                let start = Instant::now();
                for batch in lent {
                    i.memtables.apply_rewrite_writes(batch.into_iter(), Some(1), 1);
                }
                start.elapsed()
            }
        }
    })
}

pub fn merge(older: &Work, newer: &Work) -> Side {
    let (older, newer) = (older.clone(), newer.clone());
    Box::new(move || {
        let (mut a, b) = (context(&older), context(&newer));
        let start = Instant::now();
        probe::merge(&mut a, b, APPEND);
        start.elapsed()
    })
}

pub fn join(append: &Work) -> Side {
    let append = append.clone();
    Box::new(move || {
        let (a, b) = (probe::new_context(), context(&append));
        let start = Instant::now();
        black_box(probe::join(a, b));
        start.elapsed()
    })
}

/// Batches cut into runs of one length, each replayed into a context and merged behind the ones before it.
pub fn recover(work: &Work, runs: usize) -> Side {
    let work = work.clone();
    Box::new(move || {
        let mut lent = batches(&work);
        let length = lent.len().div_ceil(runs);
        let start = Instant::now();
        let mut whole = probe::new_context();
        while !lent.is_empty() {
            let rest = lent.split_off(length.min(lent.len()));
            let mut c = probe::new_context();
            for batch in std::mem::replace(&mut lent, rest) {
                probe::replay(&mut c, batch, FileId::new(APPEND, 1));
            }
            probe::merge(&mut whole, c, APPEND);
        }
        black_box(&whole);
        start.elapsed()
    })
}

//! What document 01 refuses though the Rust may return: numbers 2 to 7, judged
//! on a batch alone, and the limits, judged on a state.

use raft_engine::env::probe::{self, View};
use raft_engine::env::{
    batch, Command, EntryIndex, KeyValue, LogItem, LogItemContent, LogQueue, OpType,
};

const BATCH_ITEMS: usize = 32;
const LIST_ENTRIES: usize = 32;
const BYTES: usize = 32;
const MAX_INDEX: u64 = (1 << 63) - 1;
const MAX_LENGTH: u32 = 1 << 25;

const GROUPS: usize = 8;
const ENTRIES: usize = 64;
const KEYS: usize = 16;
const TOMBSTONES: usize = 64;
const CLEANED: usize = 64;
const WAITING_GROUPS: usize = 8;
const WAITING_ITEMS: usize = 64;
const WAITING_ENTRIES: usize = 128;

#[derive(Clone, Copy, PartialEq)]
pub enum Call {
    ReplayAppend,
    ReplayRewrite,
    LiveAppend,
    LiveRewrite,
}

impl Call {
    pub fn queue(self) -> LogQueue {
        match self {
            Call::ReplayAppend | Call::LiveAppend => LogQueue::Append,
            Call::ReplayRewrite | Call::LiveRewrite => LogQueue::Rewrite,
        }
    }
}

/// The least of 2 to 7 that any item meets, at the first item that meets it.
pub fn judge(call: Call, items: &[LogItem]) -> Option<(u8, usize)> {
    let mut least: Option<(u8, usize)> = None;
    let mut meet = |n: u8, at: usize| {
        if least.map_or(true, |(m, _)| n < m) {
            least = Some((n, at));
        }
    };
    for (at, item) in items.iter().enumerate() {
        if at == BATCH_ITEMS || long(item) {
            meet(2, at);
        }
        for n in 3..=6 {
            if meets(call, item, n) {
                meet(n, at);
            }
        }
    }
    if call == Call::ReplayRewrite {
        if let Some(at) = first_seven(items) {
            meet(7, at);
        }
    }
    least
}

fn long(item: &LogItem) -> bool {
    match &item.content {
        LogItemContent::EntryIndexes(list) => list.0.len() > LIST_ENTRIES,
        LogItemContent::Kv(kv) => {
            kv.key.len() > BYTES || kv.value.as_ref().map_or(false, |v| v.len() > BYTES)
        }
        LogItemContent::Command(_) => false,
    }
}

/// Whether an item meets one of 3 to 6.
fn meets(call: Call, item: &LogItem, n: u8) -> bool {
    match &item.content {
        LogItemContent::EntryIndexes(list) => entries_meet(call, &list.0, n),
        LogItemContent::Command(Command::Clean) => false,
        LogItemContent::Command(Command::Compact { index }) => match n {
            4 => *index > MAX_INDEX,
            6 => call == Call::LiveRewrite,
            _ => false,
        },
        LogItemContent::Kv(kv) => key_meets(call, kv, n),
    }
}

fn entries_meet(call: Call, list: &[EntryIndex], n: u8) -> bool {
    match n {
        3 => list.iter().any(|e| e.entries.is_none()) || !consecutive(list),
        4 => list.iter().any(|e| e.index > MAX_INDEX || e.entry_len > MAX_LENGTH),
        5 => list.iter().any(|e| e.entries.map_or(false, |h| h.id.queue != call.queue())),
        _ => false,
    }
}

fn consecutive(list: &[EntryIndex]) -> bool {
    list.windows(2).all(|w| w[0].index.checked_add(1) == Some(w[1].index))
}

fn key_meets(call: Call, kv: &KeyValue, n: u8) -> bool {
    let put = kv.op_type == OpType::Put;
    if batch::reserved(&kv.key) {
        return n == 3 && put && kv.value.is_none() && call == Call::ReplayRewrite;
    }
    let reads = put && call != Call::LiveRewrite;
    match n {
        3 => reads && (kv.value.is_none() || kv.file_id.is_none()),
        5 => reads && kv.file_id.map_or(false, |f| f.queue != call.queue()),
        6 => !put && call == Call::LiveRewrite,
        _ => false,
    }
}

/// The status byte of a mark.
pub fn mark(item: &LogItem) -> Option<u8> {
    match &item.content {
        LogItemContent::Kv(kv) if kv.op_type == OpType::Put && batch::reserved(&kv.key) => {
            match kv.value.as_deref() {
                Some([status]) => Some(*status),
                _ => None,
            }
        }
        _ => None,
    }
}

/// The first mark's place.
pub fn mark_at(items: &[LogItem]) -> Option<usize> {
    items.iter().position(|i| mark(i).is_some())
}

fn first_seven(items: &[LogItem]) -> Option<usize> {
    let first = mark_at(items)?;
    let group = items[first].raft_group_id;
    items.iter().enumerate().position(|(at, item)| {
        let status = mark(item);
        item.raft_group_id != group
            || (status.is_some() && at != first)
            || status.map_or(false, |s| s > 2)
    })
}

pub fn table_over(v: &View) -> bool {
    v.entries.len() > ENTRIES || v.keys.len() > KEYS
}

fn tables_over(tables: &probe::Tables) -> bool {
    let groups = probe::groups(tables);
    groups.len() > GROUPS
        || probe::cleaned(tables).len() > CLEANED
        || groups.iter().any(|g| table_over(&probe::view(&tables.get(*g).unwrap().read())))
}

pub fn context_over(c: &probe::Context) -> bool {
    let waiting = probe::waiting(c);
    let mut items = 0;
    let mut entries = 0;
    for part in waiting.iter().flat_map(|(_, parts)| parts) {
        items += part.items.len();
        entries += part.items.iter().map(entries_of).sum::<usize>();
    }
    tables_over(probe::context_tables(c))
        || probe::tombstones(c).len() > TOMBSTONES
        || waiting.len() > WAITING_GROUPS
        || items > WAITING_ITEMS
        || entries > WAITING_ENTRIES
}

fn entries_of(item: &LogItem) -> usize {
    match &item.content {
        LogItemContent::EntryIndexes(list) => list.0.len(),
        _ => 0,
    }
}

pub fn index_over(i: &probe::Index) -> bool {
    tables_over(&i.memtables)
}

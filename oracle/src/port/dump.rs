//! An area of the port read by its layout (docs/ARCHITECTURE.md), in the form of the Rust's dump.

use crate::text::Line;
use galdnyrr::Area;
use raft_engine::env::{
    Command, CompressionType, EntryIndex, EntryIndexes, FileBlockHandle, FileId, KeyValue, LogItem,
    LogItemContent, LogQueue, OpType,
};

const GROUPS: usize = 8;
const STRETCH: usize = 586;
const STRETCH_BYTES: usize = 1024;
const ENTRIES_AT: usize = 10;
const KEYS_AT: usize = 522;
const LISTS: usize = 9376;
const LISTS_BYTES: usize = 16384;
const WAITING: usize = 10019;
const WAITING_BYTES: usize = 20480;
const CELLS: usize = 16;

pub fn dump(area: &Area) -> Vec<String> {
    let (xs, bs) = (area.numbers(), area.bytes());
    let mut stretches: Vec<usize> = (0..GROUPS).filter(|k| xs[k * STRETCH] == 1).collect();
    stretches.sort_by_key(|k| xs[k * STRETCH + 1]);
    let kind = xs[LISTS];
    let mut out = vec![match kind {
        0 | 1 => Line::of("context").number(kind).0,
        _ => "index".to_string(),
    }];
    for k in stretches {
        let p = &xs[k * STRETCH..(k + 1) * STRETCH];
        out.extend(group(p, &bs[k * STRETCH_BYTES..(k + 1) * STRETCH_BYTES]));
    }
    let (tombstones, cleaned) = (xs[LISTS + 1] as usize, xs[LISTS + 2] as usize);
    out.push(Line::of("cleaned").numbers(&xs[LISTS + 3..LISTS + 3 + cleaned]).0);
    if kind < 2 {
        let rows = &xs[LISTS + 67..];
        for j in 0..tombstones {
            let item = item(&rows[j * 9..], &[], &bs[LISTS_BYTES..]);
            out.push(Line::of("tombstone").item(&item).0);
        }
        waiting(&xs[WAITING..], &bs[WAITING_BYTES..], &mut out);
    }
    out.push("end".to_string());
    out
}

/// The header of a stretch: used, group, first index, entries, Rewrite entries, whether there is a span, its start and end, keys,
/// counted.
fn group(p: &[u64], b: &[u8]) -> Vec<String> {
    let (first, n, keys) = (p[2], p[3] as usize, p[8] as usize);
    let head = Line::of("group").number(p[1]);
    let head = head.maybe_number(if n == 0 { None } else { Some(first) }).number(p[4]);
    let head = if p[5] == 0 { head.word("-") } else { head.number(p[6]).number(p[7]) };
    let list: Vec<EntryIndex> = (0..n)
        .map(|i| EntryIndex { index: first + i as u64, ..entry(&p[ENTRIES_AT + i * 8..]) })
        .collect();
    let mut line = Line::of("keys").number(keys as u64);
    for j in 0..keys {
        let row = &p[KEYS_AT + j * 4..];
        let key = &b[j * 64..j * 64 + row[0] as usize];
        let value = &b[j * 64 + 32..j * 64 + 32 + row[1] as usize];
        line = line.bytes(key).bytes(value).file(FileId::new(queue(row[2]), row[3]));
    }
    vec![head.0, Line::of("entries").entries(&list).0, line.0]
}

fn queue(n: u64) -> LogQueue {
    if n == 0 {
        LogQueue::Append
    } else {
        LogQueue::Rewrite
    }
}

fn entry(row: &[u64]) -> EntryIndex {
    let id = FileId::new(queue(row[1]), row[2]);
    EntryIndex {
        index: row[0],
        entries: Some(FileBlockHandle { id, offset: row[3], len: row[4] as usize }),
        compression_type: if row[5] == 0 { CompressionType::None } else { CompressionType::Lz4 },
        entry_offset: row[6] as u32,
        entry_len: row[7] as u32,
    }
}

/// The item of a stored row, which is a row of a lent batch.
fn item(row: &[u64], entries: &[u64], bytes: &[u8]) -> LogItem {
    let part = |at: u64, n: u64| bytes[at as usize..(at + n) as usize].to_vec();
    let content = match row[1] {
        0 => {
            let list = (row[2]..row[2] + row[3]).map(|i| entry(&entries[i as usize * 8..]));
            LogItemContent::EntryIndexes(EntryIndexes(list.collect()))
        }
        1 => LogItemContent::Command(Command::Clean),
        2 => LogItemContent::Command(Command::Compact { index: row[2] }),
        3 => LogItemContent::Kv(KeyValue {
            op_type: OpType::Put,
            key: part(row[2], row[3]),
            value: if row[4] == 0 { None } else { Some(part(row[5], row[6])) },
            file_id: if row[7] > 1 { None } else { Some(FileId::new(queue(row[7]), row[8])) },
        }),
        _ => LogItemContent::Kv(KeyValue::new(OpType::Del, part(row[2], row[3]), None)),
    };
    LogItem { raft_group_id: row[0], content }
}

/// The room of waiting parts: two counts, 16 cells, 128 tags, 128 rows of items, 256 rows of entries. A cell has the number of its
/// parts, the group, and tag, status, start and end of the newest part and of the older one.
fn waiting(ws: &[u64], vs: &[u8], out: &mut Vec<String>) {
    let (tags, rows, entries) = (2 + CELLS * 10, 2 + CELLS * 18, 2 + CELLS * 90);
    let items: Vec<(u64, LogItem)> = (0..ws[0] as usize)
        .map(|j| (ws[tags + j], item(&ws[rows + j * 9..], &ws[entries..], vs)))
        .collect();
    let mut cells: Vec<&[u64]> = (0..CELLS).map(|k| &ws[2 + k * 10..12 + k * 10]).collect();
    cells.retain(|c| c[0] > 0);
    cells.sort_by_key(|c| c[1]);
    for cell in cells {
        if cell[0] > 1 {
            part(cell[1], &cell[6..10], &items, out);
        }
        part(cell[1], &cell[2..6], &items, out);
    }
}

fn part(group: u64, head: &[u64], items: &[(u64, LogItem)], out: &mut Vec<String>) {
    let own = || items.iter().filter(|(tag, _)| *tag == head[0]).map(|(_, item)| item);
    let tombstones = || own().filter(|i| is_tombstone(i));
    let line = Line::of("waiting").number(group).number(head[1]).number(head[2]).number(head[3]);
    out.push(line.number(own().count() as u64).number(tombstones().count() as u64).0);
    out.extend(own().map(|i| Line::of("item").item(i).0));
    out.extend(tombstones().map(|i| Line::of("item_tombstone").item(i).0));
}

fn is_tombstone(item: &LogItem) -> bool {
    match &item.content {
        LogItemContent::EntryIndexes(_) => false,
        LogItemContent::Command(_) => true,
        LogItemContent::Kv(kv) => kv.op_type == OpType::Del,
    }
}

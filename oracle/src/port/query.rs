//! Queries of a group, asked of the port.

use crate::text::{Line, Read, Tokens};
use galdnyrr::{Area, Columns, Compression, Entry, Pairs, Queue, Records, Refusal};
use raft_engine::env::{CompressionType, EntryIndex, FileBlockHandle, FileId, LogQueue};

/// Room for all that a group holds.
const ALL_ENTRIES: usize = 64;
const ALL_KEYS: usize = 16;

pub struct Asked {
    /// None: the library has no such call.
    pub line: Option<Line>,
    /// Whether a lent list has something else than the answer, or anything after a refusal.
    pub spilt: bool,
}

/// Answers a query, with lent lists that have room for all, or for so many rows.
pub fn ask(area: &Area, group: u64, word: &str, t: &mut Tokens, room: Option<usize>) -> Read<Asked> {
    let mut spilt = false;
    let line = match word {
        "get" => {
            let key = t.bytes()?;
            let mut out = vec![0; room.unwrap_or(32)];
            let got = area.get(group, &key, &mut out).map(|v| v.map(<[u8]>::to_vec));
            let len = got.as_ref().map_or(0, |v| v.as_ref().map_or(0, Vec::len));
            spilt = out[len..].iter().any(|b| *b != 0);
            answered(got, |v| Line::default().maybe_bytes(v.as_deref()))
        }
        "get_entry" => {
            let index = t.number()?;
            answered(area.get_entry(group, index), |e| match e {
                Some(e) => Line::default().entry(&entry(e)),
                None => Line::of("-"),
            })
        }
        "scan" => {
            let (start, end) = (t.maybe_bytes()?, t.maybe_bytes()?);
            let backwards = t.number()? != 0;
            let most = t.number()? as usize;
            let mut list = Pairs::with_room(room.unwrap_or(ALL_KEYS));
            let r = area.scan(group, start.as_deref(), end.as_deref(), backwards, most, &mut list);
            spilt = pairs_spilt(&list);
            answered(r, |()| pairs(&list))
        }
        "fetch_kvs_before" => {
            let gate = t.number()?;
            let mut list = Pairs::with_room(room.unwrap_or(ALL_KEYS));
            let r = area.fetch_kvs_before(group, gate, &mut list);
            spilt = pairs_spilt(&list);
            answered(r, |()| pairs(&list))
        }
        "fetch_rewritten_kvs" => {
            let mut list = Pairs::with_room(room.unwrap_or(ALL_KEYS));
            let r = area.fetch_rewritten_kvs(group, &mut list);
            spilt = pairs_spilt(&list);
            answered(r, |()| pairs(&list))
        }
        "fetch_entries_to" => {
            let (begin, end, size) = (t.number()?, t.number()?, t.maybe_number()?);
            let mut list = Records::with_room(room.unwrap_or(ALL_ENTRIES));
            let r = area.fetch_entries_to(group, begin, end, size, &mut list);
            let mut columns = Columns::with_room(list.room());
            let s = area.fetch_columns_to(group, begin, end, size, &mut columns);
            spilt = records_spilt(&list) || !agree(&list, &r, &columns, &s);
            answered(r, |()| records(&list))
        }
        "fetch_entry_indexes_before" => {
            let gate = t.number()?;
            let mut list = Records::with_room(room.unwrap_or(ALL_ENTRIES));
            let r = area.fetch_entry_indexes_before(group, gate, &mut list);
            let mut columns = Columns::with_room(list.room());
            let s = area.fetch_columns_before(group, gate, &mut columns);
            spilt = records_spilt(&list) || !agree(&list, &r, &columns, &s);
            answered(r, |()| records(&list))
        }
        "fetch_rewritten_entry_indexes" => {
            let mut list = Records::with_room(room.unwrap_or(ALL_ENTRIES));
            let r = area.fetch_rewritten_entry_indexes(group, &mut list);
            let mut columns = Columns::with_room(list.room());
            let s = area.fetch_rewritten_columns(group, &mut columns);
            spilt = records_spilt(&list) || !agree(&list, &r, &columns, &s);
            answered(r, |()| records(&list))
        }
        "min_file_seq" => {
            let queue = queue(t.queue()?);
            answered(area.min_file_seq(group, queue), |n| Line::default().maybe_number(n))
        }
        "has_at_least_some_entries_before" => {
            let gate = t.file()?;
            let count = t.number()? as usize;
            let has = area.has_at_least_some_entries_before(group, gate.seq, count);
            answered(has, |b| Line::default().number(b as u64))
        }
        "first_index" => answered(area.first_index(group), |n| Line::default().maybe_number(n)),
        "last_index" => answered(area.last_index(group), |n| Line::default().maybe_number(n)),
        "rewrite_count" => answered(area.rewrite_count(group), |n| Line::default().number(n)),
        "count" => answered(count(area, group), |n| {
            n.iter().fold(Line::default(), |l, n| l.number(*n))
        }),
        w => return Err(format!("unknown call {}", w)),
    };
    t.end()?;
    Ok(Asked { line: Some(line), spilt })
}

fn answered<T>(r: Result<T, Refusal>, line: impl FnOnce(T) -> Line) -> Line {
    match r {
        Ok(answer) => line(answer),
        Err(r) => Line::of("refused").number(r.number()),
    }
}

/// Append entries, Rewrite entries, Append keys, Rewrite keys.
fn count(area: &Area, group: u64) -> Result<[u64; 4], Refusal> {
    let (entries, rewritten) = (area.entry_count(group)?, area.rewrite_count(group)?);
    let keys = area.key_count(group)?;
    let mut list = Pairs::with_room(ALL_KEYS);
    area.fetch_rewritten_kvs(group, &mut list)?;
    let rewritten_keys = list.len() as u64;
    Ok([entries - rewritten, rewritten, keys - rewritten_keys, rewritten_keys])
}

pub fn queue(q: LogQueue) -> Queue {
    match q {
        LogQueue::Append => Queue::Append,
        LogQueue::Rewrite => Queue::Rewrite,
    }
}

fn entry(e: Entry) -> EntryIndex {
    let queue = match e.file.queue {
        Queue::Append => LogQueue::Append,
        Queue::Rewrite => LogQueue::Rewrite,
    };
    let id = FileId::new(queue, e.file.seq);
    EntryIndex {
        index: e.index,
        entries: Some(FileBlockHandle { id, offset: e.block_offset, len: e.block_len as usize }),
        compression_type: match e.compression {
            Compression::None => CompressionType::None,
            Compression::Lz4 => CompressionType::Lz4,
        },
        entry_offset: e.offset,
        entry_len: e.len,
    }
}

fn records(list: &Records) -> Line {
    let list: Vec<EntryIndex> = list.iter().map(entry).collect();
    Line::default().entries(&list)
}

fn pairs(list: &Pairs) -> Line {
    let list: Vec<_> = list.iter().map(|(k, v)| (k.to_vec(), v.to_vec())).collect();
    Line::default().pairs(&list)
}

/// The lists are lent filled with zeros: behind the answer they must be zeros still.
fn records_spilt(list: &Records) -> bool {
    list.rows()[list.len()..].iter().any(|row| row.iter().any(|n| *n != 0))
}

/// Whether the fetch into eight slices gave what the fetch into rows did, to the last number that was lent.
fn agree(
    list: &Records,
    r: &Result<(), Refusal>,
    columns: &Columns,
    s: &Result<(), Refusal>,
) -> bool {
    let same = |(i, row): (usize, &[u64; 8])| (0..8).all(|j| row[j] == columns.columns()[j][i]);
    r == s && list.len() == columns.len() && list.rows().iter().enumerate().all(same)
}

fn pairs_spilt(list: &Pairs) -> bool {
    let (lens, bytes) = list.rows();
    lens[list.len() * 2..].iter().any(|n| *n != 0) || bytes[list.len() * 64..].iter().any(|b| *b != 0)
}

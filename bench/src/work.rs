//! What is measured: lists of Append batches, and queries.

/// The groups of all work.
pub const GROUPS: u64 = 8;

/// How many queries are one piece of work.
pub const ASKED: u32 = 256;

/// An item of a batch.
#[derive(Clone)]
pub enum Item {
    /// Entries from an index on: how many, and their file.
    Entries(u64, u64, u64, u64),
    Put(u64, Vec<u8>, Vec<u8>, u64),
    Del(u64, Vec<u8>),
    Compact(u64, u64),
}

pub type Batch = Vec<Item>;

/// Batches in order.
#[derive(Clone, Default)]
pub struct Work {
    pub batches: Vec<Batch>,
}

#[derive(Clone, Copy)]
pub enum Query {
    FirstIndex,
    LastIndex,
    GetEntry,
    SomeBefore,
    /// Of one of so many keys.
    Get(u64),
    /// Into parallel slices; the Rust has a list of records alone.
    Fetch(u64),
    /// The same into a list of records.
    FetchRecords(u64),
    Scan,
    MinFileSeq,
}

/// A key of 16 bytes, of which the last four tell keys apart.
pub fn key(n: u64) -> Vec<u8> {
    format!("region-state{:04}", n).into_bytes()
}

fn value(n: u64) -> Vec<u8> {
    format!("value-of-{:07}", n).into_bytes()
}

fn over_groups(n: u64, batch: impl Fn(u64, u64) -> Batch) -> Work {
    let batches = (0..n).flat_map(|i| (0..GROUPS).map(move |g| (i, g + 1)));
    Work { batches: batches.map(|(i, g)| batch(i, g)).collect() }
}

/// Eight groups with 32 entries each.
fn entries_32() -> Work {
    over_groups(1, |_, g| vec![Item::Entries(g, 1, 32, 1)])
}

/// Eight groups with so many keys each.
fn keys(count: u64) -> Work {
    over_groups(count, |i, g| vec![Item::Put(g, key(i), value(i), 1)])
}

/// Eight groups with 32 entries and so many keys each.
pub fn filled(count: u64) -> Work {
    let mut out = entries_32();
    out.batches.extend(keys(count).batches);
    out
}

/// Each with what was replayed before it.
pub fn replays() -> Vec<(&'static str, Work, Work)> {
    let none = Work::default;
    vec![
        ("replay of 1 entry", none(), over_groups(60, |i, g| vec![Item::Entries(g, i + 1, 1, 1)])),
        (
            "replay of 32 entries",
            none(),
            over_groups(4, |i, g| vec![Item::Entries(g, if i == 0 { 1 } else { 33 }, 32, 1)]),
        ),
        (
            "replay of 1 entry and 1 key",
            none(),
            over_groups(60, |i, g| {
                vec![Item::Entries(g, i + 1, 1, 1), Item::Put(g, key(i % 16), value(i), 1)]
            }),
        ),
        (
            "replay of 32 items over 8 groups",
            none(),
            Work {
                batches: (0..15)
                    .map(|i| {
                        (0..32)
                            .map(|j| Item::Entries(j % 8 + 1, i * 4 + j / 8 + 1, 1, 1))
                            .collect()
                    })
                    .collect(),
            },
        ),
        ("Put of a key that is absent, up to 16", none(), keys(16)),
        (
            "Compact of 4 of 32 entries",
            entries_32(),
            over_groups(7, |i, g| vec![Item::Compact(g, i * 4 + 5)]),
        ),
    ]
}

/// The same of groups that have 1, 8 and 16 keys.
pub fn key_replays() -> Vec<(&'static str, Work, Work)> {
    let put = |count| over_groups(16, move |i, g| vec![Item::Put(g, key(i % count), value(i), 1)]);
    let del = |count| over_groups(count, |i, g| vec![Item::Del(g, key(2 * i))]);
    vec![
        ("Put of the only key", keys(1), put(1)),
        ("Put of one of 8 keys", keys(8), put(8)),
        ("Put of one of 16 keys", keys(16), put(16)),
        ("Del of the only key", keys(1), del(1)),
        ("Del of one of 8 keys", keys(8), del(4)),
        ("Del of one of 16 keys", keys(16), del(8)),
    ]
}

/// Live work on the index: batches of the Append queue, or gated rewrites of entries. A check is what an append of the port does before
/// it is refused: the batch goes below the first entry. The Rust has no checks, and panics there, so its side appends.
#[derive(Clone, Copy)]
pub enum Live {
    Append,
    Check,
    Rewrite,
}

/// Each with what was replayed before the join.
pub fn live() -> Vec<(&'static str, Work, Work, Live)> {
    let one = || over_groups(30, |i, g| vec![Item::Entries(g, i + 33, 1, 2)]);
    let many = || over_groups(4, |_, g| vec![Item::Entries(g, 33, 32, 2)]);
    vec![
        ("live append of 1 entry", entries_32(), one(), Live::Append),
        ("live append of 32 entries", entries_32(), many(), Live::Append),
        ("check of 1 entry, beside an append", entries_32(), one(), Live::Check),
        ("check of 32 entries, beside an append", entries_32(), many(), Live::Check),
        (
            "gated rewrite of 1 entry",
            entries_32(),
            over_groups(32, |i, g| vec![Item::Entries(g, i + 1, 1, 1)]),
            Live::Rewrite,
        ),
        (
            "gated rewrite of 32 entries",
            entries_32(),
            over_groups(1, |_, g| vec![Item::Entries(g, 1, 32, 1)]),
            Live::Rewrite,
        ),
    ]
}

/// Two runs of eight groups with 32 entries each, the second behind the first.
pub fn two_runs() -> (Work, Work) {
    (entries_32(), over_groups(1, |_, g| vec![Item::Entries(g, 33, 32, 2)]))
}

/// 10,000 batches of one entry over eight groups, which go over 64 indexes again and again.
pub fn recovery() -> Work {
    over_groups(1250, |i, g| vec![Item::Entries(g, i % 64 + 1, 1, i / 100 + 1)])
}

pub fn queries() -> Vec<(&'static str, Query)> {
    vec![
        ("first_index", Query::FirstIndex),
        ("last_index", Query::LastIndex),
        ("get_entry", Query::GetEntry),
        ("has_at_least_some_entries_before", Query::SomeBefore),
        ("fetch of 1 entry, parallel slices", Query::Fetch(1)),
        ("fetch of 32 entries, parallel slices", Query::Fetch(32)),
        ("fetch of 1 entry, list of records", Query::FetchRecords(1)),
        ("fetch of 32 entries, list of records", Query::FetchRecords(32)),
        ("min_file_seq, 32 entries and 16 keys", Query::MinFileSeq),
    ]
}

/// Queries of groups that have 1, 8 and 16 keys, with that number.
pub fn key_queries() -> Vec<(&'static str, u64, Query)> {
    vec![
        ("get of the only key", 1, Query::Get(1)),
        ("get of one of 8 keys", 8, Query::Get(8)),
        ("get of one of 16 keys", 16, Query::Get(16)),
        ("scan of 1 key", 1, Query::Scan),
        ("scan of 8 keys", 8, Query::Scan),
        ("scan of 16 keys", 16, Query::Scan),
    ]
}

//! A child of memtable.rs: makes, copies and reads tables, contexts and the
//! index, fields that are private included. It decides nothing: every change
//! is a call of the Rust.

use super::*;
use std::sync::atomic::Ordering;

pub type Table = MemTable<VacantAllocator>;
pub type Context = MemTableRecoverContext<VacantAllocator>;
pub type Tables = MemTableAccessor<VacantAllocator>;

/// What the join leaves: the tables and the counters that can be read.
pub struct Index {
    pub memtables: Tables,
    stats: Arc<GlobalStats>,
}

/// A waiting part.
pub struct Part {
    pub status: u8,
    pub start: u64,
    pub end: u64,
    pub items: Vec<LogItem>,
    pub tombstones: Vec<LogItem>,
}

/// A table's fields.
pub struct View {
    pub group: u64,
    pub rewrite_count: usize,
    pub span: Option<(u64, u64)>,
    pub entries: Vec<EntryIndex>,
    pub keys: Vec<(Vec<u8>, Vec<u8>, FileId)>,
}

/// Copies of counters. Tables that share counters share the copy too.
#[derive(Default)]
struct Copies(Vec<(*const GlobalStats, Arc<GlobalStats>)>);

impl Copies {
    fn of(&mut self, stats: &Arc<GlobalStats>) -> Arc<GlobalStats> {
        let at = Arc::as_ptr(stats);
        if let Some((_, copy)) = self.0.iter().find(|(p, _)| *p == at) {
            return copy.clone();
        }
        let copy = Arc::new(copy_stats(stats));
        self.0.push((at, copy.clone()));
        copy
    }
}

fn copy_stats(s: &GlobalStats) -> GlobalStats {
    let out = GlobalStats::default();
    let pairs = [
        (&s.live_append_entries, &out.live_append_entries),
        (&s.rewrite_entries, &out.rewrite_entries),
        (&s.deleted_rewrite_entries, &out.deleted_rewrite_entries),
    ];
    for (from, to) in pairs {
        to.store(from.load(Ordering::Relaxed), Ordering::Relaxed);
    }
    out
}

fn copy_table_with(t: &Table, copies: &mut Copies) -> Table {
    MemTable {
        region_id: t.region_id,
        entry_indexes: t.entry_indexes.clone(),
        first_index: t.first_index,
        rewrite_count: t.rewrite_count,
        kvs: t.kvs.clone(),
        atomic_group: t.atomic_group,
        global_stats: copies.of(&t.global_stats),
        _phantom: PhantomData,
    }
}

fn copy_tables(a: &Tables, copies: &mut Copies) -> Tables {
    let out = MemTableAccessor::new(copies.of(&a.global_stats));
    for slot in &a.slots {
        for t in slot.read().values() {
            let copy = copy_table_with(&t.read(), copies);
            out.insert(copy.region_id, Arc::new(RwLock::new(copy)));
        }
    }
    *out.removed_memtables.lock() = a.removed_memtables.lock().clone();
    out
}

fn copy_part(p: &PendingAtomicGroup) -> PendingAtomicGroup {
    PendingAtomicGroup {
        status: p.status,
        items: p.items.clone(),
        tombstone_items: p.tombstone_items.clone(),
        start: p.start,
        end: p.end,
    }
}

pub fn new_table(group: u64) -> Table {
    MemTable::new(group, Arc::new(GlobalStats::default()))
}

pub fn copy_table(t: &Table) -> Table {
    copy_table_with(t, &mut Copies::default())
}

pub fn table_live(t: &Table, queue: LogQueue) -> usize {
    t.global_stats.live_entries(queue)
}

pub fn view(t: &Table) -> View {
    let mut entries = Vec::new();
    for (i, e) in t.entry_indexes.iter().enumerate() {
        entries.push(EntryIndex::from_thin(t.first_index + i as u64, *e));
    }
    View {
        group: t.region_id,
        rewrite_count: t.rewrite_count,
        span: t.atomic_group,
        entries,
        keys: t.kvs.iter().map(|(k, (v, f))| (k.clone(), v.clone(), *f)).collect(),
    }
}

pub fn new_context() -> Context {
    MemTableRecoverContext::new()
}

pub fn copy_context(c: &Context) -> Context {
    let mut copies = Copies::default();
    let mut waiting = HashMap::new();
    for (id, parts) in c.pending_atomic_groups.iter() {
        waiting.insert(*id, parts.iter().map(copy_part).collect());
    }
    MemTableRecoverContext {
        stats: copies.of(&c.stats),
        tombstone_items: c.tombstone_items.clone(),
        memtables: copy_tables(&c.memtables, &mut copies),
        pending_atomic_groups: waiting,
    }
}

pub fn copy_index(i: &Index) -> Index {
    let mut copies = Copies::default();
    Index {
        stats: copies.of(&i.stats),
        memtables: copy_tables(&i.memtables, &mut copies),
    }
}

pub fn replay(c: &mut Context, items: Vec<LogItem>, file: FileId) {
    c.replay(crate::log_batch::probe::batch_of(items), file).unwrap();
}

/// Merges a newer context, which goes, into an older one.
pub fn merge(c: &mut Context, newer: Context, queue: LogQueue) {
    c.merge(newer, queue).unwrap();
}

pub fn join(rewrite: Context, append: Context) -> Index {
    rewrite.merge_append_context(append);
    let (memtables, stats) = rewrite.finish();
    Index { memtables, stats }
}

pub fn context_tables(c: &Context) -> &Tables {
    &c.memtables
}

pub fn context_live(c: &Context, queue: LogQueue) -> usize {
    c.stats.live_entries(queue)
}

pub fn index_live(i: &Index, queue: LogQueue) -> usize {
    i.stats.live_entries(queue)
}

pub fn tombstones(c: &Context) -> &[LogItem] {
    &c.tombstone_items
}

fn part(p: &PendingAtomicGroup) -> Part {
    Part {
        status: p.status as u8,
        start: p.start,
        end: p.end,
        items: p.items.clone(),
        tombstones: p.tombstone_items.clone(),
    }
}

/// Waiting parts by group number, ascending; a group's parts in order.
pub fn waiting(c: &Context) -> Vec<(u64, Vec<Part>)> {
    let mut out = Vec::new();
    for (id, parts) in c.pending_atomic_groups.iter() {
        out.push((*id, parts.iter().map(part).collect()));
    }
    out.sort_by_key(|(id, _)| *id);
    out
}

pub fn cleaned(a: &Tables) -> Vec<u64> {
    a.removed_memtables.lock().iter().copied().collect()
}

/// Takes the newest waiting part of a group away.
pub fn pop_waiting(c: &mut Context, group: u64) -> Option<Part> {
    let parts = c.pending_atomic_groups.get_mut(&group)?;
    let p = parts.pop()?;
    if parts.is_empty() {
        c.pending_atomic_groups.remove(&group);
    }
    Some(part(&p))
}

/// The slot of a group number.
pub fn slot(group: u64) -> usize {
    Tables::slot_index(group)
}

/// Group numbers, ascending.
pub fn groups(a: &Tables) -> Vec<u64> {
    let mut out = a.fold(Vec::new(), |mut v, t| {
        v.push(t.region_id());
        v
    });
    out.sort_unstable();
    out
}

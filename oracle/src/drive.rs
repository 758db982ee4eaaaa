//! Runs a script on the Rust, line by line, and gives the answers.

use crate::law::{self, Call};
use crate::panics::{self, catch, Panic};
use crate::text::{Line, Read, Tokens};
use raft_engine::env::probe::{self, Context, Index, Table, Tables, View};
use raft_engine::env::{batch, hash_u64, Error, FileId, LogItem, LogQueue};
use std::collections::BTreeMap;

type Answer = Vec<String>;

enum Object {
    Context(Context, LogQueue),
    Index(Index),
}

impl Object {
    fn copy(&self) -> Object {
        match self {
            Object::Context(c, q) => Object::Context(probe::copy_context(c), *q),
            Object::Index(i) => Object::Index(probe::copy_index(i)),
        }
    }

    fn tables(&self) -> &Tables {
        match self {
            Object::Context(c, _) => probe::context_tables(c),
            Object::Index(i) => &i.memtables,
        }
    }

    fn live(&self, queue: LogQueue) -> u64 {
        match self {
            Object::Context(c, _) => probe::context_live(c, queue) as u64,
            Object::Index(i) => probe::index_live(i, queue) as u64,
        }
    }

    fn over(&self) -> bool {
        match self {
            Object::Context(c, _) => law::context_over(c),
            Object::Index(i) => law::index_over(i),
        }
    }
}

/// A batch with what the call gives beside it.
struct Batch {
    call: Call,
    file: FileId,
    gate: Option<u64>,
    items: Vec<LogItem>,
}

impl Batch {
    fn run(&self, object: &mut Object, items: Vec<LogItem>) {
        match object {
            Object::Context(c, _) => probe::replay(c, items, self.file),
            Object::Index(i) if self.call == Call::LiveAppend => {
                i.memtables.apply_append_writes(items.into_iter())
            }
            Object::Index(i) => {
                i.memtables.apply_rewrite_writes(items.into_iter(), self.gate, self.file.seq)
            }
        }
    }
}

/// Why a call leaves everything as it was.
struct Refusal {
    /// None: 01 refuses what the Rust takes.
    panic: Option<Panic>,
    number: Option<u8>,
    position: Option<usize>,
}

impl Refusal {
    fn law(number: u8, position: Option<usize>) -> Refusal {
        Refusal { panic: None, number: Some(number), position }
    }

    fn panic(panic: Panic, position: Option<usize>) -> Refusal {
        Refusal { number: panics::kind(&panic).0, panic: Some(panic), position }
    }
}

#[derive(Default)]
pub struct Driver {
    tables: BTreeMap<u64, Table>,
    objects: BTreeMap<u64, Object>,
    /// Whether 01's refusals are given where the Rust returns.
    pub law: bool,
    /// Whether a batch that panics leaves its state.
    keep: bool,
    /// Whether the last line ended in a panic, and of which kind.
    pub panicked: Option<String>,
}

impl Driver {
    pub fn new(law: bool) -> Driver {
        Driver { law, ..Driver::default() }
    }

    /// The answer lines to one line of a script; none for a comment.
    pub fn line(&mut self, line: &str) -> Read<Answer> {
        self.panicked = None;
        if line.is_empty() || line.starts_with('#') {
            return Ok(Vec::new());
        }
        let mut t = Tokens::new(line);
        let answer = match t.word()? {
            "script" => self.script(&mut t),
            "mix" => mix(&mut t),
            "try" => self.attempt(&line[4..]),
            "left" => self.left(&line[5..]),
            "t" => self.table_line(&mut t),
            "q" => self.query_line(&mut t),
            "c" => self.object_line(&mut t),
            w => Err(format!("unknown word {}", w)),
        }?;
        Ok(answer)
    }

    fn script(&mut self, t: &mut Tokens) -> Read<Answer> {
        t.number()?;
        t.end()?;
        self.tables.clear();
        self.objects.clear();
        ok()
    }

    /// Answers a call and leaves everything as it was.
    fn attempt(&mut self, line: &str) -> Read<Answer> {
        let tables = self.tables.iter().map(|(n, t)| (*n, probe::copy_table(t))).collect();
        let objects = self.objects.iter().map(|(n, o)| (*n, o.copy())).collect();
        let answer = self.line(line);
        self.tables = tables;
        self.objects = objects;
        answer
    }

    /// Answers a call; where the Rust stops, keeps what it leaves.
    fn left(&mut self, line: &str) -> Read<Answer> {
        self.keep = true;
        let answer = self.line(line);
        self.keep = false;
        answer
    }

    fn table(&self, n: u64) -> Read<&Table> {
        self.tables.get(&n).ok_or_else(|| format!("no table {}", n))
    }

    fn object(&self, n: u64) -> Read<&Object> {
        self.objects.get(&n).ok_or_else(|| format!("no context {}", n))
    }

    fn table_line(&mut self, t: &mut Tokens) -> Read<Answer> {
        let n = t.number()?;
        let word = t.word()?;
        if word == "new" {
            let group = t.number()?;
            t.end()?;
            self.tables.insert(n, probe::new_table(group));
            return ok();
        }
        if let Some(change) = self.table_change(word, t)? {
            t.end()?;
            return self.change_table(n, change);
        }
        match word {
            "dump" => {
                t.end()?;
                Ok(dump_view("table", &probe::view(self.table(n)?)))
            }
            "live" => {
                t.end()?;
                let table = self.table(n)?;
                let run = catch(|| live(|q| probe::table_live(table, q) as u64));
                self.answered(run)
            }
            _ => {
                let query = read_query(word, t)?;
                t.end()?;
                let run = catch(|| query(self.table(n)?));
                self.answered(run.and_then_read()?)
            }
        }
    }

    /// A call that changes a table.
    fn table_change(&self, word: &str, t: &mut Tokens) -> Read<Option<TableChange>> {
        Ok(Some(match word {
            "append" => {
                let list = t.entries()?;
                Box::new(move |x| done(x.append(list)))
            }
            "replay_append" => {
                let list = t.entries()?;
                Box::new(move |x| done(x.replay_append(list)))
            }
            "replay_rewrite" => {
                let list = t.entries()?;
                Box::new(move |x| done(x.replay_rewrite(list)))
            }
            "rewrite" => {
                let gate = t.maybe_number()?;
                let list = t.entries()?;
                Box::new(move |x| done(x.rewrite(list, gate)))
            }
            "compact_to" => {
                let index = t.number()?;
                Box::new(move |x| Line::default().number(x.compact_to(index)))
            }
            "put" => {
                let (key, value, file) = (t.bytes()?, t.bytes()?, t.file()?);
                Box::new(move |x| done(x.put(key, value, file)))
            }
            "delete" => {
                let key = t.bytes()?;
                Box::new(move |x| done(x.delete(&key)))
            }
            "rewrite_key" => {
                let (key, gate, seq) = (t.bytes()?, t.maybe_number()?, t.number()?);
                Box::new(move |x| done(x.rewrite_key(key, gate, seq)))
            }
            "apply_rewrite_atomic_group" => {
                let (start, end) = (t.number()?, t.number()?);
                Box::new(move |x| done(x.apply_rewrite_atomic_group(start, end)))
            }
            "merge_newer_neighbor" => {
                let mut newer = probe::copy_table(self.table(t.number()?)?);
                Box::new(move |x| done(x.merge_newer_neighbor(&mut newer)))
            }
            "merge_append_table" => {
                let mut newer = probe::copy_table(self.table(t.number()?)?);
                Box::new(move |x| done(x.merge_append_table(&mut newer)))
            }
            _ => return Ok(None),
        }))
    }

    fn change_table(&mut self, n: u64, change: TableChange) -> Read<Answer> {
        let mut copy = probe::copy_table(self.table(n)?);
        let run = catch(|| change(&mut copy));
        if self.law && run.is_ok() && law::table_over(&probe::view(&copy)) {
            return one(Line::of("law").number(18));
        }
        if run.is_ok() {
            self.tables.insert(n, copy);
        }
        self.answered(run)
    }

    /// The answer of a table's call or of a query; a panic with its number.
    fn answered(&mut self, run: Result<Line, Panic>) -> Read<Answer> {
        match run {
            Ok(line) => one(line),
            Err(p) => {
                let (number, name) = panics::kind(&p);
                self.panicked = Some(name);
                one(Line::of("panic").maybe_number(number.map(u64::from)))
            }
        }
    }

    fn query_line(&mut self, t: &mut Tokens) -> Read<Answer> {
        let n = t.number()?;
        let group = t.number()?;
        let word = t.word()?;
        let query = read_query(word, t)?;
        t.end()?;
        let table = match self.object(n)?.tables().get(group) {
            Some(table) => table,
            None => return one(Line::of("no").number(9)),
        };
        let run = catch(|| query(&table.read()));
        self.answered(run.and_then_read()?)
    }

    fn object_line(&mut self, t: &mut Tokens) -> Read<Answer> {
        let n = t.number()?;
        let word = t.word()?;
        match word {
            "new" => {
                let queue = t.queue()?;
                t.end()?;
                self.objects.insert(n, Object::Context(probe::new_context(), queue));
                ok()
            }
            "replay" | "live_append" | "live_rewrite" => {
                let file = t.file()?;
                let gate = if word == "live_rewrite" { t.maybe_number()? } else { None };
                let items = t.items()?;
                t.end()?;
                self.batch_line(n, word, file, gate, items)
            }
            "merge" => {
                let newer = t.number()?;
                t.end()?;
                self.merge(n, newer)
            }
            "join" => {
                let append = t.number()?;
                t.end()?;
                self.join(n, append)
            }
            _ => {
                t.end()?;
                self.object_query(n, word)
            }
        }
    }

    fn batch_line(
        &mut self,
        n: u64,
        word: &str,
        file: FileId,
        gate: Option<u64>,
        items: Vec<LogItem>,
    ) -> Read<Answer> {
        let call = match (self.object(n)?, word) {
            (Object::Context(_, LogQueue::Append), "replay") => Call::ReplayAppend,
            (Object::Context(_, LogQueue::Rewrite), "replay") => Call::ReplayRewrite,
            (Object::Index(_), "live_append") => Call::LiveAppend,
            (Object::Index(_), "live_rewrite") => Call::LiveRewrite,
            _ => return self.refused(Refusal::law(1, None)),
        };
        if file.queue != call.queue() {
            return self.refused(Refusal::law(1, None));
        }
        let b = Batch { call, file, gate, items };
        if self.law {
            if let Some(r) = self.law_refuses(n, &b)? {
                return self.refused(r);
            }
        }
        let mut copy = self.object(n)?.copy();
        match catch(|| b.run(&mut copy, b.items.clone())) {
            Ok(()) => {
                self.objects.insert(n, copy);
                ok()
            }
            Err(p) => {
                if self.keep {
                    self.objects.insert(n, copy);
                } else {
                    std::mem::forget(copy);
                }
                self.refused(Refusal::panic(p, None))
            }
        }
    }

    /// The refusal of a batch by 01, with its position.
    fn law_refuses(&self, n: u64, b: &Batch) -> Read<Option<Refusal>> {
        if let Some((number, at)) = law::judge(b.call, &b.items) {
            return Ok(Some(Refusal::law(number, Some(at))));
        }
        let object = self.object(n)?;
        if b.call == Call::ReplayRewrite {
            if let (Object::Context(c, _), Some(at)) = (object, law::mark_at(&b.items)) {
                return Ok(marked_refusal(c, b, at));
            }
        }
        let mut copy = object.copy();
        let places: Vec<usize> = (0..b.items.len()).collect();
        Ok(by_item(&mut copy, b, &b.items, &places))
    }

    fn refused(&mut self, r: Refusal) -> Read<Answer> {
        let word = if r.panic.is_some() { "panic" } else { "law" };
        self.panicked = r.panic.map(|p| panics::kind(&p).1);
        one(Line::of(word)
            .maybe_number(r.number.map(u64::from))
            .maybe_number(r.position.map(|p| p as u64)))
    }

    fn merge(&mut self, n: u64, newer: u64) -> Read<Answer> {
        let (mut older, newer, queue) = match (self.object(n)?, self.object(newer)?) {
            (Object::Context(a, q), Object::Context(b, r)) if q == r => {
                (probe::copy_context(a), probe::copy_context(b), *q)
            }
            _ => return self.refused(Refusal::law(1, None)),
        };
        let run = catch(|| {
            probe::merge(&mut older, newer, queue);
            Object::Context(older, queue)
        });
        self.combined(n, run)
    }

    fn join(&mut self, n: u64, append: u64) -> Read<Answer> {
        let (rewrite, append) = match (self.object(n)?, self.object(append)?) {
            (Object::Context(a, LogQueue::Rewrite), Object::Context(b, LogQueue::Append)) => {
                (probe::copy_context(a), probe::copy_context(b))
            }
            _ => return self.refused(Refusal::law(1, None)),
        };
        let run = catch(|| Object::Index(probe::join(rewrite, append)));
        self.combined(n, run)
    }

    fn combined(&mut self, n: u64, run: Result<Object, Panic>) -> Read<Answer> {
        match run {
            Ok(object) if self.law && object.over() => self.refused(Refusal::law(18, None)),
            Ok(object) => {
                self.objects.insert(n, object);
                ok()
            }
            Err(p) => self.refused(Refusal::panic(p, None)),
        }
    }

    fn object_query(&mut self, n: u64, word: &str) -> Read<Answer> {
        let object = self.object(n)?;
        match word {
            "live" => {
                let run = catch(|| live(|q| object.live(q)));
                self.answered(run)
            }
            "groups" => one(Line::default().numbers(&probe::groups(object.tables()))),
            "is_empty" => one(Line::default().number(object.tables().is_empty() as u64)),
            "cleaned" => match object {
                Object::Context(..) => self.refused(Refusal::law(1, None)),
                Object::Index(i) => {
                    let taken = batch::cleans(i.memtables.take_cleaned_region_logs());
                    one(Line::default().numbers(&taken))
                }
            },
            "dump" => Ok(dump_object(object)),
            w => Err(format!("unknown call {}", w)),
        }
    }
}

/// Runs items one at a time, until one is refused.
fn by_item(o: &mut Object, b: &Batch, items: &[LogItem], places: &[usize]) -> Option<Refusal> {
    for (item, at) in items.iter().zip(places) {
        if let Err(p) = catch(|| b.run(o, vec![item.clone()])) {
            return Some(Refusal::panic(p, Some(*at)));
        }
        if o.over() {
            return Some(Refusal::law(18, Some(*at)));
        }
    }
    None
}

/// The refusal of a batch with a mark: 8 of joined parts, then the items that
/// are replayed, then 8 of the span, then a limit that no item passes.
fn marked_refusal(c: &Context, b: &Batch, mark: usize) -> Option<Refusal> {
    let mut whole = Object::Context(probe::copy_context(c), LogQueue::Rewrite);
    let run = catch(|| b.run(&mut whole, b.items.clone()));
    if let Err(p) = &run {
        if panics::JOINED.contains(&p.place.as_str()) {
            return Some(Refusal::panic(p.clone(), None));
        }
    }
    if let Some(r) = finished_refusal(c, b, mark) {
        return Some(r);
    }
    match run {
        Err(p) => Some(Refusal::panic(p, None)),
        Ok(()) if whole.over() => Some(Refusal::law(18, Some(mark))),
        Ok(()) => None,
    }
}

/// Where an End finishes a Begin: the items of both parts, one at a time. An
/// item of the part that waited has the mark's place.
fn finished_refusal(c: &Context, b: &Batch, mark: usize) -> Option<Refusal> {
    if law::mark(&b.items[mark]) != Some(2) {
        return None;
    }
    let mut copy = probe::copy_context(c);
    let part = probe::pop_waiting(&mut copy, b.items[mark].raft_group_id)?;
    if part.status != 0 {
        return None;
    }
    let mut items = part.items;
    let mut places = vec![mark; items.len()];
    for (at, item) in b.items.iter().enumerate() {
        if at != mark {
            items.push(item.clone());
            places.push(at);
        }
    }
    by_item(&mut Object::Context(copy, LogQueue::Rewrite), b, &items, &places)
}

type TableChange = Box<dyn FnOnce(&mut Table) -> Line>;
type Query = Box<dyn FnOnce(&Table) -> Read<Line>>;

/// A query's own error inside a caught run.
trait AndThenRead {
    fn and_then_read(self) -> Read<Result<Line, Panic>>;
}

impl AndThenRead for Result<Read<Line>, Panic> {
    fn and_then_read(self) -> Read<Result<Line, Panic>> {
        match self {
            Ok(line) => Ok(Ok(line?)),
            Err(p) => Ok(Err(p)),
        }
    }
}

/// A query of one group.
fn read_query(word: &str, t: &mut Tokens) -> Read<Query> {
    Ok(match word {
        "get" => {
            let key = t.bytes()?;
            Box::new(move |x| Ok(Line::default().maybe_bytes(x.get(&key).as_deref())))
        }
        "scan" => {
            let (start, end) = (t.maybe_bytes()?, t.maybe_bytes()?);
            let reverse = t.number()? != 0;
            let count = t.number()? as usize;
            Box::new(move |x| Ok(scan(x, start, end, reverse, count)))
        }
        "get_entry" => {
            let index = t.number()?;
            Box::new(move |x| {
                let entry = x.get_entry(index);
                Ok(entry.map_or(Line::of("-"), |e| Line::default().entry(&e)))
            })
        }
        "fetch_entries_to" => {
            let (begin, end) = (t.number()?, t.number()?);
            let size = t.maybe_number()?.map(|n| n as usize);
            Box::new(move |x| {
                let mut list = Vec::new();
                fetched(x.fetch_entries_to(begin, end, size, &mut list), || {
                    Line::default().entries(&list)
                })
            })
        }
        "fetch_entry_indexes_before" => {
            let gate = t.number()?;
            Box::new(move |x| {
                let mut list = Vec::new();
                fetched(x.fetch_entry_indexes_before(gate, &mut list), || {
                    Line::default().entries(&list)
                })
            })
        }
        "fetch_rewritten_entry_indexes" => Box::new(|x| {
            let mut list = Vec::new();
            fetched(x.fetch_rewritten_entry_indexes(&mut list), || Line::default().entries(&list))
        }),
        "fetch_kvs_before" => {
            let gate = t.number()?;
            Box::new(move |x| {
                let mut list = Vec::new();
                x.fetch_kvs_before(gate, &mut list);
                Ok(Line::default().pairs(&list))
            })
        }
        "fetch_rewritten_kvs" => Box::new(|x| {
            let mut list = Vec::new();
            x.fetch_rewritten_kvs(&mut list);
            Ok(Line::default().pairs(&list))
        }),
        "min_file_seq" => {
            let queue = t.queue()?;
            Box::new(move |x| Ok(Line::default().maybe_number(x.min_file_seq(queue))))
        }
        "has_at_least_some_entries_before" => {
            let gate = t.file()?;
            let count = t.number()? as usize;
            Box::new(move |x| {
                let has = x.has_at_least_some_entries_before(gate, count);
                Ok(Line::default().number(has as u64))
            })
        }
        "first_index" => Box::new(|x| Ok(Line::default().maybe_number(x.first_index()))),
        "last_index" => Box::new(|x| Ok(Line::default().maybe_number(x.last_index()))),
        "rewrite_count" => {
            Box::new(|x| Ok(Line::default().number(probe::view(x).rewrite_count as u64)))
        }
        "count" => Box::new(|x| Ok(count(&probe::view(x)))),
        w => return Err(format!("unknown call {}", w)),
    })
}

/// At most `count` pairs. The Rust has no count, so count 0, like a start
/// above the end in an empty map, is 01's alone.
fn scan(
    x: &Table,
    start: Option<Vec<u8>>,
    end: Option<Vec<u8>>,
    reverse: bool,
    count: usize,
) -> Line {
    let above = matches!((&start, &end), (Some(s), Some(e)) if s > e);
    if count == 0 || (above && probe::view(x).keys.is_empty()) {
        return Line::of("law").number(10);
    }
    let mut list = Vec::new();
    x.scan(start.as_deref(), end.as_deref(), reverse, |k, v| {
        list.push((k.to_vec(), v.to_vec()));
        list.len() < count
    })
    .unwrap();
    Line::default().pairs(&list)
}

fn fetched(
    result: Result<(), Error>,
    line: impl FnOnce() -> Line,
) -> Read<Line> {
    match result {
        Ok(()) => Ok(line()),
        Err(Error::EntryCompacted) => Ok(Line::of("no").number(11)),
        Err(Error::EntryNotFound) => Ok(Line::of("no").number(12)),
        Err(e) => Err(format!("{:?}", e)),
    }
}

/// Entries and keys by queue, counted anew.
fn count(v: &View) -> Line {
    let keys = |q| v.keys.iter().filter(|(_, _, f)| f.queue == q).count() as u64;
    Line::default()
        .number((v.entries.len() - v.rewrite_count) as u64)
        .number(v.rewrite_count as u64)
        .number(keys(LogQueue::Append))
        .number(keys(LogQueue::Rewrite))
}

fn live(of: impl Fn(LogQueue) -> u64) -> Line {
    Line::default().number(of(LogQueue::Append)).number(of(LogQueue::Rewrite))
}

fn mix(t: &mut Tokens) -> Read<Answer> {
    let group = t.number()?;
    t.end()?;
    one(Line::default().number(hash_u64(group)).number(probe::slot(group) as u64))
}

fn done(_: ()) -> Line {
    Line::of("ok")
}

fn one(line: Line) -> Read<Answer> {
    Ok(vec![line.0])
}

fn ok() -> Read<Answer> {
    one(Line::of("ok"))
}

fn dump_view(word: &str, v: &View) -> Answer {
    let line = Line::of(word)
        .number(v.group)
        .maybe_number(v.entries.first().map(|e| e.index))
        .number(v.rewrite_count as u64);
    let line = match v.span {
        Some((start, end)) => line.number(start).number(end),
        None => line.word("-"),
    };
    let mut out = vec![line.0];
    out.push(Line::of("entries").entries(&v.entries).0);
    let keys = Line::of("keys").number(v.keys.len() as u64);
    out.push(v.keys.iter().fold(keys, |l, (k, x, f)| l.bytes(k).bytes(x).file(*f)).0);
    out
}

fn dump_object(o: &Object) -> Answer {
    let tables = o.tables();
    let groups = probe::groups(tables);
    let cleaned = probe::cleaned(tables);
    let head = match o {
        Object::Context(_, q) => Line::of("context").queue(*q),
        Object::Index(_) => Line::of("index"),
    };
    let mut out = vec![head.0];
    for g in &groups {
        out.extend(dump_view("group", &probe::view(&tables.get(*g).unwrap().read())));
    }
    out.push(Line::of("cleaned").numbers(&cleaned).0);
    if let Object::Context(c, _) = o {
        out.extend(probe::tombstones(c).iter().map(|i| Line::of("tombstone").item(i).0));
        dump_waiting(c, &mut out);
    }
    out.push("end".to_string());
    out
}

fn dump_waiting(c: &Context, out: &mut Answer) {
    for (group, parts) in probe::waiting(c) {
        for p in parts {
            let head = Line::of("waiting").number(group).number(u64::from(p.status));
            let head = head.number(p.start).number(p.end).number(p.items.len() as u64);
            out.push(head.number(p.tombstones.len() as u64).0);
            out.extend(p.items.iter().map(|i| Line::of("item").item(i).0));
            out.extend(p.tombstones.iter().map(|i| Line::of("item_tombstone").item(i).0));
        }
    }
}

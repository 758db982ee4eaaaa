//! Runs scripts through the Rust, in both map orders, and through the port, and compares every answer.

use super::drive::Port;
use super::rows::Lent;
use crate::check::same;
use crate::drive::Driver;
use crate::generate::script;
use crate::random::Random;
use crate::text::{Line, Tokens};
use raft_engine::env::{EntryIndex, EntryIndexes, LogItem, LogItemContent};
use std::collections::BTreeMap;

/// How many differences are printed in full.
const PRINTED: u64 = 20;

#[derive(Default)]
struct Figures {
    scripts: u64,
    calls: u64,
    lines: u64,
    refused: BTreeMap<String, u64>,
    kinds: BTreeMap<String, u64>,
    /// Calls that the library does not have, or on what such a call made.
    absent: BTreeMap<String, u64>,
    /// Refused calls after which the area stands for what it stood for.
    unchanged: u64,
    no_items: u64,
    differences: u64,
}

/// Runs the scripts of seeds `from` to `to`; gives the number of differences.
pub fn run(from: u64, to: u64) -> usize {
    let mut f = Figures::default();
    for seed in from..=to {
        f.scripts += 1;
        let script = with_wrong_kinds(script(seed), seed);
        one(&script, seed, &mut f);
    }
    print(&f);
    f.differences as usize
}

/// One script: each line is asked of the Rust in both map orders and of the port; a batch is asked of the port once more, with
/// rows that are no items.
fn one(script: &[String], seed: u64, f: &mut Figures) {
    let mut r = Random::new(seed ^ 0x5eed);
    let (mut ascending, mut descending) = (Driver::new(true), Driver::new(true));
    let mut port = Port::default();
    for (at, line) in script.iter().enumerate() {
        if r.percent(30) {
            spoiled(line, seed, at, &mut r, &mut ascending, &mut port, f);
        }
        let first = ask(&mut ascending, line, false);
        let second = ask(&mut descending, line, true);
        let got = port.line(line).unwrap_or_else(|e| panic!("{}: {}", line, e));
        let kind = kind(line);
        match got {
            None => *f.absent.entry(kind).or_default() += 1,
            Some(got) => {
                f.count(kind, &got);
                f.judge(seed, at, line, &got, [&first, &second], &port);
                if let Some(rows) = rows_in(line, &got) {
                    short(line, rows, seed, at, &mut r, &mut port, f);
                }
            }
        }
    }
}

fn ask(driver: &mut Driver, line: &str, descending: bool) -> Vec<String> {
    hashbrown::set_descending(descending);
    let answer = driver.line(line).unwrap_or_else(|e| panic!("{}: {}", line, e));
    hashbrown::set_descending(false);
    answer
}

fn kind(line: &str) -> String {
    let word: Vec<&str> = line.split(' ').collect();
    match word[0] {
        "q" => format!("q {}", word[3]),
        "c" => format!("c {}", word[2]),
        w => w.to_string(),
    }
}

impl Figures {
    fn count(&mut self, kind: String, got: &[String]) {
        self.calls += 1;
        self.lines += got.len() as u64;
        *self.kinds.entry(kind).or_default() += 1;
        if let Some(rest) = got.first().and_then(|l| l.strip_prefix("refused ")) {
            let number = rest.split(' ').next().unwrap();
            *self.refused.entry(format!("{:>2}", number)).or_default() += 1;
        }
    }

    fn judge(
        &mut self,
        seed: u64,
        at: usize,
        line: &str,
        got: &[String],
        rust: [&[String]; 2],
        port: &Port,
    ) {
        if got.first().map_or(false, |l| l.starts_with("refused ")) && !port.changed_by_refusal {
            self.unchanged += 1;
        }
        if !port.changed_by_refusal && !port.spilt && rust.iter().any(|a| same(got, a)) {
            return;
        }
        self.differences += 1;
        if self.differences <= PRINTED {
            println!("seed {} line {}: {}", seed, at + 1, line);
            println!("  port {:?}\n  Rust {:?}\n       {:?}", got, rust[0], rust[1]);
            if port.changed_by_refusal {
                println!("  the refused call changed what the area stands for");
            }
            if port.spilt {
                println!("  the call wrote more of a lent list than its answer");
            }
        }
    }
}

/// Asks a batch with a row that is no item of the port. The Rust is asked for an item with one entry without a file in its place,
/// and both are left as they were, since that is refused.
fn spoiled(
    line: &str,
    seed: u64,
    at: usize,
    r: &mut Random,
    driver: &mut Driver,
    port: &mut Port,
    f: &mut Figures,
) {
    let mut t = Tokens::new(line);
    if t.word() != Ok("c") {
        return;
    }
    let n = t.number().unwrap();
    let word = t.word().unwrap();
    if !["replay", "live_append", "live_rewrite"].contains(&word) || !port.has(n) {
        return;
    }
    let file = t.file().unwrap();
    let gate = if word == "live_rewrite" { t.maybe_number().unwrap() } else { None };
    let mut items = t.items().unwrap();
    if items.is_empty() {
        return;
    }
    let mut lent = Lent::of(&items);
    let i = if r.percent(30) {
        lent.cut(r.from_to(1, 7) as usize);
        items.len() - 1
    } else {
        let i = r.below(lent.item_count() as u64) as usize;
        lent.spoil(i, r.below(8));
        i
    };
    items[i].content = without_file();
    let text = Line::of("try c").number(n).word(word).file(file);
    let text = if word == "live_rewrite" { text.maybe_number(gate) } else { text };
    let text = text.items(&items).0;
    let rust = ask(driver, &text, false);
    if let Some(got) = port.batch(n, word, file, gate, &lent).unwrap() {
        f.no_items += 1;
        f.count("rows that are no items".to_string(), &got);
        f.judge(seed, at, &text, &got, [&rust, &rust], port);
    }
}

/// How many rows an accepted query with a lent list gave; a value counts by its bytes.
fn rows_in(line: &str, got: &[String]) -> Option<usize> {
    let word = line.split(' ').nth(3)?;
    if !line.starts_with("q ") || got[0].starts_with("refused") {
        return None;
    }
    match word {
        "get" if got[0] == "-" || got[0] == "." => None,
        "get" => Some(got[0].len() / 2),
        "scan" | "fetch_entries_to" | "fetch_entry_indexes_before"
        | "fetch_rewritten_entry_indexes" | "fetch_kvs_before" | "fetch_rewritten_kvs" => {
            got[0].split(' ').next()?.parse().ok()
        }
        _ => None,
    }
}

/// Asks a query once more with a list that is just long enough, or too short: 19.
fn short(
    line: &str,
    rows: usize,
    seed: u64,
    at: usize,
    r: &mut Random,
    port: &mut Port,
    f: &mut Figures,
) {
    let whole = port.short(line, rows).unwrap().unwrap();
    f.count("just enough room".to_string(), &whole);
    let asked = port.line(line).unwrap().unwrap();
    f.judge(seed, at, line, &whole, [&asked, &asked], port);
    if rows > 0 {
        let got = port.short(line, r.below(rows as u64) as usize).unwrap().unwrap();
        f.count("too little room".to_string(), &got);
        let refused = vec!["law 19".to_string()];
        f.judge(seed, at, line, &got, [&refused, &refused], port);
    }
}

fn without_file() -> LogItemContent {
    let entry = EntryIndex { entries: None, ..EntryIndex::default() };
    LogItemContent::EntryIndexes(EntryIndexes(vec![entry]))
}

/// The script with calls of the wrong kind in between.
fn with_wrong_kinds(script: Vec<String>, seed: u64) -> Vec<String> {
    let mut r = Random::new(seed ^ 0x0dd);
    let mut made: Vec<u64> = Vec::new();
    let mut out = Vec::new();
    for line in script {
        let word: Vec<&str> = line.split(' ').collect();
        if word[0] == "c" && word[2] == "new" {
            made.push(word[1].parse().unwrap());
        }
        let batch = if word[0] == "c" && word[2] == "replay" { Some(word[3..].join(" ")) } else { None };
        out.push(line);
        if made.is_empty() || !r.percent(8) {
            continue;
        }
        let (a, b) = (*r.pick(&made), *r.pick(&made));
        let batch = batch.unwrap_or_else(|| "0 1 1 X 7".to_string());
        let wrong = match r.below(5) {
            0 if a != b => format!("c {} merge {}", a, b),
            1 if a != b => format!("c {} join {}", a, b),
            2 => format!("c {} replay {}", a, batch),
            3 => {
                let (file, items) = cut_file(&batch);
                format!("c {} live_rewrite {} {} {}", a, file, "-", items)
            }
            _ => format!("c {} live_append {}", a, batch),
        };
        if is_wrong(&wrong, &out) {
            out.push(wrong);
        }
    }
    out
}

fn cut_file(batch: &str) -> (String, String) {
    let word: Vec<&str> = batch.split(' ').collect();
    (word[..2].join(" "), word[2..].join(" "))
}

/// Whether a call is of the wrong kind, by the calls so far.
fn is_wrong(call: &str, so_far: &[String]) -> bool {
    let word: Vec<&str> = call.split(' ').collect();
    let kind = |n: &str| kind_of(n, so_far);
    let (own, of_index) = (kind(word[1]), word[2].starts_with("live"));
    match word[2] {
        "merge" => own == "index" || own != kind(word[3]),
        "join" => own != "1" || kind(word[3]) != "0",
        _ if of_index => own != "index",
        _ => own == "index" || own != word[3],
    }
}

/// `0` or `1` for a context of that queue; a Rewrite context that was joined counts as the index.
fn kind_of<'a>(n: &str, so_far: &'a [String]) -> &'a str {
    let mut kind = "";
    for line in so_far {
        let word: Vec<&'a str> = line.split(' ').collect();
        if word[0] != "c" || word[1] != n {
            continue;
        }
        match word[2] {
            "new" => kind = word[3],
            "join" if kind == "1" => kind = "index",
            _ => {}
        }
    }
    kind
}

fn print(f: &Figures) {
    println!("scripts: {} (the Rust in two map orders, the port)", f.scripts);
    println!("calls compared: {}", f.calls);
    println!("answer lines compared: {}", f.lines);
    println!("refused calls: {}", f.refused.values().sum::<u64>());
    for (number, n) in &f.refused {
        println!("  {}: {}", number, n);
    }
    println!("refused calls after which the area stands for what it stood for: {}", f.unchanged);
    println!("batches with a row that is no item: {}", f.no_items);
    println!("calls by kind:");
    for (name, n) in &f.kinds {
        println!("  {}: {}", name, n);
    }
    if !f.absent.is_empty() {
        println!("calls that the library does not have, or on what they made:");
        for (name, n) in &f.absent {
            println!("  {}: {}", name, n);
        }
    }
    println!("differences: {}", f.differences);
}

//! Demand 3 tried on the Rust, or on the port: a list of Append batches in one pass, and cut
//! into runs that are merged, neighbours in any order.

use crate::drive::Driver;
use crate::generate::append_batches;
use crate::random::Random;
use crate::text::Read;
use raft_engine::env::{Command, LogItem, LogItemContent};

const ONE_PASS: u64 = 0;
const BY_ITEM: u64 = 1;
const FIRST_RUN: u64 = 2;

/// What answers the lines of a script.
pub trait Answers {
    fn answer(&mut self, line: &str) -> Read<Vec<String>>;
}

impl Answers for Driver {
    fn answer(&mut self, line: &str) -> Read<Vec<String>> {
        self.line(line)
    }
}

#[derive(Default)]
struct Figures {
    lists: u64,
    batches: u64,
    refused: u64,
    without_premise: u64,
    differ_without: u64,
    merges: u64,
    differences: u64,
}

pub fn run(n: u64, answers: impl Fn() -> Box<dyn Answers>) -> usize {
    let mut f = Figures::default();
    (1..=n).for_each(|seed| one(seed, answers().as_mut(), &mut f));
    println!("lists of batches: {}", f.lists);
    println!("batches: {}, refused in one pass: {}", f.batches, f.refused);
    println!("lists with the premise: {}", f.lists - f.without_premise);
    println!("merges: {}", f.merges);
    println!("differences with the premise: {}", f.differences);
    println!("lists without the premise that differ: {} of {}", f.differ_without, f.without_premise);
    f.differences as usize
}

fn one(seed: u64, d: &mut dyn Answers, f: &mut Figures) {
    let mut r = Random::new(seed ^ 0xc0ffee);
    ask(d, format!("c {} new 0", ONE_PASS));
    ask(d, format!("c {} new 0", BY_ITEM));
    let mut history = Vec::new();
    let mut premise = true;
    for (text, items) in append_batches(seed) {
        f.batches += 1;
        if ask(d, format!("c {} replay {}", ONE_PASS, text)) != ["ok"] {
            f.refused += 1;
            continue;
        }
        premise &= keeps_premise(d, &items);
        history.push(text);
    }
    f.lists += 1;
    f.without_premise += !premise as u64;
    let same = cut_and_merge(d, &mut r, &history, f) && counted(d);
    match (same, premise) {
        (false, true) => {
            f.differences += 1;
            println!("list {} differs", seed);
        }
        (false, false) => f.differ_without += 1,
        _ => {}
    }
}

fn ask(d: &mut dyn Answers, call: String) -> Vec<String> {
    d.answer(&call).unwrap_or_else(|e| panic!("{}: {}", call, e))
}

/// Replays the items one at a time: each compaction must leave its group an
/// entry or find none.
fn keeps_premise(d: &mut dyn Answers, items: &[LogItem]) -> bool {
    let mut kept = true;
    for item in items {
        let first = format!("q {} {} first_index", BY_ITEM, item.raft_group_id);
        let before = ask(d, first.clone());
        let text = crate::text::Line::default().item(item).0;
        assert_eq!(ask(d, format!("c {} replay 0 1 1 {}", BY_ITEM, text)), ["ok"]);
        if let LogItemContent::Command(Command::Compact { .. }) = item.content {
            let found = before != ["-"] && before != ["no 9"] && before != ["refused 9"];
            kept &= !found || ask(d, first) != ["-"];
        }
    }
    kept
}

/// Cuts the history into runs, merges them, and compares with the one pass.
fn cut_and_merge(d: &mut dyn Answers, r: &mut Random, history: &[String], f: &mut Figures) -> bool {
    let n = r.from_to(1, 6);
    let mut cuts: Vec<usize> =
        (1..n).map(|_| r.below(history.len() as u64 + 1) as usize).collect();
    cuts.extend([0, history.len()]);
    cuts.sort_unstable();
    let mut left = Vec::new();
    for (i, w) in cuts.windows(2).enumerate() {
        let c = FIRST_RUN + i as u64;
        ask(d, format!("c {} new 0", c));
        for batch in &history[w[0]..w[1]] {
            if ask(d, format!("c {} replay {}", c, batch)) != ["ok"] {
                return false;
            }
        }
        left.push(c);
    }
    while left.len() > 1 {
        let at = r.below(left.len() as u64 - 1) as usize;
        let newer = left.remove(at + 1);
        f.merges += 1;
        if ask(d, format!("c {} merge {}", left[at], newer)) != ["ok"] {
            return false;
        }
    }
    let both = ["dump", "live", "groups"];
    both.iter().all(|w| {
        ask(d, format!("c {} {}", left[0], w)) == ask(d, format!("c {} {}", ONE_PASS, w))
    })
}

/// The Append live count is the number of entries and keys, the Rewrite one 0.
fn counted(d: &mut dyn Answers) -> bool {
    let mut held = 0;
    for g in ask(d, format!("c {} groups", ONE_PASS))[0].split(' ').skip(1) {
        let count = ask(d, format!("q {} {} count", ONE_PASS, g));
        held += count[0].split(' ').map(|t| t.parse::<u64>().unwrap()).sum::<u64>();
    }
    ask(d, format!("c {} live", ONE_PASS)) == [format!("{} 0", held)]
}

//! Times of the port beside the Rust's: the same work, in one process, taking turns. See ../docs/PERFORMANCE.md.

mod port;
mod rust;
mod work;

use std::time::Duration;
use work::Work;

/// How often a piece of work is done in a turn.
const REPEATS: u32 = 20;

/// One side of a comparison: does the work once and gives the time that it took, without making what it needs.
pub type Side = Box<dyn FnMut() -> Duration>;

pub struct Row {
    name: &'static str,
    /// How many calls the work has.
    calls: u32,
    rust: Side,
    port: Side,
}

/// The times of a turn, in nanoseconds a call. Each piece of work is short, so that few of them are interrupted.
fn turn(side: &mut Side, calls: u32, times: &mut Vec<f64>) {
    for _ in 0..REPEATS {
        times.push(side().as_nanos() as f64 / f64::from(calls));
    }
}

fn median(mut times: Vec<f64>) -> f64 {
    times.sort_by(|a, b| a.partial_cmp(b).unwrap());
    times[times.len() / 2]
}

/// The medians over all turns but the first, Rust and port.
fn measure(row: &mut Row, rounds: usize) -> (f64, f64) {
    let (mut rust, mut port) = (Vec::new(), Vec::new());
    turn(&mut row.rust, row.calls, &mut Vec::new());
    turn(&mut row.port, row.calls, &mut Vec::new());
    for _ in 0..rounds {
        turn(&mut row.rust, row.calls, &mut rust);
        turn(&mut row.port, row.calls, &mut port);
    }
    (median(rust), median(port))
}

fn main() {
    let rounds = std::env::args().nth(1).and_then(|t| t.parse().ok()).unwrap_or(25);
    println!("| call | Rust, ns | port, ns | port / Rust |");
    println!("|---|---|---|---|");
    for mut row in rows() {
        let (rust, port) = measure(&mut row, rounds);
        println!("| {} | {:.0} | {:.0} | {:.2} |", row.name, rust, port, port / rust);
    }
}

/// Recovery of 10,000 batches, a batch's share of the time.
const RECOVERIES: [(&str, usize); 3] = [
    ("recovery of 10,000 batches in 1 run, a batch", 1),
    ("recovery of 10,000 batches in 4 runs, a batch", 4),
    ("recovery of 10,000 batches in 16 runs, a batch", 16),
];

fn rows() -> Vec<Row> {
    let mut out = Vec::new();
    for (name, before, work) in work::replays().into_iter().chain(work::key_replays()) {
        out.push(replay_row(name, before, work));
    }
    for (name, before, work, live) in work::live() {
        let calls = work.batches.len() as u32;
        let (rust, port) = (rust::live(&before, &work, live), port::live(&before, &work, live));
        out.push(Row { name, calls, rust, port });
    }
    let (older, newer) = work::two_runs();
    out.push(Row {
        name: "merge of 8 groups of 32 entries",
        calls: 1,
        rust: rust::merge(&older, &newer),
        port: port::merge(&older, &newer),
    });
    out.push(Row {
        name: "join of 8 groups of 32 entries",
        calls: 1,
        rust: rust::join(&older),
        port: port::join(&older),
    });
    let batches = work::recovery();
    for (name, runs) in RECOVERIES {
        out.push(Row {
            name,
            calls: batches.batches.len() as u32,
            rust: rust::recover(&batches, runs),
            port: port::recover(&batches, runs),
        });
    }
    out.extend(work::queries().into_iter().map(|(name, query)| query_row(name, 16, query)));
    out.extend(work::key_queries().into_iter().map(|(name, keys, query)| query_row(name, keys, query)));
    out
}

/// Batches replayed into an Append context that has replayed others before.
fn replay_row(name: &'static str, before: Work, work: Work) -> Row {
    let calls = work.batches.len() as u32;
    Row { name, calls, rust: rust::replay(&before, &work), port: port::replay(&before, &work) }
}

/// A query of each of eight groups with 32 entries and so many keys.
fn query_row(name: &'static str, keys: u64, query: work::Query) -> Row {
    let before = work::filled(keys);
    Row { name, calls: work::ASKED, rust: rust::query(&before, query), port: port::query(&before, query) }
}

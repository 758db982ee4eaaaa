//! Inputs of the program `takes`: random ones, valid and broken, and a long one.

use crate::random::Random;
use crate::takes::takes;
use crate::takes_lines::{lines, ODD};
use std::collections::BTreeMap;
use std::io::{Read, Write};
use std::process::{Child, Command, Stdio};

/// What a random input is made of.
fn input(seed: u64) -> Vec<u8> {
    let mut r = Random::new(seed ^ 0x7a6b_6573);
    let mut text = Vec::new();
    for part in 0..r.from_to(1, 3) {
        for line in lines(seed.wrapping_mul(3) + part) {
            text.extend_from_slice(line.as_bytes());
            text.push(b'\n');
        }
    }
    match r.below(8) {
        0..=2 => {}
        3 => drop(text.pop()),
        4 => break_bytes(&mut r, &mut text, 1),
        5 => break_bytes(&mut r, &mut text, 12),
        6 => break_lines(&mut r, &mut text),
        _ => noise(&mut r, &mut text),
    }
    text
}

/// Bytes changed, left out, doubled and put in.
fn break_bytes(r: &mut Random, text: &mut Vec<u8>, times: u64) {
    for _ in 0..r.from_to(1, times) {
        if text.is_empty() {
            return;
        }
        let at = r.below(text.len() as u64) as usize;
        let byte = *r.pick(b",,\n\n0159afAFEPDCXM -+\r\0\xff");
        match r.below(4) {
            0 => text[at] = byte,
            1 => drop(text.remove(at)),
            2 => text.insert(at, text[at]),
            _ => text.insert(at, byte),
        }
    }
}

/// Lines of every malformed kind, long lists and long numbers put in.
fn break_lines(r: &mut Random, text: &mut Vec<u8>) {
    for _ in 0..r.from_to(1, 6) {
        let starts: Vec<usize> = (0..text.len()).filter(|i| *i == 0 || text[i - 1] == b'\n').collect();
        let at = if starts.is_empty() { 0 } else { *r.pick(&starts) };
        let line = odd_line(r) + "\n";
        text.splice(at..at, line.bytes());
    }
}

fn odd_line(r: &mut Random) -> String {
    let many = *r.pick(&[31u64, 32, 33, 34, 200]);
    let mut lengths = vec!["1".to_string(); many as usize];
    match r.below(7) {
        0 => format!("E,7,1,1,{}", lengths.join(",")),
        1 => {
            let at = r.below(many) as usize;
            lengths[at] = r.pick(&["", "x", "4294967296", "-1"]).to_string();
            format!("E,7,1,1,{}", lengths.join(","))
        }
        2 => format!("E,7,{},1,{}", u64::MAX - r.from_to(many - 2, many), lengths.join(",")),
        3 => format!("P,7,1,{},{}", "6b".repeat(many as usize), "00".repeat(r.below(40) as usize)),
        4 => format!("C,{}{},0", "0".repeat(many as usize), r.below(10)),
        5 => format!("D,7,{}", "5F5f01"),
        _ => r.pick(&ODD).to_string(),
    }
}

fn noise(r: &mut Random, text: &mut Vec<u8>) {
    let n = r.from_to(0, 400) as usize;
    let some = r.percent(50);
    text.truncate(if some { text.len() / 2 } else { 0 });
    text.extend((0..n).map(|_| r.next() as u8));
}

/// What the program at `path` prints.
fn printed(path: &str, text: &[u8]) -> Vec<u8> {
    let mut child = start(path);
    let mut stdin = child.stdin.take().unwrap();
    let text = text.to_vec();
    let writer = std::thread::spawn(move || stdin.write_all(&text).unwrap());
    let mut out = Vec::new();
    child.stdout.take().unwrap().read_to_end(&mut out).unwrap();
    writer.join().unwrap();
    child.wait().unwrap();
    out
}

fn start(path: &str) -> Child {
    let child = Command::new(path).stdin(Stdio::piped()).stdout(Stdio::piped()).spawn();
    child.unwrap_or_else(|e| panic!("{}: {}", path, e))
}

/// Runs the inputs of seeds 1 to n through the Rust and the program at `path`; the answer is how many differ.
pub fn compare(n: u64, path: &str) -> usize {
    let (mut bytes, mut lines, mut differ) = (0, 0, 0);
    let mut kinds: BTreeMap<String, u64> = BTreeMap::new();
    for seed in 1..=n {
        let text = input(seed);
        let mut rust = Vec::new();
        takes(&text[..], &mut rust);
        bytes += text.len();
        lines += rust.iter().filter(|b| **b == b'\n').count();
        String::from_utf8_lossy(&rust).lines().for_each(|l| *kinds.entry(kind(l)).or_default() += 1);
        if printed(path, &text) != rust {
            differ += 1;
            println!("seed {} differs", seed);
        }
    }
    println!("{} inputs, {} bytes, {} lines printed, {} inputs differ", n, bytes, lines, differ);
    kinds.iter().for_each(|(kind, times)| println!("{}: {}", kind, times));
    differ
}

/// The letter of a printed line, a refusal with its number.
fn kind(line: &str) -> String {
    match line.strip_prefix("R,") {
        Some(rest) => format!("R {:>2}", rest.split(',').nth(1).unwrap_or("")),
        None => line.chars().take(1).collect(),
    }
}

/// Prints the input of a seed.
pub fn print_input(seed: u64) {
    std::io::stdout().write_all(&input(seed)).unwrap();
}

/// Prints an input of `n` lines, of which `merges` are M. Its runs go on from one another, with some gaps, some tombstones and some
/// malformed lines, so that most of them are merged.
pub fn print_long(n: u64, merges: u64) {
    let mut out = std::io::stdout().lock();
    let mut r = Random::new(n);
    let mut ends: BTreeMap<u64, (u64, u64)> = BTreeMap::new();
    for i in 0..n {
        let is_merge = i * merges / n != (i + 1) * merges / n;
        let line = if is_merge { "M".to_string() } else { long_line(&mut r, &mut ends, i) };
        if is_merge {
            ends.values_mut().for_each(|e| e.0 = 1);
        }
        writeln!(out, "{}", line).unwrap();
    }
}

/// A line that goes on with a run; `ends` has, for each group, the least start that is taken and the last index.
fn long_line(r: &mut Random, ends: &mut BTreeMap<u64, (u64, u64)>, i: u64) -> String {
    let g = r.from_to(1, 7);
    let (least, last) = ends.get(&g).copied().unwrap_or((1, 0));
    let file = i / 100 + 1;
    match r.below(400) {
        0 => format!("E,{},{},{},1", g, last + 2, file),
        1 => format!("D,{},{:02x}", g, r.below(12)),
        2 => format!("C,{},{}", g, r.below(last + 2)),
        3..=12 => odd_line(r),
        13..=250 => {
            let first = r.from_to(least.min(last + 1), last + 1).min(56);
            let lengths: Vec<String> = (0..r.from_to(1, 8)).map(|_| r.below(1000).to_string()).collect();
            ends.insert(g, (first, first + lengths.len() as u64 - 1));
            format!("E,{},{},{},{}", g, first, file, lengths.join(","))
        }
        _ => format!("P,{},{},{:02x},{:02X}", g, file, r.below(12), r.next() as u8),
    }
}

//! The program `takes` of document 01, run through the Rust: what the port's
//! own program is compared with.

use crate::drive::Driver;
use crate::text::Line;
use std::io::{Read, Write};

/// The context of all runs merged so far, and that of the run being read.
const WHOLE: u64 = 0;
const RUN: u64 = 1;

pub fn takes(mut input: impl Read, out: &mut impl Write) {
    let mut text = Vec::new();
    input.read_to_end(&mut text).unwrap();
    let mut d = Driver::new(true);
    ask(&mut d, new_context(WHOLE));
    ask(&mut d, new_context(RUN));
    let mut at = 0;
    for line in lines(&text) {
        at += 1;
        match read(line) {
            None => writeln!(out, "B,{}", at).unwrap(),
            Some(Taken::Merge) => merge(&mut d, at, out),
            Some(Taken::Batch(call)) => {
                let answer = ask(&mut d, call);
                report(&answer, at, out);
            }
        }
    }
    merge(&mut d, at, out);
    print(&mut d, out);
}

fn lines(text: &[u8]) -> Vec<&[u8]> {
    let mut all: Vec<&[u8]> = text.split(|b| *b == b'\n').collect();
    if all.last() == Some(&&b""[..]) {
        all.pop();
    }
    all
}

fn new_context(n: u64) -> Line {
    Line::of("c").number(n).word("new").number(0)
}

fn ask(d: &mut Driver, call: Line) -> String {
    let answers = d.line(&call.0).unwrap_or_else(|e| panic!("{}: {}", call.0, e));
    answers[0].clone()
}

/// Prints a refusal.
fn report(answer: &str, at: usize, out: &mut impl Write) {
    if answer != "ok" {
        let number = answer.split(' ').nth(1).unwrap();
        writeln!(out, "R,{},{}", at, number).unwrap();
    }
}

fn merge(d: &mut Driver, at: usize, out: &mut impl Write) {
    let answer = ask(d, Line::of("c").number(WHOLE).word("merge").number(RUN));
    report(&answer, at, out);
    ask(d, new_context(RUN));
}

fn print(d: &mut Driver, out: &mut impl Write) {
    let groups = ask(d, Line::of("c").number(WHOLE).word("groups"));
    for g in groups.split(' ').skip(1) {
        let query = |w: &str| Line::of("q").number(WHOLE).word(g).word(w);
        let first = ask(d, query("first_index")).replace('-', "0");
        let count = ask(d, query("count"));
        let n: Vec<u64> = count.split(' ').map(|t| t.parse().unwrap()).collect();
        writeln!(out, "G,{},{},{},{}", g, first, n[0] + n[1], n[2] + n[3]).unwrap();
    }
    let live = ask(d, Line::of("c").number(WHOLE).word("live"));
    writeln!(out, "L,{}", live.replace(' ', ",")).unwrap();
}

enum Taken {
    Merge,
    Batch(Line),
}

/// None for a malformed line.
fn read(line: &[u8]) -> Option<Taken> {
    let fields: Vec<&[u8]> = line.split(|b| *b == b',').collect();
    match (fields[0], &fields[1..]) {
        (b"M", []) => Some(Taken::Merge),
        (b"E", [group, first, file, lengths @ ..]) => entries(group, first, file, lengths),
        (b"P", [group, file, key, value]) => {
            let file = number(file)?;
            let item = batch(file).word("P").number(number(group)?);
            let item = item.bytes(&bytes(key)?).bytes(&bytes(value)?);
            Some(Taken::Batch(item.number(0).number(file)))
        }
        (b"D", [group, key]) => {
            let item = batch(0).word("D").number(number(group)?);
            Some(Taken::Batch(item.bytes(&bytes(key)?)))
        }
        (b"C", [group, index]) => {
            let item = batch(0).word("C").number(number(group)?);
            Some(Taken::Batch(item.number(number(index)?)))
        }
        (b"X", [group]) => Some(Taken::Batch(batch(0).word("X").number(number(group)?))),
        _ => None,
    }
}

/// The head of a batch of one item.
fn batch(file: u64) -> Line {
    Line::of("c").number(RUN).word("replay").number(0).number(file).number(1)
}

fn entries(group: &[u8], first: &[u8], file: &[u8], lengths: &[&[u8]]) -> Option<Taken> {
    let (group, first, file) = (number(group)?, number(first)?, number(file)?);
    if lengths.is_empty() {
        return None;
    }
    first.checked_add(lengths.len() as u64 - 1)?;
    let mut line = batch(file).word("E").number(group).number(lengths.len() as u64);
    for (i, length) in lengths.iter().enumerate() {
        let length = number(length)?;
        if length > u64::from(u32::MAX) {
            return None;
        }
        line = line.number(first + i as u64).number(0).number(file).number(0).number(0);
        line = line.number(0).number(0).number(length);
    }
    Some(Taken::Batch(line))
}

fn number(t: &[u8]) -> Option<u64> {
    if t.is_empty() {
        return None;
    }
    t.iter().try_fold(0u64, |n, b| match b {
        b'0'..=b'9' => n.checked_mul(10)?.checked_add(u64::from(b - b'0')),
        _ => None,
    })
}

fn bytes(t: &[u8]) -> Option<Vec<u8>> {
    let digit = |b: u8| (b as char).to_digit(16).map(|d| d as u8);
    if t.len() % 2 != 0 {
        return None;
    }
    t.chunks(2).map(|p| Some(digit(p[0])? * 16 + digit(p[1])?)).collect()
}

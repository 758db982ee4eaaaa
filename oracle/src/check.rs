//! Compares a file of calls and answers with what the Rust gives now.

use crate::drive::Driver;
use crate::run::open;
use std::collections::BTreeMap;

struct Asked {
    at: usize,
    call: String,
    answers: Vec<String>,
}

/// A file's calls, each with the answer lines behind it.
fn read(text: &str) -> Vec<Asked> {
    let mut out: Vec<Asked> = Vec::new();
    for (i, line) in text.lines().enumerate() {
        if let Some(a) = line.strip_prefix("= ") {
            out.last_mut().expect("an answer without a call").answers.push(a.to_string());
        } else if !line.is_empty() && !line.starts_with('#') {
            out.push(Asked { at: i + 1, call: line.to_string(), answers: Vec::new() });
        }
    }
    out
}

/// A program that is not the Rust says "refused" where the Rust panics, gives
/// an error or is not asked. The order of tombstones between groups is open.
pub fn same(file: &[String], rust: &[String]) -> bool {
    if file.first().map_or(false, |l| l.starts_with("refused ")) {
        return file.len() == rust.len() && refusal(&file[0]) == refusal(&rust[0]);
    }
    open(file.to_vec()) == open(rust.to_vec())
}

fn refusal(line: &str) -> Option<&str> {
    let (word, rest) = line.split_once(' ')?;
    ["refused", "panic", "law", "no"].contains(&word).then(|| rest)
}

/// Prints figures, and each panic if asked to; gives the number of differences.
pub fn check(path: &str, law: bool, list_panics: bool) -> usize {
    let text = std::fs::read_to_string(path).unwrap_or_else(|e| panic!("{}: {}", path, e));
    let asked = read(&text);
    let mut driver = Driver::new(law);
    let mut differences = 0;
    let mut lines = 0;
    let mut panics: BTreeMap<String, usize> = BTreeMap::new();
    for a in &asked {
        let got = driver.line(&a.call).unwrap_or_else(|e| panic!("{}:{}: {}", path, a.at, e));
        lines += got.len();
        if !same(&a.answers, &got) {
            differences += 1;
            println!("{}:{}: {}\n  file {:?}\n  Rust {:?}", path, a.at, a.call, a.answers, got);
        }
        if let Some(name) = &driver.panicked {
            if list_panics {
                println!("{}:{}: {}, {}", path, a.at, got[0], name);
            }
            *panics.entry(name.clone()).or_default() += 1;
        }
    }
    println!("{}: {} calls, {} answer lines, {} differences", path, asked.len(), lines, differences);
    for (name, n) in panics {
        println!("  panic, {}: {}", name, n);
    }
    differences
}

//! Runs scripts through the Rust in both map orders and compares what must not
//! depend on the order.

use crate::drive::Driver;
use crate::generate::script;
use std::collections::BTreeMap;

#[derive(Default)]
struct Figures {
    scripts: u64,
    calls: u64,
    lines: u64,
    returned: u64,
    law: BTreeMap<String, u64>,
    panics: BTreeMap<String, u64>,
    kinds: BTreeMap<String, u64>,
    /// Answers in which only the open order of tombstones differs.
    open: u64,
    /// Merges that stop in either order, at different places.
    places: u64,
    differences: u64,
}

/// Runs the scripts of seeds 1 to n; gives the number of differences.
pub fn run(n: u64, law: bool) -> usize {
    let mut f = Figures::default();
    for seed in 1..=n {
        let script = script(seed);
        let ascending = answers(&script, law, false, Some(&mut f));
        let descending = answers(&script, law, true, None);
        f.scripts += 1;
        f.compare(seed, &script, &ascending, &descending);
    }
    print(&f, law);
    f.differences as usize
}

fn answers(
    script: &[String],
    law: bool,
    descending: bool,
    mut figures: Option<&mut Figures>,
) -> Vec<Vec<String>> {
    hashbrown::set_descending(descending);
    let mut driver = Driver::new(law);
    let mut out = Vec::new();
    for line in script {
        let got = driver.line(line).unwrap_or_else(|e| panic!("{}: {}", line, e));
        if let Some(f) = figures.as_deref_mut() {
            f.count(line, &got, &driver);
        }
        out.push(got);
    }
    hashbrown::set_descending(false);
    out
}

/// The order of tombstones between groups is open: they are put in the order
/// of group numbers, each group's own order kept.
pub fn open(mut answer: Vec<String>) -> Vec<String> {
    let group = |l: &String| -> Option<u64> {
        l.strip_prefix("tombstone ")?.split(' ').nth(1)?.parse().ok()
    };
    let first = answer.iter().position(|l| group(l).is_some()).unwrap_or(0);
    let n = answer[first..].iter().take_while(|l| group(l).is_some()).count();
    answer[first..first + n].sort_by_key(|l| group(l));
    answer
}

impl Figures {
    fn compare(&mut self, seed: u64, script: &[String], a: &[Vec<String>], b: &[Vec<String>]) {
        for (at, (x, y)) in a.iter().zip(b).enumerate() {
            if x == y {
                continue;
            }
            if open(x.clone()) == open(y.clone()) {
                self.open += 1;
                continue;
            }
            if x[0].starts_with("panic") && y[0].starts_with("panic") {
                self.places += 1;
                continue;
            }
            self.differences += 1;
            println!("seed {} line {}: {}", seed, at + 1, script[at]);
            println!("  ascending  {:?}\n  descending {:?}", x, y);
        }
    }

    fn count(&mut self, line: &str, answer: &[String], driver: &Driver) {
        self.calls += 1;
        self.lines += answer.len() as u64;
        let word: Vec<&str> = line.split(' ').collect();
        let call = match word[0] {
            "q" => format!("q {}", word[3]),
            "c" => format!("c {}", word[2]),
            w => w.to_string(),
        };
        *self.kinds.entry(call).or_default() += 1;
        if let Some(name) = &driver.panicked {
            let number = answer[0].split(' ').nth(1).unwrap_or("-");
            *self.panics.entry(format!("{}, {}", number, name)).or_default() += 1;
        } else if answer[0].starts_with("law ") {
            let number = answer[0].split(' ').nth(1).unwrap();
            *self.law.entry(number.to_string()).or_default() += 1;
        } else {
            self.returned += 1;
        }
    }
}

fn print(f: &Figures, law: bool) {
    println!("mode: {}", if law { "law" } else { "plain" });
    println!("scripts: {} (each in two map orders)", f.scripts);
    println!("calls: {}", f.calls);
    println!("answer lines: {}", f.lines);
    println!("calls that returned: {}", f.returned);
    println!("panics: {}", f.panics.values().sum::<u64>());
    for (name, n) in &f.panics {
        println!("  {}: {}", name, n);
    }
    println!("refused by 01 without or despite the Rust: {}", f.law.values().sum::<u64>());
    for (name, n) in &f.law {
        println!("  {}: {}", name, n);
    }
    println!("calls by kind:");
    for (name, n) in &f.kinds {
        println!("  {}: {}", name, n);
    }
    println!("answers with tombstones in another order between groups: {}", f.open);
    println!("merges that panic at another place: {}", f.places);
    println!("differences between the orders: {}", f.differences);
}

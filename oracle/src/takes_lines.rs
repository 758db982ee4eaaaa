//! Inputs of the program `takes`, with the output that the Rust gives.

use crate::takes::takes;
use crate::world::World;
use std::collections::HashMap;

/// Lines that are malformed, or nearly so.
pub const ODD: [&str; 22] = [
    "",
    " ",
    "Q,1",
    "M,",
    "m",
    "E,7,1,1",
    "E,7,1,1,",
    "E,7,1,1,4294967296",
    "E,7,+1,1,5",
    "E,7, 1,1,5",
    "E,18446744073709551616,1,1,5",
    "E,7,18446744073709551615,1,5,5",
    "E,7,18446744073709551615,1,5",
    "P,7,1,6,76",
    "P,7,1,6g,76",
    "P,7,1,6b",
    "P,7,1,6b,76,",
    "D,7",
    "C,7,-1",
    "C,7,9223372036854775808",
    "X",
    "X,7\r",
];

pub fn print(seed: u64, n: u64) {
    for s in seed..seed + n {
        println!("script {}", s);
        let lines = lines(s);
        let mut out = Vec::new();
        takes((lines.join("\n") + "\n").as_bytes(), &mut out);
        lines.iter().for_each(|l| println!("> {}", l));
        String::from_utf8(out).unwrap().lines().for_each(|l| println!("= {}", l));
    }
}

/// The lines of a random input.
pub fn lines(seed: u64) -> Vec<String> {
    let mut w = World::new(seed);
    let mut next: HashMap<u64, u64> = HashMap::new();
    let mut file = 1;
    let n = w.r.from_to(3, 30);
    (0..n)
        .map(|_| {
            file += w.r.percent(30) as u64;
            line(&mut w, &mut next, file)
        })
        .collect()
}

fn line(w: &mut World, next: &mut HashMap<u64, u64>, file: u64) -> String {
    let g = w.group();
    let from = next.get(&g).copied().unwrap_or(w.base);
    match w.r.below(100) {
        0..=49 => {
            let first = w.start(from);
            let n = w.list_len().max(1);
            next.insert(g, first.saturating_add(n));
            let lengths: Vec<String> = (0..n).map(|_| w.length().to_string()).collect();
            format!("E,{},{},{},{}", g, first, file, lengths.join(","))
        }
        50..=64 => format!("P,{},{},{},{}", g, file, hex(&w.key()), hex(&w.value())),
        65..=71 => format!("D,{},{}", g, hex(&w.key())),
        72..=80 => format!("C,{},{}", g, w.index(from)),
        81..=84 => {
            next.remove(&g);
            format!("X,{}", g)
        }
        85..=95 => "M".to_string(),
        _ => w.r.pick(&ODD).to_string(),
    }
}

fn hex(b: &[u8]) -> String {
    b.iter().map(|x| format!("{:02X}", x)).collect()
}

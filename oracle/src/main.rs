//! The Rust as oracle: see README.md.

mod boundary;
mod check;
mod cuttings;
mod drive;
mod generate;
mod law;
mod panics;
#[cfg(feature = "port")]
mod port;
mod random;
mod run;
mod takes;
mod takes_inputs;
mod takes_lines;
mod text;
mod vectors;
mod world;

use drive::Driver;
use std::io::{BufRead, Write};

fn usage() -> ! {
    eprintln!("see oracle/README.md for the commands");
    std::process::exit(2)
}

fn number(t: &str) -> u64 {
    t.parse().unwrap_or_else(|_| usage())
}

fn print_script(seed: u64) {
    for line in generate::script(seed) {
        println!("{}", line);
    }
}

fn exit_with(differences: usize) {
    std::process::exit((differences > 0) as i32)
}

/// Answers a script from standard input.
fn answer(law: bool) {
    let mut driver = Driver::new(law);
    answer_by(|line| driver.line(line));
}

/// The same by the port; a call that the library does not have has no answer.
#[cfg(feature = "port")]
fn answer_port() {
    let mut port = port::Port::default();
    answer_by(|line| Ok(port.line(line)?.unwrap_or_default()));
}

fn answer_by(mut answers: impl FnMut(&str) -> text::Read<Vec<String>>) {
    let out = std::io::stdout();
    let mut out = std::io::BufWriter::new(out.lock());
    for (at, line) in std::io::stdin().lock().lines().enumerate() {
        let line = line.unwrap();
        if line.starts_with("= ") {
            continue;
        }
        writeln!(out, "{}", line).unwrap();
        match answers(&line) {
            Ok(given) => given.iter().for_each(|a| writeln!(out, "= {}", a).unwrap()),
            Err(e) => {
                out.flush().unwrap();
                eprintln!("line {}: {}", at + 1, e);
                std::process::exit(1)
            }
        }
    }
}

fn main() {
    panics::keep_panics();
    let args: Vec<String> = std::env::args().skip(1).collect();
    let args: Vec<&str> = args.iter().map(String::as_str).collect();
    match args.as_slice() {
        ["answer"] => answer(false),
        ["answer", "law"] => answer(true),
        ["check", path] => exit_with(check::check(path, true, false)),
        ["check", path, "panics"] => exit_with(check::check(path, true, true)),
        ["check", path, "plain"] => exit_with(check::check(path, false, false)),
        ["scripts", from, to] => (number(from)..=number(to)).for_each(print_script),
        ["run", n] => exit_with(run::run(number(n), true)),
        ["run", n, "plain"] => exit_with(run::run(number(n), false)),
        ["vectors", "memtable", seed, n] => vectors::memtable(number(seed), number(n)),
        ["vectors", "index", seed, n] => vectors::index(number(seed), number(n)),
        ["vectors", "takes", seed, n] => vectors::takes(number(seed), number(n)),
        ["vectors", "mix", seed, n] => vectors::mix(number(seed), number(n)),
        ["cuttings", n] => exit_with(cuttings::run(number(n), || Box::new(Driver::new(true)))),
        #[cfg(feature = "port")]
        ["port", "cuttings", n] => {
            exit_with(cuttings::run(number(n), || Box::new(port::Port::default())))
        }
        #[cfg(feature = "port")]
        ["port", n] => exit_with(port::run::run(1, number(n))),
        #[cfg(feature = "port")]
        ["port", from, to] => exit_with(port::run::run(number(from), number(to))),
        #[cfg(feature = "port")]
        ["answer", "port"] => answer_port(),
        ["takes"] => takes::takes(std::io::stdin().lock(), &mut std::io::stdout().lock()),
        ["takes", "input", seed] => takes_inputs::print_input(number(seed)),
        ["takes", "long", n, merges] => takes_inputs::print_long(number(n), number(merges)),
        ["takes", n, path] => exit_with(takes_inputs::compare(number(n), path)),
        _ => usage(),
    }
}

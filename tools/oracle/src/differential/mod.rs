//! The unedited Rust against the proved library: the same logs, inserts and questions, compared answer by answer.
//!
//! Arguments: --seed N, --logs N (random logs), --part NAME and --log N (that part, or that log of it, alone).
mod make;
mod panics;
mod questions;
mod random;
mod sides;
mod small;
mod tally;

use crate::recovery::K;
use tally::Tally;

struct Options {
    seed: u64,
    logs: u64,
    part: Option<String>,
    log: Option<u64>,
}

fn options() -> Options {
    let mut o = Options { seed: 1, logs: 10_000, part: None, log: None };
    let mut words = std::env::args().skip(1).filter(|w| w != "differential");
    while let Some(word) = words.next() {
        let value = words.next().unwrap_or_else(|| panic!("{word} wants a value"));
        let number = || value.parse().unwrap_or_else(|_| panic!("{word} wants a number"));
        match word.as_str() {
            "--seed" => o.seed = number(),
            "--logs" => o.logs = number(),
            "--log" => o.log = Some(number()),
            "--part" => o.part = Some(value),
            _ => panic!("unknown: {word}"),
        }
    }
    o
}

pub fn main() {
    let o = options();
    println!("k = {K}, seed {}: {} random logs, and the small ones", o.seed, o.logs);
    panics::keep_panics();
    let mut tally = Tally::new(o.seed);
    let ran = panics::caught(|| parts(&mut tally, &o));
    sides::clean();
    if let Err(panic) = ran {
        println!("the driver failed in part {}, log {}, k = {K}, seed {}: {}", tally.part, tally.log, o.seed, panic.0);
        std::process::exit(2);
    }
    tally.show();
}

fn parts(t: &mut Tally, o: &Options) {
    let wanted = |name: &str| o.part.as_deref().map_or(true, |p| p == name);
    if wanted("lists") {
        small::lists(t, o.log);
    }
    if wanted("ends") {
        small::ends(t, o.log);
    }
    if wanted("graphs") {
        small::graphs(t, o.log);
    }
    if wanted("cuts") {
        small::cuts(t, o.log, 40);
    }
    if wanted("random") {
        o.log.map_or(0..o.logs, |n| n..n + 1).for_each(|log| random::run(t, log));
    }
    if wanted("large") {
        small::large(t);
    }
}

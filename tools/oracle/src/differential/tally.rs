//! What was compared so far, and the end of the run at the first difference.
use crate::recovery::K;
use std::collections::BTreeMap;
use std::fmt::Debug;

/// Counts of comparisons by kind, and where the run is.
pub struct Tally {
    pub seed: u64,
    pub part: &'static str,
    pub log: u64,
    logs: BTreeMap<&'static str, u64>,
    answers: BTreeMap<&'static str, u64>,
    refusals: BTreeMap<(&'static str, u8), u64>,
    left_out: BTreeMap<&'static str, u64>,
}

impl Tally {
    pub fn new(seed: u64) -> Self {
        Self {
            seed,
            part: "",
            log: 0,
            logs: BTreeMap::new(),
            answers: BTreeMap::new(),
            refusals: BTreeMap::new(),
            left_out: BTreeMap::new(),
        }
    }

    /// A log begins.
    pub fn begin(&mut self, part: &'static str, log: u64) {
        (self.part, self.log) = (part, log);
        *self.logs.entry(part).or_default() += 1;
    }

    pub fn count(&mut self, kind: &'static str) {
        *self.answers.entry(kind).or_default() += 1;
    }

    /// Both sides must answer the same.
    pub fn same<T: PartialEq + Debug>(&mut self, kind: &'static str, rust: T, port: T) {
        self.count(kind);
        if rust != port {
            self.differ(kind, &format!("the Rust: {rust:?}\nthe port: {port:?}"));
        }
    }

    /// The port must hold to this, where the Rust has no answer to compare with.
    pub fn holds(&mut self, kind: &'static str, holds: bool, what: &dyn Debug) {
        self.count(kind);
        if !holds {
            self.differ(kind, &format!("the port: {what:?}"));
        }
    }

    /// The Rust panicked, and the port refused with this number.
    pub fn refused(&mut self, kind: &'static str, number: u8) {
        *self.refusals.entry((kind, number)).or_default() += 1;
    }

    /// The two differ here by design, and nothing is compared.
    pub fn leave_out(&mut self, kind: &'static str) {
        *self.left_out.entry(kind).or_default() += 1;
    }

    pub fn differ(&self, kind: &str, what: &str) -> ! {
        println!("DIFFERENCE in {kind}, part {}, log {}, k = {K}, seed {}", self.part, self.log, self.seed);
        println!("{}", what.chars().take(4000).collect::<String>());
        println!("again: bash tools/differential/run.sh --k {K} --seed {} --part {} --log {}", self.seed, self.part, self.log);
        super::sides::clean();
        std::process::exit(1);
    }

    /// The tables. The last line is for the sum over both builds.
    pub fn show(&self) {
        let sum = |m: &BTreeMap<&str, u64>| m.values().sum::<u64>();
        println!("| k = {K}: logs | |\n|---|---|");
        self.logs.iter().for_each(|(part, n)| println!("| {part} | {n} |"));
        println!("\n| k = {K}: answers compared | |\n|---|---|");
        self.answers.iter().for_each(|(kind, n)| println!("| {kind} | {n} |"));
        println!("\n| k = {K}: the Rust panics, the port refuses | number | |\n|---|---|---|");
        self.refusals.iter().for_each(|((kind, number), n)| println!("| {kind} | {number} | {n} |"));
        println!("\n| k = {K}: not compared | |\n|---|---|");
        self.left_out.iter().for_each(|(kind, n)| println!("| {kind} | {n} |"));
        let refusals: u64 = self.refusals.values().sum();
        println!(
            "\nk = {K} seed {} total: {} logs, {} answers, {refusals} refusals, 0 differences",
            self.seed,
            sum(&self.logs),
            sum(&self.answers)
        );
    }
}

//! Times of the unedited Rust and of the proved library, for the same inputs, in one process.
//!
//! The Rust's log is a file (in memory where the system has such a folder), the port's an image that holds the same bytes. What the
//! Rust does beside its answer is counted with it: a system call for each append, mapping the file and the first touch of its pages
//! in a walk and in recovery. Reading the file into the image, which is the caller's, is not counted for the port.
//!
//! Arguments: none for the tables; rows, for that table alone; or WHAT SIDE TIMES, for a count of instructions.
use crate::block_store::{BlockStore, BlockWriter, OwnBlockData};
use crate::committee::Committee;
use crate::data::Data;
use crate::metrics::Metrics;
use crate::recovery::{block_with, digest, position, K};
use crate::types::*;
use crate::wal::{open_file_for_wal, walf, WalReader, WalWriter};
use kadzhomir::Log;
use std::hint::black_box;
use std::path::PathBuf;
use std::sync::Arc;

/// The rounds of each measurement; the two sides take turns in each.
const ROUNDS: usize = 9;
const SIZES: [usize; 4] = [64, 400, 1 << 10, 64 << 10];
const BLOCKS: [u64; 3] = [1_000, 10_000, 100_000];
const AUTHORITIES: u64 = 4;

/// The payloads of a log, and how many of them an own block drops.
const PAYLOADS: u64 = 100_000;
const DROPPED: u64 = 10;

type PortStore = kadzhomir::BlockStore<Vec<u8>>;

fn path() -> PathBuf {
    let memory = PathBuf::from("/dev/shm");
    let folder = if memory.is_dir() { memory } else { std::env::temp_dir() };
    folder.join(format!("measure-{}", std::process::id()))
}

fn log_file() -> (WalWriter, WalReader) {
    walf(open_file_for_wal(path()).unwrap()).unwrap()
}

fn new_file() -> (WalWriter, WalReader) {
    let _ = std::fs::remove_file(path());
    log_file()
}

// ---- Times

/// The processor's time of this thread, system calls with it, in nanoseconds: other programs take none of it.
fn now() -> f64 {
    let mut t = libc::timespec { tv_sec: 0, tv_nsec: 0 };
    assert_eq!(unsafe { libc::clock_gettime(libc::CLOCK_THREAD_CPUTIME_ID, &mut t) }, 0);
    t.tv_sec as f64 * 1e9 + t.tv_nsec as f64
}

/// The time of one of `times` calls.
fn time(times: usize, mut call: impl FnMut()) -> f64 {
    let start = now();
    (0..times).for_each(|_| call());
    (now() - start) / times as f64
}

fn shown(ns: f64) -> String {
    match ns {
        n if n < 10.0 => format!("{n:.2} ns"),
        n if n < 1e3 => format!("{n:.0} ns"),
        n if n < 1e6 => format!("{:.2} µs", n / 1e3),
        n if n < 1e9 => format!("{:.2} ms", n / 1e6),
        n => format!("{:.2} s", n / 1e9),
    }
}

fn median(mut xs: Vec<f64>) -> f64 {
    xs.sort_by(f64::total_cmp);
    xs[xs.len() / 2]
}

/// A line of the table: the median of each side, and the least, the median and the greatest ratio of a round.
fn line(what: &str, mut round: impl FnMut() -> (f64, f64)) {
    let both: Vec<(f64, f64)> = (0..ROUNDS).map(|_| round()).collect();
    let ratios: Vec<f64> = both.iter().map(|(rust, port)| port / rust).collect();
    let (least, most) = ratios.iter().fold((f64::MAX, 0f64), |(l, m), r| (l.min(*r), m.max(*r)));
    let sides = [both.iter().map(|b| b.0).collect(), both.iter().map(|b| b.1).collect()].map(|xs| shown(median(xs)));
    println!("| {what} | {} | {} | {least:.2} | {:.2} | {most:.2} |", sides[0], sides[1], median(ratios));
}

fn head(title: &str) {
    head_of(title, "Rust", "port");
}

fn head_of(title: &str, first: &str, second: &str) {
    println!("\n{title}\n\n| | {first} | {second} | ratio: least | median | greatest |\n|---|---|---|---|---|---|");
}

// ---- Appends and walks

/// Enough entries for a steady time, in at most 64 MiB.
fn entries(size: usize) -> usize {
    (64 << 20) / (size + 16).max(6400)
}

fn append_rust(size: usize) -> f64 {
    let (mut writer, _reader) = new_file();
    let payload = vec![7; size];
    time(entries(size), || drop(black_box(writer.write(4, &payload).unwrap())))
}

fn append_port(image: &mut Vec<u8>, size: usize) -> f64 {
    let payload = vec![7; size];
    let mut log = Log::new(K, std::mem::take(image), 0);
    let t = time(entries(size), || drop(black_box(log.append_raw(4, &payload).unwrap())));
    *image = std::mem::take(log.image_mut());
    t
}

fn walk_rust() {
    let (writer, reader) = log_file();
    black_box(reader.iter_until(&writer).count());
}

fn walk_port(log: &Log<Vec<u8>>) {
    log.walk().unwrap();
}

fn logs(size: usize, count: usize) -> Log<Vec<u8>> {
    let (mut writer, _reader) = new_file();
    let payload: Vec<u8> = (0..size).map(|i| (i * 31 >> 3) as u8).collect();
    (0..count).for_each(|_| drop(writer.write(4, &payload).unwrap()));
    file_log()
}

/// The bytes of the file as the port's log.
fn file_log() -> Log<Vec<u8>> {
    let image = std::fs::read(path()).unwrap();
    let used = image.len() as u64;
    Log::new(K, image, used)
}

fn append_and_walk() {
    head("Append, for each entry");
    let mut image = vec![1; 128 << 20];
    for size in SIZES {
        line(&format!("{size} bytes"), || (append_rust(size), append_port(&mut image, size)));
    }
    drop(image);
    head("Walk, for each entry");
    for size in SIZES {
        let n = entries(size);
        let log = logs(size, n);
        line(&format!("{size} bytes"), || (time(1, walk_rust) / n as f64, time(1, || walk_port(&log)) / n as f64));
    }
}

/// The port's checksum has no call of its own: it is what a walk takes beyond a walk of as many entries of one byte. What crc32fast takes for
/// the first byte of each is left out too. The log has no padding: it lies within one region.
fn checksum() {
    head("The checksum, for each byte but a payload's first: crc32fast, and the port by walks");
    for size in SIZES {
        let n = entries(size);
        let small = logs(1, n);
        let log = logs(size, n);
        let hash = |end: usize| {
            for entry in log.image().chunks_exact(size + 16) {
                black_box(crc32fast::hash(&entry[16..end]));
            }
        };
        let bytes = (n * (size - 1)) as f64;
        line(&format!("{size} bytes"), || {
            let rust = time(1, || hash(16 + size)) - time(1, || hash(17));
            let port = time(1, || walk_port(&log)) - time(1, || walk_port(&small));
            (rust / bytes, port / bytes)
        });
    }
}

// ---- Recovery and lookups

fn block(i: u64) -> Data<StatementBlock> {
    let (authority, round) = (i % AUTHORITIES, i / AUTHORITIES + 1);
    let below = |a| reference((round - 2) * AUTHORITIES + a);
    let includes = if round > 1 { (0..3).map(below).collect() } else { vec![] };
    block_with(authority, round, &i.to_be_bytes(), includes, vec![BaseStatement::Share(Transaction::new(vec![5; 64]))])
}

fn reference(i: u64) -> BlockReference {
    let (authority, round) = (i % AUTHORITIES, i / AUTHORITIES + 1);
    *block_with(authority, round, &i.to_be_bytes(), vec![], vec![]).reference()
}

fn port_reference(r: &BlockReference) -> kadzhomir::BlockReference {
    kadzhomir::BlockReference { authority: r.authority, round: r.round, digest: digest(r) }
}

/// A log of n blocks of 4 authors in rising rounds; each own block drops what was pending before it.
fn block_log(n: u64) -> Log<Vec<u8>> {
    let (mut writer, _reader) = new_file();
    for i in 0..n {
        if i % AUTHORITIES == 0 {
            OwnBlockData { next_entry: position(u64::MAX), block: block(i) }.write_to_wal(&mut writer);
        } else {
            writer.write(1, block(i).serialized_bytes()).unwrap();
        }
    }
    file_log()
}

fn open_rust() -> (BlockStore, Arc<Metrics>) {
    let (writer, reader) = log_file();
    let metrics = Arc::new(Metrics::default());
    let committee = Committee::new_test(vec![1; AUTHORITIES as usize]);
    (BlockStore::open(0, Arc::new(reader), &writer, metrics.clone(), &committee).block_store, metrics)
}

/// The rows that this log needs, so that one call recovers it.
fn rows(n: u64) -> [usize; 4] {
    [8, n as usize, 0, n as usize]
}

fn recover_port(log: Log<Vec<u8>>, rows: [usize; 4]) -> PortStore {
    log.recover_in_rows(AUTHORITIES, 0, rows).unwrap().0
}

/// Recovers a log and takes it back; the rest of the store is dropped.
fn recover_and_drop(log: &mut Log<Vec<u8>>, recover: impl FnOnce(Log<Vec<u8>>) -> PortStore) {
    let taken = std::mem::replace(log, Log::new(K, Vec::new(), 0));
    *log = black_box(recover(taken)).into_log();
}

fn recovery_and_lookups() {
    for n in BLOCKS {
        let mut log = block_log(n);
        head(&format!("{n} blocks, a log of {} bytes", log.used()));
        line("recovery", || {
            let rust = time(1, || drop(black_box(open_rust())));
            (rust, time(1, || recover_and_drop(&mut log, |l| recover_port(l, rows(n)))))
        });
        let log = lookups(log, n);
        inserts(log, n);
    }
}

/// A log of payloads, which own blocks drop, and the rows that it needs.
fn payload_log() -> (Log<Vec<u8>>, [usize; 4]) {
    let (mut writer, _reader) = new_file();
    let payload = bincode::serialize(&vec![BaseStatement::Share(Transaction::new(vec![5; 64]))]).unwrap();
    let own_blocks = PAYLOADS / DROPPED;
    for i in 1..=own_blocks {
        (0..DROPPED).for_each(|_| drop(writer.write(2, &payload).unwrap()));
        let block = block_with(0, i, &i.to_be_bytes(), vec![], vec![]);
        OwnBlockData { next_entry: position(u64::MAX), block }.write_to_wal(&mut writer);
    }
    (file_log(), [DROPPED as usize, own_blocks as usize, 0, own_blocks as usize])
}

/// What it takes the port to size the rows by the log: a recovery in rows that are given, and one without them.
fn sized_rows() {
    head_of("Recovery by the port, in rows given and in rows sized by the log", "given", "sized");
    for n in BLOCKS {
        sized_line(&format!("{n} blocks"), block_log(n), rows(n));
    }
    let (log, rows) = payload_log();
    sized_line(&format!("{PAYLOADS} payloads, {DROPPED} dropped by each own block"), log, rows);
}

fn sized_line(what: &str, mut log: Log<Vec<u8>>, rows: [usize; 4]) {
    let times = (200_000_000 / log.used()).clamp(1, 100) as usize;
    line(what, || {
        let given = time(times, || recover_and_drop(&mut log, |l| recover_port(l, rows)));
        (given, time(times, || recover_and_drop(&mut log, |l| l.recover(AUTHORITIES, 0).unwrap().0)))
    });
}

/// Blocks of rounds above those in the log. The Rust writes each to its file.
fn inserts(log: Log<Vec<u8>>, n: u64) {
    const EACH: usize = 20;
    let (mut writer, _reader) = log_file();
    let (rust, _metrics) = open_rust();
    let mut port = recover_port(log, rows(n));
    let room = port.log().image().len() + (1 << 20);
    port.image_mut().resize(room, 0);
    let mut blocks = (n..).filter(|i| i % AUTHORITIES != 0).map(block);
    line("insert_block", || {
        let some: Vec<_> = blocks.by_ref().take(EACH).collect();
        let (mut a, mut b) = (some.iter(), some.iter());
        let rust = time(EACH, || drop((&mut writer, &rust).insert_block(a.next().unwrap().clone())));
        (rust, time(EACH, || drop(port.insert_block(b.next().unwrap().serialized_bytes()).unwrap())))
    });
}

/// Blocks spread over the log, one after the other.
struct Asked(u64, u64);

impl Asked {
    fn next(&mut self) -> u64 {
        self.0 = (self.0 + 7919) % self.1;
        self.0
    }
}

/// The log is given back.
fn lookups(log: Log<Vec<u8>>, n: u64) -> Log<Vec<u8>> {
    let (rust, _metrics) = open_rust();
    let port = recover_port(log, rows(n));
    let (often, times) = (2_000, (2_000_000 / n).max(20) as usize);
    let references: Vec<BlockReference> = (0..n).map(reference).collect();
    let ported: Vec<kadzhomir::BlockReference> = references.iter().map(port_reference).collect();
    let (mut a, mut b) = (Asked(0, n), Asked(0, n));
    let mut round = |i: &mut Asked| i.next() / AUTHORITIES + 1;
    line("get_block", || {
        let rust = time(often, || drop(black_box(rust.get_block(references[a.next() as usize]))));
        (rust, time(times, || drop(black_box(port.get_block(&ported[b.next() as usize]).unwrap()))))
    });
    line("block_exists", || {
        let rust = time(often, || drop(black_box(rust.block_exists(references[a.next() as usize]))));
        (rust, time(times, || drop(black_box(port.block_exists(&ported[b.next() as usize]).unwrap()))))
    });
    line("get_blocks_by_round", || {
        let rust = time(often, || drop(black_box(rust.get_blocks_by_round(round(&mut a)))));
        (rust, time(times, || drop(black_box(port.get_blocks_by_round(round(&mut b)).unwrap()))))
    });
    line("get_own_blocks, 10 of them", || {
        let rust = time(often, || drop(black_box(rust.get_own_blocks(round(&mut a), 10))));
        (rust, time(times, || drop(black_box(port.get_own_blocks(round(&mut b), 10).unwrap()))))
    });
    line("get_others_blocks, 10 rounds", || {
        let rust = time(often, || drop(black_box(rust.get_others_blocks(round(&mut a), 1, 10))));
        (rust, time(times, || drop(black_box(port.get_others_blocks(round(&mut b), 1, 10).unwrap()))))
    });
    line("get_transaction", || {
        let rust = time(often, || drop(black_box(rust.get_transaction(&TransactionLocator::new(references[a.next() as usize], 0)))));
        (rust, time(times, || drop(black_box(port.get_transaction(&ported[b.next() as usize], 0).unwrap()))))
    });
    linked(n, &rust, &port);
    port.into_log()
}

/// An ancestor five rounds below.
fn linked(n: u64, rust: &BlockStore, port: &PortStore) {
    let (later, earlier) = (block(n - 1), block(n - 1 - 5 * AUTHORITIES));
    let earlier_reference = port_reference(earlier.reference());
    let times = (2_000_000 / n).max(20) as usize;
    line("linked, five rounds", || {
        let rust = time(1_000, || drop(black_box(rust.linked(&later, &earlier))));
        (rust, time(times, || drop(black_box(port.linked(later.serialized_bytes(), &earlier_reference).unwrap()))))
    });
}

// ---- Counting instructions

/// Does one thing so many times, on one side: two runs with different numbers show what one takes.
fn counted(what: &str, port: bool, times: usize) {
    let n = BLOCKS[0];
    let mut log = if what == "walk" { logs(1 << 10, 1_000) } else { block_log(n) };
    let (rust, _metrics) = open_rust_if(what != "walk");
    let store = rust.is_some().then(|| recover_port(Log::new(K, log.image().to_vec(), log.used()), rows(n)));
    let r = reference(n / 2);
    let ported = port_reference(&r);
    for _ in 0..times {
        match (what, port) {
            ("walk", false) => walk_rust(),
            ("walk", true) => walk_port(&log),
            ("recovery", false) => drop(black_box(open_rust())),
            ("recovery", true) => recover_and_drop(&mut log, |l| recover_port(l, rows(n))),
            ("get_block", false) => drop(black_box(rust.as_ref().unwrap().get_block(r))),
            ("get_block", true) => drop(black_box(store.as_ref().unwrap().get_block(&ported))),
            _ => panic!("walk, recovery or get_block"),
        }
    }
}

fn open_rust_if(wanted: bool) -> (Option<BlockStore>, Option<Arc<Metrics>>) {
    if !wanted {
        return (None, None);
    }
    let (store, metrics) = open_rust();
    (Some(store), Some(metrics))
}

pub fn main() {
    let words: Vec<String> = std::env::args().skip(1).collect();
    match &words[..] {
        [what, side, times] => counted(what, side == "port", times.parse().expect("a number")),
        [what] if what == "rows" => sized_rows(),
        _ => {
            println!("Processor time; {ROUNDS} rounds each; the ratio is the second time over the first.");
            append_and_walk();
            checksum();
            recovery_and_lookups();
            sized_rows();
        }
    }
    let _ = std::fs::remove_file(path());
}

//! The recovery page: how many lines it has and how wide they are, what it shows, and what is left of it where a log is refused.
mod common;

use common::{block, own_block, payload, Folder};
use kadzhomir::{Log, Node, Options, Refusal};
use std::error::Error;
use std::fs;
use std::process::{Command, Output};

/// A log of k = 16 with these entries.
fn log(entries: impl IntoIterator<Item = (u32, Vec<u8>)>) -> Log<Vec<u8>> {
    let mut log = Log::new(16, vec![0; 1 << 20], 0);
    for (tag, payload) in entries {
        log.append_raw(tag, &payload).unwrap();
    }
    log
}

/// Payloads that wait.
fn cards(n: usize) -> impl Iterator<Item = (u32, Vec<u8>)> {
    (0..n).map(|i| (2, payload(format!("card {i}").as_bytes())))
}

/// The line of a pending payload.
fn row(position: u64) -> String {
    format!("{position:13} payload {:50}", "")
}

fn foot(pending: usize, stop: &str) -> String {
    format!("{:72}", format!("{pending:13} {:13} {:13} {stop}", 0, 0))
}

/// The page of a log with these payloads alone: 58 rows between each heading and foot.
fn wanted(positions: &[u64]) -> String {
    let none = [&[][..]];
    let pages: Vec<&[u64]> = if positions.is_empty() { none.to_vec() } else { positions.chunks(58).collect() };
    let lines = pages.into_iter().flat_map(|page| {
        let rows = page.iter().map(|p| row(*p));
        [format!("{:72}", "PENDING")].into_iter().chain(rows).chain([foot(positions.len(), "END")])
    });
    lines.map(|line| line + "\n").collect()
}

fn positions(log: &Log<Vec<u8>>) -> Vec<u64> {
    log.entries().map(|e| e.unwrap().position.0).collect()
}

fn tool(folder: &Folder, words: &[&str]) -> Output {
    Command::new(env!("CARGO_BIN_EXE_kadzhomir")).args(words).current_dir(&folder.0).output().unwrap()
}

/// Every number of rows up to three pages: the buffer is then exactly as long as the text.
#[test]
fn each_number_of_rows() {
    for n in 0..=180 {
        let log = log(cards(n));
        let text = log.recovery_page(4, 0).unwrap();
        assert_eq!(text.len(), 73 * (n + 2 * n.div_ceil(58).max(1)));
        assert_eq!(text, wanted(&positions(&log)));
    }
}

#[test]
fn ten_thousand_payloads() {
    let folder = Folder::in_memory();
    let mut node = Node::create(folder.file("log"), &Options::new(4, 0)).unwrap();
    node.batch(|node| (0..10_000).try_for_each(|i: u32| node.append_payload(&payload(&i.to_le_bytes())).map(|_| ()))).unwrap();
    let text = node.log().recovery_page(4, 0).unwrap();
    assert_eq!(text.lines().count(), 10_000 + 2 * 173);
    assert!(text.lines().all(|line| line.len() == 72));
    assert_eq!(text.len(), 73 * text.lines().count());
    let positions: Vec<u64> = node.log().entries().map(|e| e.unwrap().position.0).collect();
    assert_eq!(text, wanted(&positions));
    drop(node);
    let output = tool(&folder, &["recover", "log", "--page"]);
    assert_eq!((output.status.code(), output.stderr), (Some(0), vec![]));
    assert_eq!(output.stdout, text.as_bytes());
}

/// Where an own block drops what waited, more rows are lent than the page has.
#[test]
fn what_was_dropped_has_no_row() {
    let mut log = log(cards(200));
    let kept = positions(&log)[190];
    log.append_raw(3, &own_block(kept, 0, 1)).unwrap();
    log.append_raw(1, &block(3, u64::MAX)).unwrap();
    let last = positions(&log)[201];
    let text = log.recovery_page(4, 0).unwrap();
    let lines: Vec<&str> = text.lines().collect();
    assert_eq!(lines.len(), 10 + 1 + 2);
    assert_eq!(lines[1..11], positions(&log)[190..200].iter().map(|p| row(*p)).collect::<Vec<_>>());
    assert_eq!(lines[11], format!("{:72}", format!("{last:13} block      3 {}", u64::MAX)));
    assert_eq!(lines[12], format!("{:72}", "           11             2             0 END"));
    assert_eq!(text.len(), 73 * lines.len());
}

/// Every cut: the rows are those of the entries that are whole.
#[test]
fn after_every_cut() {
    let log = log(cards(3));
    let whole: Vec<_> = log.entries().map(|e| e.unwrap()).collect();
    for used in 0..=log.used() {
        let text = Log::new(16, log.image(), used).recovery_page(4, 0).unwrap();
        let kept: Vec<_> = whole.iter().filter(|e| e.end().0 <= used).collect();
        let stop = if kept.last().map_or(0, |e| e.end().0) == used { "END" } else { "TORN" };
        let lines: Vec<&str> = text.lines().collect();
        assert_eq!(lines[1..lines.len() - 1], kept.iter().map(|e| row(e.position.0)).collect::<Vec<_>>());
        assert_eq!(*lines.last().unwrap(), foot(kept.len(), stop), "used {used}");
    }
}

#[test]
fn a_refused_log_has_its_number_alone() {
    let damaged = |at: usize| {
        let mut log = log(cards(100));
        log.image_mut()[at] ^= 1;
        log
    };
    let bad = || vec![9; 3];
    for (log, committee, number) in [
        (Log::new(5, vec![0; 64], 65), 0, 1),
        (Log::new(6, vec![0; 64], 65), 0, 2),
        (Log::new(6, vec![0; 64], u64::MAX), 0, 2),
        (damaged(0), 0, 18),
        (damaged(0), 4, 7),
        (damaged(8), 4, 7),
        (log([(6, vec![])]), 4, 8),
        (log([(1, bad())]), 4, 9),
        (log([(3, bad())]), 4, 10),
        (log(cards(70).chain([(2, bad())])), 4, 11),
        (log([(5, bad())]), 4, 12),
        (log([(1, block(4, 1))]), 4, 13),
        (log([(3, own_block(0, 0, 1)), (1, block(0, 1))]), 4, 14),
    ] {
        let refused = log.recovery_page(committee, 0).unwrap_err();
        assert_eq!(refused.refusal.number(), number);
        assert_eq!(refused.text, format!("{number:13}{:59}\n", ""));
        assert_eq!(refused.to_string(), refused.refusal.to_string());
        assert_eq!(refused.source().unwrap().to_string(), refused.refusal.to_string());
        // Recovery refuses the same.
        assert_eq!(log.recover(committee, 0).unwrap_err().refused.refusal, refused.refusal);
    }
}

/// What the tool prints where a node would not open the log is the line that the call writes.
#[test]
fn the_tools_refusal_is_the_calls() {
    let folder = Folder::in_memory();
    let log = log([(1, block(0, 1)), (6, vec![])]);
    let refused = log.recovery_page(1, 0).unwrap_err();
    assert_eq!(refused.refusal, Refusal::Tag);
    let mut node = Node::create(folder.file("log"), &Options::new(1, 0).exponent(16)).unwrap();
    node.append_raw(1, &block(0, 1)).unwrap();
    node.append_raw(6, &[]).unwrap();
    node.sync().unwrap();
    drop(node);
    let output = tool(&folder, &["recover", "log", "--page"]);
    assert_eq!((output.status.code(), output.stdout), (Some(2), refused.text.into_bytes()));
    let told = String::from_utf8(output.stderr).unwrap();
    assert!(told.contains("damaged at 177") && told.contains("refusal 8"), "{told}");
}

/// A log that ends before its known length has no refusal, and so no line.
#[test]
fn a_short_log_has_no_line() {
    let folder = Folder::in_memory();
    let mut node = Node::create(folder.file("log"), &Options::new(4, 0)).unwrap();
    node.append_payload(&payload(b"card")).unwrap();
    node.sync().unwrap();
    drop(node);
    let bytes = fs::read(folder.file("log")).unwrap();
    fs::write(folder.file("log"), &bytes[..30]).unwrap();
    let output = tool(&folder, &["recover", "log", "--page"]);
    assert_eq!((output.status.code(), output.stdout), (Some(2), vec![]));
    assert!(String::from_utf8(output.stderr).unwrap().contains("damaged at 30"));
}

/// The cuts that opening would make are told on standard error: standard output has the page alone.
#[test]
fn the_page_behind_a_cut() {
    let folder = Folder::in_memory();
    let mut node = Node::create(folder.file("log"), &Options::new(4, 0)).unwrap();
    node.append_payload(&payload(b"known")).unwrap();
    node.sync().unwrap();
    let second = node.append_payload(&payload(b"second")).unwrap().0;
    let third = node.append_payload(&payload(b"third")).unwrap().0;
    drop(node);
    let mut bytes = fs::read(folder.file("log")).unwrap();
    bytes[third as usize + 16] ^= 1;
    fs::write(folder.file("log"), &bytes).unwrap();
    let output = tool(&folder, &["recover", "log", "--page"]);
    assert_eq!(output.status.code(), Some(1));
    assert_eq!(String::from_utf8(output.stderr).unwrap(), format!("kadzhomir: cut 7 {third}\n"));
    assert_eq!(String::from_utf8(output.stdout).unwrap(), wanted(&[0, second]));
}

//! The walk over a file, one region at a time, against the walk over the whole log, on logs that are sound, cut, damaged and hostile.
mod common;

use common::{Folder, Random};
use kadzhomir::{Error, Log, Look, RefusedAt, Stop, WalPosition};
use std::fs;

/// Entries by position, tag and length, the place reached, and the stop or the refusal.
type Walked = (Vec<(u64, u32, u64)>, u64, Option<Stop>, Option<(u8, u64)>);

fn whole(k: u64, bytes: &[u8], from: u64) -> Walked {
    let log = Log::new(k, bytes, bytes.len() as u64);
    let (mut entries, mut listed, mut refused) = (log.entries_from(WalPosition(from)), Vec::new(), None);
    for step in entries.by_ref() {
        match step {
            Ok(e) => listed.push((e.position.0, e.tag, e.len)),
            Err(RefusedAt { refusal, start }) => refused = Some((refusal.number(), start.0)),
        }
    }
    (listed, entries.end().0, entries.stop(), refused)
}

fn by_regions(look: &Look, from: u64) -> Walked {
    let (mut entries, mut listed, mut refused) = (look.entries_from(WalPosition(from)).unwrap(), Vec::new(), None);
    for step in entries.by_ref() {
        match step {
            Ok(e) => listed.push((e.position.0, e.tag, e.len)),
            Err(Error::Refused { refusal, start }) => refused = Some((refusal.number(), start.unwrap().0)),
            Err(error) => panic!("{error}"),
        }
    }
    (listed, entries.end().0, entries.stop(), refused)
}

/// A log with entries of many lengths, so that regions end in every way.
fn log(random: &mut Random, k: u64) -> Vec<u8> {
    let mut log = Log::new(k, vec![0; 1 << 12], 0);
    for _ in 0..random.below(30) {
        let len = random.below(1 << k) as usize;
        let _ = log.append_raw(random.below(6) as u32, &random.bytes(len));
    }
    let used = log.used() as usize;
    log.into_image()[..used].to_vec()
}

/// Cut, changed, with zeros over a part or behind it.
fn spoiled(random: &mut Random, mut bytes: Vec<u8>) -> Vec<u8> {
    let places = bytes.len() as u64 + 1;
    match random.below(6) {
        0 => bytes.truncate(random.below(places) as usize),
        1 if !bytes.is_empty() => {
            let at = random.below(places - 1) as usize;
            bytes[at] ^= 1 << random.below(8);
        }
        2 => {
            let at = random.below(places) as usize;
            let to = bytes.len().min(at + random.below(200) as usize);
            bytes[at..to].fill(0);
        }
        3 => bytes.resize(bytes.len() + random.below(300) as usize, 0),
        4 => {
            let n = random.below(40) as usize;
            bytes.extend(random.bytes(n));
        }
        _ => (),
    }
    bytes
}

#[test]
fn one_region_at_a_time_is_the_walk() {
    let (folder, mut random) = (Folder::in_memory(), Random(7));
    let path = folder.file("log");
    let mut ends = std::collections::HashSet::new();
    for round in 0..6000 {
        let k = 6 + random.below(3);
        let made = log(&mut random, k);
        let bytes = spoiled(&mut random, made);
        fs::write(&path, &bytes).unwrap();
        let look = Look::at(&path, Some(k)).unwrap();
        // From the start, and from each entry's end.
        let all = whole(k, &bytes, 0);
        for from in std::iter::once(0).chain(all.0.iter().map(|(p, _, len)| p + 16 + len)) {
            let expected = whole(k, &bytes, from);
            ends.insert((expected.2, expected.3.map(|r| r.0)));
            assert_eq!(by_regions(&look, from), expected, "round {round}, k {k}, from {from}");
        }
        for (position, tag, len) in all.0 {
            let (entry, payload) = look.read(WalPosition(position)).unwrap();
            assert_eq!((entry.position.0, entry.tag, payload.len() as u64), (position, tag, len), "round {round}");
        }
    }
    // Each stop, and each refusal of a walk, was there.
    assert_eq!(ends.len(), 6, "{ends:?}");
}

#[test]
fn what_no_log_has() {
    let folder = Folder::in_memory();
    let path = folder.file("log");
    fs::write(&path, [0; 100]).unwrap();
    for k in [0, 5, 29, 64, u64::MAX] {
        let look = Look::at(&path, Some(k)).unwrap();
        assert_eq!(look.entries_from(WalPosition(0)).unwrap_err().refusal().map(|r| r.number()), Some(1));
        assert_eq!(look.read(WalPosition(0)).unwrap_err().refusal().map(|r| r.number()), Some(1));
    }
    let look = Look::at(&path, Some(6)).unwrap();
    assert_eq!(look.entries_from(WalPosition(101)).unwrap_err().refusal().map(|r| r.number()), Some(2));
    // A large file that is nearly all a hole is read as far as the walk goes.
    fs::File::options().write(true).open(&path).unwrap().set_len(1 << 39).unwrap();
    let look = Look::at(&path, Some(16)).unwrap();
    let mut entries = look.entries_from(WalPosition(0)).unwrap();
    assert!(entries.next().is_none());
    assert_eq!(entries.stop(), Some(Stop::Zeros));
}

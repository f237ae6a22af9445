//! Small logs, all of them: every list of up to four entries, every end of a region, every small graph of blocks, and every cut.
use super::make::Maker;
use super::sides::{same_state, Logs, REGION};
use super::tally::Tally;
use crate::committee::Committee;
use crate::data::Data;
use crate::metrics::Metrics;
use crate::recovery::{answer_of, block_with, commit, share, Entries, K};
use crate::types::*;
use kadzhomir::Log;
use minibytes::Bytes;
use rand::Rng;
use std::sync::Arc;

/// The entries of which every list is tried.
const LETTERS: u64 = 11;
const LONGEST: u32 = 4;

/// Every list of up to four entries.
pub fn lists(t: &mut Tally, only: Option<u64>) {
    let all: u64 = (0..=LONGEST).map(|n| LETTERS.pow(n)).sum();
    for log in only.map_or(0..all, |n| n..n + 1) {
        t.begin("lists", log);
        list(t, log);
    }
}

fn list(t: &mut Tally, mut code: u64) {
    let mut length = 0;
    while code >= LETTERS.pow(length) {
        code -= LETTERS.pow(length);
        length += 1;
    }
    let mut logs = Logs::new(4096);
    let (mut own_round, mut start) = (0, 0);
    for _ in 0..length {
        let (tag, payload) = letter(code % LETTERS, &mut own_round, start);
        start = logs.append(t, tag, &payload).unwrap();
        code /= LETTERS;
    }
    logs.same_bytes(t, 0);
    logs.same_entries(t);
    if let Some(stores) = logs.open(t, 4, 0) {
        stores.same_summary(t, &logs);
    }
}

/// An entry: blocks of others, own blocks with three next entries, payloads, states and commits. Own blocks get rounds of their own.
fn letter(n: u64, own_round: &mut u64, start: u64) -> (u32, Vec<u8>) {
    let mut own = |next: u64| {
        *own_round += 1;
        (3, [&next.to_le_bytes()[..], block_with(0, *own_round, &[], vec![], vec![]).serialized_bytes()].concat())
    };
    let (a, b) = (block_with(1, 1, &[], vec![], vec![share("a")]), block_with(2, 3, &[7], vec![], vec![]));
    match n {
        0 => (1, a.serialized_bytes().to_vec()),
        1 => (1, b.serialized_bytes().to_vec()),
        2 => own(0),
        3 => own(u64::MAX),
        4 => own(start),
        5 => (2, bincode::serialize(&vec![share("x")]).unwrap()),
        6 => (2, vec![0xff; 7]),
        7 => (4, b"s".to_vec()),
        8 => (4, vec![]),
        9 => (5, committed(vec![commit(*b.reference(), vec![*b.reference(), *a.reference()])], b"c")),
        _ => (5, committed(vec![], b"")),
    }
}

fn committed(commits: Vec<crate::block_store::CommitData>, state: &[u8]) -> Vec<u8> {
    let state: Bytes = state.to_vec().into();
    bincode::serialize(&(commits, state)).unwrap()
}

/// Every number of bytes left in a region, and every short payload after it, for a few more than a header has.
pub fn ends(t: &mut Tally, only: Option<u64>) {
    const MOST: u64 = 36;
    let mut image = vec![0; REGION as usize + 4096];
    for log in only.map_or(0..MOST * MOST, |n| n..n + 1) {
        t.begin("ends", log);
        image = end(t, log / MOST, (log % MOST) as usize, image);
    }
}

/// A log that goes on `left` bytes before a region's end. In regions of 2^28 bytes those before are zeros behind one entry, and the
/// walk skips them; in those of 2^16 an entry fills them, which the walk lists.
fn end(t: &mut Tally, left: u64, n: usize, mut image: Vec<u8>) -> Vec<u8> {
    let from = REGION - left;
    let first = if K == 16 { vec![left as u8; from as usize - 16] } else { b"first".to_vec() };
    image[REGION as usize - 64..].fill(0xa5);
    if K != 16 {
        image[REGION as usize - 64..from as usize].fill(0);
    }
    let mut logs = Logs::of(&[], image);
    logs.append(t, 4, &first);
    if K != 16 {
        logs.file.set_len(from).unwrap();
        let (file, image) = (logs.file.try_clone().unwrap(), std::mem::take(logs.port.image_mut()));
        logs = Logs::resume(file, Log::new(K, image, from));
    }
    let block = block_with(1, 1, &[], vec![], vec![]);
    for (tag, payload) in [(4, &vec![9; n][..]), (1, block.serialized_bytes()), (2, &[0; 8])] {
        logs.append(t, tag, payload);
    }
    logs.same_length(t);
    logs.same_bytes(t, REGION - 64);
    logs.same_entries(t);
    logs.open(t, 4, 0);
    std::mem::take(logs.port.image_mut())
}

/// A log of two regions of 2^28 bytes, the first filled by large payloads.
pub fn large(t: &mut Tally) {
    if K == 16 {
        return;
    }
    t.begin("large", 0);
    let mut logs = Logs::new(REGION as usize * 2);
    let payload: Vec<u8> = (0..REGION - 200).map(|i| (i * i >> 7) as u8).collect();
    logs.append(t, 4, &vec![1; REGION as usize - 15]);
    logs.append(t, 4, &payload);
    logs.append(t, 4, &payload[..100]);
    logs.append(t, 1, block_with(1, 1, &[], vec![], vec![]).serialized_bytes());
    logs.append(t, 4, &payload[..1 << 20]);
    logs.same_length(t);
    logs.same_bytes(t, 0);
    logs.same_entries(t);
    if let Some(mut stores) = logs.open(t, 4, 0) {
        let block = block_with(2, 2, &[], vec![*block_with(1, 1, &[], vec![], vec![]).reference()], vec![]);
        stores.insert(t, &mut logs, None, &block);
        stores.ask_round(t, &logs, 1);
        stores.ask_round(t, &logs, 2);
        logs.same_bytes(t, REGION - 200);
    }
}

/// Three rounds of two authors, each block over any of the two before it; all there, or one of the six missing.
pub fn graphs(t: &mut Tally, only: Option<u64>) {
    for log in only.map_or(0..256 * 7, |n| n..n + 1) {
        t.begin("graphs", log);
        graph(t, log / 7, log % 7);
    }
}

fn graph(t: &mut Tally, arrows: u64, missing: u64) {
    let mut blocks: Vec<Data<StatementBlock>> = Vec::new();
    for i in 0..6u64 {
        let (authority, round) = (1 + i % 2, 1 + i / 2);
        let below = (round - 1) as usize * 2;
        let named = (0..2).filter(|j| round > 1 && arrows >> (2 * (i - 2) + j) & 1 == 1);
        let includes = named.map(|j| *blocks[below - 2 + j as usize].reference()).collect();
        blocks.push(block_with(authority, round, &[], includes, vec![]));
    }
    let mut logs = Logs::new(8192);
    let mut stores = logs.open(t, 4, 0).unwrap();
    for (i, block) in blocks.iter().enumerate() {
        if i as u64 != missing {
            stores.insert(t, &mut logs, None, block);
        }
    }
    stores.cleanup(t, &mut logs, 2);
    for later in &blocks {
        for earlier in &blocks {
            stores.ask_linked(t, &logs, later, earlier);
        }
    }
}

/// Every cut of small random logs. The bytes behind the cut are others; the Rust opens the entries that are whole.
pub fn cuts(t: &mut Tally, only: Option<u64>, logs: u64) {
    for log in only.map_or(0..logs, |n| n..n + 1) {
        t.begin("cuts", log);
        let mut m = Maker::new(t.seed.wrapping_mul(999_983).wrapping_add(log));
        m.hostile = false;
        let mut logs = Logs::new(if K == 16 { 3 << 16 } else { 1 << 14 });
        write(t, &mut m, &mut logs);
        if K == 16 && log % 4 == 0 {
            // On to the next region, with no bytes left over or with padding.
            let left = REGION - logs.port.used() - 16 - [0, 16, 50][m.r.gen_range(0..3)];
            logs.append(t, 4, &vec![3; left as usize]);
            write(t, &mut m, &mut logs);
        }
        cut_everywhere(t, &mut m, &logs);
    }
}

fn write(t: &mut Tally, m: &mut Maker, logs: &mut Logs) {
    for _ in 0..m.r.gen_range(2..8) {
        if let Some((tag, payload)) = m.entry() {
            logs.append(t, tag, &payload);
        }
    }
}

/// Every place to cut a small log at; in a large one, those about the ends of entries and of regions.
fn places(used: u64, ends: &[u64]) -> Vec<u64> {
    let near = |c: &u64| used < REGION.min(1 << 14) || ends.iter().chain(&[0, REGION, used]).any(|e| c.abs_diff(*e) < 40);
    (0..=used).filter(near).collect()
}

fn cut_everywhere(t: &mut Tally, m: &mut Maker, logs: &Logs) {
    let (used, whole) = (logs.port.used(), logs.port.image().to_vec());
    let ends: Vec<u64> = Entries::of(&logs.reader, &logs.writer).0.iter().map(|(p, _, data)| p + 16 + data.len() as u64).collect();
    let mut rust = None;
    for cut in places(used, &ends) {
        let mut image = whole.clone();
        image[cut as usize..].fill(m.r.gen());
        let log = Log::new(K, image, cut);
        let (store, port) = log.recover(m.size as u64, m.own).unwrap_or_else(|r| t.differ("cuts", &format!("cut at {cut}: {r}")));
        let end = ends.iter().copied().filter(|e| *e <= cut).max().unwrap_or(0);
        t.same("cut: E, unread, writer", (end, cut - end, end), (port.end().0, port.unread(), store.log().used()));
        if rust.as_ref().map(|(e, _)| *e) != Some(end) {
            rust = Some((end, opened(&whole[..end as usize], m.size, m.own)));
        }
        same_state(t, &rust.as_ref().unwrap().1, &port, &store);
    }
}

/// What the Rust recovers from these bytes.
fn opened(bytes: &[u8], size: usize, own: u64) -> crate::recovery::Answer {
    let logs = Logs::of(bytes, bytes.to_vec());
    let committee = Committee::new_test(vec![1; size]);
    let r = crate::block_store::BlockStore::open(own, logs.reader.clone(), &logs.writer, Arc::new(Metrics::default()), &committee);
    answer_of(&r, &Entries::of(&logs.reader, &logs.writer), size)
}

//! What a crash can leave of a log's file: nothing that was acknowledged is lost, and the node starts each time.
mod common;

use common::{block, example, listed, own_block, payload, Folder, Listed, Random};
use kadzhomir::{Node, Options};
use std::fs;
use std::io::{BufRead, BufReader, Write};
use std::path::{Path, PathBuf};
use std::process::{Child, Stdio};
use std::time::Duration;

const K: u64 = 10;
const PAGE: usize = 4096;

fn options() -> Options {
    Options::new(4, 0).exponent(K)
}

/// A log, the node file as it was at its last sync, and what was acknowledged.
struct Crashed {
    bytes: Vec<u8>,
    known: usize,
    node_file: Vec<u8>,
    acknowledged: Listed,
}

/// Some changes of every kind.
fn changes(node: &mut Node, random: &mut Random, count: usize) {
    for _ in 0..count {
        let text = random.below(120) as usize;
        let text = random.bytes(text);
        let round = node.store().highest_round() + 1;
        match random.below(6) {
            0 => node.append_state(&text),
            1 => node.insert_block(&block(1 + random.below(3), round)),
            2 => node.insert_own_block(&own_block(node.log().used(), 0, round)),
            3 => node.append_commit(&common::commit(&text)),
            _ => node.append_payload(&payload(&text)),
        }
        .unwrap();
    }
}

/// Writes so many changes, syncs, and then so many more without a sync.
fn crashed(folder: &Folder, random: &mut Random, synced: usize, unsynced: usize) -> Crashed {
    let (path, beside) = (folder.file("made"), folder.file("made.node"));
    let _ = (fs::remove_file(&path), fs::remove_file(&beside));
    let mut node = Node::create(&path, &options()).unwrap();
    changes(&mut node, random, synced);
    let known = node.sync().unwrap().0 as usize;
    changes(&mut node, random, unsynced);
    let (bytes, node_file) = (fs::read(&path).unwrap(), fs::read(&beside).unwrap());
    let acknowledged = listed(K, &bytes[..known]);
    Crashed { bytes, known, node_file, acknowledged }
}

/// Opens what is left of the file: everything acknowledged is there, the file ends where the log does, and a card written now is there at
/// the next start.
fn starts(path: &Path, crashed: &Crashed, left: &[u8], what: &str) -> Listed {
    fs::write(path, left).unwrap();
    fs::write(beside(path), &crashed.node_file).unwrap();
    let mut node = Node::open(path, &options()).unwrap_or_else(|e| panic!("{what}: {e}")).node;
    let found = listed(K, node.log().image());
    assert!(found.starts_with(&crashed.acknowledged), "{what}");
    assert!(fs::read(path).unwrap() == node.log().image(), "{what}");
    let card = node.append_payload(&payload(b"after the crash")).unwrap();
    node.sync().unwrap();
    drop(node);
    let node = Node::open(path, &options()).unwrap_or_else(|e| panic!("{what}, then: {e}")).node;
    let again = listed(K, node.log().image());
    assert!(again[..found.len()] == found, "{what}");
    assert_eq!((again.len(), again[found.len()].0), (found.len() + 1, card.0), "{what}");
    found
}

fn beside(log: &Path) -> PathBuf {
    let mut name = log.as_os_str().to_owned();
    name.push(".node");
    name.into()
}

#[test]
fn a_cut_at_every_byte_with_anything_behind() {
    let (folder, mut random) = (Folder::in_memory(), Random(1));
    // A log that was longer before, whose bytes a disk may show again.
    let old = crashed(&folder, &mut random, 40, 0).bytes;
    let new = crashed(&folder, &mut random, 12, 6);
    let whole = listed(K, &new.bytes);
    let path = folder.file("log");
    for cut in new.known..=new.bytes.len() {
        let first = &new.bytes[..cut];
        let noise = random.bytes(300);
        for (name, behind) in [("nothing", &[][..]), ("zeros", &[0; 2000]), ("noise", &noise)] {
            let (left, what) = ([first, behind].concat(), format!("cut at {cut}, {name} behind"));
            // An entry that ends in zeros is whole where its last bytes are lost and read as zeros.
            let is_left = |end: usize| left.get(..end) == Some(&new.bytes[..end]);
            let fit = whole.iter().filter(|(start, _, payload)| is_left(*start as usize + 16 + payload.len())).count();
            assert!(starts(&path, &new, &left, &what) == whole[..fit], "{what}");
        }
        // Old entries may read as entries of this log: then they were never acknowledged.
        starts(&path, &new, &[first, &old[cut..]].concat(), &format!("cut at {cut}, old bytes behind"));
    }
}

#[test]
fn unsynced_pages_are_lost_at_random() {
    let (folder, mut random) = (Folder::in_memory(), Random(2));
    let path = folder.file("log");
    let mut more = 0;
    for round in 0..100 {
        let (synced, unsynced) = (random.below(60) as usize, 1 + random.below(200) as usize);
        let crashed = crashed(&folder, &mut random, synced, unsynced);
        for loss in 0..20 {
            let left = lose_pages(&mut random, &crashed);
            let found = starts(&path, &crashed, &left, &format!("round {round}, loss {loss}"));
            more += usize::from(found.len() > crashed.acknowledged.len());
        }
    }
    // Not only what was acknowledged is found: the test would see a node that cuts too much.
    assert!(more > 200, "{more} of 2000");
}

/// Each page behind the last sync was written or was not, and so was the file's length.
fn lose_pages(random: &mut Random, crashed: &Crashed) -> Vec<u8> {
    let mut left = crashed.bytes.clone();
    for page in crashed.known / PAGE..=left.len() / PAGE {
        let (from, to) = ((page * PAGE).max(crashed.known), ((page + 1) * PAGE).min(left.len()));
        match random.below(8) {
            0..4 => (),
            4..7 => left[from..to.max(from)].fill(0),
            _ => {
                // Bytes that the disk had there before.
                let old = random.bytes(to.saturating_sub(from));
                left[from..to.max(from)].copy_from_slice(&old);
            }
        }
    }
    let behind = (left.len() - crashed.known) as u64;
    match random.below(4) {
        0 => left.truncate(crashed.known + random.below(behind + 1) as usize),
        1 => left.resize(left.len() + random.below(3 * PAGE as u64) as usize, 0),
        _ => (),
    }
    left
}

/// Where nothing was acknowledged, every file is served: cut at its first bad entry, or at 0.
#[test]
fn whatever_the_bytes_a_node_starts() {
    let (folder, mut random) = (Folder::in_memory(), Random(4));
    let path = folder.file("log");
    let mut nothing = crashed(&folder, &mut random, 0, 30);
    assert_eq!((nothing.known, nothing.acknowledged.len()), (0, 0));
    for round in 0..1500 {
        let mut left = nothing.bytes.clone();
        for _ in 0..random.below(4) {
            let (at, n) = (random.below(left.len() as u64) as usize, 1 + random.below(40) as usize);
            let to = left.len().min(at + n);
            let noise = random.bytes(to - at);
            left[at..to].copy_from_slice(&noise);
        }
        if round % 3 == 0 {
            let len = random.below(3000) as usize;
            left = random.bytes(len);
        }
        starts(&path, &nothing, &left, &format!("round {round}"));
        if round % 100 == 0 {
            nothing = crashed(&folder, &mut random, 0, 30);
        }
    }
}

/// Starts the example node, so that it creates its log where a kill left none, or half of one.
fn spawn(path: &Path) -> Child {
    let mut node = example(env!("CARGO_BIN_EXE_kadzhomir"));
    if !beside(path).exists() {
        node.arg("--create");
    }
    node.arg(path)
        .stdin(Stdio::piped())
        .stdout(Stdio::piped())
        .stderr(Stdio::null())
        .spawn()
        .expect("plain `cargo test` builds the example")
}

/// Feeds a node cards until it is killed after so long, and answers how many it acknowledged.
fn feed_and_kill(path: &Path, first: usize, after: Duration) -> usize {
    let mut child = spawn(path);
    let (mut cards, answers) = (child.stdin.take().unwrap(), BufReader::new(child.stdout.take().unwrap()));
    let feeder = std::thread::spawn(move || {
        for n in first.. {
            // Until the node is gone.
            if writeln!(cards, "card {n}").is_err() {
                return;
            }
        }
    });
    let killer = std::thread::spawn(move || {
        std::thread::sleep(after);
        child.kill().unwrap();
        child.wait().unwrap();
    });
    let acknowledged = answers.lines().map_while(Result::ok).filter(|line| line.starts_with("card ")).count();
    killer.join().unwrap();
    feeder.join().unwrap();
    acknowledged
}

#[test]
fn killed_at_random_moments() {
    let (folder, mut random) = (Folder::on_disk(), Random(3));
    let path = folder.file("log");
    let (mut acknowledged, mut kills, mut longest) = (0, 0, 40);
    while kills < 60 {
        let more = feed_and_kill(&path, acknowledged, Duration::from_millis(1 + random.below(longest)));
        (acknowledged, kills) = (acknowledged + more, kills + 1);
        // A slow disk is given more time.
        longest = if more == 0 { 1000.min(longest + longest / 4) } else { longest };
        // Killed before there was a log.
        if !path.exists() || !beside(&path).exists() {
            assert_eq!(acknowledged, 0);
            continue;
        }
        let opened = Node::open(&path, &Options::new(4, 0)).unwrap_or_else(|e| panic!("kill {kills}: {e}"));
        let log = opened.node.log().image();
        let cards: Vec<Vec<u8>> = listed(28, log).into_iter().filter(|e| e.1 == 2).map(|e| e.2).collect();
        // A card that was written and not yet acknowledged may be there too; the next run begins behind it.
        assert!(cards.len() >= acknowledged, "kill {kills}: {} of {acknowledged} cards", cards.len());
        for (n, card) in cards.iter().enumerate() {
            assert_eq!(*card, payload(format!("card {n}").as_bytes()), "kill {kills}");
        }
        acknowledged = cards.len();
    }
    assert!(acknowledged > 30, "{acknowledged} cards in {kills} runs");
}

//! The order of writes and syncs. The example node runs under a recorder (recorder.c), is killed, fails to sync, and starts again; then,
//! for each moment of what was recorded, a power cut is tried: what was not synced by then is on disk or is not. Everything acknowledged
//! by that moment must be found. The same is done with the tool's adoption and cut.
mod common;

use common::{example, listed, payload, Folder, Random};
use kadzhomir::{Look, Node, Options, Refusal, WalPosition};
use std::collections::BTreeMap;
use std::fs;
use std::io::Write;
use std::path::{Path, PathBuf};
use std::process::{Command, Stdio};

/// A step of the program, as it was recorded.
#[derive(Clone, Debug)]
enum Step {
    Write(PathBuf, usize, Vec<u8>),
    Cut(PathBuf, usize),
    Sync(PathBuf),
    /// A sync that failed: what was not on disk may never come there, though it is still read.
    Failed(PathBuf),
    Rename(PathBuf, PathBuf),
    Tell(String),
}

fn unhex(text: &str) -> Vec<u8> {
    (0..text.len() / 2).map(|i| u8::from_str_radix(&text[2 * i..2 * i + 2], 16).unwrap()).collect()
}

fn step(line: &str) -> Step {
    let words: Vec<&str> = line.split(' ').collect();
    let (path, number, bytes) = (PathBuf::from(words[1]), words[2].parse().unwrap(), unhex(words[3]));
    match words[0] {
        "write" => Step::Write(path, number, bytes),
        "cut" => Step::Cut(path, number),
        "sync" => Step::Sync(path),
        "failed" => Step::Failed(path),
        "rename" => Step::Rename(path, String::from_utf8(bytes).unwrap().into()),
        "tell" => Step::Tell(String::from_utf8(bytes).unwrap()),
        what => panic!("{what}"),
    }
}

/// How much of a step is on disk after a power cut.
#[derive(Clone, Copy, PartialEq)]
enum Reached {
    Nothing,
    Half,
    All,
}

/// A file: what is on disk of it, and what was done since.
#[derive(Clone, Default)]
struct Contents {
    disk: Vec<u8>,
    since: Vec<Step>,
}

impl Contents {
    fn apply(bytes: &mut Vec<u8>, step: &Step) {
        match step {
            Step::Write(_, at, new) => {
                bytes.resize(bytes.len().max(at + new.len()), 0);
                bytes[*at..at + new.len()].copy_from_slice(new);
            }
            Step::Cut(_, len) => bytes.resize(*len, 0),
            _ => (),
        }
    }

    /// What a power cut leaves: each step since the last sync has reached the disk, or has not, or half of it has.
    fn left(&self, mut reached: impl FnMut() -> Reached) -> Vec<u8> {
        let mut bytes = self.disk.clone();
        for step in &self.since {
            match (reached(), step) {
                (Reached::Half, Step::Write(path, at, new)) => {
                    Self::apply(&mut bytes, &Step::Write(path.clone(), *at, new[..new.len() / 2].to_vec()));
                }
                (Reached::All, step) => Self::apply(&mut bytes, step),
                _ => (),
            }
        }
        bytes
    }
}

/// The disk: files by the names that they have now, the names that are on disk, and what was told: how many cards, and where the last one
/// begins.
#[derive(Clone, Default)]
struct Disk {
    files: BTreeMap<PathBuf, Contents>,
    names: Vec<PathBuf>,
    told: usize,
    last: u64,
}

impl Disk {
    fn step(&mut self, step: &Step) {
        match step {
            Step::Write(path, ..) | Step::Cut(path, _) => self.files.entry(path.clone()).or_default().since.push(step.clone()),
            Step::Sync(path) if path.is_dir() => self.names = self.files.keys().cloned().collect(),
            Step::Sync(path) => {
                let file = self.files.entry(path.clone()).or_default();
                file.disk = file.left(|| Reached::All);
                file.since.clear();
            }
            Step::Failed(path) => self.files.entry(path.clone()).or_default().since.clear(),
            Step::Rename(from, to) => {
                let file = self.files.remove(from).unwrap_or_default();
                self.files.insert(to.clone(), file);
            }
            Step::Tell(line) => {
                if let Some(position) = line.trim_end().strip_prefix("card ") {
                    (self.told, self.last) = (self.told + 1, position.parse().unwrap());
                }
            }
        }
    }

    /// The files after a power cut, into another folder. A name that is not on disk is there or is not.
    fn cut_power(&self, into: &Folder, mut reached: impl FnMut() -> Reached) {
        for (path, file) in &self.files {
            let name = path.file_name().unwrap().to_str().unwrap();
            if self.names.contains(path) || reached() == Reached::All {
                fs::write(into.file(name), file.left(&mut reached)).unwrap();
            }
        }
    }
}

/// Runs the example under the recorder, on cards `card FIRST` to `card LAST - 1`.
fn run(recorder: &Path, log: &Path, trace: &Path, cards: std::ops::Range<usize>, fault: Option<(&str, usize)>) {
    let mut node = example(env!("CARGO_BIN_EXE_kadzhomir"));
    if !log.with_extension("log.node").exists() {
        node.arg("--create");
    }
    node.arg(log).env("LD_PRELOAD", recorder).env("KADZHOMIR_TRACE", trace);
    if let Some((name, at)) = fault {
        node.env(name, at.to_string());
    }
    let mut node = node.stdin(Stdio::piped()).stdout(Stdio::null()).stderr(Stdio::null()).spawn().unwrap();
    let mut input = node.stdin.take().unwrap();
    // Until it is killed.
    let _ = cards.into_iter().try_for_each(|n| writeln!(input, "card {n}"));
    drop(input);
    node.wait().unwrap();
}

fn recorder(folder: &Folder) -> PathBuf {
    let library = folder.file("recorder.so");
    let source = Path::new(env!("CARGO_MANIFEST_DIR")).join("tests/recorder.c");
    let cc = Command::new("cc").args(["-shared", "-fPIC", "-O1", "-Wall", "-o"]).arg(&library).arg(source).status().unwrap();
    assert!(cc.success());
    library
}

/// The cards in a log.
fn cards(log: &[u8]) -> usize {
    let payloads = listed(28, log).into_iter().filter(|e| e.1 == 2);
    payloads.enumerate().take_while(|(n, e)| e.2 == payload(format!("card {n}").as_bytes())).count()
}

/// Cuts the power behind each step, six ways, and hands on the folder that is left.
fn each_power_cut(mut disk: Disk, steps: &[Step], random: &mut Random, mut check: impl FnMut(&Folder, &Disk, &str)) {
    for (at, step) in steps.iter().enumerate() {
        disk.step(step);
        for way in 0..6 {
            let folder = Folder::in_memory();
            disk.cut_power(&folder, || match way {
                0 => Reached::Nothing,
                1 => Reached::All,
                _ => [Reached::Nothing, Reached::Half, Reached::All][random.below(3) as usize],
            });
            check(&folder, &disk, &format!("behind step {at} ({step:?}), way {way}"));
        }
    }
}

/// Opens what is left: everything that was told is there.
fn opens(folder: &Folder, disk: &Disk, what: &str) {
    let log = folder.file("cards.log");
    if disk.told == 0 && !folder.file("cards.log.node").exists() {
        return;
    }
    // What was told of lies before the known length, so that its loss would be seen as damage.
    let known = Look::at(&log, Some(28)).unwrap().settings().map(|s| s.known);
    assert!(known.is_some_and(|known| disk.told == 0 || known > disk.last), "{what}: {known:?} known, told of {}", disk.last);
    let node = Node::open(&log, &options()).unwrap_or_else(|e| panic!("{what}: {e}")).node;
    let found = cards(node.log().image());
    assert!(found >= disk.told, "{what}: {found} of {} cards", disk.told);
}

fn options() -> Options {
    Options::new(4, 0)
}

fn recorded(trace: &Path) -> Vec<Step> {
    fs::read_to_string(trace).unwrap().lines().map(step).collect()
}

/// Appends bytes to a log as a write that was torn, and to the trace.
fn tear(log: &Path, trace: &Path) {
    let end = fs::metadata(log).unwrap().len();
    fs::File::options().append(true).open(log).unwrap().write_all(b"torn").unwrap();
    let line = format!("write {} {end} 746f726e\n", log.display());
    fs::File::options().append(true).create(true).open(trace).unwrap().write_all(line.as_bytes()).unwrap();
}

#[test]
fn every_moment_of_a_run_that_is_killed_or_fails() {
    let tools = Folder::on_disk();
    let (recorder, mut random) = (recorder(&tools), Random(5));
    // Each step of the creation and of the first cards, and some later ones.
    for at in (0..24).chain([31, 38, 45, 52]) {
        for fault in ["KADZHOMIR_KILL", "KADZHOMIR_FAIL"] {
            let folder = Folder::in_memory();
            let (log, trace) = (folder.file("cards.log"), tools.file(&format!("{fault}-{at}")));
            run(&recorder, &log, &trace, 0..9, Some((fault, at)));
            let known = fs::read(&log).map_or(0, |bytes| cards(&bytes));
            run(&recorder, &log, &trace, known..known + 3, None);
            let steps = recorded(&trace);
            assert!(steps.iter().any(|s| matches!(s, Step::Tell(_))), "{fault} {at}");
            each_power_cut(Disk::default(), &steps, &mut random, |f, d, what| opens(f, d, &format!("{fault}={at}, {what}")));
        }
    }
}

/// A start that finds a torn log is itself killed, or fails to sync; then the next one.
#[test]
fn every_moment_of_a_start_that_is_killed_or_fails() {
    let tools = Folder::on_disk();
    let (recorder, mut random) = (recorder(&tools), Random(8));
    for at in 0..14 {
        for fault in ["KADZHOMIR_KILL", "KADZHOMIR_FAIL"] {
            let folder = Folder::in_memory();
            let (log, trace) = (folder.file("cards.log"), tools.file(&format!("{fault}-{at}")));
            run(&recorder, &log, &trace, 0..2, None);
            tear(&log, &trace);
            run(&recorder, &log, &trace, 2..3, Some((fault, at)));
            let known = cards(&fs::read(&log).unwrap());
            run(&recorder, &log, &trace, known..known + 1, None);
            let steps = recorded(&trace);
            each_power_cut(Disk::default(), &steps, &mut random, |f, d, what| opens(f, d, &format!("{fault}={at}, {what}")));
        }
    }
}

/// The files of a folder as they are, on disk or not yet.
fn present(folder: &Folder, synced: bool) -> Disk {
    let mut disk = Disk::default();
    for path in folder.files("cards.log") {
        let bytes = fs::read(&path).unwrap();
        let (on_disk, since) = if synced { (bytes, vec![]) } else { (vec![], vec![Step::Write(path.clone(), 0, bytes)]) };
        disk.files.insert(path.clone(), Contents { disk: on_disk, since });
        disk.names.push(path);
    }
    disk
}

/// The tool under the recorder.
fn tool(recorder: &Path, trace: &Path, words: &[&str]) -> Vec<Step> {
    let mut tool = Command::new(env!("CARGO_BIN_EXE_kadzhomir"));
    tool.args(words).env("LD_PRELOAD", recorder).env("KADZHOMIR_TRACE", trace).stdout(Stdio::null());
    assert!(tool.status().unwrap().success(), "{words:?}");
    recorded(trace)
}

/// A log that was copied and not synced is adopted: once there is a node file, no card is missing.
#[test]
fn every_moment_of_an_adoption() {
    let (tools, folder) = (Folder::on_disk(), Folder::in_memory());
    let (recorder, log) = (recorder(&tools), folder.file("cards.log"));
    run(&recorder, &log, &tools.file("made"), 0..5, None);
    fs::remove_file(folder.file("cards.log.node")).unwrap();
    let disk = present(&folder, false);
    let words = ["adopt", log.to_str().unwrap(), "--exponent", "28", "--committee", "4", "--own", "0"];
    let steps = tool(&recorder, &tools.file("adopted"), &words);
    let mut opened = 0;
    each_power_cut(disk, &steps, &mut Random(9), |folder, _, what| {
        if folder.file("cards.log.node").exists() {
            let node = Node::open(folder.file("cards.log"), &options()).unwrap_or_else(|e| panic!("{what}: {e}")).node;
            assert_eq!(cards(node.log().image()), 5, "{what}");
            opened += 1;
        }
    });
    assert!(opened > 0);
}

/// A damaged log is cut: it is then served, or damaged as before.
#[test]
fn every_moment_of_a_cut() {
    let (tools, folder) = (Folder::on_disk(), Folder::in_memory());
    let (recorder, log) = (recorder(&tools), folder.file("cards.log"));
    run(&recorder, &log, &tools.file("made"), 0..5, None);
    let mut bytes = fs::read(&log).unwrap();
    let third = listed(28, &bytes)[2].0;
    bytes[third as usize + 20] ^= 1;
    fs::write(&log, &bytes).unwrap();
    let disk = present(&folder, true);
    let steps = tool(&recorder, &tools.file("cut"), &["cut", log.to_str().unwrap(), "--at", &third.to_string()]);
    let mut served = 0;
    each_power_cut(disk, &steps, &mut Random(10), |folder, _, what| match Node::open(folder.file("cards.log"), &options()) {
        Ok(opened) => {
            assert_eq!(cards(opened.node.log().image()), 2, "{what}");
            served += 1;
        }
        Err(error) => assert_eq!((error.refusal(), error.start()), (Some(Refusal::Checksum), Some(WalPosition(third))), "{what}: {error}"),
    });
    assert!(served > 0);
}

/// The recorder and the power cuts see what they are to see: a node that told of a card before it was synced.
#[test]
fn a_card_that_is_told_too_early_is_seen() {
    let (tools, folder) = (Folder::on_disk(), Folder::in_memory());
    let trace = tools.file("trace");
    run(&recorder(&tools), &folder.file("cards.log"), &trace, 0..2, None);
    let mut steps = recorded(&trace);
    let told = steps.iter().rposition(|s| matches!(s, Step::Tell(_))).unwrap();
    let tell = steps.remove(told);
    // Before the sync of the log, of the four steps that acknowledge it.
    steps.insert(told - 3, tell);
    let early = std::panic::catch_unwind(|| each_power_cut(Disk::default(), &steps, &mut Random(6), opens));
    assert!(early.is_err());
}

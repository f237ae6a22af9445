//! A node's log in a file: opened, refused, cut, adopted.
mod common;

use common::{block, commit, own_block, payload, Folder};
use kadzhomir::{BlockReference, Cut, Error, Log, Look, Node, Options, Refusal, Stop, WalPosition};
use std::error::Error as _;
use std::fs;
use std::path::Path;

const OPTIONS: (u64, u64) = (4, 0);

fn options() -> Options {
    Options::new(OPTIONS.0, OPTIONS.1)
}

/// A log with k = 10 and an entry of each kind, synced and closed; and its bytes.
fn written(path: &Path) -> Vec<u8> {
    let mut node = Node::create(path, &options().exponent(10)).unwrap();
    node.batch(|node| {
        node.insert_block(&block(1, 1))?;
        node.append_payload(&payload(b"first"))?;
        node.insert_own_block(&own_block(0, 0, 1))?;
        node.append_state(b"state")?;
        node.append_commit(&commit(b"committed"))?;
        node.append_payload(&payload(b"second"))
    })
    .unwrap();
    assert_eq!(node.known().0, node.log().used());
    fs::read(path).unwrap()
}

fn open(path: &Path) -> Result<kadzhomir::Opened, Error> {
    Node::open(path, &options())
}

#[test]
fn what_was_written_is_there_again() {
    let folder = Folder::on_disk();
    let path = folder.file("log");
    let bytes = written(&path);
    let opened = open(&path).unwrap();
    assert_eq!((opened.recovered.stop(), opened.recovered.unread(), opened.aside, opened.cuts.len()), (Stop::End, 0, None, 0));
    let node = opened.node;
    assert_eq!(node.log().image(), bytes);
    assert_eq!(node.log().k(), 10);
    let positions: Vec<u64> = opened.recovered.pending().map(|p| p.position().0).collect();
    let entries: Vec<_> = node.log().entries().map(|e| e.unwrap()).collect();
    assert_eq!(positions, [entries[0].position.0, entries[1].position.0, entries[5].position.0]);
    assert_eq!(&node.log().image()[opened.recovered.state().unwrap()], b"state");
    assert_eq!(&node.log().image()[opened.recovered.committed_state().unwrap()], b"committed");
    let found = node.store().get_block(&BlockReference { authority: 1, round: 1, digest: [0; 32] }).unwrap().unwrap();
    assert_eq!(node.log().image()[found.bytes], block(1, 1));
    // The file has what memory has, padding too.
    assert_eq!(fs::read(&path).unwrap(), node.log().image());
}

#[test]
fn a_tail_is_followed() {
    let folder = Folder::on_disk();
    let mut node = Node::create(folder.file("log"), &options()).unwrap();
    node.append_state(b"one").unwrap();
    let mut seen = WalPosition(0);
    for text in ["two", "three"] {
        let tail: Vec<_> = node.log().entries_from(seen).map(|e| e.unwrap()).collect();
        assert_eq!(tail.len(), 1);
        seen = tail[0].end();
        node.append_state(text.as_bytes()).unwrap();
    }
}

#[test]
fn only_what_recovery_accepts_is_logged() {
    let folder = Folder::on_disk();
    let path = folder.file("log");
    let bytes = written(&path);
    let mut node = open(&path).unwrap().node;
    let refused = |answer: Result<WalPosition, Error>| answer.unwrap_err().refusal().unwrap();
    assert_eq!(refused(node.append_payload(b"garbage")), Refusal::Payload);
    assert_eq!(refused(node.append_commit(b"garbage")), Refusal::Commit);
    assert_eq!(refused(node.insert_block(b"garbage")), Refusal::Block);
    assert_eq!(refused(node.insert_own_block(b"garbage")), Refusal::OwnBlock);
    assert_eq!(refused(node.insert_block(&block(4, 1))), Refusal::Authority);
    assert_eq!(refused(node.insert_own_block(&own_block(0, 0, 1))), Refusal::SecondOwnBlock);
    assert_eq!(refused(node.append_state(&[0; 1009])), Refusal::EntryTooLarge);
    node.sync().unwrap();
    drop(node);
    assert_eq!(fs::read(&path).unwrap(), bytes);
    // The raw append takes all, and then the log is refused as damaged.
    let mut node = open(&path).unwrap().node;
    let position = node.append_raw(5, b"garbage").unwrap();
    node.sync().unwrap();
    drop(node);
    let error = open(&path).unwrap_err();
    assert!(matches!(error, Error::Damaged { refusal: Some(Refusal::Commit), .. }), "{error}");
    assert_eq!(error.start(), Some(position));
}

#[test]
fn the_options_are_the_logs() {
    let folder = Folder::on_disk();
    let path = folder.file("log");
    let bytes = written(&path);
    for (options, what, recorded, asked) in [
        (options().exponent(28), "exponent", 10, 28),
        (Options::new(5, 0), "committee size", 4, 5),
        (Options::new(4, 1), "own authority", 0, 1),
    ] {
        let error = Node::open(&path, &options).unwrap_err();
        let Error::Mismatch { what: w, recorded: r, asked: a } = error else { panic!("{error}") };
        assert_eq!((w, r, a), (what, recorded, asked));
    }
    assert_eq!(fs::read(&path).unwrap(), bytes);
    assert!(Node::open(&path, &options().exponent(10)).is_ok());
}

#[test]
fn what_no_log_can_be_created_with() {
    let folder = Folder::on_disk();
    let path = folder.file("log");
    for (options, refusal) in [
        (options().exponent(5), Refusal::RegionExponent),
        (options().exponent(29), Refusal::RegionExponent),
        (Options::new(0, 0), Refusal::Store),
        (Options::new(4, 4), Refusal::Store),
        (Options::new(129, 0), Refusal::Store),
    ] {
        assert_eq!(Node::create(&path, &options).unwrap_err().refusal(), Some(refusal));
    }
    assert!(folder.files("log").is_empty());
    let bytes = written(&path);
    assert!(matches!(Node::create(&path, &options()), Err(Error::Exists { .. })));
    assert_eq!(fs::read(&path).unwrap(), bytes);
    // A crash between the two files leaves an empty log: creating it again finishes the work.
    let half = folder.file("half");
    fs::write(&half, b"").unwrap();
    assert!(matches!(open(&half), Err(Error::NoNodeFile { .. })));
    assert!(Node::create(&half, &options()).is_ok());
    assert!(matches!(Node::create(&half, &options()), Err(Error::Exists { .. })));
}

#[test]
fn bytes_behind_the_last_entry_are_set_aside() {
    let folder = Folder::on_disk();
    let path = folder.file("log");
    let bytes = written(&path);
    fs::write(&path, [&bytes[..], b"torn"].concat()).unwrap();
    let opened = open(&path).unwrap();
    let aside = opened.aside.unwrap();
    assert_eq!((aside.bytes, fs::read(&aside.path).unwrap()), (4, b"torn".to_vec()));
    assert_eq!(folder.files("log.aside-"), [aside.path]);
    assert_eq!(fs::read(&path).unwrap(), bytes);
    drop(opened.node);
    // Zeros are cut off and not kept.
    fs::write(&path, [&bytes[..], &[0; 5000]].concat()).unwrap();
    let opened = open(&path).unwrap();
    assert_eq!((opened.aside, opened.recovered.unread()), (None, 5000));
    assert_eq!(fs::read(&path).unwrap(), bytes);
    // Two in one second have names of their own.
    drop(opened.node);
    for _ in 0..3 {
        fs::write(&path, [&bytes[..], b"again"].concat()).unwrap();
        drop(open(&path).unwrap());
    }
    assert_eq!(folder.files("log.aside-").len(), 4);
}

/// A payload that does not decode, dropped by an own block that is then cut away: it is pending again, and a second cut is needed.
#[test]
fn one_cut_need_not_be_enough() {
    let folder = Folder::on_disk();
    let path = folder.file("log");
    let known = written(&path);
    let mut node = open(&path).unwrap().node;
    let bad = node.append_raw(2, b"bad").unwrap();
    node.insert_own_block(&own_block(u64::MAX, 0, 2)).unwrap();
    node.append_state(b"last").unwrap();
    let whole = node.log().image().to_vec();
    drop(node);
    assert_eq!(open(&path).unwrap().cuts, []);
    // The same, with the node file that says how much was synced, and a damaged own block.
    restore(&folder, &known);
    let own = bad.0 as usize + 16 + 3;
    let mut damaged = whole.clone();
    damaged[own + 100] ^= 1;
    fs::write(&path, &damaged).unwrap();
    let opened = open(&path).unwrap();
    let cuts: Vec<_> = opened.cuts.iter().map(|c| (c.refusal.number(), c.start.0 as usize)).collect();
    assert_eq!(cuts, [(7, own), (11, bad.0 as usize)]);
    assert_eq!(opened.node.log().image(), known);
    assert_eq!(fs::read(opened.aside.unwrap().path).unwrap(), damaged[known.len()..]);
}

/// Makes the log and its node file anew, as if nothing past these bytes had been synced.
fn restore(folder: &Folder, known: &[u8]) {
    let path = folder.file("log");
    let _ = (fs::remove_file(&path), fs::remove_file(folder.file("log.node")));
    fs::write(&path, known).unwrap();
    drop(Node::adopt(&path, &options().exponent(10)).unwrap());
}

#[test]
fn damage_before_the_known_length_is_refused_and_changes_nothing() {
    let folder = Folder::on_disk();
    let path = folder.file("log");
    let bytes = written(&path);
    let beside = fs::read(folder.file("log.node")).unwrap();
    let entries = common::listed(10, &bytes);
    let last = entries.last().unwrap().0;
    let mut zeroed = bytes.clone();
    zeroed[last as usize..].fill(0);
    let mut changed = bytes.clone();
    changed[20] ^= 1;
    for (damaged, position, refusal) in [
        (bytes[..bytes.len() - 1].to_vec(), bytes.len() as u64 - 1, None),
        (changed, 0, Some(Refusal::Checksum)),
        // Zeros are no refusal, and damage all the same.
        (zeroed, last, None),
        (Vec::new(), 0, None),
    ] {
        fs::write(&path, &damaged).unwrap();
        let error = open(&path).unwrap_err();
        let Error::Damaged { position: p, known, refusal: r } = error else { panic!("{error}") };
        assert_eq!((p.0, known, r), (position, bytes.len() as u64, refusal));
        assert_eq!(fs::read(&path).unwrap(), damaged);
        assert_eq!(fs::read(folder.file("log.node")).unwrap(), beside);
        assert!(folder.files("log.aside-").is_empty());
    }
}

#[test]
fn a_log_is_adopted_with_an_explicit_exponent_alone() {
    let folder = Folder::on_disk();
    let path = folder.file("log");
    let bytes = written(&path);
    assert!(matches!(Node::adopt(&path, &options().exponent(10)), Err(Error::Exists { .. })));
    fs::remove_file(folder.file("log.node")).unwrap();
    assert!(matches!(open(&path), Err(Error::NoNodeFile { .. })));
    assert!(matches!(Node::adopt(&path, &options()), Err(Error::NoExponent)));
    // Another exponent: the log seems to end before its end.
    let error = Node::adopt(&path, &options().exponent(6)).unwrap_err();
    assert_eq!(error.refusal(), Some(Refusal::Length), "{error}");
    // A torn tail is not cut.
    fs::write(&path, [&bytes[..], b"torn"].concat()).unwrap();
    let error = Node::adopt(&path, &options().exponent(10)).unwrap_err();
    assert!(matches!(error, Error::UnreadTail { unread: 4, .. }), "{error}");
    assert_eq!(folder.files("log").len(), 1);
    // Zeros are.
    fs::write(&path, [&bytes[..], &[0; 99]].concat()).unwrap();
    let node = Node::adopt(&path, &options().exponent(10)).unwrap().node;
    assert_eq!((node.known().0, fs::read(&path).unwrap()), (bytes.len() as u64, bytes));
}

/// The original's logs have k = 28, and read with another exponent one may seem to end well much earlier.
#[test]
fn a_wrong_exponent_is_not_taken() {
    let folder = Folder::on_disk();
    let path = folder.file("log");
    let mut log = Log::new(10, vec![0; 1 << 17], 0);
    for _ in 0..101 {
        log.append_raw(4, &[7; 600]).unwrap();
    }
    let used = log.used() as usize;
    fs::write(&path, &log.image()[..used]).unwrap();
    let error = Node::adopt(&path, &options().exponent(28)).unwrap_err();
    assert!(matches!(error, Error::UnreadTail { end: WalPosition(616), .. }), "{error}");
    // With these the walk ends well, with entries passed over as padding.
    for k in [11, 12] {
        let error = Node::adopt(&path, &options().exponent(k)).unwrap_err();
        assert!(matches!(error, Error::HiddenByte { position: WalPosition(1024) }), "{k}: {error}");
    }
    assert_eq!((fs::metadata(&path).unwrap().len(), folder.files("log").len()), (used as u64, 1));
    assert!(Node::adopt(&path, &options().exponent(10)).is_ok());
}

#[test]
fn a_log_is_cut_by_hand() {
    let folder = Folder::on_disk();
    let path = folder.file("log");
    let bytes = written(&path);
    let entries = common::listed(10, &bytes);
    let third = entries[2].0;
    let mut changed = bytes.clone();
    changed[third as usize + 40] ^= 1;
    fs::write(&path, &changed).unwrap();
    assert_eq!(Cut::file(&path, None, None).unwrap_err().start(), Some(WalPosition(third)));
    assert!(matches!(Cut::file(&path, Some(9), None), Err(Error::Mismatch { .. })));
    // A place within an entry, or past the file's end, is no place to cut.
    let within = Cut::file(&path, None, Some(WalPosition(third - 1))).unwrap_err();
    assert!(matches!(within, Error::UnreadTail { .. }), "{within}");
    assert_eq!(Cut::file(&path, None, Some(WalPosition::MAX)).unwrap_err().refusal(), Some(Refusal::Used));
    let cut = Cut::file(&path, None, Some(WalPosition(third))).unwrap();
    assert_eq!((cut.end.0, cut.acknowledged), (third, bytes.len() as u64 - third));
    assert_eq!(fs::read(cut.aside.unwrap().path).unwrap(), changed[third as usize..]);
    let opened = open(&path).unwrap();
    assert_eq!(opened.node.log().image(), &bytes[..third as usize]);
    // Nothing to cut.
    drop(opened.node);
    let cut = Cut::file(&path, None, None).unwrap();
    assert_eq!((cut.end.0, cut.aside, cut.acknowledged), (third, None, 0));
}

#[test]
fn looking_changes_nothing() {
    let folder = Folder::on_disk();
    let path = folder.file("log");
    let bytes = written(&path);
    // While a node has the log open, too.
    let mut node = open(&path).unwrap().node;
    node.append_state(b"unsynced").unwrap();
    let look = Look::at(&path, None).unwrap();
    let settings = *look.settings().unwrap();
    assert_eq!((settings.exponent, settings.committee_size, settings.own, settings.known), (10, 4, 0, bytes.len() as u64));
    let mut entries = look.entries_from(WalPosition(0)).unwrap();
    assert_eq!((entries.by_ref().filter(|e| e.is_ok()).count(), entries.stop()), (7, Some(Stop::End)));
    assert_eq!(look.read(WalPosition(bytes.len() as u64)).unwrap().1, b"unsynced");
    assert_eq!(look.read(WalPosition::MAX).unwrap_err().refusal(), Some(Refusal::PastUsed));
    let plan = look.plan(&Options::recorded(&settings)).unwrap();
    assert_eq!(plan.recovered.end().0, node.log().used());
    assert!(matches!(Look::at(folder.file("none"), None), Err(Error::Io { .. })));
}

#[test]
fn a_full_image_is_nothing_to_the_user() {
    let folder = Folder::on_disk();
    let path = folder.file("log");
    let mut node = Node::create(&path, &options().exponent(16)).unwrap();
    for n in 0..300u64 {
        node.append_state(&vec![n as u8; 1 + (n * 97 % 65520) as usize]).unwrap();
    }
    node.sync().unwrap();
    assert_eq!(node.log().entries().filter(|e| e.is_ok()).count(), 300);
    assert_eq!(fs::read(&path).unwrap(), node.log().image());
}

#[test]
fn errors_say_what_to_do() {
    let folder = Folder::on_disk();
    let error = open(&folder.file("none")).unwrap_err();
    assert!(error.source().is_some());
    assert!(error.to_string().contains("none"), "{error}");
    let refused = Error::from(Refusal::Checksum);
    assert_eq!(refused.source().unwrap().to_string(), Refusal::Checksum.to_string());
    assert_eq!(refused.remedy(), Refusal::Checksum.remedy());
    let damaged = Error::Damaged { position: WalPosition(7), known: 9, refusal: None };
    assert!(damaged.to_string().contains("at 7, before its 9 bytes"), "{damaged}");
    assert!(damaged.to_string().ends_with(damaged.remedy()));
}

#[test]
fn debug_is_short() {
    let folder = Folder::on_disk();
    let path = folder.file("log");
    let mut node = Node::create(&path, &options()).unwrap();
    node.append_state(&[7; 100_000]).unwrap();
    let opened = {
        drop(node);
        open(&path).unwrap()
    };
    assert!(format!("{opened:?}").len() < 2000, "{opened:?}");
}

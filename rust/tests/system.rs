//! What the system can refuse: a file that another process has, that may not be written, that has no more room.
mod common;

use common::{example, listed, payload, Folder};
use kadzhomir::{Error, Node, Options};
use std::fs;
use std::io::{ErrorKind, Write};
use std::os::unix::fs::{MetadataExt, PermissionsExt};
use std::os::unix::process::CommandExt;
use std::path::Path;
use std::process::{Command, Output, Stdio};

const TOOL: &str = env!("CARGO_BIN_EXE_kadzhomir");

fn options() -> Options {
    Options::new(4, 0).exponent(10)
}

fn text(bytes: &[u8]) -> String {
    String::from_utf8_lossy(bytes).into_owned()
}

#[test]
fn a_second_process_is_kept_out() {
    let folder = Folder::on_disk();
    let path = folder.file("log");
    let mut node = Node::create(&path, &options()).unwrap();
    node.append_state(b"unsynced").unwrap();
    assert!(matches!(Node::open(&path, &options()), Err(Error::Locked { .. })));
    let cut = Command::new(TOOL).arg("cut").arg(&path).output().unwrap();
    assert_eq!((cut.status.code(), text(&cut.stdout)), (Some(74), String::new()));
    assert!(text(&cut.stderr).contains("another process"), "{}", text(&cut.stderr));
    let second = example(TOOL).arg(&path).stdin(Stdio::null()).output().unwrap();
    assert!(!second.status.success() && second.stdout.is_empty());
    // Looking is allowed.
    let list = Command::new(TOOL).arg("list").arg(&path).output().unwrap();
    assert_eq!((list.status.code(), text(&list.stdout)), (Some(0), format!("0 4 8 {:08x}\nEND 24 0\n", kadzhomir::crc32(b"unsynced"))));
    drop(node);
    assert!(Node::open(&path, &options()).is_ok());
}

#[test]
fn a_read_only_file_is_looked_at_and_not_changed() {
    let folder = Folder::for_all();
    let (path, tool) = (folder.file("log"), folder.file("tool"));
    let mut node = Node::create(&path, &options()).unwrap();
    node.batch(|node| node.append_state(b"state")).unwrap();
    drop(node);
    // By another process: a file that this one has open to write cannot be run while a child is being started.
    assert!(Command::new("cp").arg(TOOL).arg(&tool).status().unwrap().success());
    for (file, mode) in [(&path, 0o444), (&folder.file("log.node"), 0o444), (&tool, 0o755), (&folder.0, 0o555)] {
        fs::set_permissions(file, fs::Permissions::from_mode(mode)).unwrap();
    }
    // The superuser may write all the same, so that nobody looks here.
    let root = fs::metadata(&path).unwrap().uid() == 0;
    let run = |command: &str| -> Output {
        let mut tool = Command::new(&tool);
        tool.arg(command).arg(&path);
        if root {
            tool.uid(65534);
        }
        tool.output().unwrap()
    };
    let before = fs::read(&path).unwrap();
    assert_eq!(run("verify").status.code(), Some(0));
    assert_eq!(run("recover").status.code(), Some(0));
    let cut = run("cut");
    assert_eq!(cut.status.code(), Some(74), "{}", text(&cut.stderr));
    assert!(text(&cut.stderr).contains("cannot open"), "{}", text(&cut.stderr));
    assert_eq!(fs::read(&path).unwrap(), before);
    fs::set_permissions(&folder.0, fs::Permissions::from_mode(0o755)).unwrap();
}

/// The cards that an example node acknowledged, and the cards in its log.
fn cards(acknowledged: &Output, path: &Path) -> (usize, usize) {
    let told = text(&acknowledged.stdout).lines().filter(|line| line.starts_with("card ")).count();
    let node = Node::open(path, &Options::new(4, 0)).unwrap().node;
    let logged = listed(28, node.log().image()).into_iter().filter(|e| e.1 == 2);
    (told, logged.enumerate().filter(|(n, e)| e.2 == payload(format!("card {n}").as_bytes())).count())
}

#[test]
fn a_file_that_may_not_grow() {
    let folder = Folder::on_disk();
    let path = folder.file("log");
    // 16 blocks of 512 bytes, as much as the node file has; a write past them fails, as on a full disk.
    let limited = "trap '' XFSZ; ulimit -f 16; exec \"$0\" --create \"$1\"";
    let mut node = Command::new("sh");
    node.args(["-c", limited])
        .arg(example(TOOL).get_program())
        .arg(&path)
        .stdin(Stdio::piped())
        .stdout(Stdio::piped())
        .stderr(Stdio::piped());
    let mut node = node.spawn().unwrap();
    let mut input = node.stdin.take().unwrap();
    // Until the node gives up.
    let _ = (0..10_000).try_for_each(|n| writeln!(input, "card {n}"));
    drop(input);
    let output = node.wait_with_output().unwrap();
    assert!(!output.status.success());
    assert!(text(&output.stderr).contains("cannot write"), "{}", text(&output.stderr));
    let (told, found) = cards(&output, &path);
    assert!(told > 50 && found >= told, "{told} told, {found} found");
}

#[test]
fn a_full_disk() {
    let folder = Folder::on_disk();
    let disk = folder.file("disk");
    fs::create_dir(&disk).unwrap();
    let mount = Command::new("mount").args(["-t", "tmpfs", "-o", "size=128k", "none"]).arg(&disk).output();
    if !mount.is_ok_and(|m| m.status.success()) {
        eprintln!("a disk of 128 KiB cannot be made here; a_file_that_may_not_grow stands for it");
        return;
    }
    let answer = std::panic::catch_unwind(|| fill(&disk));
    assert!(Command::new("umount").arg(&disk).status().unwrap().success());
    answer.unwrap();
}

/// Appends some bytes, or as many as there is room for.
fn append(path: &Path, bytes: Option<&[u8]>) {
    let mut file = fs::File::options().append(true).open(path).unwrap();
    match bytes {
        Some(bytes) => file.write_all(bytes).unwrap(),
        None => while file.write(&[1; 512]).is_ok() {},
    }
}

fn fill(disk: &Path) {
    let (path, ballast) = (disk.join("log"), disk.join("ballast"));
    fs::write(&ballast, [1; 32768]).unwrap();
    let mut node = Node::create(&path, &options()).unwrap();
    let mut synced = 0;
    let error = loop {
        match node.batch(|node| node.append_state(&[synced as u8; 700])) {
            Ok(_) => synced += 1,
            Err(error) => break error,
        }
    };
    let Error::Io { source, .. } = &error else { panic!("{error}") };
    assert_eq!(source.kind(), ErrorKind::StorageFull);
    // From now on nothing is known of the disk: no change is taken, and nothing is acknowledged.
    assert!(matches!(node.append_state(b""), Err(Error::Failed)));
    assert!(matches!(node.sync(), Err(Error::Failed)));
    assert!(node.log().entries().filter(|e| e.is_ok()).count() >= synced);
    drop(node);
    // Torn, and still full: what was torn cannot be set aside, so that nothing is cut.
    append(&ballast, None);
    fs::File::options().write(true).open(&ballast).unwrap().set_len(28_672).unwrap();
    append(&path, Some(b"torn"));
    append(&ballast, None);
    let before = fs::read(&path).unwrap();
    let error = Node::open(&path, &options()).unwrap_err();
    assert!(matches!(error, Error::Io { .. }), "{error}");
    assert_eq!(fs::read(&path).unwrap(), before);
    assert_eq!(fs::read_dir(disk).unwrap().count(), 3);
    fs::remove_file(&ballast).unwrap();
    let mut node = Node::open(&path, &options()).unwrap().node;
    let found = listed(10, node.log().image());
    assert!(synced > 20 && found.len() >= synced, "{synced} synced, {} found", found.len());
    assert!(found.iter().enumerate().all(|(n, e)| e.2 == [n as u8; 700]));
    node.batch(|node| node.append_state(b"room again")).unwrap();
}

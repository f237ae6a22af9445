//! What several tests need. Records are laid out here by hand, as docs/LAYOUTS.md has them, and not by the crate's encoders.
#![allow(dead_code)]

use kadzhomir::{Log, RefusedAt};
use std::fs;
use std::path::{Path, PathBuf};
use std::process::Command;
use std::sync::atomic::{AtomicU64, Ordering};

/// A block without includes and statements, of digest 0.
pub fn block(authority: u64, round: u64) -> Vec<u8> {
    let mut bytes: Vec<u8> = [authority, round, 32, 0, 0, 0, 0, 0, 0, 0, 0].iter().flat_map(|w: &u64| w.to_le_bytes()).collect();
    bytes.push(0);
    bytes.extend(64u64.to_le_bytes());
    bytes.extend([0; 64]);
    bytes
}

/// An own block: its next entry, and a block.
pub fn own_block(next_entry: u64, authority: u64, round: u64) -> Vec<u8> {
    [&next_entry.to_le_bytes()[..], &block(authority, round)].concat()
}

/// A payload that shares one transaction.
pub fn payload(transaction: &[u8]) -> Vec<u8> {
    let mut bytes = 1u64.to_le_bytes().to_vec();
    bytes.extend(0u32.to_le_bytes());
    bytes.extend((transaction.len() as u64).to_le_bytes());
    bytes.extend(transaction);
    bytes
}

/// A commit without leaders, and its state.
pub fn commit(state: &[u8]) -> Vec<u8> {
    [&0u64.to_le_bytes()[..], &(state.len() as u64).to_le_bytes(), state].concat()
}

/// The entries of a log, each with its position, tag and payload.
pub type Listed = Vec<(u64, u32, Vec<u8>)>;

/// The entries of a log of these bytes, up to where its walk stops or is refused.
pub fn listed(k: u64, bytes: &[u8]) -> Listed {
    let log = Log::new(k, bytes, bytes.len() as u64);
    let entries = log.entries().map_while(Result::<_, RefusedAt>::ok);
    entries.map(|e| (e.position.0, e.tag, bytes[e.payload()].to_vec())).collect()
}

/// The example node, which plain `cargo test` builds beside the tool.
pub fn example(tool: &str) -> Command {
    let node = Path::new(tool).with_file_name("examples").join("node");
    let modified = |file: &Path| fs::metadata(file).and_then(|data| data.modified());
    let library = Path::new(tool).with_file_name("libkadzhomir.rlib");
    let fresh = modified(&node).is_ok_and(|node| modified(&library).map_or(true, |library| library <= node));
    assert!(fresh, "{} is missing or old: plain `cargo test` builds it", node.display());
    Command::new(node)
}

/// A folder of its own, removed in the end.
pub struct Folder(pub PathBuf);

impl Folder {
    /// On the disk that cargo builds on.
    pub fn on_disk() -> Self {
        Self::within(Path::new(env!("CARGO_TARGET_TMPDIR")))
    }

    /// In memory where that is to be had: for tests that only need files, thousands of times.
    pub fn in_memory() -> Self {
        let tried = Path::new("/dev/shm").join(format!("kadzhomir-{}", std::process::id()));
        if fs::create_dir_all(&tried).is_ok() && fs::remove_dir(&tried).is_ok() {
            Self::within(Path::new("/dev/shm"))
        } else {
            Self::on_disk()
        }
    }

    /// Where every user can come.
    pub fn for_all() -> Self {
        Self::within(&std::env::temp_dir())
    }

    fn within(parent: &Path) -> Self {
        static COUNT: AtomicU64 = AtomicU64::new(0);
        let n = COUNT.fetch_add(1, Ordering::Relaxed);
        let folder = parent.join(format!("kadzhomir-{}-{n}", std::process::id()));
        let _ = std::fs::remove_dir_all(&folder);
        std::fs::create_dir_all(&folder).unwrap();
        Self(folder)
    }

    pub fn file(&self, name: &str) -> PathBuf {
        self.0.join(name)
    }

    /// The files whose names begin so.
    pub fn files(&self, start: &str) -> Vec<PathBuf> {
        let names = std::fs::read_dir(&self.0).unwrap().map(|e| e.unwrap().path());
        let mut found: Vec<_> = names.filter(|p| p.file_name().unwrap().to_str().unwrap().starts_with(start)).collect();
        found.sort();
        found
    }
}

impl Drop for Folder {
    fn drop(&mut self) {
        let _ = std::fs::remove_dir_all(&self.0);
    }
}

/// Numbers that look random and are the same each time (xorshift64*).
pub struct Random(pub u64);

impl Random {
    pub fn next(&mut self) -> u64 {
        self.0 ^= self.0 >> 12;
        self.0 ^= self.0 << 25;
        self.0 ^= self.0 >> 27;
        self.0.wrapping_mul(0x2545_f491_4f6c_dd1d)
    }

    pub fn below(&mut self, n: u64) -> u64 {
        self.next() % n
    }

    pub fn bytes(&mut self, n: usize) -> Vec<u8> {
        (0..n).map(|_| self.next() as u8).collect()
    }
}

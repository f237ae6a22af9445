//! The node file, which stands beside a log: what the log was written with, and how much of it is known to be on disk.
//!
//! Two slots, each in a page of its own, each with a number that counts up and a checksum. A change goes to the slot that is not the
//! newest, and is synced before it counts: whenever a crash comes, one slot is whole, and the newest whole one is the old state or the
//! new. docs/LAYOUTS.md has the bytes.
use super::error::Error;
use crate::crc32;
use std::fs::{File, OpenOptions};
use std::io::{self, Write};
use std::os::unix::fs::FileExt;
use std::path::{Path, PathBuf};

const MAGIC: [u8; 8] = *b"KADZNODE";
const VERSION: u64 = 1;
const SLOT: usize = 64;
/// Where the second slot begins: a disk writes the two apart.
const PAGE: u64 = 4096;

/// What a node file says of its log.
#[derive(Clone, Copy, Debug, PartialEq, Eq)]
#[non_exhaustive]
pub struct Settings {
    /// The region exponent k.
    pub exponent: u64,
    /// The committee's size.
    pub committee_size: u64,
    /// The own authority.
    pub own: u64,
    /// The log's length that is known to be on disk.
    pub known: u64,
}

/// An open node file.
#[derive(Debug)]
pub(crate) struct NodeFile {
    file: File,
    path: PathBuf,
    settings: Settings,
    /// Of the newest slot; the next one goes to the other place.
    sequence: u64,
    /// Whether the newest slot is known to be on disk, and not in the system's memory alone.
    confirmed: bool,
}

/// The node file of a log.
pub(crate) fn path_beside(log: &Path) -> PathBuf {
    let mut name = log.as_os_str().to_owned();
    name.push(".node");
    name.into()
}

impl Settings {
    fn to_slot(self, sequence: u64) -> [u8; SLOT] {
        let mut slot = [0; SLOT];
        slot[..8].copy_from_slice(&MAGIC);
        let words = [VERSION, sequence, self.exponent, self.committee_size, self.own, self.known];
        for (bytes, word) in slot[8..].chunks_exact_mut(8).zip(words) {
            bytes.copy_from_slice(&word.to_le_bytes());
        }
        let checksum = u64::from(crc32(&slot[..56]));
        slot[56..].copy_from_slice(&checksum.to_le_bytes());
        slot
    }

    /// The version, the sequence number and the settings of a slot that is whole.
    fn of_slot(slot: &[u8; SLOT]) -> Option<(u64, u64, Self)> {
        let word = |i: usize| u64::from_le_bytes(slot[8 * i..8 * i + 8].try_into().unwrap_or_default());
        if slot[..8] != MAGIC || word(7) != u64::from(crc32(&slot[..56])) {
            return None;
        }
        Some((word(1), word(2), Self { exponent: word(3), committee_size: word(4), own: word(5), known: word(6) }))
    }

    /// Of the newest whole slot; one past the file's end is not whole.
    fn of_slots(path: &Path, slots: [Option<[u8; SLOT]>; 2]) -> Result<(u64, Self), Error> {
        let newest = slots.iter().flatten().filter_map(Self::of_slot).max_by_key(|s| s.1);
        let (version, sequence, settings) = newest.ok_or_else(|| Error::BadNodeFile { path: path.to_path_buf() })?;
        if version != VERSION {
            return Err(Error::NodeFileVersion { path: path.to_path_buf(), version });
        }
        Ok((sequence, settings))
    }
}

impl NodeFile {
    /// Opens the node file of a log, to read it alone or to change it too.
    pub fn open(log: &Path, write: bool) -> Result<Self, Error> {
        let path = path_beside(log);
        let file = OpenOptions::new().read(true).write(write).open(&path).map_err(|source| missing(source, &path))?;
        let slots = slot_at(&file, 0).and_then(|first| Ok([first, slot_at(&file, PAGE)?])).map_err(Error::io("read", &path))?;
        let (sequence, settings) = Settings::of_slots(&path, slots)?;
        Ok(Self { file, path, settings, sequence, confirmed: false })
    }

    /// The same, and none where the log has no node file.
    pub fn open_if_there(log: &Path, write: bool) -> Result<Option<Self>, Error> {
        match Self::open(log, write) {
            Err(Error::NoNodeFile { .. }) => Ok(None),
            answer => answer.map(Some),
        }
    }

    /// Makes the file whole under another name and then renames it, so that a node file is there whole or not at all.
    pub fn create(log: &Path, settings: Settings) -> Result<Self, Error> {
        let path = path_beside(log);
        let mut new = path.clone().into_os_string();
        new.push(".new");
        let new = PathBuf::from(new);
        // What a crash in this call left; the log's lock keeps others out.
        let _ = std::fs::remove_file(&new);
        let options = OpenOptions::new().read(true).write(true).create_new(true).clone();
        let mut file = options.open(&new).map_err(Error::io("create", &new))?;
        let mut bytes = vec![0; 2 * PAGE as usize];
        bytes[..SLOT].copy_from_slice(&settings.to_slot(0));
        let written = file.write_all(&bytes).and_then(|()| file.sync_all()).and_then(|()| std::fs::rename(&new, &path));
        if let Err(source) = written {
            let _ = std::fs::remove_file(&new);
            return Err(Error::io("write", &new)(source));
        }
        sync_folder(&path)?;
        Ok(Self { file, path, settings, sequence: 0, confirmed: true })
    }

    pub fn settings(&self) -> Settings {
        self.settings
    }

    /// Says that the log's first `known` bytes are on disk, and returns once that is on disk itself.
    pub fn set_known(&mut self, known: u64) -> Result<(), Error> {
        self.confirm()?;
        let sequence = self.sequence.checked_add(1).ok_or_else(|| Error::BadNodeFile { path: self.path.clone() })?;
        self.put(Settings { known, ..self.settings }, sequence)
    }

    /// Has the newest slot on disk. A crash may have come after it was written and before it was synced; the next change goes over the
    /// other slot, which must not be the only one on disk.
    pub fn confirm(&mut self) -> Result<(), Error> {
        if self.confirmed {
            return Ok(());
        }
        self.put(self.settings, self.sequence)
    }

    fn put(&mut self, settings: Settings, sequence: u64) -> Result<(), Error> {
        let written = self.file.write_all_at(&settings.to_slot(sequence), sequence % 2 * PAGE).and_then(|()| self.file.sync_data());
        written.map_err(Error::io("write", &self.path))?;
        (self.settings, self.sequence, self.confirmed) = (settings, sequence, true);
        Ok(())
    }
}

/// The slot at a place, where the file reaches so far. What a disk cannot read is an error: a crash does not leave that, and the other slot
/// may be an older one.
fn slot_at(file: &File, at: u64) -> io::Result<Option<[u8; SLOT]>> {
    let mut slot = [0; SLOT];
    match file.read_exact_at(&mut slot, at) {
        Ok(()) => Ok(Some(slot)),
        Err(e) if e.kind() == io::ErrorKind::UnexpectedEof => Ok(None),
        Err(e) => Err(e),
    }
}

fn missing(source: io::Error, path: &Path) -> Error {
    match source.kind() {
        io::ErrorKind::NotFound => Error::NoNodeFile { path: path.to_path_buf() },
        _ => Error::io("open", path)(source),
    }
}

/// Has the names in a file's folder on disk; that of a link's target, which is where a log is.
pub(crate) fn sync_folder(path: &Path) -> Result<(), Error> {
    let target = path.canonicalize().map_err(Error::io("look at", path))?;
    let folder = match target.parent() {
        Some(folder) if !folder.as_os_str().is_empty() => folder,
        _ => Path::new("."),
    };
    File::open(folder).and_then(|f| f.sync_all()).map_err(Error::io("sync", folder))
}

#[cfg(test)]
mod tests {
    use super::*;

    const SETTINGS: Settings = Settings { exponent: 28, committee_size: 4, own: 1, known: 0 };

    fn newest(first: Option<[u8; SLOT]>, second: Option<[u8; SLOT]>) -> Result<(u64, Settings), Error> {
        Settings::of_slots(Path::new("log.node"), [first, second])
    }

    #[test]
    fn the_newest_whole_slot_counts() {
        let old = Settings { known: 100, ..SETTINGS }.to_slot(6);
        let new = Settings { known: 200, ..SETTINGS }.to_slot(7);
        assert_eq!(newest(Some(old), Some(new)).unwrap().1.known, 200);
        assert_eq!(newest(Some(old), None).unwrap().1.known, 100);
        // A crash in the write of the newer slot leaves any of its bytes, before or after.
        for cut in 0..SLOT {
            let mut torn = Settings { known: 50, ..SETTINGS }.to_slot(5);
            torn[..cut].copy_from_slice(&new[..cut]);
            let known = newest(Some(old), Some(torn)).unwrap().1.known;
            assert_eq!(known, if torn == new { 200 } else { 100 }, "cut at {cut}");
        }
    }

    #[test]
    fn every_changed_bit_is_seen() {
        let slot = SETTINGS.to_slot(3);
        for bit in 0..8 * SLOT {
            let mut changed = slot;
            changed[bit / 8] ^= 1 << (bit % 8);
            assert_eq!(Settings::of_slot(&changed), None, "bit {bit}");
        }
    }

    #[test]
    fn what_is_no_node_file() {
        for slots in [(None, None), (Some([0; SLOT]), None), (Some([0xff; SLOT]), Some([0; SLOT]))] {
            assert!(matches!(newest(slots.0, slots.1), Err(Error::BadNodeFile { .. })));
        }
        let mut other = SETTINGS.to_slot(0);
        other[8] = 2;
        let checksum = u64::from(crc32(&other[..56])).to_le_bytes();
        other[56..].copy_from_slice(&checksum);
        assert!(matches!(newest(Some(other), None), Err(Error::NodeFileVersion { version: 2, .. })));
    }
}

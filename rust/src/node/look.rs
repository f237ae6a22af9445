//! A log's file, looked at and cut by hand: for tools, where a node does not run.
use super::error::Error;
use super::log_file::LogFile;
use super::node_file::NodeFile;
use super::regions::{self, FileEntries};
use super::{Aside, Options, Plan, Settings};
use crate::{Entry, Log, WalPosition};
use std::path::Path;

/// A log's file, as long as it was when it was opened. Nothing is locked and nothing changes.
#[derive(Debug)]
pub struct Look {
    file: LogFile,
    k: u64,
    used: u64,
    settings: Option<Settings>,
}

/// What a cut did.
#[derive(Clone, Debug, PartialEq, Eq)]
#[non_exhaustive]
pub struct Cut {
    /// Where the log ends now.
    pub end: WalPosition,
    /// Where the bytes behind it are; none where there were none, or zeros alone.
    pub aside: Option<Aside>,
    /// How many bytes that were known to be on disk were cut off.
    pub acknowledged: u64,
}

impl Look {
    /// Opens a log and, where it is there, reads its node file. Without one the exponent must be given; with one, another is refused. With
    /// an exponent a node file that cannot be used counts as none.
    pub fn at(path: impl AsRef<Path>, exponent: Option<u64>) -> Result<Self, Error> {
        let path = path.as_ref();
        let file = LogFile::look(path)?;
        let node_file = match NodeFile::open_if_there(path, false) {
            Err(Error::BadNodeFile { .. } | Error::NodeFileVersion { .. }) if exponent.is_some() => None,
            answer => answer?,
        };
        let settings = node_file.map(|f| f.settings());
        let k = exponent_of(settings.as_ref(), exponent)?;
        let used = file.len()?;
        Ok(Self { file, k, used, settings })
    }

    /// The file's length.
    pub fn used(&self) -> u64 {
        self.used
    }

    /// The entries from the log's start or another entry's end on. One region of the file is in memory at a time.
    pub fn entries_from(&self, end: WalPosition) -> Result<FileEntries<'_>, Error> {
        FileEntries::new(&self.file, self.k, self.used, end)
    }

    /// The entry at a position, and its payload. Its region alone is read.
    pub fn read(&self, position: WalPosition) -> Result<(Entry, Vec<u8>), Error> {
        regions::check(self.k, 0, self.used)?;
        let base = position.0 >> self.k << self.k;
        let region = regions::region(&self.file, self.k, self.used, base)?;
        let entry = region.read(WalPosition(position.0 - base))?;
        Ok((Entry { position, ..entry }, region.image()[entry.payload()].to_vec()))
    }

    /// What the node file says, where there is one.
    pub fn settings(&self) -> Option<&Settings> {
        self.settings.as_ref()
    }

    /// What a node that opens this log would believe. The committee and the own authority of a log without a node file must be given. The
    /// whole file is read.
    pub fn plan(&self, options: &Options) -> Result<Plan, Error> {
        let settings = self.settings.unwrap_or(options.settings(self.k, 0));
        options.check(&settings)?;
        Plan::of(self.file.read_at(0, self.used)?, &settings)
    }
}

impl Cut {
    /// Cuts a log behind its last whole entry; or at `at`, which is an entry's end, or has zeros alone between itself and one. What is cut
    /// off and is not all zero is put into a file of its own first. A log that a walk refuses is not cut but at a place before the damage,
    /// and only by `at` are bytes cut off that were known to be on disk.
    ///
    /// This is for a log that cannot be opened: [`super::Node::open`] cuts what a crash left by itself, and never what was acknowledged.
    pub fn file(path: impl AsRef<Path>, exponent: Option<u64>, at: Option<WalPosition>) -> Result<Self, Error> {
        let path = path.as_ref();
        let file = LogFile::open(path)?;
        let mut node_file = NodeFile::open_if_there(path, true)?;
        let k = exponent_of(node_file.as_ref().map(|f| f.settings()).as_ref(), exponent)?;
        let image = file.read()?;
        let used = at.map_or(image.len() as u64, |at| at.0);
        let log = Log::new(k, image, used);
        let walked = log.walk()?;
        let end = walked.end;
        if at.is_some() && log.image()[end.0 as usize..used as usize].iter().any(|b| *b != 0) {
            return Err(Error::UnreadTail { end, unread: walked.unread });
        }
        let known = node_file.as_ref().map_or(0, |f| f.settings().known);
        if at.is_none() && end.0 < known {
            return Err(Error::Damaged { position: end, known, refusal: None });
        }
        let aside = file.set_aside(end.0, &log.image()[end.0 as usize..])?;
        // The node file first: a crash before the file is cut leaves bytes behind the known length, which is no damage.
        if let Some(node_file) = node_file.as_mut().filter(|_| end.0 < known) {
            node_file.set_known(end.0)?;
        }
        file.cut(end.0)?;
        Ok(Self { end, aside, acknowledged: known.saturating_sub(end.0) })
    }
}

/// The exponent that the node file has, or the one given; both are the same where both are there.
fn exponent_of(recorded: Option<&Settings>, asked: Option<u64>) -> Result<u64, Error> {
    match (recorded.map(|s| s.exponent), asked) {
        (Some(recorded), Some(asked)) if recorded != asked => Err(Error::Mismatch { what: "exponent", recorded, asked }),
        (Some(k), _) | (None, Some(k)) => Ok(k),
        (None, None) => Err(Error::NoExponent),
    }
}

use crate::{Refusal, RefusedAt, WalPosition};
use std::fmt;
use std::io;
use std::path::PathBuf;

/// Why a node could not do what was asked. [`Error::refusal`] and [`Error::start`] have the store's answer where it refused,
/// [`Error::remedy`] says what to do.
#[derive(Debug)]
#[non_exhaustive]
pub enum Error {
    /// The operating system refused: no such file, no permission, a full disk ..
    Io {
        /// What was being done.
        doing: &'static str,
        /// To which file.
        path: PathBuf,
        /// What the system said.
        source: io::Error,
    },
    /// Another process has the log open.
    Locked {
        /// The log.
        path: PathBuf,
    },
    /// A node's log is there already.
    Exists {
        /// The log, or the file beside it.
        path: PathBuf,
    },
    /// No node file stands beside the log, so that its exponent, committee and own authority are not known.
    NoNodeFile {
        /// Where it was looked for.
        path: PathBuf,
    },
    /// Neither slot of the node file is whole.
    BadNodeFile {
        /// The node file.
        path: PathBuf,
    },
    /// The node file is of a version that this program does not know.
    NodeFileVersion {
        /// The node file.
        path: PathBuf,
        /// Its version.
        version: u64,
    },
    /// What was asked is not what the log was written with.
    Mismatch {
        /// "exponent", "committee size" or "own authority".
        what: &'static str,
        /// What the node file has.
        recorded: u64,
        /// What was asked.
        asked: u64,
    },
    /// A log without a node file is adopted only with an explicit exponent.
    NoExponent,
    /// The store refused.
    Refused {
        /// Why.
        refusal: Refusal,
        /// The start of the entry concerned, where the refusal is of a walk or a recovery.
        start: Option<WalPosition>,
    },
    /// The log is damaged before the length that was known to be on disk: what was acknowledged is not there any more. Nothing was
    /// changed.
    Damaged {
        /// Where the damage begins: the start of the refused entry, the end of the last whole one, or the file's length.
        position: WalPosition,
        /// The length known to be on disk.
        known: u64,
        /// The refusal, where there is one.
        refusal: Option<Refusal>,
    },
    /// Bytes that are not all zero lie behind the last whole entry of a log that is to be adopted, or cut at a place. Nothing was changed.
    UnreadTail {
        /// The end of the last whole entry.
        end: WalPosition,
        /// The bytes behind it.
        unread: u64,
    },
    /// A byte that is not zero stands between two entries of a log that is to be adopted, as padding does not. Nothing was changed.
    HiddenByte {
        /// Where it stands.
        position: WalPosition,
    },
    /// An earlier write or sync failed, so that it is not known what is on disk.
    Failed,
}

impl Error {
    /// The store's refusal, where there is one.
    pub fn refusal(&self) -> Option<Refusal> {
        match self {
            Error::Refused { refusal, .. } => Some(*refusal),
            Error::Damaged { refusal, .. } => *refusal,
            _ => None,
        }
    }

    /// Where in the log: the start of the entry concerned, or where damage begins.
    pub fn start(&self) -> Option<WalPosition> {
        match self {
            Error::Refused { start, .. } => *start,
            Error::Damaged { position, .. } => Some(*position),
            Error::UnreadTail { end, .. } => Some(*end),
            Error::HiddenByte { position } => Some(*position),
            _ => None,
        }
    }

    /// What to do about it.
    pub fn remedy(&self) -> &'static str {
        match self {
            Error::Io { .. } => "see to the file, the permissions or the disk, and open the node again",
            Error::Locked { .. } => "stop the other process, or use another log",
            Error::Exists { .. } => "open the log, or name another file",
            Error::NoNodeFile { .. } => "put the node file back from a backup, or adopt the log with the exponent it was written with",
            Error::BadNodeFile { .. } => "put the node file back from a backup; or move it away and adopt the log",
            Error::NodeFileVersion { .. } => "use the program of that version; the file may be sound",
            Error::Mismatch { .. } => "pass what the log was written with",
            Error::NoExponent => "pass the exponent with which the log was written",
            Error::Refused { refusal, .. } => refusal.remedy(),
            Error::Damaged { .. } => {
                "copy both files, then go on from a good copy; or give up what lies behind that place with `kadzhomir cut --at`"
            }
            Error::UnreadTail { .. } => "see whether the exponent is the log's; `kadzhomir cut` moves these bytes into a file of their own",
            Error::HiddenByte { .. } => "see whether the exponent is the log's: with a wrong one entries are passed over as padding",
            Error::Failed => "open the node again: it goes on with what is whole on disk",
        }
    }

    pub(crate) fn io(doing: &'static str, path: &std::path::Path) -> impl FnOnce(io::Error) -> Error {
        let path = path.to_path_buf();
        move |source| Error::Io { doing, path, source }
    }
}

impl fmt::Display for Error {
    fn fmt(&self, f: &mut fmt::Formatter<'_>) -> fmt::Result {
        match self {
            Error::Io { doing, path, source } => write!(f, "cannot {doing} {}: {source}", path.display())?,
            Error::Locked { path } => write!(f, "another process has {} open", path.display())?,
            Error::Exists { path } => write!(f, "{} is there already", path.display())?,
            Error::NoNodeFile { path } => write!(f, "there is no node file {}", path.display())?,
            Error::BadNodeFile { path } => write!(f, "the node file {} is damaged in both of its slots", path.display())?,
            Error::NodeFileVersion { path, version } => write!(f, "the node file {} is of version {version}", path.display())?,
            Error::Mismatch { what, recorded, asked } => write!(f, "the log's {what} is {recorded}, and {asked} was asked for")?,
            Error::NoExponent => f.write_str("no exponent was given for a log without a node file")?,
            // The refusal says by itself what to do.
            Error::Refused { refusal, start: None } => return refusal.fmt(f),
            Error::Refused { refusal, start: Some(start) } => return write!(f, "at {start}: {refusal}"),
            Error::Damaged { position, known, refusal } => {
                write!(f, "the log is damaged at {position}, before its {known} bytes known to be on disk")?;
                if let Some(refusal) = refusal {
                    write!(f, " (refusal {}: {})", refusal.number(), refusal.meaning())?;
                }
            }
            Error::UnreadTail { end, unread } => {
                write!(f, "the {unread} bytes behind the last whole entry, which ends at {end}, are not zero")?
            }
            Error::HiddenByte { position } => write!(f, "the byte at {position} is not zero and belongs to no entry")?,
            Error::Failed => f.write_str("an earlier write or sync failed")?,
        }
        write!(f, "; {}", self.remedy())
    }
}

impl std::error::Error for Error {
    fn source(&self) -> Option<&(dyn std::error::Error + 'static)> {
        match self {
            Error::Io { source, .. } => Some(source),
            Error::Refused { refusal, .. } => Some(refusal),
            Error::Damaged { refusal: Some(refusal), .. } => Some(refusal),
            _ => None,
        }
    }
}

impl From<Refusal> for Error {
    fn from(refusal: Refusal) -> Self {
        Error::Refused { refusal, start: None }
    }
}

impl From<RefusedAt> for Error {
    fn from(at: RefusedAt) -> Self {
        Error::Refused { refusal: at.refusal, start: Some(at.start) }
    }
}

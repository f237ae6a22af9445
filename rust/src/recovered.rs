use crate::ffi::{self, RecoveredWords, View};
use crate::refusal::served_at;
use crate::rows;
use crate::{BlockReference, RefusedAt, Stop, WalPosition};
use std::fmt;
use std::ops::Range;

pub(crate) const ROW: usize = 8;

/// What waits for the own block that is to take it up.
#[derive(Clone, Copy, Debug, PartialEq, Eq, Hash)]
pub enum Pending {
    /// A block.
    Block {
        /// Its entry's.
        position: WalPosition,
        /// The block's own.
        reference: BlockReference,
    },
    /// Statements.
    Payload {
        /// Its entry's.
        position: WalPosition,
        /// The number of the payload's bytes, which stand 16 bytes behind the position.
        len: u64,
    },
}

impl Pending {
    /// The entry's position.
    pub fn position(&self) -> WalPosition {
        match self {
            Pending::Block { position, .. } | Pending::Payload { position, .. } => *position,
        }
    }
}

/// An indexed block.
#[derive(Clone, Copy, Debug, PartialEq, Eq, Hash)]
pub struct Indexed {
    /// The block's name.
    pub reference: BlockReference,
    /// Where its entry begins.
    pub position: WalPosition,
    /// Whether it counts as loaded: an insert loads it, a cleanup unloads it.
    pub loaded: bool,
}

/// What a log holds: the answer of a recovery that was not refused, with its tables but for the index, which the store has.
///
/// ```
/// use kadzhomir::{Log, Stop};
///
/// let mut log = Log::new(16, vec![0; 4096], 0);
/// log.append_raw(2, &[0; 8])?; // a payload without statements
/// log.append_raw(4, b"the state")?;
/// let (store, recovered) = log.recover(4, 0)?;
/// assert_eq!(recovered.stop(), Stop::End);
/// assert_eq!(recovered.pending().count(), 1);
/// assert_eq!(&store.log().image()[recovered.state().unwrap()], b"the state");
/// # Ok::<(), Box<dyn std::error::Error>>(())
/// ```
#[derive(Clone, PartialEq, Eq)]
pub struct Recovered {
    pub(crate) words: RecoveredWords,
    pub(crate) tables: [Vec<u64>; 4],
}

impl Recovered {
    pub(crate) fn in_rows(view: View, committee_size: u64, own: u64, rows: [usize; 4]) -> Result<Self, RefusedAt> {
        let mut tables = rows.map(|n| vec![0; n * ROW]);
        let mut words = [0; 161];
        let number = ffi::recover(view, committee_size, own, &mut tables, &mut words);
        served_at(number, words[1])?;
        for (table, count) in tables.iter_mut().zip(&words[5..9]) {
            table.truncate(*count as usize * ROW);
            table.shrink_to_fit();
        }
        Ok(Self { words, tables })
    }

    /// In as many rows as the log needs.
    pub(crate) fn sized(view: View, committee_size: u64, own: u64) -> Result<Self, RefusedAt> {
        rows::sized(view, |rows| Self::in_rows(view, committee_size, own, rows), |refused| refused.refusal)
    }

    fn rows(&self, table: usize) -> impl ExactSizeIterator<Item = &[u64]> {
        self.tables[table].chunks_exact(ROW)
    }

    /// Why the walk stopped.
    pub fn stop(&self) -> Stop {
        Stop::of(self.words[2])
    }

    /// The end of the last whole entry: where the store's log goes on.
    pub fn end(&self) -> WalPosition {
        WalPosition(self.words[3])
    }

    /// The bytes behind it.
    pub fn unread(&self) -> u64 {
        self.words[4]
    }

    /// What is pending, by position.
    pub fn pending(&self) -> impl ExactSizeIterator<Item = Pending> + '_ {
        self.rows(0).map(|row| match row[1] {
            1 => Pending::Block { position: WalPosition(row[0]), reference: BlockReference::at(row, 2) },
            _ => Pending::Payload { position: WalPosition(row[0]), len: row[2] },
        })
    }

    /// The blocks after the last state, in log order, with their positions.
    pub fn unprocessed(&self) -> impl ExactSizeIterator<Item = (BlockReference, WalPosition)> + '_ {
        self.rows(1).map(|row| (BlockReference::at(row, 0), WalPosition(row[6])))
    }

    /// The committed references, ascending.
    pub fn committed(&self) -> impl ExactSizeIterator<Item = BlockReference> + '_ {
        self.rows(2).map(|row| BlockReference::at(row, 0))
    }

    /// Where the payload of the last own block stands in the image: its next entry, then the block.
    pub fn last_own_block(&self) -> Option<Range<usize>> {
        self.span(9)
    }

    /// Where the last state stands in the image.
    pub fn state(&self) -> Option<Range<usize>> {
        self.span(12)
    }

    /// Where the last commit's state stands in the image.
    pub fn committed_state(&self) -> Option<Range<usize>> {
        self.span(15)
    }

    /// The leader that was committed last.
    pub fn last_committed_leader(&self) -> Option<BlockReference> {
        found(&self.words, 18)
    }

    /// The own block of the highest round above 0.
    pub fn last_own_block_ref(&self) -> Option<BlockReference> {
        found(&self.words, 25)
    }

    /// The highest round of a block.
    pub fn highest_round(&self) -> u64 {
        self.words[32]
    }

    /// The highest round of an authority's blocks; 0 where it has none.
    pub fn last_seen_by_authority(&self, authority: u64) -> u64 {
        last_seen(&self.words[33..], authority)
    }

    fn span(&self, place: usize) -> Option<Range<usize>> {
        let [there, at, len] = [0, 1, 2].map(|i| self.words[place + i] as usize);
        (there != 0).then_some(at..at + len)
    }
}

/// What stopped it, where it goes on, and how much of each there is.
impl fmt::Debug for Recovered {
    fn fmt(&self, f: &mut fmt::Formatter<'_>) -> fmt::Result {
        f.debug_struct("Recovered")
            .field("stop", &self.stop())
            .field("end", &self.end())
            .field("unread", &self.unread())
            .field("pending", &self.pending().len())
            .field("unprocessed", &self.unprocessed().len())
            .field("committed", &self.committed().len())
            .field("highest_round", &self.highest_round())
            .finish_non_exhaustive()
    }
}

pub(crate) fn indexed(row: &[u64]) -> Indexed {
    Indexed { reference: BlockReference::at(row, 0), position: WalPosition(row[6]), loaded: row[7] != 0 }
}

/// A word that says whether a reference is there, and the reference.
pub(crate) fn found(words: &[u64], place: usize) -> Option<BlockReference> {
    (words[place] != 0).then(|| BlockReference::at(words, place + 1))
}

pub(crate) fn last_seen(rounds: &[u64], authority: u64) -> u64 {
    usize::try_from(authority).ok().and_then(|a| rounds.get(a)).copied().unwrap_or(0)
}

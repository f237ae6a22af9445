use crate::ffi::{self, Lent, StoreWords};
use crate::recovered::{found, indexed, last_seen, Indexed, Recovered, ROW};
use crate::refusal::{served, served_at};
use crate::{BlockReference, Log, NotRecovered, Refusal, RefusedAt, WalPosition};
use std::fmt;
use std::ops::Range;
use std::sync::atomic::{AtomicU64, Ordering};

// Places of a store's words.
const SIZE: usize = 0;
const OWN: usize = 1;
const ROWS: usize = 2;
const LOADS: usize = 3;
const OWN_BLOCK: usize = 4;
const HIGHEST: usize = 11;
const SEEN: usize = 12;

/// A block that a lookup read from the log.
#[derive(Clone, Debug, PartialEq, Eq, Hash)]
pub struct Found {
    /// The block's own reference.
    pub reference: BlockReference,
    /// Where its bytes stand in the image, bytes behind the block with them.
    pub bytes: Range<usize>,
}

/// A log's block index, with the log: what it answers is of that log alone. [`Log::recover`] makes one.
///
/// ```
/// use kadzhomir::{BlockReference, Log, Refusal};
///
/// // A block without includes and statements, laid out as docs/LAYOUTS.md says.
/// fn block(authority: u64, round: u64) -> Vec<u8> {
///     let mut bytes = Vec::new();
///     for word in [authority, round, 32, 0, 0, 0, 0, 0, 0, 0, 0] {
///         bytes.extend(u64::to_le_bytes(word)); // reference; no includes; no statements; creation time
///     }
///     bytes.push(0); // epoch marker
///     bytes.extend(64u64.to_le_bytes());
///     bytes.extend([0; 64]); // signature
///     bytes
/// }
///
/// let (mut store, _) = Log::new(16, vec![0; 4096], 0).recover(4, 0)?;
/// store.insert_block(&block(1, 3))?;
/// let own = [&u64::MAX.to_le_bytes()[..], &block(0, 4)].concat(); // the next entry, then the block
/// store.insert_own_block(&own)?;
/// assert_eq!(store.highest_round(), 4);
/// assert_eq!(store.cleanup(3)?, 1); // round 3 is no longer loaded
///
/// let reference = BlockReference { authority: 1, round: 3, digest: [0; 32] };
/// let found = store.get_block(&reference)?.unwrap();
/// assert_eq!(store.log().image()[found.bytes], block(1, 3)[..]);
/// assert_eq!(store.loads(), 1);
///
/// // A second own block in a round is refused, and nothing is written.
/// let used = store.log().used();
/// assert_eq!(store.insert_block(&block(0, 4)), Err(Refusal::SecondOwnBlock));
/// assert_eq!(store.log().used(), used);
/// # Ok::<(), Box<dyn std::error::Error>>(())
/// ```
pub struct BlockStore<B> {
    log: Log<B>,
    words: StoreWords,
    index: Vec<u64>,
    /// The loads counted, apart from the words, so that a lookup needs the store only to read.
    loads: AtomicU64,
}

impl<B> BlockStore<B> {
    /// The log, at the end of its last entry.
    pub fn log(&self) -> &Log<B> {
        &self.log
    }

    /// The log, given back; it ends with its last entry, whatever was unread behind it.
    pub fn into_log(self) -> Log<B> {
        self.log
    }

    /// The image, to make it longer.
    pub fn image_mut(&mut self) -> &mut B {
        self.log.image_mut()
    }

    // ---- What the store's words say

    /// The committee's size.
    pub fn committee_size(&self) -> u64 {
        self.words[SIZE]
    }

    /// The own authority.
    pub fn own(&self) -> u64 {
        self.words[OWN]
    }

    /// How many blocks are indexed.
    pub fn len_expensive(&self) -> usize {
        self.words[ROWS] as usize
    }

    /// The highest round of a block.
    pub fn highest_round(&self) -> u64 {
        self.words[HIGHEST]
    }

    /// The highest round of an authority's blocks; 0 where it has none.
    pub fn last_seen_by_authority(&self, authority: u64) -> u64 {
        last_seen(&self.words[SEEN..], authority)
    }

    /// The own block of the highest round above 0.
    pub fn last_own_block_ref(&self) -> Option<BlockReference> {
        found(&self.words, OWN_BLOCK)
    }

    /// How many blocks lookups read that were not loaded.
    pub fn loads(&self) -> u64 {
        self.loads.load(Ordering::Relaxed)
    }

    /// The indexed blocks, ascending.
    pub fn index(&self) -> impl ExactSizeIterator<Item = Indexed> + '_ {
        self.index[..self.len_expensive() * ROW].chunks_exact(ROW).map(indexed)
    }

    /// Room for one row more, doubled where it is lacking.
    fn make_room(&mut self) {
        let rows = self.len_expensive() + 1;
        if self.index.len() < rows * ROW {
            self.index.resize(2 * rows * ROW, 0);
        }
    }

    /// A call on a copy of the store's words: what it adds to their loads, which begin at 0, joins the counter.
    fn counted<T>(&self, call: impl FnOnce(Lent) -> T) -> T {
        let mut words = self.words;
        let answer = call(Lent { store: &mut words, index: &self.index });
        let add = |loads: u64| Some(loads.saturating_add(words[LOADS]));
        // Never refused: `add` always gives a number.
        let _ = self.loads.fetch_update(Ordering::Relaxed, Ordering::Relaxed, add);
        answer
    }

    /// Lends rows for the answer, twice as many each time that they are too few: a refused lookup counts no load.
    fn look(&self, few: usize, call: impl Fn(Lent, &mut [u64], &mut [u64; 2]) -> u8) -> Result<Vec<Found>, Refusal> {
        let most = self.len_expensive();
        let mut rows = few;
        loop {
            let (mut out, mut answer) = (vec![0; rows * ROW], [0; 2]);
            match served(self.counted(|lent| call(lent, &mut out, &mut answer))) {
                Err(Refusal::Rows) if rows < most => rows *= 2,
                Err(refusal) => return Err(refusal),
                Ok(()) => return Ok(out.chunks_exact(ROW).take(answer[1] as usize).map(found_row).collect()),
            }
        }
    }
}

impl<B: AsRef<[u8]> + AsMut<[u8]>> BlockStore<B> {
    /// Logs and indexes a block. A refused insert changes nothing.
    pub fn insert_block(&mut self, block: &[u8]) -> Result<WalPosition, Refusal> {
        self.make_room();
        self.log.insert(&mut self.words, &mut self.index, false, block)
    }

    /// The same of an own block: 8 bytes of its next entry, then the block.
    pub fn insert_own_block(&mut self, own_block: &[u8]) -> Result<WalPosition, Refusal> {
        self.make_room();
        self.log.insert(&mut self.words, &mut self.index, true, own_block)
    }

    /// Appends an entry as it is given; see [`Log::append_raw`]. A block that is appended so is in the log and not in the index: recovery
    /// finds it.
    pub fn append_raw(&mut self, tag: u32, payload: &[u8]) -> Result<WalPosition, Refusal> {
        self.log.append_raw(tag, payload)
    }
}

impl<B: AsRef<[u8]>> BlockStore<B> {
    /// The store of a recovery, with its log at E.
    pub(crate) fn opened(
        log: Log<B>,
        committee_size: u64,
        own: u64,
        answer: Result<Recovered, RefusedAt>,
    ) -> Result<(Self, Recovered), NotRecovered<B>> {
        let mut recovered = match answer {
            Ok(recovered) => recovered,
            Err(refused) => return Err(NotRecovered { refused, log }),
        };
        let (mut words, mut used) = ([0; 140], 0);
        let number = match ffi::writer(&recovered.words, &mut used) {
            0 => ffi::open(committee_size, own, &recovered.words, &mut words),
            refused => refused,
        };
        if let Err(refused) = served_at(number, 0) {
            return Err(NotRecovered { refused, log });
        }
        let index = std::mem::take(&mut recovered.tables[3]);
        Ok((Self { log: log.with_used(used), words, index, loads: AtomicU64::new(0) }, recovered))
    }

    /// Unloads rounds up to `threshold` and answers how many blocks were loaded; 0 does nothing.
    pub fn cleanup(&mut self, threshold: u64) -> Result<u64, Refusal> {
        let mut answer = [0; 2];
        served(ffi::cleanup(self.log.view(), &self.words, &mut self.index, threshold, &mut answer))?;
        Ok(answer[1])
    }

    // ---- Questions that read no block

    /// Whether a reference is indexed.
    pub fn block_exists(&self, reference: &BlockReference) -> Result<bool, Refusal> {
        let mut answer = [0; 2];
        served(ffi::block_exists(self.log.view(), &self.words, &self.index, &reference.to_words(), &mut answer))?;
        Ok(answer[1] != 0)
    }

    /// Whether an authority has a block in a round.
    pub fn block_exists_at_authority_round(&self, authority: u64, round: u64) -> Result<bool, Refusal> {
        let mut answer = [0; 2];
        served(ffi::block_exists_at_authority_round(self.log.view(), &self.words, &self.index, authority, round, &mut answer))?;
        Ok(answer[1] != 0)
    }

    /// Whether each of the authorities has a block in a round; no in a round without blocks, even for an empty list.
    pub fn all_blocks_exists_at_authority_round(&self, authorities: &[u64], round: u64) -> Result<bool, Refusal> {
        let mut answer = [0; 2];
        let view = self.log.view();
        served(ffi::all_blocks_exists_at_authority_round(view, &self.words, &self.index, authorities, round, &mut answer))?;
        Ok(answer[1] != 0)
    }

    // ---- Lookups, which count the blocks that they load

    /// The block with a reference.
    pub fn get_block(&self, reference: &BlockReference) -> Result<Option<Found>, Refusal> {
        let words = reference.to_words();
        let found = self.look(1, |lent, out, answer| ffi::get_block(self.log.view(), lent, &words, out, answer))?;
        Ok(found.into_iter().next())
    }

    /// The blocks of a round.
    pub fn get_blocks_by_round(&self, round: u64) -> Result<Vec<Found>, Refusal> {
        self.look(FEW, |lent, out, answer| ffi::get_blocks_by_round(self.log.view(), lent, round, out, answer))
    }

    /// An authority's blocks in a round.
    pub fn get_blocks_at_authority_round(&self, authority: u64, round: u64) -> Result<Vec<Found>, Refusal> {
        self.look(FEW, |lent, out, answer| ffi::get_blocks_at_authority_round(self.log.view(), lent, authority, round, out, answer))
    }

    /// Own blocks after a round, `limit` of them at most.
    pub fn get_own_blocks(&self, from_excluded: u64, limit: usize) -> Result<Vec<Found>, Refusal> {
        self.look(FEW, |lent, out, answer| ffi::get_own_blocks(self.log.view(), lent, from_excluded, limit, out, answer))
    }

    /// An authority's blocks in the first `limit` indexed rounds after a round, whether or not it has one there.
    pub fn get_others_blocks(&self, from_excluded: u64, authority: u64, limit: usize) -> Result<Vec<Found>, Refusal> {
        self.look(FEW, |lent, out, answer| ffi::get_others_blocks(self.log.view(), lent, from_excluded, authority, limit, out, answer))
    }

    /// Where the transaction with this offset in a block stands in the image; none where that statement shares none.
    pub fn get_transaction(&self, block: &BlockReference, offset: u64) -> Result<Option<Range<usize>>, Refusal> {
        let mut answer = [0; 4];
        let words = block.to_words();
        served(self.counted(|lent| ffi::get_transaction(self.log.view(), lent, &words, offset, &mut answer)))?;
        let [there, at, len] = [1, 2, 3].map(|i| answer[i] as usize);
        Ok((there != 0).then_some(at..at + len))
    }

    /// Whether `earlier` is an ancestor of the block whose bytes are `later`.
    pub fn linked(&self, later: &[u8], earlier: &BlockReference) -> Result<bool, Refusal> {
        let (mut work, mut answer) = (vec![0; self.len_expensive() * ROW], [0; 2]);
        let words = earlier.to_words();
        served(self.counted(|lent| ffi::linked(self.log.view(), lent, later, &words, &mut work, &mut answer)))?;
        Ok(answer[1] != 0)
    }
}

/// The log, and how much is indexed.
impl<B: AsRef<[u8]>> fmt::Debug for BlockStore<B> {
    fn fmt(&self, f: &mut fmt::Formatter<'_>) -> fmt::Result {
        f.debug_struct("BlockStore")
            .field("log", &self.log)
            .field("committee_size", &self.committee_size())
            .field("own", &self.own())
            .field("blocks", &self.len_expensive())
            .field("highest_round", &self.highest_round())
            .field("loads", &self.loads())
            .finish()
    }
}

/// The rows lent to a lookup at first.
const FEW: usize = 16;

fn found_row(row: &[u64]) -> Found {
    let start = row[6] as usize;
    Found { reference: BlockReference::at(row, 0), bytes: start..start + row[7] as usize }
}

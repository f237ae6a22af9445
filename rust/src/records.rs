//! The records of a log as owned values. The proved calls lay them out and read them; here buffers get their sizes and words
//! their names.

mod blocks;
mod commits;
mod statements;
#[cfg(test)]
mod tests;

pub use blocks::{encode_own_block, BlockBuilder, OwnBlock};
pub use commits::{Commit, CommitData};
pub use statements::{Payload, Statement, TransactionLocator, Vote};

pub(crate) use statements::statement_at;

use crate::ffi::{self, EncodingWords};
use crate::BlockReference;

/// Bytes of a reference, and of a count before a list.
const REFERENCE: usize = 56;
const COUNT: usize = 8;

/// A record that an encoder writes into a buffer.
trait Put {
    /// The number of its bytes.
    fn size(&self) -> usize;

    /// Writes it from a place on.
    fn put(&self, out: &mut [u8], at: usize, answer: &mut EncodingWords) -> u8;
}

impl Put for BlockReference {
    fn size(&self) -> usize {
        REFERENCE
    }

    fn put(&self, out: &mut [u8], at: usize, answer: &mut EncodingWords) -> u8 {
        ffi::encode_reference(out, at, &self.to_words(), answer)
    }
}

/// The bytes that an encoder fills, this many; none where what it was given is no record.
fn filled(size: usize, encode: impl FnOnce(&mut [u8], &mut EncodingWords) -> u8) -> Option<Vec<u8>> {
    let (mut out, mut answer) = (vec![0; size], [0; 2]);
    encode(&mut out, &mut answer);
    (answer == [1, size as u64]).then_some(out)
}

/// Records one behind the other, as encoders take lists.
fn in_a_row<T: Put>(records: &[T]) -> Vec<u8> {
    let mut out = vec![0; records.iter().map(T::size).sum()];
    let mut at = 0;
    for record in records {
        let mut answer = [0; 2];
        record.put(&mut out, at, &mut answer);
        assert_eq!(answer[0], 1, "{OWNED}");
        at = answer[1] as usize;
    }
    out
}

/// Why an encoder refuses no owned value: its lists are encoded by these calls, and its buffer has its size.
const OWNED: &str = "an owned record is encoded in a buffer of its size";

/// A decoder: the record at a place, and its end.
type Step<T> = fn(&[u8], usize) -> Option<(T, usize)>;

/// The elements of a list, each read from the end of the one before it on. A decoded list has all of them.
pub(crate) fn elements<'a, T: 'a>(bytes: &'a [u8], (place, number): (usize, usize), step: Step<T>) -> impl Iterator<Item = T> + 'a {
    (0..number).scan(place, move |at, _| {
        let (element, end) = step(bytes, *at)?;
        *at = end;
        Some(element)
    })
}

/// Whether a payload stands at the start of these bytes, as recovery asks of an entry of tag 2 that is still pending.
pub(crate) fn is_payload(bytes: &[u8]) -> bool {
    statements::payload_words(bytes).is_some()
}

/// Whether a commit stands at the start of these bytes, as recovery asks of an entry of tag 5.
pub(crate) fn is_commit(bytes: &[u8]) -> bool {
    commits::commit_words(bytes).is_some()
}

/// The reference at a place, and its end.
fn reference_at(bytes: &[u8], at: usize) -> Option<(BlockReference, usize)> {
    let mut w = [0; 8];
    ffi::include_at(bytes, at, 0, &mut w);
    (w[0] != 0).then(|| (BlockReference::at(&w, 1), w[7] as usize))
}

impl BlockReference {
    /// The reference's 56 bytes.
    ///
    /// ```
    /// use kadzhomir::BlockReference;
    ///
    /// let reference = BlockReference { authority: 2, round: 7, digest: [1; 32] };
    /// assert_eq!(BlockReference::decode(&reference.encode()), Some(reference));
    /// ```
    pub fn encode(&self) -> Vec<u8> {
        in_a_row(&[*self])
    }

    /// The reference at the start of these bytes; what follows it is not looked at.
    pub fn decode(bytes: &[u8]) -> Option<Self> {
        reference_at(bytes, 0).map(|(reference, _)| reference)
    }
}

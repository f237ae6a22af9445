use super::{elements, filled, in_a_row, Put, COUNT, OWNED, REFERENCE};
use crate::ffi::{self, EncodingWords, LocatorWords};
use crate::BlockReference;

/// Bytes of a statement's and of a vote's variant, of a locator and of a range.
const VARIANT: usize = 4;
const LOCATOR: usize = REFERENCE + 8;
const RANGE: usize = REFERENCE + 16;

/// The name of a transaction: the block that shares it, and which of the block's statements does.
#[derive(Clone, Copy, Debug, Default, PartialEq, Eq, PartialOrd, Ord, Hash)]
pub struct TransactionLocator {
    /// The block that shares it.
    pub block: BlockReference,
    /// The place of the statement in the block's list, from 0 on.
    pub offset: u64,
}

impl TransactionLocator {
    fn to_words(self) -> LocatorWords {
        let [a, b, c, d, e, f] = self.block.to_words();
        [a, b, c, d, e, f, self.offset]
    }

    /// The locator that begins at this word.
    fn at(words: &[u64], place: usize) -> Self {
        Self { block: BlockReference::at(words, place), offset: words[place + 6] }
    }
}

/// What is said of a transaction.
#[derive(Clone, Copy, Debug, PartialEq, Eq, Hash)]
pub enum Vote {
    /// The transaction is accepted.
    Accept,
    /// The transaction is rejected, maybe for another that it conflicts with.
    Reject(Option<TransactionLocator>),
}

/// A statement of a block or of a payload.
///
/// ```
/// use kadzhomir::{BlockReference, Statement, TransactionLocator, Vote};
///
/// let block = BlockReference { authority: 2, round: 7, digest: [1; 32] };
/// for statement in [
///     Statement::Share(b"a transaction".to_vec()),
///     Statement::Vote { locator: TransactionLocator { block, offset: 0 }, vote: Vote::Accept },
///     Statement::VoteRange { block, start: 1, end: 4 },
/// ] {
///     assert_eq!(Statement::decode(&statement.encode()), Some(statement));
/// }
/// assert_eq!(Statement::decode(b"no statement"), None);
/// ```
#[derive(Clone, Debug, PartialEq, Eq, Hash)]
pub enum Statement {
    /// A transaction's bytes.
    Share(Vec<u8>),
    /// A vote on one transaction.
    Vote {
        /// The transaction.
        locator: TransactionLocator,
        /// What is said of it.
        vote: Vote,
    },
    /// A vote on several transactions of a block.
    VoteRange {
        /// The block that shares them.
        block: BlockReference,
        /// The offset of the first.
        start: u64,
        /// The offset behind the last.
        end: u64,
    },
}

impl Statement {
    /// The statement's bytes.
    pub fn encode(&self) -> Vec<u8> {
        filled(self.size(), |out, answer| self.put(out, 0, answer)).expect(OWNED)
    }

    /// The statement at the start of these bytes; what follows it is not looked at.
    pub fn decode(bytes: &[u8]) -> Option<Self> {
        statement_at(bytes, 0).map(|(statement, _)| statement)
    }
}

impl Put for Statement {
    fn size(&self) -> usize {
        VARIANT
            + match self {
                Statement::Share(bytes) => COUNT + bytes.len(),
                Statement::Vote { vote: Vote::Accept, .. } => LOCATOR + VARIANT,
                Statement::Vote { vote: Vote::Reject(None), .. } => LOCATOR + VARIANT + 1,
                Statement::Vote { vote: Vote::Reject(Some(_)), .. } => LOCATOR + VARIANT + 1 + LOCATOR,
                Statement::VoteRange { .. } => RANGE,
            }
    }

    fn put(&self, out: &mut [u8], at: usize, answer: &mut EncodingWords) -> u8 {
        match self {
            Statement::Share(bytes) => ffi::encode_share(out, at, bytes, answer),
            Statement::Vote { locator, vote } => {
                let (kind, other) = match vote {
                    Vote::Accept => (0, TransactionLocator::default()),
                    Vote::Reject(None) => (1, TransactionLocator::default()),
                    Vote::Reject(Some(other)) => (2, *other),
                };
                ffi::encode_vote(out, at, &locator.to_words(), kind, &other.to_words(), answer)
            }
            Statement::VoteRange { block, start, end } => {
                let [a, b, c, d, e, f] = block.to_words();
                ffi::encode_vote_range(out, at, &[a, b, c, d, e, f, *start, *end], answer)
            }
        }
    }
}

/// The statement at a place, and its end.
pub(crate) fn statement_at(bytes: &[u8], at: usize) -> Option<(Statement, usize)> {
    let mut w = [0; 28];
    ffi::decode_statement(bytes, at, &mut w);
    if w[0] == 0 {
        return None;
    }
    let statement = match w[1] {
        0 => Statement::Share(bytes[w[2] as usize..][..w[3] as usize].to_vec()),
        1 => {
            let vote = match w[11] {
                0 => Vote::Accept,
                1 => Vote::Reject(None),
                _ => Vote::Reject(Some(TransactionLocator::at(&w, 12))),
            };
            Statement::Vote { locator: TransactionLocator::at(&w, 4), vote }
        }
        _ => Statement::VoteRange { block: BlockReference::at(&w, 19), start: w[25], end: w[26] },
    };
    Some((statement, w[27] as usize))
}

/// What an entry of tag 2 holds: a list of statements, which wait for an own block to take them up.
///
/// ```
/// use kadzhomir::{Log, Payload, Statement};
///
/// let payload = Payload { statements: vec![Statement::Share(b"one".to_vec()), Statement::Share(b"two".to_vec())] };
/// let mut log = Log::new(16, vec![0; 4096], 0);
/// let entry = log.append_raw(2, &payload.encode()).and_then(|position| log.read(position))?;
/// assert_eq!(Payload::decode(&log.image()[entry.payload()]), Some(payload));
/// # Ok::<(), kadzhomir::Refusal>(())
/// ```
#[derive(Clone, Debug, Default, PartialEq, Eq, Hash)]
pub struct Payload {
    /// The statements in their order.
    pub statements: Vec<Statement>,
}

impl Payload {
    /// The payload's bytes.
    pub fn encode(&self) -> Vec<u8> {
        let row = in_a_row(&self.statements);
        let count = self.statements.len() as u64;
        filled(COUNT + row.len(), |out, answer| ffi::encode_payload(out, 0, &row, count, answer)).expect(OWNED)
    }

    /// The payload at the start of these bytes; what follows it is not looked at.
    pub fn decode(bytes: &[u8]) -> Option<Self> {
        let [_, place, number, _] = payload_words(bytes)?.map(|w| w as usize);
        Some(Self { statements: elements(bytes, (place, number), statement_at).collect() })
    }
}

impl From<Vec<Statement>> for Payload {
    fn from(statements: Vec<Statement>) -> Self {
        Self { statements }
    }
}

impl FromIterator<Statement> for Payload {
    fn from_iter<I: IntoIterator<Item = Statement>>(statements: I) -> Self {
        Self { statements: statements.into_iter().collect() }
    }
}

pub(super) fn payload_words(bytes: &[u8]) -> Option<[u64; 4]> {
    let mut w = [0; 4];
    ffi::decode_payload(bytes, 0, &mut w);
    (w[0] != 0).then_some(w)
}

use super::{filled, in_a_row, Statement, COUNT, OWNED};
use crate::{ffi, Block, BlockReference, WalPosition};

/// Bytes of a block without includes and statements.
const EMPTY_BLOCK: usize = 161;

/// Makes a block's bytes. What is not set is empty or zero.
///
/// The digest in the reference is the caller's: no call computes or checks it.
///
/// ```
/// use kadzhomir::{Block, BlockBuilder, BlockReference, Statement};
///
/// let reference = BlockReference { authority: 1, round: 3, digest: [7; 32] };
/// let parent = BlockReference { authority: 0, round: 2, digest: [6; 32] };
/// let bytes = BlockBuilder::new(reference)
///     .include(parent)
///     .statement(Statement::Share(b"a transaction".to_vec()))
///     .creation_time_ns(1_700_000_000_000_000_000)
///     .signature([9; 64])
///     .build();
///
/// let block = Block::decode(&bytes, 0).unwrap();
/// assert_eq!((block.reference, block.end), (reference, bytes.len()));
/// assert_eq!(block.includes(&bytes).collect::<Vec<_>>(), [parent]);
/// assert_eq!(block.statements(&bytes).next(), Some(Statement::Share(b"a transaction".to_vec())));
/// ```
#[derive(Clone, Debug, PartialEq, Eq, Hash)]
#[must_use = "a builder gives bytes where it is built"]
pub struct BlockBuilder {
    reference: BlockReference,
    includes: Vec<BlockReference>,
    statements: Vec<Statement>,
    creation_time_ns: u128,
    epoch_marker: bool,
    signature: [u8; 64],
}

impl BlockBuilder {
    /// A block with this reference.
    pub fn new(reference: BlockReference) -> Self {
        Self { reference, includes: Vec::new(), statements: Vec::new(), creation_time_ns: 0, epoch_marker: false, signature: [0; 64] }
    }

    /// Adds a reference to those that the block includes.
    pub fn include(self, reference: BlockReference) -> Self {
        self.includes([reference])
    }

    /// Adds references to those that the block includes, in this order.
    pub fn includes(mut self, references: impl IntoIterator<Item = BlockReference>) -> Self {
        self.includes.extend(references);
        self
    }

    /// Adds a statement.
    pub fn statement(self, statement: Statement) -> Self {
        self.statements([statement])
    }

    /// Adds statements, in this order.
    pub fn statements(mut self, statements: impl IntoIterator<Item = Statement>) -> Self {
        self.statements.extend(statements);
        self
    }

    /// When the block was made, in nanoseconds.
    pub fn creation_time_ns(mut self, time: u128) -> Self {
        self.creation_time_ns = time;
        self
    }

    /// The epoch marker.
    pub fn epoch_marker(mut self, marker: bool) -> Self {
        self.epoch_marker = marker;
        self
    }

    /// The signature, which is carried as it is.
    pub fn signature(mut self, signature: [u8; 64]) -> Self {
        self.signature = signature;
        self
    }

    /// Whether the block has this many includes and statements.
    pub(crate) fn lists(&self, includes: usize, statements: usize) -> bool {
        (self.includes.len(), self.statements.len()) == (includes, statements)
    }

    /// The block's bytes, for [`BlockStore::insert_block`](crate::BlockStore::insert_block) or [`encode_own_block`].
    pub fn build(&self) -> Vec<u8> {
        let (includes, statements) = (in_a_row(&self.includes), in_a_row(&self.statements));
        let [a, b, c, d, e, f] = self.reference.to_words();
        let numbers = [self.includes.len() as u64, self.statements.len() as u64];
        let time = [self.creation_time_ns as u64, (self.creation_time_ns >> 64) as u64];
        let fields = [a, b, c, d, e, f, numbers[0], numbers[1], time[0], time[1], self.epoch_marker.into()];
        let size = EMPTY_BLOCK + includes.len() + statements.len();
        filled(size, |out, answer| ffi::encode_block(out, 0, &fields, &self.signature, &includes, &statements, answer)).expect(OWNED)
    }
}

/// What an entry of tag 3 holds: the place from which on entries stay pending, and the own block.
///
/// ```
/// use kadzhomir::{encode_own_block, BlockBuilder, BlockReference, OwnBlock, WalPosition};
///
/// let block = BlockBuilder::new(BlockReference { authority: 0, round: 4, digest: [7; 32] }).build();
/// let bytes = encode_own_block(WalPosition(96), &block).unwrap();
/// let own = OwnBlock::decode(&bytes).unwrap();
/// assert_eq!((own.next_entry, own.block.reference.round), (WalPosition(96), 4));
/// assert_eq!(bytes[own.block_bytes()], block);
///
/// assert_eq!(encode_own_block(WalPosition(96), b"no block"), None);
/// ```
#[derive(Clone, Debug, PartialEq, Eq, Hash)]
pub struct OwnBlock {
    /// Payloads and blocks before this position are no longer pending.
    pub next_entry: WalPosition,
    /// The block's fields; places count from the start of the bytes that were decoded.
    pub block: Block,
}

impl OwnBlock {
    /// The own block at the start of these bytes; what follows it is not looked at.
    pub fn decode(bytes: &[u8]) -> Option<Self> {
        let mut w = [0; 16];
        ffi::decode_own_block(bytes, 0, &mut w);
        (w[0] != 0).then(|| Self { next_entry: WalPosition(w[15]), block: Block::of(&w) })
    }

    /// Where the block stands in the bytes: behind the next entry.
    pub fn block_bytes(&self) -> std::ops::Range<usize> {
        COUNT..self.block.end
    }
}

/// An own block's bytes, of its next entry and the bytes of its block; none where those are not a block and nothing else.
pub fn encode_own_block(next_entry: WalPosition, block: &[u8]) -> Option<Vec<u8>> {
    filled(COUNT + block.len(), |out, answer| ffi::encode_own_block(out, 0, next_entry.0, block, answer))
}

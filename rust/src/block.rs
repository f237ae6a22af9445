use crate::records::{elements, statement_at};
use crate::{ffi, BlockBuilder, BlockReference, Statement};
use std::ops::Range;

/// A block's fields; what it lists stays in its bytes.
///
/// ```
/// assert!(kadzhomir::Block::decode(b"no block", 0).is_none());
/// ```
#[derive(Clone, Debug, PartialEq, Eq, Hash)]
pub struct Block {
    /// The block's name. Its digest is carried as it is.
    pub reference: BlockReference,
    /// Place of the first include, and their number.
    pub includes: (usize, usize),
    /// Place of the first statement, and their number.
    pub statements: (usize, usize),
    /// When the block was made, in nanoseconds.
    pub creation_time_ns: u128,
    /// The epoch marker.
    pub epoch_marker: bool,
    /// The place behind the block.
    pub end: usize,
}

impl Block {
    /// The block at a place in these bytes.
    pub fn decode(bytes: &[u8], at: usize) -> Option<Self> {
        let mut w = [0; 15];
        ffi::decode_block(bytes, at, &mut w);
        (w[0] != 0).then(|| Self::of(&w))
    }

    /// Of the words of a block that decodes.
    pub(crate) fn of(w: &[u64]) -> Self {
        Self {
            reference: BlockReference::at(w, 1),
            includes: (w[7] as usize, w[8] as usize),
            statements: (w[9] as usize, w[10] as usize),
            creation_time_ns: w[11] as u128 | (w[12] as u128) << 64,
            epoch_marker: w[13] != 0,
            end: w[14] as usize,
        }
    }

    /// Where the signature's 64 bytes stand.
    pub fn signature(&self) -> Range<usize> {
        self.end - 64..self.end
    }

    /// The references that the block includes; `bytes` are those it was decoded from.
    pub fn includes<'a>(&self, bytes: &'a [u8]) -> impl Iterator<Item = BlockReference> + 'a {
        let (place, number) = self.includes;
        (0..number).map_while(move |i| {
            let mut w = [0; 8];
            ffi::include_at(bytes, place, i, &mut w);
            (w[0] != 0).then(|| BlockReference::at(&w, 1))
        })
    }

    /// The block's statements; `bytes` are those it was decoded from.
    pub fn statements<'a>(&self, bytes: &'a [u8]) -> impl Iterator<Item = Statement> + 'a {
        elements(bytes, self.statements, statement_at)
    }

    /// A builder of this block, with all that it lists; none where `bytes`, those it was decoded from, are cut.
    ///
    /// ```
    /// use kadzhomir::{Block, BlockBuilder, BlockReference};
    ///
    /// let bytes = BlockBuilder::new(BlockReference::default()).signature([9; 64]).build();
    /// let block = Block::decode(&bytes, 0).unwrap();
    /// let marked = block.to_builder(&bytes).unwrap().epoch_marker(true).build();
    /// assert!(Block::decode(&marked, 0).unwrap().epoch_marker);
    /// ```
    pub fn to_builder(&self, bytes: &[u8]) -> Option<BlockBuilder> {
        let signature = bytes.get(self.signature())?.try_into().ok()?;
        let builder = BlockBuilder::new(self.reference)
            .includes(self.includes(bytes))
            .statements(self.statements(bytes))
            .creation_time_ns(self.creation_time_ns)
            .epoch_marker(self.epoch_marker)
            .signature(signature);
        builder.lists(self.includes.1, self.statements.1).then_some(builder)
    }
}

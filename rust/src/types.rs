use std::fmt;

/// A position in the log: the place of an entry's first byte.
#[derive(Clone, Copy, Debug, Default, PartialEq, Eq, PartialOrd, Ord, Hash)]
pub struct WalPosition(pub u64);

impl WalPosition {
    /// As the next entry of an own block: no payload and no block before it stays pending.
    pub const MAX: WalPosition = WalPosition(u64::MAX);
}

impl fmt::Display for WalPosition {
    fn fmt(&self, f: &mut fmt::Formatter<'_>) -> fmt::Result {
        write!(f, "{}", self.0)
    }
}

/// The name of a block. References are ordered by round, authority and digest, as index rows are.
///
/// ```
/// use kadzhomir::BlockReference;
///
/// let reference = BlockReference { authority: 2, round: 7, digest: [1; 32] };
/// assert_eq!(reference.to_words()[..2], [7, 2]);
/// assert_eq!(BlockReference::from_words(&reference.to_words()), reference);
/// ```
#[derive(Clone, Copy, Debug, Default, PartialEq, Eq, Hash)]
pub struct BlockReference {
    /// Who made the block.
    pub authority: u64,
    /// In which round.
    pub round: u64,
    /// The digest of its contents, which nothing here computes.
    pub digest: [u8; 32],
}

impl BlockReference {
    /// Round, authority, and the digest as four words, the first byte most significant: in the order that sorts rows.
    pub fn to_words(&self) -> [u64; 6] {
        let mut words = [self.round, self.authority, 0, 0, 0, 0];
        for (word, bytes) in words[2..].iter_mut().zip(self.digest.chunks_exact(8)) {
            *word = bytes.iter().fold(0, |w, b| w << 8 | *b as u64);
        }
        words
    }

    /// The reference of these words.
    pub fn from_words(words: &[u64; 6]) -> Self {
        let mut digest = [0; 32];
        for (bytes, word) in digest.chunks_exact_mut(8).zip(&words[2..]) {
            bytes.copy_from_slice(&word.to_be_bytes());
        }
        Self { authority: words[1], round: words[0], digest }
    }

    /// The reference that begins at this word.
    pub(crate) fn at(words: &[u64], place: usize) -> Self {
        let mut six = [0; 6];
        six.copy_from_slice(&words[place..place + 6]);
        Self::from_words(&six)
    }
}

impl PartialOrd for BlockReference {
    fn partial_cmp(&self, other: &Self) -> Option<std::cmp::Ordering> {
        Some(self.cmp(other))
    }
}

impl Ord for BlockReference {
    fn cmp(&self, other: &Self) -> std::cmp::Ordering {
        self.to_words().cmp(&other.to_words())
    }
}

impl fmt::Display for BlockReference {
    fn fmt(&self, f: &mut fmt::Formatter<'_>) -> fmt::Result {
        write!(f, "block of authority {} in round {}, digest ", self.authority, self.round)?;
        self.digest.iter().try_for_each(|b| write!(f, "{b:02x}"))
    }
}

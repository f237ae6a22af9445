use crate::{Log, WalPosition};
use std::fmt;

/// Why a call was refused. Each has its number in the specification's table, from 1 to 19.
///
/// ```
/// use kadzhomir::{Log, Refusal};
///
/// let mut image = [0; 64];
/// let refused = Log::new(5, &mut image[..], 0).append_raw(1, b"").unwrap_err();
/// assert_eq!(refused, Refusal::RegionExponent);
/// assert_eq!(refused.number(), 1);
/// assert!(refused.to_string().contains("6 to 28"));
/// ```
#[derive(Clone, Copy, Debug, PartialEq, Eq, Hash)]
#[non_exhaustive]
pub enum Refusal {
    /// 1: the region exponent is not 6 to 28.
    RegionExponent,
    /// 2: the log's length exceeds the image or 2^40.
    Used,
    /// 3: the payload and its header exceed a region.
    EntryTooLarge,
    /// 4: padding and entry pass the image's end or 2^40.
    ImageFull,
    /// 5: a header has length 0 and a checksum.
    ChecksumWithoutLength,
    /// 6: a header's length is 1 to 15, or passes its region's end.
    Length,
    /// 7: the checksum is not the payload's.
    Checksum,
    /// 8: the tag is not 1 to 5, or in a lookup neither 1 nor 3.
    Tag,
    /// 9: a block does not decode.
    Block,
    /// 10: an own block does not decode.
    OwnBlock,
    /// 11: a payload that is still pending does not decode.
    Payload,
    /// 12: a commit does not decode.
    Commit,
    /// 13: a block's authority is not in the committee.
    Authority,
    /// 14: the own authority has a block in this round already.
    SecondOwnBlock,
    /// 15: a table needs more rows than were lent.
    Rows,
    /// 16: no entry stands at this position.
    NoEntry,
    /// 17: the position, or the entry there, passes the log's end.
    PastUsed,
    /// 18: the committee, the own authority or the index rows.
    Store,
    /// 19: there is no round after 2^64 - 1.
    AfterRound,
    /// A number that the table does not have. The archive linked here answers none.
    Unknown(u8),
}

use Refusal::*;

const TABLE: [Refusal; 19] = [
    RegionExponent,
    Used,
    EntryTooLarge,
    ImageFull,
    ChecksumWithoutLength,
    Length,
    Checksum,
    Tag,
    Block,
    OwnBlock,
    Payload,
    Commit,
    Authority,
    SecondOwnBlock,
    Rows,
    NoEntry,
    PastUsed,
    Store,
    AfterRound,
];

const CUT: &str = "the log is damaged here: keep a copy of it, and go on from a good copy or from a log cut before this entry";

impl Refusal {
    /// The refusal with this number; none for 0.
    pub fn from_number(number: u8) -> Option<Self> {
        let place = (number as usize).checked_sub(1)?;
        Some(TABLE.get(place).copied().unwrap_or(Unknown(number)))
    }

    /// Its number in the table.
    pub fn number(self) -> u8 {
        match self {
            Unknown(number) => number,
            known => 1 + TABLE.iter().position(|r| *r == known).unwrap_or(0) as u8,
        }
    }

    /// Whether it is about an entry of the log, 5 to 14: a log that is cut at the entry's start has it no more. The others are about what
    /// a call was given.
    pub fn is_of_an_entry(self) -> bool {
        (5..=14).contains(&self.number())
    }

    /// What the number means.
    pub fn meaning(self) -> &'static str {
        match self {
            RegionExponent => "the region exponent is not 6 to 28",
            Used => "the log's length exceeds the image or 2^40",
            EntryTooLarge => "the payload and its header of 16 bytes exceed a region",
            ImageFull => "padding and entry pass the image's end or 2^40",
            ChecksumWithoutLength => "a header has length 0 and a checksum",
            Length => "a header's length is 1 to 15, or passes its region's end",
            Checksum => "the checksum is not the payload's",
            Tag => "the tag is not 1 to 5, or in a lookup neither 1 nor 3",
            Block => "a block does not decode",
            OwnBlock => "an own block's payload has under 8 bytes, or its block does not decode",
            Payload => "a payload that is still pending does not decode",
            Commit => "a commit does not decode",
            Authority => "a block's authority is not in the committee",
            SecondOwnBlock => "the own authority has a block in this round already",
            Rows => "a table needs more rows than were lent",
            NoEntry => "no entry stands at this position",
            PastUsed => "the position, or the entry there, passes the log's end",
            Store => "the committee size is not 1 to 128, the own authority is not below it, or index rows are out of order",
            AfterRound => "there is no round after 2^64 - 1",
            Unknown(_) => "a number that this crate does not know",
        }
    }

    /// What to do about it.
    pub fn remedy(self) -> &'static str {
        match self {
            RegionExponent => "pass the exponent with which the log was written",
            Used => "pass the log's length, and an image that holds all of it",
            EntryTooLarge => "split the payload, or start a log with larger regions",
            ImageFull => "lend a longer image; the log is as it was",
            ChecksumWithoutLength | Length | Checksum => CUT,
            Tag => "check that the log and the position are those of this store, and that no other program writes tags of its own",
            Block | OwnBlock | Payload | Commit => "check the bytes against docs/LAYOUTS.md; if the log holds them, its writer is at fault",
            Authority => "pass the committee with which the log was written, or reject the block",
            SecondOwnBlock => "do not sign a second block in a round; in a log, check that the own authority is the one that wrote it",
            Rows => "lend more rows and call again; nothing was changed",
            NoEntry => "pass a position that append, a walk or an insert answered",
            PastUsed => "pass the length that the log has now, or walk it to see whether its end is torn",
            Store => "open the store from a recovery for this committee, and change its rows by its own calls alone",
            AfterRound => "pass the highest round that is already known",
            Unknown(_) => "use the archive and the crate of one version",
        }
    }
}

impl fmt::Display for Refusal {
    fn fmt(&self, f: &mut fmt::Formatter<'_>) -> fmt::Result {
        write!(f, "refusal {}: {}; {}", self.number(), self.meaning(), self.remedy())
    }
}

impl std::error::Error for Refusal {}

/// A refusal in a walk or a recovery, with the start of the entry concerned (0 for 1, 2 and 18).
#[derive(Clone, Copy, Debug, PartialEq, Eq, Hash)]
pub struct RefusedAt {
    /// Why.
    pub refusal: Refusal,
    /// Where the entry concerned begins.
    pub start: WalPosition,
}

impl fmt::Display for RefusedAt {
    fn fmt(&self, f: &mut fmt::Formatter<'_>) -> fmt::Result {
        write!(f, "at {}: {}", self.start, self.refusal)
    }
}

impl std::error::Error for RefusedAt {
    fn source(&self) -> Option<&(dyn std::error::Error + 'static)> {
        Some(&self.refusal)
    }
}

/// A recovery that was refused, with the log as it was.
pub struct NotRecovered<B> {
    /// The number and the start of the entry concerned.
    pub refused: RefusedAt,
    /// The log, given back.
    pub log: Log<B>,
}

impl<B> fmt::Debug for NotRecovered<B> {
    fn fmt(&self, f: &mut fmt::Formatter<'_>) -> fmt::Result {
        f.debug_struct("NotRecovered").field("refused", &self.refused).finish_non_exhaustive()
    }
}

impl<B> fmt::Display for NotRecovered<B> {
    fn fmt(&self, f: &mut fmt::Formatter<'_>) -> fmt::Result {
        self.refused.fmt(f)
    }
}

impl<B> std::error::Error for NotRecovered<B> {
    fn source(&self) -> Option<&(dyn std::error::Error + 'static)> {
        Some(&self.refused.refusal)
    }
}

/// The answer of a call that gives the refusal's number.
pub(crate) fn served(number: u8) -> Result<(), Refusal> {
    Refusal::from_number(number).map_or(Ok(()), Err)
}

pub(crate) fn served_at(number: u8, start: u64) -> Result<(), RefusedAt> {
    served(number).map_err(|refusal| RefusedAt { refusal, start: WalPosition(start) })
}

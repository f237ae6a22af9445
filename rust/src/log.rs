use crate::ffi::{self, StoreWords, View};
use crate::page;
use crate::recovered::Recovered;
use crate::refusal::{served, served_at};
use crate::{BlockStore, NotRecovered, Refusal, RefusedAt, RefusedPage, WalPosition};
use std::fmt;
use std::ops::Range;

/// An entry of a log.
#[derive(Clone, Copy, Debug, PartialEq, Eq, Hash)]
pub struct Entry {
    /// Where the entry begins.
    pub position: WalPosition,
    /// What the payload is: 1 a block, 2 a payload, 3 an own block, 4 a state, 5 a commit.
    pub tag: u32,
    /// The payload's length.
    pub len: u64,
    /// The payload's CRC-32.
    pub checksum: u32,
}

impl Entry {
    /// Where the payload stands in the image.
    pub fn payload(&self) -> Range<usize> {
        let start = self.position.0 as usize + 16;
        start..start + self.len as usize
    }

    /// Where the entry ends.
    pub fn end(&self) -> WalPosition {
        WalPosition(self.position.0 + 16 + self.len)
    }

    fn of(words: &[u64]) -> Self {
        Self { position: WalPosition(words[0]), tag: words[1] as u32, len: words[2], checksum: words[3] as u32 }
    }
}

/// Why a walk stopped: at the log's end, at zeros, or at an entry that is not whole. A refused walk has no stop.
#[derive(Clone, Copy, Debug, PartialEq, Eq, Hash)]
pub enum Stop {
    /// At the log's end, right behind the last entry.
    End,
    /// At zeros, or behind bytes that were skipped.
    Zeros,
    /// At an entry that is not whole.
    Torn,
}

impl Stop {
    /// Of a walk or a recovery that was not refused: the code of a refused one, 3, is no stop.
    pub(crate) fn of(word: u64) -> Self {
        [Stop::End, Stop::Zeros, Stop::Torn][word as usize]
    }
}

/// The stop word, as a listing has it.
impl fmt::Display for Stop {
    fn fmt(&self, f: &mut fmt::Formatter<'_>) -> fmt::Result {
        f.write_str(match self {
            Stop::End => "END",
            Stop::Zeros => "ZEROS",
            Stop::Torn => "TORN",
        })
    }
}

/// What a walk over a whole log found.
#[derive(Clone, Copy, Debug, PartialEq, Eq, Hash)]
pub struct Walked {
    /// Why it stopped.
    pub stop: Stop,
    /// The end of the last whole entry. Recover the log to go on appending there ([`Log::recover`]).
    pub end: WalPosition,
    /// The bytes behind it.
    pub unread: u64,
}

/// A log: regions of 2^k bytes, an image, and how many of its bytes the log has. Nothing is checked here: each call checks.
///
/// This is the log in memory that its caller brings. A log in a file is a [`Node`](crate::Node)'s.
///
/// ```
/// use kadzhomir::{Log, Stop};
///
/// let mut log = Log::new(6, vec![0; 128], 0);
/// for (tag, payload) in [(2, "123456789"), (4, ""), (2, "123456789")] {
///     log.append_raw(tag, payload.as_bytes())?;
/// }
/// // An entry crosses no multiple of 2^k: the third one starts the second region.
/// let starts: Vec<u64> = log.entries().map(|e| Ok(e?.position.0)).collect::<Result<_, kadzhomir::RefusedAt>>()?;
/// assert_eq!(starts, [0, 25, 64]);
///
/// // A power cut in the third entry: two are whole, and the log goes on at 41.
/// let walked = Log::new(6, log.image(), 80).walk()?;
/// assert_eq!((walked.stop, walked.end.0, walked.unread), (Stop::Torn, 41, 39));
/// # Ok::<(), Box<dyn std::error::Error>>(())
/// ```
pub struct Log<B> {
    k: u64,
    image: B,
    used: u64,
}

impl<B> Log<B> {
    /// The log of the first `used` bytes of an image, in regions of 2^k bytes.
    pub fn new(k: u64, image: B, used: u64) -> Self {
        Self { k, image, used }
    }

    /// The region exponent.
    pub fn k(&self) -> u64 {
        self.k
    }

    /// The log's length.
    pub fn used(&self) -> u64 {
        self.used
    }

    /// The image, to make it longer.
    pub fn image_mut(&mut self) -> &mut B {
        &mut self.image
    }

    /// The image, given back.
    pub fn into_image(self) -> B {
        self.image
    }

    /// The same image with another length.
    pub(crate) fn with_used(self, used: u64) -> Self {
        Self { used, ..self }
    }
}

impl<B: AsRef<[u8]>> Log<B> {
    /// The whole image, with what lies behind the log.
    pub fn image(&self) -> &[u8] {
        self.image.as_ref()
    }

    pub(crate) fn view(&self) -> View<'_> {
        View { k: self.k, image: self.image(), used: self.used }
    }

    /// The entry at a position.
    ///
    /// ```
    /// use kadzhomir::{Log, Refusal, WalPosition};
    ///
    /// let mut log = Log::new(6, vec![0; 64], 0);
    /// let position = log.append_raw(4, b"state")?;
    /// let entry = log.read(position)?;
    /// assert_eq!(&log.image()[entry.payload()], b"state");
    /// assert_eq!(log.read(WalPosition(21)), Err(Refusal::PastUsed));
    /// # Ok::<(), Refusal>(())
    /// ```
    pub fn read(&self, position: WalPosition) -> Result<Entry, Refusal> {
        let mut answer = [0; 5];
        served(ffi::read(self.view(), position.0, &mut answer))?;
        Ok(Entry::of(&answer[1..]))
    }

    /// The entries from the log's start, up to where a walk stops or is refused.
    pub fn entries(&self) -> Entries<'_> {
        self.entries_from(WalPosition(0))
    }

    /// The entries from an entry's end on, so that a tail can be followed: begin at [`Entries::end`] of the walk before, once more was
    /// appended. From a place that is no entry's end it lists whatever reads as entries there.
    ///
    /// ```
    /// let mut log = kadzhomir::Log::new(16, vec![0; 4096], 0);
    /// log.append_raw(4, b"seen")?;
    /// let seen = { let mut all = log.entries(); all.by_ref().for_each(drop); all.end() };
    /// log.append_raw(4, b"new")?;
    /// let tail: Vec<_> = log.entries_from(seen).collect::<Result<_, _>>()?;
    /// assert_eq!(&log.image()[tail[0].payload()], b"new");
    /// # Ok::<(), Box<dyn std::error::Error>>(())
    /// ```
    pub fn entries_from(&self, end: WalPosition) -> Entries<'_> {
        Entries { view: self.view(), end, stop: None, done: false }
    }

    /// Walks the whole log.
    pub fn walk(&self) -> Result<Walked, RefusedAt> {
        let mut answer = [0; 5];
        let number = ffi::walk(self.view(), &mut answer);
        served_at(number, answer[1])?;
        Ok(Walked { stop: Stop::of(answer[2]), end: WalPosition(answer[3]), unread: answer[4] })
    }

    /// Recovers what the log holds, in tables as long as the log needs. The log goes into the store that is answered, at the end of its
    /// last whole entry: there is no going on elsewhere. A refusal gives the log back as it was, with the number and the start of the
    /// entry concerned.
    ///
    /// ```
    /// use kadzhomir::{Log, Stop};
    ///
    /// let mut log = Log::new(16, vec![0; 4096], 0);
    /// log.append_raw(4, b"first")?;
    /// log.append_raw(4, b"second")?;
    ///
    /// // A power cut in the second entry.
    /// let (mut store, recovered) = Log::new(16, log.into_image(), 30).recover(4, 0)?;
    /// assert_eq!((recovered.stop(), recovered.end().0, recovered.unread()), (Stop::Torn, 21, 9));
    /// assert_eq!(store.append_raw(4, b"third")?.0, 21);
    /// assert_eq!(store.log().walk()?.stop, Stop::End);
    /// # Ok::<(), Box<dyn std::error::Error>>(())
    /// ```
    pub fn recover(self, committee_size: u64, own: u64) -> Result<(BlockStore<B>, Recovered), NotRecovered<B>> {
        let answer = Recovered::sized(self.view(), committee_size, own);
        BlockStore::opened(self, committee_size, own, answer)
    }

    /// The same with this many rows for pending, unprocessed, committed and index.
    pub fn recover_in_rows(self, committee_size: u64, own: u64, rows: [usize; 4]) -> Result<(BlockStore<B>, Recovered), NotRecovered<B>> {
        let answer = Recovered::in_rows(self.view(), committee_size, own, rows);
        BlockStore::opened(self, committee_size, own, answer)
    }

    /// The recovery page, for the office wall: what a recovery finds pending, as text in lines of 72 columns, each with its line feed. A
    /// page is a heading, up to 58 rows (position, kind, and of a block its author and round), and a foot with the counts of pending,
    /// unprocessed and committed and the stop word; with nothing pending there is one page, without rows. Where recovery refuses the log,
    /// the refusal comes with the line of its number, which is all that is printed then.
    ///
    /// ```
    /// use kadzhomir::{Log, Refusal};
    ///
    /// let mut log = Log::new(16, vec![0; 4096], 0);
    /// log.append_raw(2, &[0; 8])?; // a payload without statements
    /// let page = log.recovery_page(4, 0)?;
    /// assert!(page.lines().all(|line| line.len() == 72));
    /// let lines: Vec<&str> = page.lines().map(str::trim_end).collect();
    /// assert_eq!(lines[0], "PENDING");
    /// assert_eq!(lines[1], "            0 payload");
    /// assert_eq!(lines[2], "            1             0             0 END");
    ///
    /// let refused = log.recovery_page(0, 0).unwrap_err(); // a committee of nobody
    /// assert_eq!((refused.refusal, refused.text.trim()), (Refusal::Store, "18"));
    /// # Ok::<(), Box<dyn std::error::Error>>(())
    /// ```
    pub fn recovery_page(&self, committee_size: u64, own: u64) -> Result<String, RefusedPage> {
        page::sized(self.view(), committee_size, own)
    }
}

impl<B: AsRef<[u8]> + AsMut<[u8]>> Log<B> {
    /// Appends an entry as it is given and answers its position. A refused append changes nothing. What the payload holds is not looked
    /// at: recovery refuses a log with a tag that is not 1 to 5, with a payload that its tag does not allow, with a block of an authority
    /// outside the committee, or with a second own block in a round.
    pub fn append_raw(&mut self, tag: u32, payload: &[u8]) -> Result<WalPosition, Refusal> {
        let mut answer = [0; 3];
        served(ffi::append(self.k, self.used, self.image.as_mut(), tag, payload, &mut answer))?;
        self.used = answer[2];
        Ok(WalPosition(answer[1]))
    }

    /// Inserts a block; the store's words and index rows are lent.
    pub(crate) fn insert(&mut self, store: &mut StoreWords, index: &mut [u64], own: bool, bytes: &[u8]) -> Result<WalPosition, Refusal> {
        let mut answer = [0; 3];
        served(ffi::insert(self.k, self.used, self.image.as_mut(), store, index, own, bytes, &mut answer))?;
        self.used = answer[2];
        Ok(WalPosition(answer[1]))
    }
}

/// The exponent and the lengths, not the image.
impl<B: AsRef<[u8]>> fmt::Debug for Log<B> {
    fn fmt(&self, f: &mut fmt::Formatter<'_>) -> fmt::Result {
        f.debug_struct("Log").field("k", &self.k).field("used", &self.used).field("image_len", &self.image().len()).finish()
    }
}

/// The entries of a log, one walk's step at a time.
#[derive(Clone)]
pub struct Entries<'a> {
    view: View<'a>,
    end: WalPosition,
    stop: Option<Stop>,
    done: bool,
}

impl Entries<'_> {
    /// The end of the entry listed last; at first, where the walk began.
    pub fn end(&self) -> WalPosition {
        self.end
    }

    /// Why the walk stopped, once it has; none where it was refused.
    pub fn stop(&self) -> Option<Stop> {
        self.stop
    }
}

impl fmt::Debug for Entries<'_> {
    fn fmt(&self, f: &mut fmt::Formatter<'_>) -> fmt::Result {
        f.debug_struct("Entries").field("end", &self.end).field("stop", &self.stop).finish_non_exhaustive()
    }
}

impl Iterator for Entries<'_> {
    type Item = Result<Entry, RefusedAt>;

    fn next(&mut self) -> Option<Self::Item> {
        if self.done {
            return None;
        }
        let mut answer = [0; 6];
        let number = ffi::walk_step(self.view, self.end.0, &mut answer);
        if let Err(refused) = served_at(number, answer[2]) {
            self.done = true;
            return Some(Err(refused));
        }
        // The kind: an entry, or one more than the stop's code.
        if answer[1] != 0 {
            self.done = true;
            self.stop = Some(Stop::of(answer[1] - 1));
            return None;
        }
        let entry = Entry::of(&answer[2..]);
        self.end = entry.end();
        Some(Ok(entry))
    }
}

impl std::iter::FusedIterator for Entries<'_> {}

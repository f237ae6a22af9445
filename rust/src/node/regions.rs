//! A walk over a log's file with one region in memory at a time: no entry crosses a region's end, so that each region is walked as a log of
//! its own. tests/regions.rs holds it against the walk over the whole log.
use super::error::Error;
use super::log_file::LogFile;
use super::MOST;
use crate::{Entry, Log, Refusal, RefusedAt, Stop, WalPosition};

/// The entries of a log's file, from some E on, up to where a walk stops or is refused.
#[derive(Debug)]
pub struct FileEntries<'a> {
    file: &'a LogFile,
    used: u64,
    /// The region at hand, which begins at `base`.
    region: Log<Vec<u8>>,
    base: u64,
    end: WalPosition,
    stop: Option<Stop>,
    done: bool,
}

impl<'a> FileEntries<'a> {
    pub(super) fn new(file: &'a LogFile, k: u64, used: u64, end: WalPosition) -> Result<Self, Error> {
        check(k, end.0, used)?;
        let base = end.0 >> k << k;
        let region = region(file, k, used, base)?;
        Ok(Self { file, used, region, base, end, stop: None, done: false })
    }

    /// The end of the entry listed last; at first, where the walk began.
    pub fn end(&self) -> WalPosition {
        self.end
    }

    /// Why the walk stopped, once it has; none where it was refused.
    pub fn stop(&self) -> Option<Stop> {
        self.stop
    }

    /// What a step in this region stopped with, as a stop of the whole walk; or none, and the next region is at hand. An entry that is not
    /// whole ends the walk, and so does a region that begins with zeros; else the walk goes on to the next region's start.
    fn settle(&mut self, stop: Stop, local: u64) -> Result<Option<Stop>, Error> {
        let next = self.base + (1 << self.region.k());
        if stop == Stop::Torn || (stop == Stop::Zeros && local == 0) {
            return Ok(Some(stop));
        }
        if next >= self.used {
            return Ok(Some(if self.end.0 == self.used { Stop::End } else { Stop::Zeros }));
        }
        self.base = next;
        self.region = region(self.file, self.region.k(), self.used, next)?;
        Ok(None)
    }

    fn step(&mut self) -> Result<Option<Entry>, Error> {
        loop {
            // From the region's start, where the last entry ends before it.
            let local = self.end.0.saturating_sub(self.base);
            let mut entries = self.region.entries_from(WalPosition(local));
            if let Some(step) = entries.next() {
                let at = |p: WalPosition| WalPosition(self.base + p.0);
                let entry = step.map_err(|r| RefusedAt { start: at(r.start), ..r })?;
                let entry = Entry { position: at(entry.position), ..entry };
                self.end = entry.end();
                return Ok(Some(entry));
            }
            let stop = entries.stop().unwrap_or(Stop::Zeros);
            if let Some(stop) = self.settle(stop, local)? {
                self.stop = Some(stop);
                return Ok(None);
            }
        }
    }
}

/// The checks 1 and 2, of the whole log: what is read lies within the file and 2^40.
pub(super) fn check(k: u64, reached: u64, used: u64) -> Result<(), Error> {
    Log::new(k, [], 0).walk()?;
    if used > MOST || reached > used {
        return Err(RefusedAt { refusal: Refusal::Used, start: WalPosition(0) }.into());
    }
    Ok(())
}

/// The region that begins at `base`, as far as the log reaches.
pub(super) fn region(file: &LogFile, k: u64, used: u64, base: u64) -> Result<Log<Vec<u8>>, Error> {
    let bytes = file.read_at(base, used.saturating_sub(base).min(1 << k))?;
    let len = bytes.len() as u64;
    Ok(Log::new(k, bytes, len))
}

impl Iterator for FileEntries<'_> {
    type Item = Result<Entry, Error>;

    fn next(&mut self) -> Option<Self::Item> {
        if self.done {
            return None;
        }
        let step = self.step().transpose();
        self.done = !matches!(step, Some(Ok(_)));
        step
    }
}

impl std::iter::FusedIterator for FileEntries<'_> {}

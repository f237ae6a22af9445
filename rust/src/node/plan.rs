//! What opening a log will do, decided from its bytes alone: nothing is written here.
use super::error::Error;
use super::node_file::Settings;
use crate::{BlockStore, Log, Recovered, RefusedAt, RefusedPage, WalPosition};

/// What opening a log would find: the log to go on with, at the end of its last whole entry.
#[derive(Debug)]
#[non_exhaustive]
pub struct Plan {
    /// The log and its index. The image has all bytes of the file still.
    pub store: BlockStore<Vec<u8>>,
    /// What the log holds beside the index.
    pub recovered: Recovered,
    /// The refusals past the known length, at whose starts the log would be cut.
    pub cuts: Vec<RefusedAt>,
}

impl Plan {
    /// Recovers a file's bytes. "Known" bytes were synced and may have been acknowledged; those behind them never were. So a refusal of
    /// an entry at or past the known length cuts the log at the entry's start, and recovery begins again: an own block that is cut away
    /// no longer drops what was pending before it, so one cut may not be enough. Each cut leaves less than the one before. A refusal
    /// before the known length is damage, and so is a log that ends before it, for whatever reason.
    ///
    /// That no such cut comes before the known length, where the bytes before it are those that were synced, is proved
    /// (`crates/durable`).
    pub(crate) fn of(image: Vec<u8>, settings: &Settings) -> Result<Self, Error> {
        let Settings { exponent, committee_size, own, known } = *settings;
        let len = image.len() as u64;
        if len < known {
            return Err(Error::Damaged { position: WalPosition(len), known, refusal: None });
        }
        let (mut log, mut cuts) = (Log::new(exponent, image, len), Vec::new());
        let (store, recovered) = loop {
            let not = match log.recover(committee_size, own) {
                Ok(answer) => break answer,
                Err(not) => not,
            };
            let RefusedAt { refusal, start } = not.refused;
            if !refusal.is_of_an_entry() || start.0 >= not.log.used() {
                return Err(not.refused.into());
            }
            if start.0 < known {
                return Err(Error::Damaged { position: start, known, refusal: Some(refusal) });
            }
            cuts.push(not.refused);
            log = not.log.with_used(start.0);
        };
        let position = recovered.end();
        if position.0 < known {
            return Err(Error::Damaged { position, known, refusal: None });
        }
        Ok(Self { store, recovered, cuts })
    }

    /// The file's bytes behind the place where the log goes on.
    pub fn tail(&self) -> &[u8] {
        &self.store.log().image()[self.end() as usize..]
    }

    /// The recovery page of what was recovered here ([`Log::recovery_page`]): of the whole file, or up to the last cut. The log is
    /// recovered once more, so that the page is the proved call's.
    pub fn recovery_page(&self) -> Result<String, RefusedPage> {
        let log = self.store.log();
        let used = self.recovered.end().0 + self.recovered.unread();
        Log::new(log.k(), log.image(), used).recovery_page(self.store.committee_size(), self.store.own())
    }

    pub(crate) fn end(&self) -> u64 {
        self.store.log().used()
    }
}

//! A log's file: locked, read, written at places, cut and synced.
use super::error::Error;
use super::node_file::sync_folder;
use super::Aside;
use std::fs::{File, OpenOptions, TryLockError};
use std::io::{self, Write};
use std::os::unix::fs::FileExt;
use std::path::{Path, PathBuf};
use std::time::{SystemTime, UNIX_EPOCH};

/// A log's file, which no other process has open as a node's.
#[derive(Debug)]
pub(crate) struct LogFile {
    file: File,
    path: PathBuf,
}

impl LogFile {
    /// Opens a log that is there.
    pub fn open(path: &Path) -> Result<Self, Error> {
        let file = OpenOptions::new().read(true).write(true).open(path).map_err(Error::io("open", path))?;
        Self::locked(file, path)?.regular()
    }

    /// Creates an empty log. A file that is there already and empty is taken too: it is what a crash in this call leaves.
    pub fn create(path: &Path) -> Result<Self, Error> {
        let options = OpenOptions::new().read(true).write(true).create(true).truncate(false).clone();
        let log = Self::locked(options.open(path).map_err(Error::io("create", path))?, path)?.regular()?;
        if log.len()? != 0 {
            return Err(Error::Exists { path: path.to_path_buf() });
        }
        Ok(log)
    }

    fn locked(file: File, path: &Path) -> Result<Self, Error> {
        match file.try_lock() {
            Ok(()) => Ok(Self { file, path: path.to_path_buf() }),
            Err(TryLockError::WouldBlock) => Err(Error::Locked { path: path.to_path_buf() }),
            Err(TryLockError::Error(source)) => Err(Error::io("lock", path)(source)),
        }
    }

    /// Opens a log to look at it, without a lock: a node may be writing to it.
    pub fn look(path: &Path) -> Result<Self, Error> {
        // Before it is opened: a pipe would wait for a writer.
        if std::fs::metadata(path).is_ok_and(|data| !data.is_file()) {
            return Err(irregular(path));
        }
        let file = File::open(path).map_err(Error::io("open", path))?;
        Self { file, path: path.to_path_buf() }.regular()
    }

    /// Refuses a pipe or a device, which has no length and would read as an empty log.
    fn regular(self) -> Result<Self, Error> {
        match self.file.metadata() {
            Ok(data) if data.is_file() => Ok(self),
            Ok(_) => Err(irregular(&self.path)),
            Err(source) => Err(Error::io("look at", &self.path)(source)),
        }
    }

    pub fn path(&self) -> &Path {
        &self.path
    }

    pub fn len(&self) -> Result<u64, Error> {
        Ok(self.file.metadata().map_err(Error::io("look at", &self.path))?.len())
    }

    /// The whole file.
    pub fn read(&self) -> Result<Vec<u8>, Error> {
        self.read_at(0, self.len()?)
    }

    /// So many bytes from a place on.
    pub fn read_at(&self, at: u64, len: u64) -> Result<Vec<u8>, Error> {
        let read = || {
            let mut bytes = Vec::new();
            let room = usize::try_from(len).map_err(|_| io::ErrorKind::OutOfMemory)?;
            bytes.try_reserve_exact(room).map_err(|_| io::ErrorKind::OutOfMemory)?;
            bytes.resize(room, 0);
            self.file.read_exact_at(&mut bytes, at)?;
            Ok(bytes)
        };
        read().map_err(Error::io("read", &self.path))
    }

    pub fn write_at(&self, bytes: &[u8], position: u64) -> Result<(), Error> {
        self.file.write_all_at(bytes, position).map_err(Error::io("write", &self.path))
    }

    pub fn sync(&self) -> Result<(), Error> {
        self.file.sync_data().map_err(Error::io("sync", &self.path))
    }

    /// Cuts the file at `end`.
    pub fn cut(&self, end: u64) -> Result<(), Error> {
        self.file.set_len(end).and_then(|()| self.file.sync_all()).map_err(Error::io("cut", &self.path))
    }

    /// Puts the bytes behind `end`, which `tail` has, into a file of their own, unless they are all zero.
    pub fn set_aside(&self, end: u64, tail: &[u8]) -> Result<Option<Aside>, Error> {
        if tail.iter().all(|b| *b == 0) {
            return Ok(None);
        }
        let (mut file, path) = self.create_aside(end)?;
        let mode = self.file.metadata().and_then(|data| file.set_permissions(data.permissions()));
        let written = mode.and_then(|()| file.write_all(tail)).and_then(|()| file.sync_all());
        if let Err(source) = written {
            // On a full disk half of it helps nobody, and the log has the bytes still.
            let _ = std::fs::remove_file(&path);
            return Err(Error::io("write", &path)(source));
        }
        sync_folder(&path)?;
        Ok(Some(Aside { path, bytes: tail.len() as u64 }))
    }

    /// A new file, named for the log, the place in it and the moment.
    fn create_aside(&self, end: u64) -> Result<(File, PathBuf), Error> {
        let moment = moment(SystemTime::now().duration_since(UNIX_EPOCH).map_or(0, |d| d.as_secs()));
        for n in 0u64.. {
            let mut name = self.path.as_os_str().to_owned();
            let again = if n == 0 { String::new() } else { format!("-{n}") };
            name.push(format!(".aside-{moment}-{end}{again}"));
            let path = PathBuf::from(name);
            match OpenOptions::new().write(true).create_new(true).open(&path) {
                Ok(file) => return Ok((file, path)),
                Err(e) if e.kind() == io::ErrorKind::AlreadyExists => continue,
                Err(e) => return Err(Error::io("create", &path)(e)),
            }
        }
        unreachable!("a name that is free comes before 2^64")
    }
}

fn irregular(path: &Path) -> Error {
    Error::io("use", path)(io::Error::new(io::ErrorKind::InvalidInput, "it is no regular file"))
}

/// Refuses a name that leaves no room for what stands behind it in the name of a file of bytes set aside.
pub(crate) fn check_name(path: &Path) -> Result<(), Error> {
    match path.file_name() {
        Some(name) if name.len() > 200 => {
            Err(Error::io("use", path)(io::Error::new(io::ErrorKind::InvalidInput, "its name has more than 200 bytes")))
        }
        _ => Ok(()),
    }
}

/// The lock goes with the file, also where a process that is being started has a copy of its descriptor for a moment.
impl Drop for LogFile {
    fn drop(&mut self) {
        let _ = self.file.unlock();
    }
}

/// Seconds since 1970 as the date and the time of UTC, 20261117T193300Z.
fn moment(seconds: u64) -> String {
    let (days, second) = (seconds / 86_400, seconds % 86_400);
    // Days from the first of March of the year 0, so that a leap day ends a year, and a year of 400 begins at 0.
    let day = days + 719_468;
    let (era, of_era) = (day / 146_097, day % 146_097);
    let year = (of_era - of_era / 1_460 + of_era / 36_524 - of_era / 146_096) / 365;
    let of_year = of_era - (365 * year + year / 4 - year / 100);
    let from_march = (5 * of_year + 2) / 153;
    let day = of_year - (153 * from_march + 2) / 5 + 1;
    let month = if from_march < 10 { from_march + 3 } else { from_march - 9 };
    let year = 400 * era + year + u64::from(month <= 2);
    format!("{year:04}{month:02}{day:02}T{:02}{:02}{:02}Z", second / 3600, second / 60 % 60, second % 60)
}

#[cfg(test)]
mod tests {
    use super::moment;

    #[test]
    fn moments() {
        // By date -u -d @N.
        assert_eq!(moment(0), "19700101T000000Z");
        assert_eq!(moment(951_827_696), "20000229T123456Z");
        assert_eq!(moment(1_795_030_380), "20261118T193300Z");
        assert_eq!(moment(4_107_542_399), "21000228T235959Z");
        assert_eq!(moment(4_107_542_400), "21000301T000000Z");
    }
}

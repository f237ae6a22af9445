//! A node's log in a file.
mod error;
mod log_file;
mod look;
mod node_file;
mod plan;
mod regions;

pub use error::Error;
pub use look::{Cut, Look};
pub use node_file::Settings;
pub use plan::Plan;
pub use regions::FileEntries;

use crate::records::{is_commit, is_payload};
use crate::{BlockStore, Log, Recovered, Refusal, RefusedAt, WalPosition};
use log_file::{check_name, LogFile};
use node_file::{path_beside, sync_folder, NodeFile};
use std::fmt;
use std::path::{Path, PathBuf};

/// The log's greatest length.
const MOST: u64 = 1 << 40;
const HEADER: usize = 16;

/// What a node's log is written with. Once the log is there, its node file has these, and [`Node::open`] refuses others.
#[derive(Clone, Copy, Debug, PartialEq, Eq)]
pub struct Options {
    committee_size: u64,
    own: u64,
    exponent: Option<u64>,
}

impl Options {
    /// Of a committee of 1 to 128 and the own authority in it.
    pub fn new(committee_size: u64, own: u64) -> Self {
        Self { committee_size, own, exponent: None }
    }

    /// The region exponent k, 6 to 28: no entry has more than 2^k bytes. [`Node::create`] takes 28 where none is given, [`Node::open`]
    /// the log's own; [`Node::adopt`] wants one.
    pub fn exponent(self, k: u64) -> Self {
        Self { exponent: Some(k), ..self }
    }

    /// What a node file says, to open its log with.
    pub fn recorded(settings: &Settings) -> Self {
        Self::new(settings.committee_size, settings.own).exponent(settings.exponent)
    }

    fn settings(&self, exponent: u64, known: u64) -> Settings {
        Settings { exponent, committee_size: self.committee_size, own: self.own, known }
    }

    /// Refuses what the log was not written with.
    fn check(&self, recorded: &Settings) -> Result<(), Error> {
        let exponent = self.exponent.unwrap_or(recorded.exponent);
        let fields = [
            ("exponent", recorded.exponent, exponent),
            ("committee size", recorded.committee_size, self.committee_size),
            ("own authority", recorded.own, self.own),
        ];
        match fields.into_iter().find(|(_, recorded, asked)| recorded != asked) {
            Some((what, recorded, asked)) => Err(Error::Mismatch { what, recorded, asked }),
            None => Ok(()),
        }
    }
}

/// A file that has the bytes that were cut off a log.
#[derive(Clone, Debug, PartialEq, Eq)]
#[non_exhaustive]
pub struct Aside {
    /// Named for the log, the moment, and the place in the log where the bytes stood.
    pub path: PathBuf,
    /// How many there are.
    pub bytes: u64,
}

/// A node that was opened, and what was found.
#[derive(Debug)]
#[non_exhaustive]
pub struct Opened {
    /// The node, to go on with.
    pub node: Node,
    /// What the log holds beside the index: the pending entries, the state and so on.
    pub recovered: Recovered,
    /// Refusals behind the known length, at whose starts the log was cut: bytes that no sync had acknowledged.
    pub cuts: Vec<RefusedAt>,
    /// Where the bytes behind the last whole entry are now; none where there were none, or zeros alone.
    pub aside: Option<Aside>,
}

/// A node's log in a file, with its store: the only way to go on is at the end of the last whole entry.
///
/// A change is written to the file at once. It is *acknowledged* when a later [`Node::sync`] has returned: from then on no crash loses it.
/// Tell nobody of a change before that. [`Node::batch`] makes several changes and syncs once.
///
/// Beside the log stands its node file (the log's name and `.node`), with the exponent, the committee, the own authority, and the length
/// known to be on disk; back up the two together. While a node is open, its file is locked against others.
///
/// ```
/// use kadzhomir::{Node, Options, Payload, Statement};
/// # let folder = std::env::temp_dir().join(format!("kadzhomir-doc-{}", std::process::id()));
/// # std::fs::create_dir_all(&folder)?;
/// # let path = folder.join("log");
/// # let _ = (std::fs::remove_file(&path), std::fs::remove_file(folder.join("log.node")));
///
/// let options = Options::new(4, 0); // four offices, of which this is the first
/// let mut node = Node::create(&path, &options)?;
/// let card = Payload { statements: vec![Statement::Share(b"a card".to_vec())] };
/// let position = node.append_payload(&card.encode())?;
/// node.sync()?; // from here on the card is safe
/// drop(node);
///
/// let opened = Node::open(&path, &options)?;
/// assert_eq!(opened.recovered.pending().next().unwrap().position(), position);
/// assert_eq!(opened.aside, None); // nothing was cut off
/// # std::fs::remove_dir_all(&folder)?;
/// # Ok::<(), Box<dyn std::error::Error>>(())
/// ```
pub struct Node {
    store: BlockStore<Vec<u8>>,
    file: LogFile,
    node_file: NodeFile,
    /// A write or a sync failed: memory and file may differ.
    failed: bool,
}

// ---- Opening

impl Node {
    /// Opens a log that is there. Its file is locked, read, recovered, cut at the end of the last whole entry and synced.
    ///
    /// Bytes behind that end which are not all zero are moved into a file of their own, which [`Opened::aside`] names. Refused, with
    /// nothing changed: a log without its node file, other options than the log was written with, damage before the length known to be
    /// on disk ([`Error::Damaged`]).
    pub fn open(path: impl AsRef<Path>, options: &Options) -> Result<Opened, Error> {
        let file = LogFile::open(path.as_ref())?;
        let node_file = NodeFile::open(path.as_ref(), true)?;
        options.check(&node_file.settings())?;
        let plan = Plan::of(file.read()?, &node_file.settings())?;
        Self::go_on(file, node_file, plan)
    }

    /// Creates an empty log and its node file. A file of that name must not be there, or be empty and without a node file.
    pub fn create(path: impl AsRef<Path>, options: &Options) -> Result<Self, Error> {
        let path = path.as_ref();
        let settings = options.settings(options.exponent.unwrap_or(28), 0);
        // Refuses what no log can be written with before there is one.
        let plan = Plan::of(Vec::new(), &settings)?;
        check_name(path)?;
        refuse_node_file(path)?;
        let file = LogFile::create(path)?;
        refuse_node_file(path)?;
        file.sync()?;
        sync_folder(path)?;
        let node_file = NodeFile::create(path, settings)?;
        Ok(Self { store: plan.store, file, node_file, failed: false })
    }

    /// Makes the node file of a log that has none, as the original's logs, and opens it. The exponent must be given: with another one
    /// than it was written with, a log may seem to end well after a few entries.
    ///
    /// Nothing is cut but zeros: bytes behind the last whole entry are refused unless they are zero ([`Error::UnreadTail`]), and so are
    /// bytes between entries ([`Error::HiddenByte`]).
    pub fn adopt(path: impl AsRef<Path>, options: &Options) -> Result<Opened, Error> {
        let path = path.as_ref();
        let settings = options.settings(options.exponent.ok_or(Error::NoExponent)?, 0);
        check_name(path)?;
        let file = LogFile::open(path)?;
        refuse_node_file(path)?;
        let image = file.read()?;
        let (len, log) = (image.len() as u64, Log::new(settings.exponent, image, 0));
        let answer = log.with_used(len).recover(settings.committee_size, settings.own);
        let (store, recovered) = answer.map_err(|not| not.refused)?;
        let plan = Plan { store, recovered, cuts: Vec::new() };
        if plan.tail().iter().any(|b| *b != 0) {
            return Err(Error::UnreadTail { end: WalPosition(plan.end()), unread: plan.recovered.unread() });
        }
        if let Some(position) = hidden_byte(plan.store.log()) {
            return Err(Error::HiddenByte { position });
        }
        // The log first: a node file says nothing of bytes that are not on disk.
        let (store, aside) = settle(&file, plan.store, 0)?;
        let node_file = NodeFile::create(path, Settings { known: store.log().used(), ..settings })?;
        Ok(Opened { node: Self { store, file, node_file, failed: false }, recovered: plan.recovered, cuts: plan.cuts, aside })
    }

    /// Has on disk what the node believes from now on, and says so in the node file: the next crash must not lose it. Nothing is taken
    /// to be on disk because it was read: after a kill, or a sync that failed, it may be in the system's memory alone.
    fn go_on(file: LogFile, mut node_file: NodeFile, plan: Plan) -> Result<Opened, Error> {
        let known = node_file.settings().known;
        let (store, aside) = settle(&file, plan.store, known)?;
        node_file.confirm()?;
        if store.log().used() != known {
            node_file.set_known(store.log().used())?;
        }
        // Where the log is reached by a link, its two files stand in two folders.
        sync_folder(file.path())?;
        sync_folder(&path_beside(file.path()))?;
        Ok(Opened { node: Self { store, file, node_file, failed: false }, recovered: plan.recovered, cuts: plan.cuts, aside })
    }
}

/// Cuts the file behind the store's log, once what is cut off is set aside, and has the log's bytes from `known` on written and on disk.
fn settle(file: &LogFile, mut store: BlockStore<Vec<u8>>, known: u64) -> Result<(BlockStore<Vec<u8>>, Option<Aside>), Error> {
    let end = store.log().used();
    let tail = &store.log().image()[end as usize..];
    let aside = file.set_aside(end, tail)?;
    if !tail.is_empty() {
        file.cut(end)?;
    }
    store.image_mut().truncate(end as usize);
    file.write_at(&store.log().image()[known as usize..], known)?;
    file.sync()?;
    Ok((store, aside))
}

/// The first byte between two entries that is not zero.
fn hidden_byte(log: &Log<Vec<u8>>) -> Option<WalPosition> {
    let mut end = 0;
    for entry in log.entries().map_while(Result::ok) {
        let start = entry.position.0 as usize;
        if let Some(at) = log.image()[end..start].iter().position(|b| *b != 0) {
            return Some(WalPosition((end + at) as u64));
        }
        end = entry.end().0 as usize;
    }
    None
}

fn refuse_node_file(log: &Path) -> Result<(), Error> {
    let path = path_beside(log);
    match path.try_exists() {
        Ok(false) => Ok(()),
        Ok(true) => Err(Error::Exists { path }),
        Err(source) => Err(Error::io("look for", &path)(source)),
    }
}

// ---- Reading

impl Node {
    /// The store: lookups, and by [`BlockStore::log`] the log's entries. What was changed and not yet synced is in it.
    pub fn store(&self) -> &BlockStore<Vec<u8>> {
        &self.store
    }

    /// The log, which ends with its last entry.
    pub fn log(&self) -> &Log<Vec<u8>> {
        self.store.log()
    }

    /// The log's file.
    pub fn path(&self) -> &Path {
        self.file.path()
    }

    /// The length that is acknowledged: everything before it is on disk.
    pub fn known(&self) -> WalPosition {
        WalPosition(self.node_file.settings().known)
    }
}

// ---- Changes. Each is written to the file, and acknowledged by the next sync.

impl Node {
    /// Logs and indexes a block.
    pub fn insert_block(&mut self, block: &[u8]) -> Result<WalPosition, Error> {
        self.change(block.len(), |store| store.insert_block(block))
    }

    /// Logs and indexes an own block: 8 bytes of its next entry, then the block.
    pub fn insert_own_block(&mut self, own_block: &[u8]) -> Result<WalPosition, Error> {
        self.change(own_block.len(), |store| store.insert_own_block(own_block))
    }

    /// Logs a list of statements. Refused with [`Refusal::Payload`] where it does not decode.
    pub fn append_payload(&mut self, payload: &[u8]) -> Result<WalPosition, Error> {
        if !is_payload(payload) {
            return Err(Refusal::Payload.into());
        }
        self.append_raw(2, payload)
    }

    /// Logs a state, whatever its bytes.
    pub fn append_state(&mut self, state: &[u8]) -> Result<WalPosition, Error> {
        self.append_raw(4, state)
    }

    /// Logs a commit. Refused with [`Refusal::Commit`] where it does not decode.
    pub fn append_commit(&mut self, commit: &[u8]) -> Result<WalPosition, Error> {
        if !is_commit(commit) {
            return Err(Refusal::Commit.into());
        }
        self.append_raw(5, commit)
    }

    /// Appends an entry as it is given. *Nothing looks at it*: an entry that recovery refuses makes [`Node::open`] refuse the whole log
    /// as damaged once it is synced.
    pub fn append_raw(&mut self, tag: u32, payload: &[u8]) -> Result<WalPosition, Error> {
        self.change(payload.len(), |store| store.append_raw(tag, payload))
    }

    /// Unloads rounds up to `threshold` and answers how many blocks were loaded; 0 does nothing. Nothing is written.
    pub fn cleanup(&mut self, threshold: u64) -> Result<u64, Error> {
        Ok(self.store.cleanup(threshold)?)
    }

    /// Has all changes so far on disk, and acknowledges them: the log first, then its length in the node file. Answers that length.
    ///
    /// Where it fails, what was changed since the last sync may be lost. The node takes no more changes then: open it again.
    pub fn sync(&mut self) -> Result<WalPosition, Error> {
        self.refuse_failed()?;
        let used = self.log().used();
        if used != self.known().0 {
            // Until both have returned, nothing says that the bytes are there.
            let synced = self.file.sync().and_then(|()| self.node_file.set_known(used));
            self.failed = synced.is_err();
            synced?;
        }
        Ok(WalPosition(used))
    }

    /// Makes some changes and then syncs once. It is no transaction: where `changes` fails, or a crash comes, the changes made before it
    /// may be there.
    ///
    /// ```no_run
    /// # fn cards(node: &mut kadzhomir::Node, cards: &[Vec<u8>]) -> Result<(), kadzhomir::Error> {
    /// node.batch(|node| cards.iter().try_for_each(|card| node.append_payload(card).map(drop)))
    /// # }
    /// ```
    pub fn batch<T>(&mut self, changes: impl FnOnce(&mut Self) -> Result<T, Error>) -> Result<T, Error> {
        let answer = changes(self)?;
        self.sync()?;
        Ok(answer)
    }

    fn refuse_failed(&self) -> Result<(), Error> {
        if self.failed {
            return Err(Error::Failed);
        }
        Ok(())
    }

    /// Makes room in the image for an entry of so many bytes, with as much padding before it as there can be, calls, and writes what the
    /// call added to the log.
    fn change(
        &mut self,
        len: usize,
        call: impl FnOnce(&mut BlockStore<Vec<u8>>) -> Result<WalPosition, Refusal>,
    ) -> Result<WalPosition, Error> {
        self.refuse_failed()?;
        let before = self.log().used();
        self.reserve((2 * (len as u64 + HEADER as u64)).min(MOST - before))?;
        let answer = call(&mut self.store);
        let used = self.log().used();
        self.store.image_mut().truncate(used as usize);
        let position = answer?;
        let written = self.file.write_at(&self.log().image()[before as usize..], before);
        self.failed = written.is_err();
        written?;
        Ok(position)
    }

    fn reserve(&mut self, more: u64) -> Result<(), Error> {
        let (image, more) = (self.store.image_mut(), more as usize);
        let reserved = image.try_reserve(more).map_err(|_| std::io::ErrorKind::OutOfMemory.into());
        reserved.map_err(Error::io("hold in memory", self.file.path()))?;
        let len = image.len();
        image.resize(len + more, 0);
        Ok(())
    }
}

/// The file, and what its log and store have.
impl fmt::Debug for Node {
    fn fmt(&self, f: &mut fmt::Formatter<'_>) -> fmt::Result {
        f.debug_struct("Node")
            .field("path", &self.path())
            .field("known", &self.known())
            .field("failed", &self.failed)
            .field("store", &self.store)
            .finish()
    }
}

//! A log written by both sides, and the stores that both open from it. Each step compares what the two answer.
use super::panics::{caught, Panic};
use super::tally::Tally;
use crate::block_store::{inside, BlockStore, BlockWriter, OwnBlockData};
use crate::committee::Committee;
use crate::data::Data;
use crate::metrics::Metrics;
use crate::recovery::{answer_of, digest, number, position, Answer, Entries, Place, Row, K};
use crate::types::{BaseStatement, BlockReference, StatementBlock};
use crate::wal::{open_file_for_wal, walf, WalPosition, WalReader, WalWriter};
use kadzhomir::{Log, Pending, Recovered, Refusal, RefusedAt, Stop};
use std::fs::File;
use std::ops::Deref;
use std::os::unix::fs::FileExt;
use std::path::PathBuf;
use std::sync::Arc;

pub type Reference = kadzhomir::BlockReference;
pub type PortStore = kadzhomir::BlockStore<Vec<u8>>;

pub const REGION: u64 = 1 << K;

/// A reference of the Rust as one of the port.
pub fn reference(r: &BlockReference) -> Reference {
    Reference { authority: r.authority, round: r.round, digest: digest(r) }
}

/// The file of this process: in memory where the system has such a folder.
fn path() -> PathBuf {
    let memory = PathBuf::from("/dev/shm");
    let folder = if memory.is_dir() { memory } else { std::env::temp_dir() };
    folder.join(format!("differential-{}", std::process::id()))
}

/// Removes the file.
pub fn clean() {
    let _ = std::fs::remove_file(path());
}

/// The port's log, and once it is opened the store that has it.
pub enum Port {
    Log(Log<Vec<u8>>),
    Store(PortStore),
}

impl Deref for Port {
    type Target = Log<Vec<u8>>;

    fn deref(&self) -> &Log<Vec<u8>> {
        match self {
            Port::Log(log) => log,
            Port::Store(store) => store.log(),
        }
    }
}

impl Port {
    pub fn store(&self) -> &PortStore {
        match self {
            Port::Log(_) => panic!("the log is not opened"),
            Port::Store(store) => store,
        }
    }

    pub fn store_mut(&mut self) -> &mut PortStore {
        match self {
            Port::Log(_) => panic!("the log is not opened"),
            Port::Store(store) => store,
        }
    }

    pub fn image_mut(&mut self) -> &mut Vec<u8> {
        match self {
            Port::Log(log) => log.image_mut(),
            Port::Store(store) => store.image_mut(),
        }
    }

    fn append_raw(&mut self, tag: u32, payload: &[u8]) -> Result<kadzhomir::WalPosition, Refusal> {
        match self {
            Port::Log(log) => log.append_raw(tag, payload),
            Port::Store(store) => store.append_raw(tag, payload),
        }
    }

    /// Recovers the log, of a store too, which is given up. A log that is refused stays as it was.
    fn recover(&mut self, size: u64, own: u64) -> Result<Recovered, RefusedAt> {
        let log = match std::mem::replace(self, Port::Log(Log::new(K, Vec::new(), 0))) {
            Port::Log(log) => log,
            Port::Store(store) => store.into_log(),
        };
        let (port, answer) = match log.recover(size, own) {
            Ok((store, recovered)) => (Port::Store(store), Ok(recovered)),
            Err(refused) => (Port::Log(refused.log), Err(refused.refused)),
        };
        *self = port;
        answer
    }
}

/// The two logs.
pub struct Logs {
    pub writer: WalWriter,
    pub reader: Arc<WalReader>,
    pub file: File,
    pub port: Port,
    /// What both writers took: position, tag and payload. None where the log did not begin empty.
    written: Option<Vec<(u64, u32, Vec<u8>)>>,
}

impl Logs {
    /// Two empty logs. The port's image holds other bytes at first, which its padding must cover.
    pub fn new(image: usize) -> Self {
        Self::of(&[], vec![0xa5; image])
    }

    /// Two logs that begin with these bytes, the port's in an image that has them already or takes them.
    pub fn of(bytes: &[u8], mut image: Vec<u8>) -> Self {
        image[..bytes.len()].copy_from_slice(bytes);
        clean();
        let file = open_file_for_wal(path()).unwrap();
        file.write_all_at(bytes, 0).unwrap();
        let written = bytes.is_empty().then(Vec::new);
        Self { written, ..Self::resume(file, Log::new(K, image, bytes.len() as u64)) }
    }

    /// The Rust's side of a file, from its end on.
    pub fn resume(file: File, port: Log<Vec<u8>>) -> Self {
        let (writer, reader) = walf(file.try_clone().unwrap()).unwrap();
        Self { writer, reader: Arc::new(reader), file, port: Port::Log(port), written: None }
    }

    /// Zeros behind the file, up to the next region but one: the mapped reader may then look anywhere in its region. The
    /// writer keeps its end.
    pub fn pad(&self) {
        self.file.set_len((self.port.used() / REGION + 2) * REGION).unwrap();
    }

    /// Changes a byte on both sides.
    pub fn damage(&mut self, at: usize, byte: u8) {
        self.port.image_mut()[at] = byte;
        self.file.write_all_at(&[byte], at as u64).unwrap();
    }

    /// Appends to both. None where the Rust panics and the port refuses.
    pub fn append(&mut self, t: &mut Tally, tag: u32, payload: &[u8]) -> Option<u64> {
        let before = self.port.used();
        let rust = caught(|| number(self.writer.write(tag, payload).unwrap()));
        let port = self.port.append_raw(tag, payload);
        match (rust, port) {
            (Ok(rust), Ok(port)) => {
                t.same("append: position", rust, port.0);
                self.note(rust, tag, payload);
                Some(rust)
            }
            (Err(panic), Err(refusal)) => {
                check_refusal(t, "append", &panic, refusal.number());
                t.holds("append: refused, unchanged", self.port.used() == before, &self.port.used());
                None
            }
            (rust, port) => t.differ("append", &format!("the Rust: {:?}\nthe port: {port:?}", rust.map_err(|p| p.0))),
        }
    }

    fn note(&mut self, position: u64, tag: u32, payload: &[u8]) {
        if let Some(written) = &mut self.written {
            written.push((position, tag, payload.to_vec()));
        }
    }

    /// The bytes of both logs from a place on, and their length.
    pub fn same_bytes(&self, t: &mut Tally, from: u64) {
        let used = self.port.used();
        let mut bytes = vec![0; (used - from) as usize];
        self.file.read_exact_at(&mut bytes, from).unwrap();
        t.same("log: bytes", &bytes[..], &self.port.image()[from as usize..used as usize]);
    }

    pub fn same_length(&self, t: &mut Tally) {
        t.same("log: length", self.file.metadata().unwrap().len(), self.port.used());
    }

    /// The Rust's iterator against the port's walk, step by step and whole.
    pub fn same_entries(&self, t: &mut Tally) {
        let rust = caught(|| Entries::of(&self.reader, &self.writer));
        let mut walk = self.port.entries();
        let port: Result<Vec<_>, RefusedAt> = walk.by_ref().collect();
        match (rust, port) {
            (Ok(rust), Ok(port)) => {
                let image = self.port.image();
                let rust = rust.0.iter().map(|(p, tag, data)| (*p, *tag, crc32fast::hash(data), &data[..]));
                let port = port.iter().map(|e| (e.position.0, e.tag, e.checksum, &image[e.payload()]));
                t.same("walk: entries", rust.collect::<Vec<_>>(), port.collect());
                self.same_whole_walk(t, walk.end().0, walk.stop());
            }
            // The port goes past such bytes. What it lists must be what the Rust's writer wrote.
            (Err(panic), port) if panic.left_over() => match (&self.written, port) {
                (Some(written), Ok(port)) => {
                    let port = port.iter().map(|e| (e.position.0, e.tag, self.port.image()[e.payload()].to_vec()));
                    t.same("walk: entries around bytes left over", written, &port.collect());
                }
                _ => t.leave_out("walk of a damaged log with 1 to 15 bytes left over"),
            },
            (Err(panic), Err(refused)) => check_refusal(t, "walk", &panic, refused.refusal.number()),
            (rust, port) => t.differ("walk", &format!("the Rust: {:?}\nthe port: {port:?}", rust.map(|e| e.0.len()).map_err(|p| p.0))),
        }
    }

    fn same_whole_walk(&self, t: &mut Tally, end: u64, stop: Option<Stop>) {
        let used = self.port.used();
        let whole = self.port.walk();
        let holds = whole
            .map_or(false, |w| w.end.0 == end && Some(w.stop) == stop && w.unread == used - end && (w.stop == Stop::End) == (end == used));
        t.holds("walk: stop, E, unread", holds, &(whole, end, stop));
    }

    /// Opens both; none where the Rust panics. The port's store takes the place of one opened before.
    pub fn open(&mut self, t: &mut Tally, size: usize, own: u64) -> Option<Stores> {
        let metrics = Arc::new(Metrics::default());
        let committee = Committee::new_test(vec![1; size]);
        let rust = caught(|| BlockStore::open(own, self.reader.clone(), &self.writer, metrics.clone(), &committee));
        let used = self.port.used();
        let port = self.port.recover(size as u64, own);
        // The store's log goes on at E; a refused one is given back as it was.
        let goes_on = port.as_ref().map_or(used, |p| p.end().0);
        if self.port.used() != goes_on {
            t.differ("recovery: the log's length", &format!("the port: {}, not {goes_on}", self.port.used()));
        }
        match (rust, port) {
            (Ok(rust), Ok(port)) => {
                same_state(t, &answer_of(&rust, &Entries::of(&self.reader, &self.writer), size), &port, self.port.store());
                Some(Stores { size, rust: rust.block_store, metrics })
            }
            (Err(panic), _) if panic.left_over() => {
                t.leave_out("recovery of a log with 1 to 15 bytes left over");
                None
            }
            (Err(panic), Err(refused)) => {
                check_refusal(t, "recovery", &panic, refused.refusal.number());
                self.check_start(t, &panic, &refused, size, own);
                None
            }
            (rust, port) => t.differ("recovery", &format!("the Rust: {:?}\nthe port: {port:?}", rust.map(|_| ()).map_err(|p| p.0))),
        }
    }

    /// The start in the refusal: the position that the panic names, if any. Else the Rust opens the log before that entry, and
    /// panics once it has the entry.
    fn check_start(&self, t: &mut Tally, panic: &Panic, refused: &RefusedAt, size: usize, own: u64) {
        let (start, number) = (refused.start.0 as usize, refused.refusal.number());
        if let Some(named) = panic.position() {
            return t.same("recovery: start concerned", named, refused.start.0);
        }
        let image = self.port.image();
        let length = u32::from_le_bytes(image[start + 8..start + 12].try_into().unwrap()) as usize;
        let entry = image.get(start + 16..start + length);
        if number == 11 {
            let decodes = entry.map(|e| bincode::deserialize::<Vec<BaseStatement>>(e).is_ok());
            return t.same("recovery: start concerned", Some(false), decodes);
        }
        // A payload that does not decode is found last, once every entry was applied.
        let before = numbers_of(&image[..start], size, own);
        t.holds("recovery: the log before it opens", before.is_empty() || before == [11], &(start, number));
        if number != 6 {
            t.holds("recovery: start concerned", numbers_of(&image[..start + length], size, own).contains(&number), &(start, number));
        }
    }
}

/// The numbers for the Rust's panic over these bytes; none where it opens them.
fn numbers_of(bytes: &[u8], size: usize, own: u64) -> &'static [u8] {
    let logs = Logs::of(bytes, bytes.to_vec());
    let committee = Committee::new_test(vec![1; size]);
    let rust = caught(|| BlockStore::open(own, logs.reader.clone(), &logs.writer, Arc::new(Metrics::default()), &committee));
    rust.map_or_else(|panic| panic.numbers(), |_| &[])
}

/// The number must be one that stands for the panic.
pub fn check_refusal(t: &mut Tally, kind: &'static str, panic: &Panic, refusal: u8) {
    if !panic.numbers().contains(&refusal) {
        t.differ(kind, &format!("the Rust panics: {}\nthe port refuses with {refusal}, not one of {:?}", panic.0, panic.numbers()));
    }
    t.refused(kind, refusal);
}

/// A row that begins with a reference.
fn row(r: &Reference, last: [u64; 2]) -> Row {
    let k = r.to_words();
    [k[0], k[1], k[2], k[3], k[4], k[5], last[0], last[1]]
}

fn pending_row(pending: Pending) -> Row {
    match pending {
        Pending::Block { position, reference } => {
            let k = reference.to_words();
            [position.0, 1, k[0], k[1], k[2], k[3], k[4], k[5]]
        }
        Pending::Payload { position, len } => [position.0, 2, len, 0, 0, 0, 0, 0],
    }
}

/// What the port recovered, in the rows of docs/LAYOUTS.md.
fn tables(port: &Recovered, store: &PortStore) -> [Vec<Row>; 4] {
    [
        port.pending().map(pending_row).collect(),
        port.unprocessed().map(|(r, position)| row(&r, [position.0, 0])).collect(),
        port.committed().map(|r| row(&r, [0, 0])).collect(),
        store.index().map(|i| row(&i.reference, [i.position.0, i.loaded as u64])).collect(),
    ]
}

fn place(range: Option<std::ops::Range<usize>>) -> Place {
    range.map_or([0; 3], |r| [1, r.start as u64, r.len() as u64])
}

/// What the Rust recovered against the port's tables and words. The Rust's sets are in the port's order already.
pub fn same_state(t: &mut Tally, rust: &Answer, port: &Recovered, store: &PortStore) {
    let tables = tables(port, store);
    for (i, kind) in ["state: pending", "state: unprocessed", "state: committed", "state: index"].iter().enumerate() {
        t.same(kind, &rust.tables[i], &tables[i]);
    }
    t.same("state: last own block", rust.places[0], place(port.last_own_block()));
    t.same("state: state", rust.places[1], place(port.state()));
    t.same("state: committed state", rust.places[2], place(port.committed_state()));
    t.same("state: leader", rust.leader.as_ref().map(reference), port.last_committed_leader());
    let seen = (0..128).map(|a| port.last_seen_by_authority(a)).collect::<Vec<_>>();
    let own = port.last_own_block_ref();
    t.same("state: summary", (rust.highest, &rust.seen, rust.own.as_ref().map(reference)), (port.highest_round(), &seen, own));
}

/// The stores that both sides opened. The port's has the log, and is in `Logs`.
pub struct Stores {
    pub size: usize,
    pub rust: BlockStore,
    pub metrics: Arc<Metrics>,
}

impl Stores {
    /// Inserts a block into both, behind a next entry where one is given. False where the Rust panics.
    pub fn insert(&mut self, t: &mut Tally, logs: &mut Logs, next_entry: Option<u64>, block: &Data<StatementBlock>) -> bool {
        let bytes = block.serialized_bytes();
        let before = state_of(logs.port.store());
        let writer = &mut logs.writer;
        let (rust, port) = match next_entry {
            None => {
                let rust = caught(|| Some(number((writer, &self.rust).insert_block(block.clone()))));
                (rust, logs.port.store_mut().insert_block(bytes))
            }
            Some(next) => {
                let data = OwnBlockData { next_entry: position(next), block: block.clone() };
                let rust = caught(|| (writer, &self.rust).insert_own_block(&data)).map(|_| None);
                (rust, logs.port.store_mut().insert_own_block(&[&next.to_le_bytes()[..], bytes].concat()))
            }
        };
        match (rust, port) {
            (Ok(rust), Ok(port)) => {
                // The Rust answers no position for an own block: its index has it.
                let rust = rust.unwrap_or_else(|| self.rust_position(block));
                t.same("insert: position", rust, port.0);
                match next_entry {
                    None => logs.note(rust, 1, bytes),
                    Some(next) => logs.note(rust, 3, &[&next.to_le_bytes()[..], bytes].concat()),
                }
                self.same_summary(t, logs);
                true
            }
            (Err(panic), Err(refusal)) => {
                check_refusal(t, "insert", &panic, refusal.number());
                t.holds("insert: refused, unchanged", before == state_of(logs.port.store()), &refusal);
                false
            }
            (rust, port) => t.differ("insert", &format!("the Rust: {:?}\nthe port: {port:?}", rust.map_err(|p| p.0))),
        }
    }

    fn rust_position(&self, block: &StatementBlock) -> u64 {
        let index = inside::index(&self.rust);
        let found: Option<WalPosition> = index.iter().find(|(r, _, _)| r == block.reference()).map(|(_, p, _)| *p);
        number(found.expect("an inserted block is indexed"))
    }

    pub fn same_summary(&self, t: &mut Tally, logs: &Logs) {
        let port = logs.port.store();
        t.same("highest_round", self.rust.highest_round(), port.highest_round());
        t.same("len_expensive", self.rust.len_expensive(), port.len_expensive());
        t.same("last_own_block_ref", self.rust.last_own_block_ref().as_ref().map(reference), port.last_own_block_ref());
        let seen = |f: &dyn Fn(u64) -> u64| (0..self.size as u64).map(f).collect::<Vec<_>>();
        t.same("last_seen_by_authority", seen(&|a| self.rust.last_seen_by_authority(a)), seen(&|a| port.last_seen_by_authority(a)));
    }

    /// The index with its positions and loaded flags; the port's rows ascend.
    pub fn same_index(&self, t: &mut Tally, logs: &Logs) {
        let rust = inside::index(&self.rust);
        let mut rust: Vec<_> = rust.iter().map(|(r, p, loaded)| (reference(r), number(*p), *loaded)).collect();
        rust.sort();
        t.same("index: rows, positions, loaded", rust, index_of(logs.port.store()));
    }
}

fn index_of(store: &PortStore) -> Vec<(Reference, u64, bool)> {
    store.index().map(|i| (i.reference, i.position.0, i.loaded)).collect()
}

/// What a refused insert must leave: image, length, index and loads.
fn state_of(store: &PortStore) -> (Vec<u8>, u64, Vec<(Reference, u64, bool)>, u64) {
    (store.log().image().to_vec(), store.log().used(), index_of(store), store.loads())
}

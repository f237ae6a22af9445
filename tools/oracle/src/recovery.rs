//! Logs written by the Rust's own writers, and what its `BlockStore::open` recovers from each.
//!
//! Left out, since the two differ there by design (docs/DIFFERENCES.md): what is refused (the Rust panics, or goes on), 1 to 15 bytes
//! left over at a region's end (the Rust panics), and torn entries (the Rust reads them as if zeros followed). For a cut the Rust
//! therefore opens the entries that are whole.
//! The order of blocks within a round is a HashMap's there: rows are sorted by round, authority and digest before they are shown.
//! The stop word, E and the unread count, which the Rust does not have, are added by tools/model/recovery_cases.py.
use crate::block_store::{
    inside, BlockStore, BlockWriter, CommitData, OwnBlockData, WAL_ENTRY_BLOCK, WAL_ENTRY_COMMIT, WAL_ENTRY_OWN_BLOCK,
    WAL_ENTRY_PAYLOAD, WAL_ENTRY_STATE,
};
use crate::committee::Committee;
use crate::core::MetaStatement;
use crate::crypto::SignatureBytes;
use crate::data::Data;
use crate::metrics::Metrics;
use crate::state::RecoveredState;
use crate::types::*;
use crate::wal::{open_file_for_wal, walf, Tag, WalPosition, WalReader, WalWriter};
use minibytes::Bytes;
use rand::{rngs::StdRng, Rng, SeedableRng};
use std::collections::HashSet;
use std::path::{Path, PathBuf};
use std::sync::Arc;

/// The exponent of the region size in this build.
pub(crate) const K: u64 = if cfg!(test) { 16 } else { 28 };

const FULL: u64 = 0;
const CUTS: u64 = 1;
const LINE: u64 = 2;

/// The words lent for each table, eight to a row; some belong to no row.
const LENT: [u64; 4] = [8 * 40 + 3, 8 * 40, 8 * 40 + 7, 8 * 40 + 1];

pub(crate) fn number(p: WalPosition) -> u64 {
    p.to_string().parse().unwrap()
}

pub(crate) fn position(n: u64) -> WalPosition {
    bincode::deserialize(&n.to_le_bytes()).unwrap()
}

// ---- Recovery

pub(crate) type Row = [u64; 8];

/// Whether there are such bytes, where they begin in the log, and their length.
pub(crate) type Place = [u64; 3];

/// What was recovered, in the rows and words of docs/LAYOUTS.md.
pub(crate) struct Answer {
    pub(crate) tables: [Vec<Row>; 4],
    pub(crate) places: [Place; 3],
    pub(crate) leader: Option<BlockReference>,
    pub(crate) own: Option<BlockReference>,
    pub(crate) highest: u64,
    pub(crate) seen: Vec<u64>,
}

pub(crate) fn digest(r: &BlockReference) -> [u8; 32] {
    bincode::serialize(r).unwrap()[24..].try_into().unwrap()
}

pub(crate) fn row(r: &BlockReference, last: [u64; 2]) -> Row {
    let d = digest(r);
    let word = |i: usize| u64::from_be_bytes(d[8 * i..8 * i + 8].try_into().unwrap());
    [r.round, r.authority, word(0), word(1), word(2), word(3), last[0], last[1]]
}

fn pending_row(p: u64, r: &BlockReference) -> Row {
    let k = row(r, [0, 0]);
    [p, 1, k[0], k[1], k[2], k[3], k[4], k[5]]
}

pub(crate) fn sorted(mut rows: Vec<Row>) -> Vec<Row> {
    rows.sort();
    rows
}

/// The entries of a log, as the Rust's iterator gives them: start, tag and payload in the mapped file.
pub(crate) struct Entries(pub(crate) Vec<(u64, Tag, Bytes)>);

impl Entries {
    pub(crate) fn of(reader: &WalReader, writer: &WalWriter) -> Self {
        Self(reader.iter_until(writer).map(|(p, (tag, data))| (number(p), tag, data)).collect())
    }

    /// The entry in whose payload these bytes stand: the Rust keeps parts of the mapped file, and no positions.
    fn holding(&self, bytes: &[u8]) -> &(u64, Tag, Bytes) {
        let at = bytes.as_ptr();
        let found = self.0.iter().find(|(_, _, data)| data.as_ptr() <= at && at < unsafe { data.as_ptr().add(data.len().max(1)) });
        found.expect("the bytes stand in no entry")
    }

    fn at(&self, p: u64) -> &(u64, Tag, Bytes) {
        self.0.iter().find(|(start, _, _)| *start == p).unwrap()
    }

    fn ends(&self) -> Vec<u64> {
        self.0.iter().map(|(p, _, data)| p + 16 + data.len() as u64).collect()
    }
}

fn payload_place(entry: &(u64, Tag, Bytes)) -> Place {
    [1, entry.0 + 16, entry.2.len() as u64]
}

/// The committed state is a copy in the Rust: its place is behind the commits and its count, in the last commit's entry.
fn committed_place(entries: &Entries, state: &Bytes) -> Place {
    let (p, _, data) = entries.0.iter().rev().find(|(_, tag, _)| *tag == WAL_ENTRY_COMMIT).unwrap();
    let (commits, copy): (Vec<CommitData>, Bytes) = bincode::deserialize(data).unwrap();
    assert!(copy == *state);
    let at = bincode::serialized_size(&commits).unwrap() + 8;
    assert!(data[at as usize..][..state.len()] == state[..]);
    [1, p + 16 + at, state.len() as u64]
}

fn recover(path: &Path, own: u64, size: usize) -> Answer {
    let (writer, reader) = walf(open_file_for_wal(path).unwrap()).unwrap();
    let reader = Arc::new(reader);
    let committee = Committee::new_test(vec![1; size]);
    let r = BlockStore::open(own, reader.clone(), &writer, Arc::new(Metrics::default()), &committee);
    answer_of(&r, &Entries::of(&reader, &writer), size)
}

/// What was recovered from a log of these entries.
pub(crate) fn answer_of(r: &RecoveredState, entries: &Entries, size: usize) -> Answer {
    let pending = r.pending.iter().map(|(p, statement)| match statement {
        MetaStatement::Include(reference) => pending_row(number(*p), reference),
        MetaStatement::Payload(_) => [number(*p), 2, entries.at(number(*p)).2.len() as u64, 0, 0, 0, 0, 0],
    });
    let unprocessed = r.unprocessed_blocks.iter().map(|b| row(b.reference(), [entries.holding(b.serialized_bytes()).0, 0]));
    let index = inside::index(&r.block_store).into_iter().map(|(b, p, loaded)| row(&b, [number(p), loaded as u64]));
    let mut seen = vec![0; 128];
    for a in 0..size {
        seen[a] = r.block_store.last_seen_by_authority(a as u64);
    }
    Answer {
        tables: [
            pending.collect(),
            unprocessed.collect(),
            sorted(r.committed_blocks.iter().map(|b| row(b, [0, 0])).collect()),
            sorted(index.collect()),
        ],
        places: [
            r.last_own_block.as_ref().map_or([0; 3], |b| payload_place(entries.holding(b.block.serialized_bytes()))),
            r.state.as_ref().map_or([0; 3], |s| {
                let place = payload_place(entries.holding(s));
                assert_eq!(place[2], s.len() as u64);
                place
            }),
            r.committed_state.as_ref().map_or([0; 3], |s| committed_place(entries, s)),
        ],
        leader: r.last_committed_leader,
        own: r.block_store.last_own_block_ref(),
        highest: r.block_store.highest_round(),
        seen,
    }
}

// ---- What is shown

fn fed(crc: &mut crc32fast::Hasher, words: &[u64]) {
    for w in words {
        crc.update(&w.to_le_bytes());
    }
}

fn fed_reference(crc: &mut crc32fast::Hasher, found: &Option<BlockReference>) {
    let r = found.unwrap_or_default();
    fed(crc, &[found.is_some() as u64, r.authority, r.round]);
    crc.update(&digest(&r));
}

fn table_words(rows: &[Row], lent: u64) -> Vec<u64> {
    let mut words = rows.concat();
    assert!(words.len() as u64 <= lent / 8 * 8);
    words.resize(lent as usize, 0);
    words
}

fn sum(words: &[u64]) -> u32 {
    let mut crc = crc32fast::Hasher::new();
    fed(&mut crc, words);
    crc.finalize()
}

fn shown_reference(name: &str, found: &Option<BlockReference>) -> String {
    let r = found.unwrap_or_default();
    format!("{name} {} {} {} {:016x}\n", found.is_some() as u64, r.round, r.authority, row(&r, [0, 0])[2])
}

impl Answer {
    /// A checksum of the state and every word of the tables.
    fn sum(&self, lent: &[u64]) -> u32 {
        let mut crc = crc32fast::Hasher::new();
        for (rows, lent) in self.tables.iter().zip(lent) {
            fed(&mut crc, &table_words(rows, *lent));
        }
        for rows in &self.tables {
            fed(&mut crc, &[rows.len() as u64]);
        }
        fed(&mut crc, &self.places.concat());
        fed_reference(&mut crc, &self.leader);
        fed(&mut crc, &[self.highest]);
        fed(&mut crc, &self.seen);
        fed_reference(&mut crc, &self.own);
        crc.finalize()
    }

    fn full(&self, image: &[u8], lent: &[u64]) -> String {
        let mut text = String::new();
        for (i, name) in ["pending", "unprocessed", "committed", "index"].iter().enumerate() {
            let rows = &self.tables[i];
            text += &format!("{name} {} {:08x}\n", rows.len(), sum(&table_words(rows, lent[i])));
            for r in rows {
                text += &match i {
                    0 => format!("{} {} {} {} {:016x}\n", r[0], r[1], r[2], r[3], r[4]),
                    _ => format!("{} {} {:016x} {}\n", r[0], r[1], r[2], r[6]),
                };
            }
        }
        for (name, [there, at, n]) in ["own block", "state", "committed state"].iter().zip(self.places) {
            let crc = crc32fast::hash(&image[at as usize..(at + n) as usize]);
            text += &format!("{name} {there} {at} {n} {crc:08x}\n");
        }
        text += &shown_reference("leader", &self.leader);
        let s = &self.seen;
        text += &format!("highest {} seen {} {} {} {} {:08x}\n", self.highest, s[0], s[1], s[2], s[3], sum(s));
        text + &shown_reference("own reference", &self.own)
    }
}

// ---- Writing logs

/// A file that is not there yet.
pub(crate) fn temporary(name: &str) -> PathBuf {
    let path = std::env::temp_dir().join(format!("recovery-oracle-{}-{name}", std::process::id()));
    let _ = std::fs::remove_file(&path);
    path
}

/// A log under way, with the store that the Rust's block writer asks for.
struct Log {
    path: PathBuf,
    own: u64,
    size: usize,
    writer: WalWriter,
    store: BlockStore,
}

impl Log {
    fn new(own: u64, size: usize) -> Self {
        let path = temporary("log");
        let (writer, reader) = walf(open_file_for_wal(&path).unwrap()).unwrap();
        let committee = Committee::new_test(vec![1; size]);
        let store = BlockStore::open(own, Arc::new(reader), &writer, Arc::new(Metrics::default()), &committee).block_store;
        Self { path, own, size, writer, store }
    }

    fn block(&mut self, b: &Data<StatementBlock>) -> WalPosition {
        (&mut self.writer, &self.store).insert_block(b.clone())
    }

    fn own(&mut self, next_entry: WalPosition, b: &Data<StatementBlock>) {
        (&mut self.writer, &self.store).insert_own_block(&OwnBlockData { next_entry, block: b.clone() })
    }

    fn payload(&mut self, statements: &[BaseStatement]) -> WalPosition {
        self.raw(WAL_ENTRY_PAYLOAD, &bincode::serialize(statements).unwrap())
    }

    fn state(&mut self, bytes: &[u8]) -> WalPosition {
        self.raw(WAL_ENTRY_STATE, bytes)
    }

    fn commit(&mut self, commits: Vec<CommitData>, state: &[u8]) -> WalPosition {
        let state: Bytes = state.to_vec().into();
        self.raw(WAL_ENTRY_COMMIT, &bincode::serialize(&(commits, state)).unwrap())
    }

    fn raw(&mut self, tag: Tag, bytes: &[u8]) -> WalPosition {
        self.writer.write(tag, bytes).unwrap()
    }

    fn len(&self) -> u64 {
        std::fs::metadata(&self.path).unwrap().len()
    }
}

/// A block whose digest begins with these bytes: the test build computes none, and the order of digests is to be seen.
pub(crate) fn block_with(authority: u64, round: u64, begins: &[u8], includes: Vec<BlockReference>, statements: Vec<BaseStatement>) -> Data<StatementBlock> {
    let b = StatementBlock::new(authority, round, includes, statements, 5 + round as u128, false, SignatureBytes::default());
    let mut bytes = bincode::serialize(&b).unwrap();
    for i in 0..32u64 {
        bytes[24 + i as usize] = (authority.wrapping_mul(31) ^ round.wrapping_mul(17) ^ (i + 1).wrapping_mul(73)) as u8;
    }
    bytes[24..24 + begins.len()].copy_from_slice(begins);
    Data::from_bytes(bytes.into()).unwrap()
}

fn block(authority: u64, round: u64) -> Data<StatementBlock> {
    block_with(authority, round, &[], vec![], vec![])
}

fn reference(authority: u64, round: u64) -> BlockReference {
    *block(authority, round).reference()
}

pub(crate) fn share(text: &str) -> BaseStatement {
    BaseStatement::Share(Transaction::new(text.as_bytes().to_vec()))
}

pub(crate) fn commit(leader: BlockReference, sub_dag: Vec<BlockReference>) -> CommitData {
    CommitData { leader, sub_dag }
}

/// Every kind of statement.
pub(crate) fn statements() -> Vec<BaseStatement> {
    let locator = |n| TransactionLocator::new(reference(1, 1), n);
    vec![
        share("cards"),
        BaseStatement::Vote(locator(1), Vote::Accept),
        BaseStatement::Vote(locator(2), Vote::Reject(None)),
        BaseStatement::Vote(locator(3), Vote::Reject(Some(locator(4)))),
        BaseStatement::VoteRange(TransactionLocatorRange::new(reference(2, 1), 1..3)),
    ]
}

// ---- The scenarios

/// A case: its form, the exponent, used, committee size, own authority and the words lent for each table; its name; its image. bincode
/// writes it as the program reads it.
type Case = ([u64; 9], Vec<u8>, Vec<u8>);

/// What the Rust recovers from a case's log, in the case's form.
fn answer(path: &Path, (numbers, _, image): &Case) -> String {
    let found = recover(path, numbers[4], numbers[3] as usize);
    match numbers[0] {
        FULL => found.full(image, &numbers[5..]),
        _ => format!("{:08x}\n", found.sum(&numbers[5..])),
    }
}

/// The cases, and the Rust's answers.
struct Cases {
    cases: Vec<Case>,
    states: String,
}

impl Cases {
    fn add(&mut self, name: &str, form: u64, log: Log) {
        let image = std::fs::read(&log.path).unwrap();
        let mut numbers = [form, K, image.len() as u64, log.size as u64, log.own, 0, 0, 0, 0];
        numbers[5..].copy_from_slice(&LENT);
        let case = (numbers, name.as_bytes().to_vec(), image);
        self.states += "case\n";
        match form {
            CUTS => self.cuts(&log, &case),
            _ => self.states += &answer(&log.path, &case),
        }
        self.cases.push(case);
        std::fs::remove_file(&log.path).unwrap();
    }

    /// A line for each cut: what the Rust recovers from the entries that end at or before it.
    fn cuts(&mut self, log: &Log, case: &Case) {
        let (writer, reader) = walf(open_file_for_wal(&log.path).unwrap()).unwrap();
        let ends = Entries::of(&reader, &writer).ends();
        let mut last = (u64::MAX, String::new());
        for cut in 0..=case.2.len() as u64 {
            let whole = ends.iter().copied().filter(|e| *e <= cut).max().unwrap_or(0);
            if last.0 != whole {
                last = (whole, answer_image(&case.2[..whole as usize], case));
            }
            self.states += &last.1;
        }
    }
}

/// What the Rust recovers from a file that holds these bytes.
fn answer_image(image: &[u8], case: &Case) -> String {
    let path = temporary("image");
    std::fs::write(&path, image).unwrap();
    let text = answer(&path, case);
    std::fs::remove_file(&path).unwrap();
    text
}

/// The Rust's answers to the cases of a file.
fn answers(file: &str) -> String {
    let cases: Vec<Case> = bincode::deserialize(&std::fs::read(file).unwrap()).unwrap();
    cases.iter().map(|case| format!("case\n{}", answer_image(&case.2, case))).collect()
}

fn pending_scenarios(out: &mut Cases) {
    out.add("Rust: no log", FULL, Log::new(0, 4));

    let mut l = Log::new(0, 4);
    l.payload(&[share("a")]);
    let first = l.block(&block(1, 1));
    let second = l.payload(&statements());
    l.own(first, &block(0, 1));
    l.block(&block(2, 1));
    let third = l.payload(&[]);
    l.own(second, &block(0, 2));
    l.block(&block(3, 2));
    l.own(third, &block(0, 3));
    l.payload(&[share("b"), share("c")]);
    out.add("Rust: several own blocks, each next entry an entry's own position", FULL, l);

    let mut l = Log::new(0, 4);
    l.payload(&[share("a")]);
    l.block(&block(1, 1));
    l.own(WalPosition::MAX, &block(0, 1));
    out.add("Rust: next entry MAX", FULL, l);

    let mut l = Log::new(0, 4);
    l.block(&block(1, 1));
    l.own(WalPosition::MAX, &block(0, 1));
    l.block(&block(2, 1));
    l.payload(&[share("a")]);
    l.own(position(0), &block(0, 2));
    out.add("Rust: MAX, then entries, then next entry 0", FULL, l);

    let mut l = Log::new(0, 4);
    let first = l.payload(&[share("a")]);
    let second = l.block(&block(1, 1));
    l.payload(&[]);
    l.own(position(number(second) + 1), &block(0, 1));
    l.own(first, &block(0, 2));
    out.add("Rust: next entry one past a block; a lower one brings nothing back", FULL, l);

    let mut l = Log::new(0, 4);
    l.block(&block(1, 1));
    let end = position(l.len());
    l.own(end, &block(0, 1));
    let end = position(l.len() + 1000);
    l.own(end, &block(0, 2));
    l.payload(&statements());
    out.add("Rust: next entry at the log's end, and past it", FULL, l);

    let mut l = Log::new(0, 4);
    let first = l.payload(&[share("a")]);
    l.raw(WAL_ENTRY_PAYLOAD, &[0xff; 7]);
    let third = l.payload(&[share("b")]);
    l.own(third, &block(0, 1));
    l.raw(WAL_ENTRY_PAYLOAD, &[0xff; 70]);
    l.own(WalPosition::MAX, &block(0, 2));
    l.payload(&[]);
    l.own(first, &block(0, 3));
    out.add("Rust: payloads that do not decode, dropped by own blocks", FULL, l);
}

fn block_scenarios(out: &mut Cases) {
    let mut l = Log::new(1, 4);
    l.block(&block(0, 1));
    l.state(b"first");
    l.block(&block(2, 1));
    l.own(position(0), &block(1, 1));
    l.state(b"second state");
    l.block(&block(3, 1));
    l.block(&block(0, 2));
    l.own(position(0), &block(1, 2));
    out.add("Rust: states between blocks", FULL, l);

    let mut l = Log::new(1, 4);
    l.block(&block(0, 1));
    l.state(b"first");
    l.own(position(0), &block(1, 1));
    l.state(b"");
    out.add("Rust: an empty state, and no block behind it", FULL, l);

    let mut l = Log::new(3, 4);
    l.own(position(0), &block(3, 1));
    l.own(WalPosition::MAX, &block(2, 5));
    l.own(position(100), &block(0, 1));
    out.add("Rust: blocks of other authorities in tag 3", FULL, l);

    let mut l = Log::new(3, 4);
    l.own(position(0), &block(3, 2));
    l.block(&block(3, 4));
    l.block(&block(3, 3));
    l.own(position(0), &block(3, 1));
    out.add("Rust: own blocks in tag 1, rounds not in order", FULL, l);

    let mut l = Log::new(0, 4);
    l.block(&StatementBlock::new_genesis(0));
    l.block(&block(1, 0));
    out.add("Rust: an own block of round 0", FULL, l);

    let mut l = Log::new(0, 4);
    l.own(position(0), &block(0, 0));
    l.own(position(0), &block(0, 7));
    l.block(&block(2, 0));
    out.add("Rust: an own block of round 0 in tag 3, and a later one", FULL, l);

    let mut l = Log::new(0, 4);
    let b = block_with(1, 3, &[], vec![reference(0, 2)], statements());
    l.block(&b);
    l.block(&block(2, 3));
    l.state(b"s");
    l.own(position(0), &b);
    l.block(&block(2, 3));
    out.add("Rust: equal references at two positions", FULL, l);

    let mut l = Log::new(0, 4);
    for begins in [&[2u8][..], &[1, 255], &[1, 0], &[1, 0, 0, 0, 0, 0, 0, 9], &[1, 0, 0, 0, 0, 0, 0, 9, 7], &[255; 31], &[255; 32], &[0; 32]] {
        l.block(&block_with(1, 2, begins, vec![], vec![]));
    }
    l.block(&block_with(0, 2, &[200], vec![], vec![]));
    l.block(&block_with(3, 1, &[200], vec![], vec![]));
    out.add("Rust: digests in order within a round", FULL, l);

    let mut l = Log::new(127, 128);
    l.block(&block(126, u64::MAX));
    l.own(position(0), &block(127, 1 << 40));
    l.block(&block(3, 255));
    out.add("Rust: 128 authorities, and the highest round that there is", FULL, l);

    let mut l = Log::new(0, 1);
    l.own(position(0), &block(0, 1));
    out.add("Rust: one authority", FULL, l);

    let mut l = Log::new(2, 5);
    l.raw(WAL_ENTRY_BLOCK, &[&block(4, 1).serialized_bytes()[..], b"more"].concat());
    l.raw(WAL_ENTRY_OWN_BLOCK, &[&[0; 8][..], block(2, 1).serialized_bytes(), b"more"].concat());
    l.raw(WAL_ENTRY_PAYLOAD, &[&[0; 8][..], b"more"].concat());
    let commits = bincode::serialize(&(vec![commit(reference(4, 1), vec![reference(2, 1)])], Bytes::from(b"state".to_vec()))).unwrap();
    l.raw(WAL_ENTRY_COMMIT, &[&commits[..], b"more"].concat());
    out.add("Rust: trailing bytes", FULL, l);
}

fn commit_scenarios(out: &mut Cases) {
    let (a, b, c) = (reference(1, 3), reference(2, 2), reference(0, 3));
    let mut l = Log::new(0, 4);
    l.commit(vec![commit(a, vec![b, a, b]), commit(c, vec![c, a])], b"first");
    l.commit(vec![commit(b, vec![a, reference(3, 1)])], b"second");
    out.add("Rust: commits with repeated references", FULL, l);

    let mut l = Log::new(0, 4);
    l.commit(vec![], b"none yet");
    l.commit(vec![commit(c, vec![]), commit(a, vec![b])], b"");
    l.commit(vec![], b"none more");
    out.add("Rust: empty commit lists, an empty sub-dag, an empty state", FULL, l);

    let mut l = Log::new(0, 4);
    l.commit(vec![], b"");
    out.add("Rust: an empty commit list alone", FULL, l);

    let mut l = Log::new(0, 4);
    l.commit(vec![commit(reference(99, 1), vec![reference(98, 1), reference(99, 1)])], b"s");
    l.block(&block_with(1, 2, &[], vec![reference(77, 1)], statements()));
    out.add("Rust: unknown authorities in commits and includes", FULL, l);
}

/// A node's log of three rounds: each round's payload and the others' blocks, the own block over them, the handler's state, and a commit.
fn rounds() -> Log {
    let mut l = Log::new(0, 4);
    for a in 0..4 {
        l.block(&block(a, 0));
    }
    let mut next = position(0);
    for round in 1..4 {
        let includes: Vec<BlockReference> = (0..4).map(|a| reference(a, round - 1)).collect();
        let payload = l.payload(&[share("cards"), share("more cards")]);
        for a in 1..4 {
            l.block(&block_with(a, round, &[], includes.clone(), vec![]));
        }
        l.own(next, &block_with(0, round, &[], includes.clone(), statements()));
        next = payload;
        l.state(format!("state {round}").as_bytes());
        l.commit(vec![commit(reference(1, round - 1), includes)], format!("commit {round}").as_bytes());
    }
    l.block(&block(2, 4));
    l
}

fn random_log(seed: u64) -> Log {
    let r = &mut StdRng::seed_from_u64(seed);
    let size = r.gen_range(1..6);
    let own = r.gen_range(0..size) as u64;
    let mut l = Log::new(own, size);
    let (mut starts, mut own_rounds, mut seen) = (vec![0], HashSet::new(), vec![reference(0, 0)]);
    for _ in 0..r.gen_range(8..22) {
        let (authority, round) = (r.gen_range(0..size) as u64, r.gen_range(0..6));
        let b = block_with(authority, round, &[r.gen_range(0..3)], vec![], vec![]);
        let kind = r.gen_range(0..10);
        if kind < 6 && authority == own && !own_rounds.insert(round) {
            continue;
        }
        let start = match kind {
            0..=2 => number(l.block(&b)),
            3..=5 => {
                let next = match r.gen_range(0..6) {
                    0 => u64::MAX,
                    1 => r.gen_range(0..3000),
                    _ => starts[r.gen_range(0..starts.len())],
                };
                l.own(position(next), &b);
                continue;
            }
            6 | 7 => number(l.payload(&statements()[..r.gen_range(0..5)])),
            8 => number(l.state(&vec![round as u8; r.gen_range(0..9)])),
            _ => {
                let mut some = || seen[r.gen_range(0..seen.len())];
                let commits = vec![commit(some(), vec![some(), some()]), commit(some(), vec![some()])];
                number(l.commit(commits, &[authority as u8; 3]))
            }
        };
        starts.push(start);
        seen.push(*b.reference());
    }
    l
}

fn cut_scenario(out: &mut Cases) {
    let mut l = Log::new(0, 4);
    l.payload(&[share("cards")]);
    let next = l.block(&block(1, 1));
    l.state(b"state");
    l.own(next, &block(0, 1));
    l.commit(vec![commit(reference(1, 1), vec![reference(0, 1)])], b"c");
    l.payload(&[]);
    l.state(b"");
    out.add("Rust: a mixed log, cut at every byte", CUTS, l);
}

/// Regions of 2^16 bytes. The first is filled to its last byte; at the end of the second 16 bytes are left over, the fewest in which the
/// Rust looks for an entry without a panic; the last is begun.
fn region_scenario(out: &mut Cases) {
    let mut l = Log::new(0, 4);
    l.block(&block(1, 1));
    l.payload(&[share("a")]);
    let left = (1 << 16) - l.len() as usize - 16;
    l.state(&vec![b'x'; left]);
    assert_eq!(l.len(), 1 << 16);
    let next = l.block(&block(2, 1));
    l.own(next, &block(0, 1));
    let left = (2 << 16) - l.len() as usize - 16 - 16;
    l.commit(vec![], &vec![b'y'; left - 16]);
    assert_eq!(l.len(), (2 << 16) - 16);
    let start = l.payload(&[share("b")]);
    assert_eq!(number(start), 2 << 16);
    l.block(&block(3, 1));
    l.own(start, &block(0, 2));
    out.add("Rust: three regions of 2^16 bytes", FULL, l);
}

/// Arguments: a folder for `cases` and `states`; in the test build also a file of cases to answer, for `answers`.
pub fn main() {
    let words: Vec<String> = std::env::args().skip(1).collect();
    let folder = words.first().expect("a folder");
    std::fs::create_dir_all(folder).unwrap();
    let mut out = Cases { cases: Vec::new(), states: String::new() };
    if K == 16 {
        region_scenario(&mut out);
    } else {
        pending_scenarios(&mut out);
        block_scenarios(&mut out);
        commit_scenarios(&mut out);
        out.add("Rust: three rounds", FULL, rounds());
        cut_scenario(&mut out);
        for seed in 1..=16 {
            out.add(&format!("Rust: random log {seed}"), LINE, random_log(seed));
        }
    }
    std::fs::write(format!("{folder}/cases"), bincode::serialize(&out.cases).unwrap()).unwrap();
    std::fs::write(format!("{folder}/states"), &out.states).unwrap();
    if let Some(file) = words.get(1) {
        std::fs::write(format!("{folder}/answers"), answers(file)).unwrap();
    }
}

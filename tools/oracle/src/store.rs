//! Runs the calls of a file of cases (crates/store_cases) on the unedited `BlockStore`, and says what it answers in that program's
//! lines. Every case begins by opening its log, and none has a call that is refused.
//!
//! The order of blocks within a round is a HashMap's there: rows are sorted by round, authority and digest before they are shown.
use crate::block_store::{inside, BlockStore, BlockWriter, OwnBlockData, WAL_ENTRY_OWN_BLOCK};
use crate::committee::Committee;
use crate::crypto::SignatureBytes;
use crate::data::Data;
use crate::metrics::Metrics;
use crate::recovery::{number, position, row, sorted, temporary, Row};
use crate::types::*;
use crate::wal::{open_file_for_wal, walf, WalReader, WalWriter};
use std::path::PathBuf;
use std::sync::Arc;

/// The bytes of a file of cases, from a place on.
struct Input<'a>(&'a [u8]);

impl<'a> Input<'a> {
    fn bytes(&mut self, n: usize) -> &'a [u8] {
        let (first, rest) = self.0.split_at(n);
        self.0 = rest;
        first
    }

    fn number(&mut self) -> u64 {
        u64::from_le_bytes(self.bytes(8).try_into().unwrap())
    }

    fn string(&mut self) -> &'a [u8] {
        let n = self.number();
        self.bytes(n as usize)
    }

    fn numbers(&mut self) -> Vec<u64> {
        let n = self.number();
        (0..n).map(|_| self.number()).collect()
    }

    fn reference(&mut self) -> BlockReference {
        bincode::deserialize(self.bytes(56)).unwrap()
    }
}

fn crc(bytes: &[u8]) -> String {
    format!(" {:08x}", crc32fast::hash(bytes))
}

fn words(ws: &[u64]) -> Vec<u8> {
    ws.iter().flat_map(|w| w.to_le_bytes()).collect()
}

/// Rows, and zeros up to the words lent.
fn table(rows: &[Row], lent: u64) -> Vec<u8> {
    let mut flat: Vec<u64> = rows.iter().flatten().copied().collect();
    flat.resize(lent as usize, 0);
    words(&flat)
}

fn decoded(bytes: &[u8]) -> Data<StatementBlock> {
    Data::from_bytes(bytes.to_vec().into()).unwrap()
}

/// A block with this reference: `linked` looks at nothing else of the earlier one.
fn with_reference(r: &BlockReference) -> Data<StatementBlock> {
    let b = StatementBlock::new(0, 0, vec![], vec![], 0, false, SignatureBytes::default());
    let mut bytes = bincode::serialize(&b).unwrap();
    bytes[..56].copy_from_slice(&bincode::serialize(r).unwrap());
    decoded(&bytes)
}

/// The arguments of a case, and the store once it is open.
struct Run {
    path: PathBuf,
    size: u64,
    image: usize,
    lent: Vec<u64>,
    writer: WalWriter,
    reader: Arc<WalReader>,
    store: BlockStore,
    metrics: Arc<Metrics>,
}

impl Run {
    fn index(&self) -> Vec<Row> {
        sorted(inside::index(&self.store).into_iter().map(|(r, p, loaded)| row(&r, [number(p), loaded as u64])).collect())
    }

    fn loads(&self) -> u64 {
        self.metrics.block_store_loaded_blocks.get()
    }

    fn log(&self) -> Vec<u8> {
        std::fs::read(&self.path).unwrap()
    }

    fn setting(&self) -> String {
        let log = self.log();
        let (used, mut image) = (log.len(), log);
        image.resize(self.image, 0);
        let mut summary = vec![self.store.highest_round()];
        summary.extend((0..128).map(|a| if a < self.size { self.store.last_seen_by_authority(a) } else { 0 }));
        let mut bytes = words(&summary);
        match self.store.last_own_block_ref() {
            Some(r) => {
                bytes.extend(words(&[1, r.authority, r.round]));
                bytes.extend(&bincode::serialize(&r).unwrap()[24..]);
            }
            None => bytes.extend([0; 56]),
        }
        let index = table(&self.index(), self.lent[0]);
        format!(" {} {} {}", used, self.store.len_expensive(), self.loads()) + &crc(&image) + &crc(&index) + &crc(&bytes)
    }

    /// Where the bytes of an indexed block stand in the log, and their number.
    fn place(&self, r: &BlockReference) -> (u64, u64) {
        let key = row(r, [0, 0]);
        let found = self.index().into_iter().find(|x| x[..6] == key[..6]).unwrap();
        let (tag, data) = self.reader.read(position(found[6])).unwrap();
        let header = if tag == WAL_ENTRY_OWN_BLOCK { 8 } else { 0 };
        (found[6] + 16 + header, data.len() as u64 - header)
    }

    fn looked(&self, name: &str, blocks: Vec<Data<StatementBlock>>) -> String {
        let log = self.log();
        let rows = sorted(blocks.iter().map(|b| self.answer_row(&log, b)).collect());
        let mut text = format!("{name} 0 {} {}", rows.len(), self.loads()) + &crc(&table(&rows, self.lent[1])) + "\n";
        for r in rows {
            text += &format!("{} {} {:016x} {} {}\n", r[0], r[1], r[2], r[6], r[7]);
        }
        text
    }

    fn answer_row(&self, log: &[u8], b: &Data<StatementBlock>) -> Row {
        let (at, n) = self.place(b.reference());
        assert!(log[at as usize..][..n as usize] == b.serialized_bytes()[..]);
        row(b.reference(), [at, n])
    }

    fn insert(&mut self, tag: u64, payload: &[u8]) -> String {
        let store = (&mut self.writer, &self.store);
        insert_into(store, tag, payload);
        let start = self.log().len() - payload.len() - 16;
        format!("insert 0 {start}") + &self.setting() + "\n"
    }

    fn cleanup(&self, t: u64) -> String {
        let before = self.metrics.block_store_unloaded_blocks.get();
        self.store.cleanup(t);
        format!("cleanup UNLOADED {}", self.metrics.block_store_unloaded_blocks.get() - before) + &self.setting() + "\n"
    }

    fn transaction(&self, r: BlockReference, offset: u64) -> String {
        let found = self.store.get_transaction(&TransactionLocator::new(r, offset));
        let loads = self.loads();
        let Some(transaction) = found else {
            return format!("get_transaction 0 0 0 0 00000000 {loads}\n");
        };
        let (log, (place, n)) = (self.log(), self.place(&r));
        let block = decoded(&log[place as usize..][..n as usize]);
        let before = &block.statements()[..offset as usize];
        let sizes: u64 = before.iter().map(|s| bincode::serialized_size(s).unwrap()).sum();
        let at = place + 72 + 56 * block.includes().len() as u64 + sizes + 12;
        let data = transaction.data();
        assert!(log[at as usize..][..data.len()] == data[..]);
        format!("get_transaction 0 1 {at} {}", data.len()) + &crc(data) + &format!(" {loads}\n")
    }

    fn call(&mut self, kind: u64, a: &mut Input) -> String {
        match kind {
            1 => "open 0".to_string() + &self.setting() + "\n",
            2 => {
                let tag = a.number();
                self.insert(tag, a.string())
            }
            3 => self.cleanup(a.number()),
            4 => self.looked("get_block", self.store.get_block(a.reference()).into_iter().collect()),
            5 => self.looked("get_blocks_by_round", self.store.get_blocks_by_round(a.number())),
            6 => self.looked("get_blocks_at_authority_round", self.store.get_blocks_at_authority_round(a.number(), a.number())),
            7 => self.looked("get_own_blocks", self.store.get_own_blocks(a.number(), a.number() as usize)),
            8 => self.looked("get_others_blocks", self.store.get_others_blocks(a.number(), a.number(), a.number() as usize)),
            9 => self.transaction(a.reference(), a.number()),
            10 => {
                let yes = self.store.linked(&decoded(a.string()), &with_reference(&a.reference()));
                format!("linked 0 {} {}", yes as u64, self.loads()) + &crc(&table(&[], self.lent[2])) + "\n"
            }
            11 => answered("block_exists", self.store.block_exists(a.reference())),
            12 => answered("block_exists_at_authority_round", self.store.block_exists_at_authority_round(a.number(), a.number())),
            _ => {
                let round = a.number();
                let yes = self.store.all_blocks_exists_at_authority_round(&a.numbers(), round);
                answered("all_blocks_exists_at_authority_round", yes)
            }
        }
    }
}

fn answered(name: &str, yes: bool) -> String {
    format!("{name} {}\n", if yes { "YES" } else { "NO" })
}

fn insert_into(mut log: (&mut WalWriter, &BlockStore), tag: u64, payload: &[u8]) {
    if tag == 3 {
        let next_entry = position(u64::from_le_bytes(payload[..8].try_into().unwrap()));
        log.insert_own_block(&OwnBlockData { next_entry, block: decoded(&payload[8..]) })
    } else {
        log.insert_block(decoded(payload));
    }
}

/// A case: its name, nine numbers, its image and the words of its index, and its calls.
fn run(input: &mut Input) -> String {
    input.string();
    let numbers: Vec<u64> = (0..9).map(|_| input.number()).collect();
    let image = input.string();
    assert!(numbers[0] == 28 && input.numbers().is_empty());
    let path = temporary("store");
    std::fs::write(&path, &image[..numbers[1] as usize]).unwrap();
    let (writer, reader) = walf(open_file_for_wal(&path).unwrap()).unwrap();
    let (reader, metrics) = (Arc::new(reader), Arc::new(Metrics::default()));
    let committee = Committee::new_test(vec![1; numbers[2] as usize]);
    let store = BlockStore::open(numbers[3], reader.clone(), &writer, metrics.clone(), &committee).block_store;
    let lent = numbers[6..].to_vec();
    let mut run = Run { path, size: numbers[2], image: image.len(), lent, writer, reader, store, metrics };
    let mut text = "case\n".to_string();
    for _ in 0..input.number() {
        let kind = input.number();
        text += &run.call(kind, input);
    }
    std::fs::remove_file(&run.path).unwrap();
    text
}

pub fn main() {
    let data = std::fs::read(std::env::args().nth(1).expect("a file of cases")).unwrap();
    let mut input = Input(&data);
    for _ in 0..input.number() {
        print!("{}", run(&mut input));
    }
}

//! Records made with the Rust's own types, and what bincode says of each, of each beginning of it and of damaged copies.
use crate::block_store::CommitData;
use crate::crypto::SignatureBytes;
use crate::data::Data;
use crate::types::*;
use minibytes::Bytes;
use rand::{rngs::StdRng, Rng, SeedableRng};

pub const REFERENCE: u8 = 1;
pub const LOCATOR: u8 = 2;
pub const RANGE: u8 = 3;
pub const STATEMENT: u8 = 4;
pub const BLOCK: u8 = 5;
pub const PAYLOAD: u8 = 6;
pub const OWN_BLOCK: u8 = 7;
pub const COMMIT: u8 = 8;

fn again<T: serde::Serialize + serde::de::DeserializeOwned>(bytes: &[u8]) -> Option<Vec<u8>> {
    bincode::deserialize::<T>(bytes).ok().map(|t| bincode::serialize(&t).unwrap())
}

/// The record encoded again, where it decodes.
pub fn encoded_again(kind: u8, bytes: &[u8]) -> Option<Vec<u8>> {
    match kind {
        REFERENCE => again::<BlockReference>(bytes),
        LOCATOR => again::<TransactionLocator>(bytes),
        RANGE => again::<TransactionLocatorRange>(bytes),
        STATEMENT => again::<BaseStatement>(bytes),
        BLOCK => again::<StatementBlock>(bytes),
        PAYLOAD => again::<Vec<BaseStatement>>(bytes),
        OWN_BLOCK => {
            let block = again::<StatementBlock>(bytes.get(8..)?)?;
            Some([&bytes[..8], &block].concat())
        }
        _ => again::<(Vec<CommitData>, Bytes)>(bytes),
    }
}

fn reference(r: &mut StdRng) -> BlockReference {
    let block = StatementBlock::new(r.gen_range(0..4), r.gen_range(1..9), vec![], vec![], r.gen(), false, SignatureBytes::default());
    *block.reference()
}

fn locator(r: &mut StdRng) -> TransactionLocator {
    TransactionLocator::new(reference(r), r.gen_range(0..5))
}

fn statement(r: &mut StdRng) -> BaseStatement {
    let variant = r.gen_range(0..5);
    statement_of(variant, r)
}

fn statement_of(variant: u8, r: &mut StdRng) -> BaseStatement {
    match variant {
        0 => BaseStatement::Share(Transaction::new((0..r.gen_range(0..12)).map(|_| r.gen()).collect())),
        1 => BaseStatement::Vote(locator(r), Vote::Accept),
        2 => BaseStatement::Vote(locator(r), Vote::Reject(None)),
        3 => BaseStatement::Vote(locator(r), Vote::Reject(Some(locator(r)))),
        _ => {
            let start = r.gen_range(0..5);
            BaseStatement::VoteRange(TransactionLocatorRange::new(reference(r), start..start + r.gen_range(0..4)))
        }
    }
}

fn some<T>(n: usize, r: &mut StdRng, f: fn(&mut StdRng) -> T) -> Vec<T> {
    (0..n).map(|_| f(r)).collect()
}

fn block(includes: usize, statements: usize, r: &mut StdRng) -> Vec<u8> {
    let (is, ss) = (some(includes, r, reference), some(statements, r, statement));
    let b = StatementBlock::new(r.gen_range(0..4), r.gen_range(0..9), is, ss, r.gen(), r.gen(), SignatureBytes::default());
    Data::new(b).serialized_bytes().to_vec()
}

/// The corpus: kind and bytes of each record.
pub fn records() -> Vec<(u8, Vec<u8>)> {
    let r = &mut StdRng::seed_from_u64(7);
    let mut out: Vec<(u8, Vec<u8>)> = Vec::new();
    let ser = |x: &dyn Fn(&mut StdRng) -> Vec<u8>, r: &mut StdRng| x(r);
    for _ in 0..2 {
        out.push((REFERENCE, ser(&|r| bincode::serialize(&reference(r)).unwrap(), r)));
        out.push((LOCATOR, ser(&|r| bincode::serialize(&locator(r)).unwrap(), r)));
        out.push((RANGE, ser(&|r| bincode::serialize(&TransactionLocatorRange::one(locator(r))).unwrap(), r)));
    }
    for variant in [0, 1, 2, 3, 4, 0, 0, 4] {
        out.push((STATEMENT, bincode::serialize(&statement_of(variant, r)).unwrap()));
    }
    for (is, ss) in [(0, 0), (1, 0), (0, 1), (2, 2), (5, 3), (0, 6)] {
        out.push((BLOCK, block(is, ss, r)));
    }
    for n in [0, 1, 4] {
        out.push((PAYLOAD, bincode::serialize(&some(n, r, statement)).unwrap()));
    }
    for (is, ss) in [(0, 0), (3, 2)] {
        let next: u64 = if is == 0 { u64::MAX } else { r.gen() };
        out.push((OWN_BLOCK, [next.to_le_bytes().to_vec(), block(is, ss, r)].concat()));
    }
    for counts in [vec![], vec![0], vec![2, 1]] {
        let commits: Vec<CommitData> =
            counts.iter().map(|n| CommitData { leader: reference(r), sub_dag: some(*n, r, reference) }).collect();
        let state: Bytes = (0..r.gen_range(0..9)).map(|_| r.gen()).collect::<Vec<u8>>().into();
        out.push((COMMIT, bincode::serialize(&(commits, state)).unwrap()));
    }
    // trailing bytes
    let last = out.len();
    for i in [0, 6, 14, last - 1] {
        let (kind, mut bytes) = out[i].clone();
        bytes.extend_from_slice(&[1, 2, 3]);
        out.push((kind, bytes));
    }
    out
}

/// What is asked of each record: the record, each beginning of it, and each byte changed in three ways.
pub fn asked(bytes: &[u8]) -> Vec<Vec<u8>> {
    let mut out = vec![bytes.to_vec()];
    out.extend((0..bytes.len()).map(|n| bytes[..n].to_vec()));
    for i in 0..bytes.len() {
        for v in [bytes[i] ^ 1, bytes[i].wrapping_add(2), 255] {
            let mut b = bytes.to_vec();
            b[i] = v;
            out.push(b);
        }
    }
    out
}

fn block_fields(b: &StatementBlock) -> Vec<u64> {
    let time = b.meta_creation_time_ns();
    vec![
        b.author(),
        b.round(),
        b.includes().len() as u64,
        b.statements().len() as u64,
        time as u64,
        (time >> 64) as u64,
        b.epoch_changed() as u64,
    ]
}

/// The values of some fields of a record.
fn fields(kind: u8, bytes: &[u8]) -> Vec<u64> {
    match kind {
        REFERENCE => {
            let r: BlockReference = bincode::deserialize(bytes).unwrap();
            vec![r.authority, r.round]
        }
        LOCATOR => {
            let l: TransactionLocator = bincode::deserialize(bytes).unwrap();
            vec![l.block().authority, l.block().round, l.offset()]
        }
        RANGE => {
            let r: TransactionLocatorRange = bincode::deserialize(bytes).unwrap();
            vec![r.block().authority, r.range().start, r.range().end]
        }
        BLOCK => block_fields(&bincode::deserialize(bytes).unwrap()),
        OWN_BLOCK => {
            let next: u64 = bincode::deserialize(bytes).unwrap();
            [vec![next], block_fields(&bincode::deserialize(&bytes[8..]).unwrap())].concat()
        }
        _ => vec![],
    }
}

/// A line for each record: its kind and length, how many of those asked decode, and a checksum over a 0 for each that does not
/// and a 1 and the bytes encoded again for each that does, and the values of some fields.
pub fn report() -> String {
    let mut text = String::new();
    for (kind, bytes) in records() {
        let mut crc = crc32fast::Hasher::new();
        let mut accepted = 0;
        for b in asked(&bytes) {
            match encoded_again(kind, &b) {
                None => crc.update(&[0]),
                Some(e) => {
                    accepted += 1;
                    crc.update(&[1]);
                    crc.update(&e);
                }
            }
        }
        text += &format!("{} {} {} {:08x}", kind, bytes.len(), accepted, crc.finalize());
        for f in fields(kind, &bytes) {
            text += &format!(" {f}");
        }
        text += "\n";
    }
    text
}

/// The corpus as one file: kind (1 byte), length (2 bytes, little-endian) and bytes of each record.
pub fn file() -> Vec<u8> {
    let mut out = Vec::new();
    for (kind, bytes) in records() {
        out.push(kind);
        out.extend_from_slice(&(bytes.len() as u16).to_le_bytes());
        out.extend_from_slice(&bytes);
    }
    out
}

//! Records as owned values: the bytes of each, written by hand from docs/LAYOUTS.md; round trips; and bytes that are no record.
use kadzhomir::{
    crc32, encode_own_block, library_version, Block, BlockBuilder, BlockReference, Commit, CommitData, Log, OwnBlock, Payload, Statement,
    TransactionLocator, Version, Vote, WalPosition, VERSION,
};

/// Parts one behind the other: bytes by hand, without the encoders.
fn laid(parts: &[&[u8]]) -> Vec<u8> {
    parts.concat()
}

fn le(number: u64) -> [u8; 8] {
    number.to_le_bytes()
}

/// A reference whose digest has 32 different bytes.
fn reference(authority: u64, round: u64) -> BlockReference {
    BlockReference { authority, round, digest: std::array::from_fn(|i| 0x40 + i as u8) }
}

fn reference_bytes(authority: u64, round: u64) -> Vec<u8> {
    let digest: Vec<u8> = (0x40..0x60).collect();
    laid(&[&le(authority), &le(round), &le(32), &digest])
}

fn locator(offset: u64) -> TransactionLocator {
    TransactionLocator { block: reference(2, 7), offset }
}

fn locator_bytes(offset: u64) -> Vec<u8> {
    laid(&[&reference_bytes(2, 7), &le(offset)])
}

/// Every kind of statement, with its bytes.
fn statements() -> Vec<(Statement, Vec<u8>)> {
    let vote = |vote| Statement::Vote { locator: locator(5), vote };
    let voted = |rest: &[u8]| laid(&[&[1, 0, 0, 0], &locator_bytes(5), rest]);
    vec![
        (Statement::Share(vec![]), vec![0; 12]),
        (Statement::Share(b"abc".to_vec()), b"\0\0\0\0\x03\0\0\0\0\0\0\0abc".to_vec()),
        (vote(Vote::Accept), voted(&[0, 0, 0, 0])),
        (vote(Vote::Reject(None)), voted(&[1, 0, 0, 0, 0])),
        (vote(Vote::Reject(Some(locator(9)))), voted(&laid(&[&[1, 0, 0, 0, 1], &locator_bytes(9)]))),
        (
            Statement::VoteRange { block: reference(3, 8), start: 1, end: u64::MAX },
            laid(&[&[2, 0, 0, 0], &reference_bytes(3, 8), &le(1), &le(u64::MAX)]),
        ),
    ]
}

fn payload() -> (Payload, Vec<u8>) {
    let (values, bytes): (Vec<Statement>, Vec<Vec<u8>>) = statements().into_iter().unzip();
    (values.into(), laid(&[&le(6), &bytes.concat()]))
}

fn builder() -> BlockBuilder {
    BlockBuilder::new(reference(1, 3))
        .includes([reference(0, 2), reference(1, 2)])
        .statements(payload().0.statements)
        .creation_time_ns(0x0102_0304_0506_0708_090a_0b0c_0d0e_0f10)
        .epoch_marker(true)
        .signature([0xee; 64])
}

fn block_bytes() -> Vec<u8> {
    let includes = laid(&[&le(2), &reference_bytes(0, 2), &reference_bytes(1, 2)]);
    let time: Vec<u8> = (1..=16).rev().collect();
    laid(&[&reference_bytes(1, 3), &includes, &payload().1, &time, &[1], &le(64), &[0xee; 64]])
}

/// The first element of the commit's list.
fn first_commit() -> Vec<u8> {
    laid(&[&reference_bytes(1, 3), &le(2), &reference_bytes(0, 2), &reference_bytes(1, 3)])
}

fn commit() -> (Commit, Vec<u8>) {
    let commits = vec![
        CommitData { leader: reference(1, 3), sub_dag: vec![reference(0, 2), reference(1, 3)] },
        CommitData { leader: reference(2, 4), sub_dag: vec![] },
    ];
    let second = laid(&[&reference_bytes(2, 4), &le(0)]);
    (Commit { commits, state: b"state".to_vec() }, laid(&[&le(2), &first_commit(), &second, &le(5), b"state"]))
}

/// Decodes a record and encodes it again.
type Again = fn(&[u8]) -> Option<Vec<u8>>;

/// The bytes of every record, with its decoder and encoder.
fn records() -> Vec<(Vec<u8>, Again)> {
    let own_block: Again = |b| OwnBlock::decode(b).map(|own| encode_own_block(own.next_entry, &b[own.block_bytes()]).unwrap());
    let statement: Again = |b| Statement::decode(b).map(|s| s.encode());
    let mut records: Vec<(Vec<u8>, Again)> = vec![
        (reference_bytes(2, 7), |b| BlockReference::decode(b).map(|r| r.encode())),
        (payload().1, |b| Payload::decode(b).map(|p| p.encode())),
        (block_bytes(), |b| Block::decode(b, 0).map(|block| block.to_builder(b).unwrap().build())),
        (laid(&[&le(7), &block_bytes()]), own_block),
        (first_commit(), |b| CommitData::decode(b).map(|c| c.encode())),
        (commit().1, |b| Commit::decode(b).map(|c| c.encode())),
    ];
    records.extend(statements().into_iter().map(|(_, bytes)| (bytes, statement)));
    records
}

#[test]
fn bytes_written_by_hand() {
    assert_eq!(reference(2, 7).encode(), reference_bytes(2, 7));
    assert_eq!(BlockReference::decode(&reference_bytes(2, 7)), Some(reference(2, 7)));
    for (statement, bytes) in statements() {
        assert_eq!(statement.encode(), bytes, "{statement:?}");
        assert_eq!(Statement::decode(&bytes), Some(statement));
    }
    let (value, bytes) = payload();
    assert_eq!((value.encode(), Payload::decode(&bytes)), (bytes, Some(value)));
    let (value, bytes) = commit();
    assert_eq!((value.encode(), Commit::decode(&bytes)), (bytes.clone(), Some(value.clone())));
    let first = &value.commits[0];
    assert_eq!((first.encode(), CommitData::decode(&bytes[8..]).as_ref()), (first_commit(), Some(first)));
    assert_eq!((Payload::default().encode(), Commit::default().encode()), (vec![0; 8], vec![0; 16]));
}

#[test]
fn a_block_written_by_hand() {
    let bytes = block_bytes();
    assert_eq!(builder().build(), bytes);
    let block = Block::decode(&bytes, 0).unwrap();
    assert_eq!((block.reference, block.end), (reference(1, 3), bytes.len()));
    assert_eq!(block.includes(&bytes).collect::<Vec<_>>(), [reference(0, 2), reference(1, 2)]);
    assert_eq!(block.statements(&bytes).collect::<Payload>(), payload().0);
    assert_eq!((block.creation_time_ns, block.epoch_marker), (0x0102_0304_0506_0708_090a_0b0c_0d0e_0f10, true));
    assert_eq!(&bytes[block.signature()], [0xee; 64]);
    assert_eq!(block.to_builder(&bytes), Some(builder()));
    // One statement at a time, and at another place.
    let again = payload().0.statements.into_iter().fold(BlockBuilder::new(reference(1, 3)), BlockBuilder::statement).build();
    let behind = laid(&[b"before", &again]);
    let block = Block::decode(&behind, 6).unwrap();
    assert_eq!((block.statements(&behind).count(), block.includes(&behind).count()), (6, 0));
    assert_eq!(block.to_builder(&behind).unwrap().build(), again);
}

#[test]
fn an_own_block_written_by_hand() {
    for next in [0, 7, u64::MAX] {
        let bytes = laid(&[&le(next), &block_bytes()]);
        assert_eq!(encode_own_block(WalPosition(next), &block_bytes()).as_ref(), Some(&bytes));
        let own = OwnBlock::decode(&bytes).unwrap();
        assert_eq!((own.next_entry, &bytes[own.block_bytes()]), (WalPosition(next), &block_bytes()[..]));
        assert_eq!(own.block, Block::decode(&bytes, 8).unwrap());
        assert_eq!(own.block.to_builder(&bytes), Some(builder()));
    }
    // A block and nothing else.
    assert_eq!(encode_own_block(WalPosition(7), &laid(&[&block_bytes(), &[0]])), None);
    assert_eq!(encode_own_block(WalPosition(7), &block_bytes()[1..]), None);
    assert_eq!(encode_own_block(WalPosition(7), &[]), None);
}

#[test]
fn every_truncation_is_refused() {
    for (bytes, again) in records() {
        assert_eq!(again(&bytes).as_ref(), Some(&bytes));
        assert_eq!((0..bytes.len()).find(|n| again(&bytes[..*n]).is_some()), None, "of {} bytes", bytes.len());
    }
}

#[test]
fn trailing_bytes_are_not_looked_at() {
    for (bytes, again) in records() {
        for behind in [&[0][..], &[0xff; 100], &bytes] {
            assert_eq!(again(&laid(&[&bytes, behind])).as_ref(), Some(&bytes));
        }
    }
}

/// A record has one encoding: whatever decodes has its bytes again, however one of them was changed.
#[test]
fn what_decodes_is_encoded_to_the_same_bytes() {
    let mut decoded = 0;
    for (bytes, again) in records() {
        for i in 0..bytes.len() {
            for byte in [0, 1, 2, bytes[i] ^ 0x80, 0xff] {
                let mut changed = bytes.clone();
                changed[i] = byte;
                let Some(encoded) = again(&changed) else { continue };
                assert!(changed.starts_with(&encoded), "byte {i} of {} is {byte}", bytes.len());
                decoded += 1;
            }
        }
    }
    assert!(decoded > 1000);
}

/// Counts that bytes cannot have: none is believed, and none makes room before it is looked at.
#[test]
fn hostile_counts() {
    for count in [7, 1 << 31, 1 << 32, 1 << 61, u64::MAX / 56 + 1, u64::MAX - 8, u64::MAX] {
        let mut bytes = commit().1;
        bytes[..8].copy_from_slice(&le(count));
        assert_eq!(Commit::decode(&bytes), None, "{count} commits");
        let mut bytes = first_commit();
        bytes[56..64].copy_from_slice(&le(count));
        assert_eq!(CommitData::decode(&bytes), None, "a sub-dag of {count}");
        let mut bytes = payload().1;
        bytes[..8].copy_from_slice(&le(count));
        assert_eq!(Payload::decode(&bytes), None, "{count} statements");
        let mut bytes = block_bytes();
        bytes[56..64].copy_from_slice(&le(count));
        assert!(Block::decode(&bytes, 0).is_none(), "{count} includes");
        assert_eq!(Statement::decode(&laid(&[&[0; 4], &le(count), b"ab"])), None, "{count} bytes");
        let digest = laid(&[&le(2), &le(7), &le(count), &[0; 64]]);
        assert_eq!(BlockReference::decode(&digest), None, "a digest of {count} bytes");
    }
}

#[test]
fn variants_that_are_none() {
    let vote = |rest: &[u8]| Statement::decode(&laid(&[&[1, 0, 0, 0], &locator_bytes(5), rest, &[0; 100]]));
    assert_eq!(Statement::decode(&laid(&[&[3, 0, 0, 0], &[0; 100]])), None);
    assert_eq!(Statement::decode(&laid(&[&[0, 0, 0, 1], &[0; 100]])), None);
    assert_eq!(vote(&[2, 0, 0, 0]), None);
    assert_eq!(vote(&[1, 0, 0, 0, 2]), None);
    let mut marked = block_bytes();
    let marker = marked.len() - 73;
    marked[marker] = 2;
    assert!(Block::decode(&marked, 0).is_none());
}

#[test]
fn other_bytes_end_the_iterators() {
    let bytes = block_bytes();
    let block = Block::decode(&bytes, 0).unwrap();
    let cut = &bytes[..block.statements.0 + 30];
    assert_eq!((block.includes(cut).count(), block.statements(cut).count()), (2, 2));
    assert_eq!((block.includes(&[]).count(), block.statements(&[]).count()), (0, 0));
    assert_eq!((block.to_builder(cut), block.to_builder(&[])), (None, None));
    // Of the same length, and no lists in them.
    assert_eq!(block.to_builder(&vec![0xff; bytes.len()]), None);
}

#[test]
fn what_is_encoded_is_recovered() {
    let own = BlockBuilder::new(reference(0, 3)).include(reference(1, 2)).build();
    let (mut store, _) = Log::new(16, vec![0; 8192], 0).recover(4, 0).unwrap();
    let first = store.append_raw(2, &payload().0.encode()).unwrap();
    store.insert_own_block(&encode_own_block(first, &own).unwrap()).unwrap();
    store.insert_block(&builder().build()).unwrap();
    store.append_raw(5, &commit().0.encode()).unwrap();
    let (store, recovered) = store.into_log().recover(4, 0).unwrap();
    let image = store.log().image();
    assert_eq!((recovered.pending().count(), store.index().count()), (2, 2));
    assert_eq!(recovered.last_committed_leader(), Some(reference(2, 4)));
    let last = OwnBlock::decode(&image[recovered.last_own_block().unwrap()]).unwrap();
    assert_eq!((last.next_entry, last.block.reference), (first, reference(0, 3)));
    let found = store.get_transaction(&reference(1, 3), 1).unwrap().unwrap();
    assert_eq!(&image[found], b"abc");
}

#[test]
fn the_checksum_is_an_entrys() {
    let mut log = Log::new(16, vec![0; 64], 0);
    let position = log.append_raw(4, b"123456789").unwrap();
    assert_eq!(log.read(position).unwrap().checksum, crc32(b"123456789"));
    assert_eq!(crc32(&[]), 0);
}

#[test]
fn the_version_is_the_archives() {
    assert_eq!(Version::from(library_version()), VERSION);
    assert_eq!(VERSION.to_string(), env!("CARGO_PKG_VERSION"));
    assert_eq!(Version::from(u32::MAX).to_string(), "65535.255.255");
}

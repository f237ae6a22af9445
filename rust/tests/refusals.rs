//! The small examples of the refusal table, one for each number.
mod common;

use common::block;
use kadzhomir::{BlockReference, Log, Refusal, RefusedAt, WalPosition};

const EPOCH_MARKER: usize = 88;

fn own_block(authority: u64, round: u64) -> Vec<u8> {
    [&u64::MAX.to_le_bytes()[..], &block(authority, round)].concat()
}

/// A log of k = 16 with these entries.
fn log(entries: &[(u32, &[u8])]) -> Log<Vec<u8>> {
    let mut log = Log::new(16, vec![0; 4096], 0);
    for (tag, payload) in entries {
        log.append_raw(*tag, payload).unwrap();
    }
    log
}

/// The first log of the specification: k = 6, entries at 0, 25 and 64.
fn first_log() -> Log<Vec<u8>> {
    let mut log = Log::new(6, vec![0; 128], 0);
    for (tag, payload) in [(2, &b"123456789"[..]), (4, b""), (2, b"123456789")] {
        log.append_raw(tag, payload).unwrap();
    }
    log
}

/// What recovery for 4 authorities, of which 0 is the own one, refuses: the number and the start.
fn recovery_of(entries: &[(u32, &[u8])]) -> (u8, u64) {
    let RefusedAt { refusal, start } = log(entries).recover(4, 0).unwrap_err().refused;
    (refusal.number(), start.0)
}

fn walk_of(header: [u8; 16]) -> (u8, u64) {
    let RefusedAt { refusal, start } = Log::new(6, header, 16).walk().unwrap_err();
    (refusal.number(), start.0)
}

fn number<T: std::fmt::Debug>(answer: Result<T, Refusal>) -> u8 {
    answer.unwrap_err().number()
}

#[test]
fn append() {
    assert_eq!(number(Log::new(5, vec![0; 64], 0).append_raw(1, b"")), 1);
    assert_eq!(number(Log::new(6, vec![0; 64], 65).append_raw(1, b"")), 2);
    assert_eq!(number(Log::new(6, vec![0; 128], 0).append_raw(1, &[7; 49])), 3);
    let mut full = Log::new(6, vec![9; 88], 41);
    assert_eq!(number(full.append_raw(2, b"123456789")), 4);
    assert_eq!((full.used(), full.image()), (41, &[9; 88][..]));
}

#[test]
fn walk() {
    let mut header = [0; 16];
    header[0] = 1;
    assert_eq!(walk_of(header), (5, 0));
    header[8] = 16;
    assert_eq!(walk_of(header), (7, 0));
    header[8] = 15;
    assert_eq!(walk_of(header), (6, 0));
    assert_eq!(Log::new(5, [0; 64], 64).walk().unwrap_err().refusal.number(), 1);
    assert_eq!(Log::new(6, [0; 64], 65).walk().unwrap_err().refusal.number(), 2);
}

#[test]
fn a_refused_walk_lists_the_entries_before_the_damage() {
    let mut log = first_log();
    log.image_mut()[80] = b'0';
    let mut entries = log.entries();
    assert_eq!(entries.by_ref().take(2).filter(|e| e.is_ok()).count(), 2);
    assert_eq!(entries.next(), Some(Err(RefusedAt { refusal: Refusal::Checksum, start: WalPosition(64) })));
    assert_eq!((entries.next(), entries.end(), entries.stop()), (None, WalPosition(41), None));
}

#[test]
fn recovery() {
    let mut marked = block(1, 1);
    marked[EPOCH_MARKER] = 2;
    let state: (u32, &[u8]) = (4, b"s");
    assert_eq!(recovery_of(&[state, (6, b"")]), (8, 17));
    assert_eq!(recovery_of(&[state, (1, &marked)]), (9, 17));
    assert_eq!(recovery_of(&[state, (3, &[0; 7])]), (10, 17));
    assert_eq!(recovery_of(&[state, (2, &[0; 7])]), (11, 17));
    assert_eq!(recovery_of(&[state, (5, b"")]), (12, 17));
    assert_eq!(recovery_of(&[state, (1, &block(4, 1))]), (13, 17));
    assert_eq!(recovery_of(&[(3, &own_block(0, 3)), (1, &block(0, 3))]), (14, 185));
    assert_eq!(log(&[]).recover(0, 0).unwrap_err().refused.refusal.number(), 18);
    assert_eq!(log(&[]).recover(4, 4).unwrap_err().refused.refusal.number(), 18);
}

#[test]
fn a_dropped_payload_need_not_decode() {
    let (_, recovered) = log(&[(2, &[0; 7]), (3, &own_block(0, 1))]).recover(4, 0).unwrap();
    assert_eq!(recovered.pending().count(), 0);
}

#[test]
fn rows() {
    let blocks = [block(1, 1), block(2, 1), block(3, 1)];
    let log = log(&[(1, &blocks[0]), (1, &blocks[1]), (1, &blocks[2])]);
    let not = log.recover_in_rows(4, 0, [3, 2, 3, 3]).unwrap_err();
    assert_eq!((not.refused.refusal.number(), not.refused.start.0), (15, 2 * 177));
    assert_eq!(not.log.recover_in_rows(4, 0, [3, 3, 0, 3]).unwrap().1.unprocessed().count(), 3);
}

#[test]
fn tables_grow() {
    let mut log = Log::new(16, vec![0; 1 << 20], 0);
    for i in 0..5000 {
        log.append_raw(2, &[0; 8]).unwrap_or_else(|r| panic!("entry {i}: {r}"));
    }
    let (mut store, recovered) = log.recover(100, 0).unwrap();
    assert_eq!(recovered.pending().count(), 5000);
    for authority in 1..100 {
        store.insert_block(&block(authority, 1)).unwrap();
    }
    assert_eq!(store.get_blocks_by_round(1).unwrap().len(), 99);
    assert_eq!((store.len_expensive(), store.loads()), (99, 0));
}

#[test]
fn read() {
    let log = first_log();
    assert_eq!(log.read(WalPosition(64)).unwrap().checksum, 0xcbf4_3926);
    assert_eq!(number(log.read(WalPosition(41))), 16);
    assert_eq!(number(log.read(WalPosition(89))), 17);
    assert_eq!(number(log.read(WalPosition::MAX)), 17);
}

#[test]
fn store() {
    let (mut store, _) = log(&[(3, &own_block(0, 3))]).recover(4, 0).unwrap();
    let index: Vec<_> = store.index().collect();
    let (image, used) = (store.log().image().to_vec(), store.log().used());
    assert_eq!(number(store.insert_block(&block(1, 1)[..160])), 9);
    assert_eq!(number(store.insert_own_block(&[0; 7])), 10);
    assert_eq!(number(store.insert_block(&block(4, 1))), 13);
    assert_eq!(number(store.insert_own_block(&own_block(0, 3))), 14);
    assert_eq!(number(store.get_own_blocks(u64::MAX, 1)), 19);
    assert_eq!(number(store.get_others_blocks(u64::MAX, 1, 1)), 19);
    assert_eq!(store.index().collect::<Vec<_>>(), index);
    assert_eq!((store.log().image(), store.log().used(), store.loads()), (&image[..], used, 0));
    // The bytes of an image are its caller's to spoil.
    store.image_mut()[..16].fill(0);
    assert_eq!(number(store.get_block(&BlockReference { authority: 0, round: 3, digest: [0; 32] })), 16);
    assert_eq!(store.loads(), 0);
}

#[test]
fn every_number_has_a_name() {
    for n in 1..=19 {
        let refusal = Refusal::from_number(n).unwrap();
        assert_eq!(refusal.number(), n);
        assert!(!matches!(refusal, Refusal::Unknown(_)));
        assert!(refusal.to_string().starts_with(&format!("refusal {n}: ")));
    }
    assert_eq!(Refusal::from_number(0), None);
    assert_eq!(Refusal::from_number(20), Some(Refusal::Unknown(20)));
}

//! Going on after a power cut: with the log that recovery gives, at the end of the last whole entry.
mod common;

use common::block;
use kadzhomir::{BlockReference, Log, Refusal, Stop, WalPosition};

const ENTRIES: [(u32, &[u8]); 4] = [(4, b"123456789"), (4, b""), (4, b"123456789"), (4, b"12")];

/// Entries at 0, 25, 64 and 89: regions of 64 bytes.
fn whole() -> Log<Vec<u8>> {
    let mut log = Log::new(6, vec![0; 192], 0);
    for (tag, payload) in ENTRIES {
        log.append_raw(tag, payload).unwrap();
    }
    log
}

/// The log after a cut, other bytes from there on.
fn cut(log: &Log<Vec<u8>>, at: usize, behind: u8) -> Log<Vec<u8>> {
    let mut image = log.image().to_vec();
    image[at..].fill(behind);
    Log::new(log.k(), image, at as u64)
}

fn payloads(log: &Log<Vec<u8>>) -> Vec<Vec<u8>> {
    log.entries().map(|e| log.image()[e.unwrap().payload()].to_vec()).collect()
}

#[test]
fn after_every_cut() {
    let whole = whole();
    let ends: Vec<u64> = whole.entries().map(|e| e.unwrap().end().0).collect();
    assert_eq!((ends[..].as_ref(), whole.used()), ([25, 41, 89, 107].as_ref(), 107));
    for at in 0..=107 {
        for behind in [0, 0xff] {
            let log = cut(&whole, at, behind);
            let kept = ends.iter().filter(|e| **e <= at as u64).count();
            let (store, recovered) = log.recover(4, 0).unwrap();
            let mut log = store.into_log();
            let end = kept.checked_sub(1).map_or(0, |last| ends[last]);
            assert_eq!((log.k(), log.used(), recovered.end()), (6, end, WalPosition(end)), "cut at {at}");
            log.append_raw(4, b"again").unwrap();
            let mut wanted: Vec<Vec<u8>> = ENTRIES[..kept].iter().map(|(_, payload)| payload.to_vec()).collect();
            wanted.push(b"again".to_vec());
            assert_eq!(payloads(&log), wanted, "cut at {at}");
            assert_eq!(log.walk().unwrap().stop, Stop::End);
        }
    }
}

#[test]
fn appending_at_the_cut_loses_what_is_appended() {
    let mut log = cut(&whole(), 100, 0);
    log.append_raw(4, b"lost").unwrap();
    let walked = log.walk();
    assert!(walked.map_or(true, |w| w.end.0 == 89), "{walked:?}");
}

#[test]
fn a_store_goes_on_at_the_same_place() {
    let reference = |authority, round| BlockReference { authority, round, digest: [0; 32] };
    let mut log = Log::new(16, vec![0; 4096], 0);
    for authority in 1..4 {
        log.append_raw(1, &block(authority, 1)).unwrap();
    }
    let log = cut(&log, 500, 0x5a);
    let (mut store, recovered) = log.recover(4, 0).unwrap();
    assert_eq!((recovered.stop(), recovered.end().0, recovered.unread()), (Stop::Torn, 354, 146));
    assert_eq!(store.insert_block(&block(1, 2)), Ok(WalPosition(354)));
    assert_eq!(store.get_block(&reference(3, 1)), Ok(None));
    assert!(store.get_block(&reference(1, 2)).unwrap().is_some());
    let (again, recovered) = store.into_log().recover(4, 0).unwrap();
    assert_eq!((recovered.stop(), again.index().count(), again.highest_round()), (Stop::End, 3, 2));
}

#[test]
fn a_refused_recovery_gives_nothing_to_go_on_with() {
    let not = Log::new(5, vec![7; 64], 9).recover(4, 0).unwrap_err();
    assert_eq!((not.refused.refusal, not.refused.start), (Refusal::RegionExponent, WalPosition(0)));
    // But the log, as it was.
    assert_eq!((not.log.k(), not.log.used(), not.log.image()), (5, 9, &[7; 64][..]));
    for (size, own) in [(0, 0), (4, 4), (129, 0)] {
        let refused = Log::new(6, vec![0; 64], 0).recover(size, own).unwrap_err().refused;
        assert_eq!((refused.refusal, refused.start), (Refusal::Store, WalPosition(0)));
    }
}

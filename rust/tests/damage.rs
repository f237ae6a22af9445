//! Which damage is detected and which is not (docs/OPERATING.md): the statement and the examples of `crates/burst`, on the archive.
use kadzhomir::{Log, Recovered, Refusal, RefusedAt, Stop, WalPosition, Walked};

fn log_of(k: u64, entries: &[(u32, &[u8])]) -> Log<Vec<u8>> {
    let mut log = Log::new(k, vec![0; 128], 0);
    for (tag, payload) in entries {
        log.append_raw(*tag, payload).unwrap();
    }
    log
}

/// The first log of the specification: entries at 0, 25 and 64.
fn first_log() -> Log<Vec<u8>> {
    log_of(6, &[(2, b"123456789"), (4, b""), (2, b"123456789")])
}

/// What a read gives of an entry of tag 2, alone in a log, once `damage` has changed the log's bytes: the tag and the payload.
fn read_after(k: u64, payload: &[u8], damage: impl FnOnce(&mut [u8])) -> Result<(u32, Vec<u8>), Refusal> {
    let mut log = log_of(k, &[(2, payload)]);
    damage(log.image_mut());
    let entry = log.read(WalPosition(0))?;
    Ok((entry.tag, log.image()[entry.payload()].to_vec()))
}

/// The same where `bytes` are written from `at` on.
fn read_with(payload: &[u8], at: usize, bytes: &[u8]) -> Result<(u32, Vec<u8>), Refusal> {
    read_after(6, payload, |image| image[at..at + bytes.len()].copy_from_slice(bytes))
}

fn starts(log: &Log<Vec<u8>>) -> Vec<u64> {
    log.entries().map_while(Result::ok).map(|e| e.position.0).collect()
}

#[test]
fn four_damaged_bytes_are_detected() {
    // Each bit of the run alone, then changes of several bytes; little-endian, the run's first byte lowest.
    let patterns: Vec<u32> = (0..32).map(|bit| 1 << bit).chain([0xffff_ffff, 0x8000_0001, 0xedb8_8320, 0x0101_0101]).collect();
    for (k, len) in (0..=48).map(|len| (6, len)).chain([(28, 100)]) {
        let payload: Vec<u8> = (0..len as u8).collect();
        // The run may begin before the payload and end behind it; only the payload is changed.
        for run in 16 - 3..16 + len {
            for pattern in &patterns {
                let mut changes: Vec<(usize, u8)> = (run..).zip(pattern.to_le_bytes()).collect();
                changes.retain(|&(i, bits)| (16..16 + len).contains(&i) && bits != 0);
                let answer = read_after(k, &payload, |image| {
                    for &(i, bits) in &changes {
                        image[i] ^= bits;
                    }
                });
                let expected = if changes.is_empty() { Ok((2, payload.clone())) } else { Err(Refusal::Checksum) };
                assert_eq!(answer, expected, "k {k}, length {len}, run at {run}, {pattern:08x}");
            }
        }
    }
}

/// What a recovery for a committee of this size finds in the log's bytes.
fn recovery(log: &Log<Vec<u8>>, size: u64) -> Result<Recovered, RefusedAt> {
    let answer = Log::new(log.k(), log.image(), log.used()).recover(size, 0);
    answer.map(|(_, recovered)| recovered).map_err(|not| not.refused)
}

#[test]
fn walk_and_recovery_are_refused_at_the_damaged_entry() {
    let mut log = log_of(6, &[(4, b"first"), (4, b""), (4, b"second"), (4, b"third")]);
    assert_eq!(starts(&log), [0, 21, 37, 64]);
    log.image_mut()[37 + 16 + 2..37 + 16 + 6].fill(b'?');
    let refused = RefusedAt { refusal: Refusal::Checksum, start: WalPosition(37) };
    assert_eq!(starts(&log), [0, 21]);
    assert_eq!(log.walk(), Err(refused));
    assert_eq!(recovery(&log, 4).unwrap_err(), refused);
    // What stands behind it can still be read.
    assert_eq!(log.read(WalPosition(64)).map(|e| e.len), Ok(5));
    // The committee comes first, and so does an entry before it that recovery refuses: here by its tag.
    assert_eq!(recovery(&log, 0).unwrap_err(), RefusedAt { refusal: Refusal::Store, start: WalPosition(0) });
    log.image_mut()[21 + 12] = 6;
    assert_eq!(recovery(&log, 4).unwrap_err(), RefusedAt { refusal: Refusal::Tag, start: WalPosition(21) });
    assert_eq!(log.walk(), Err(refused));
}

#[test]
fn what_the_checksum_does_not_detect() {
    let changed = [0x70, 0x34, 0x42, 0xef, 0x34];
    // Five bytes may pass; four of them do not, nor the fifth.
    assert_eq!(read_with(b"123456789", 16, &changed), Ok((2, [&changed[..], b"6789"].concat())));
    assert_eq!(read_with(b"123456789", 16, &changed[..4]), Err(Refusal::Checksum));
    assert_eq!(read_with(b"123456789", 20, &changed[4..]), Err(Refusal::Checksum));
    // The tag and the length are not covered: one bit of the length, 20 to 16, leaves an empty payload.
    assert_eq!(read_with(b"123456789", 12, &[3]), Ok((3, b"123456789".to_vec())));
    assert_eq!(read_with(&[0x9d, 0x0a, 0xd9, 0x6d], 8, &[16]), Ok((2, vec![])));
    // A payload and its checksum, changed so that they agree.
    let other = log_of(6, &[(2, b"2")]);
    assert_eq!(read_with(b"1", 0, &other.image()[..17]), Ok((2, b"2".to_vec())));
    assert_eq!(read_with(b"1", 16, b"2"), Err(Refusal::Checksum));
}

#[test]
fn a_payload_that_becomes_a_state() {
    let mut log = log_of(6, &[(2, b"123456789")]);
    assert_eq!(recovery(&log, 4).unwrap_err().refusal, Refusal::Payload);
    log.image_mut()[12] = 4;
    assert_eq!(recovery(&log, 4).unwrap().state(), Some(16..25));
}

#[test]
fn headers_that_hide_entries() {
    // The length of the empty entry at 25, one bit changed: it is passed over as padding, and the walk ends well.
    let mut log = first_log();
    log.image_mut()[25 + 8] = 0;
    assert_eq!(starts(&log), [0, 64]);
    assert_eq!(log.walk(), Ok(Walked { stop: Stop::End, end: WalPosition(89), unread: 0 }));
    assert_eq!(log.read(WalPosition(25)), Err(Refusal::NoEntry));
    // A length that reaches past the log's end, within its region.
    let mut log = first_log();
    log.image_mut()[64 + 8] = 26;
    assert_eq!(log.walk(), Ok(Walked { stop: Stop::Torn, end: WalPosition(41), unread: 48 }));
    assert_eq!(log.read(WalPosition(64)), Err(Refusal::PastUsed));
    // Length and checksum zero at a region's start.
    let mut log = first_log();
    log.image_mut()[64..64 + 12].fill(0);
    assert_eq!(log.walk(), Ok(Walked { stop: Stop::Zeros, end: WalPosition(41), unread: 48 }));
    assert_eq!(log.read(WalPosition(64)), Err(Refusal::NoEntry));
}

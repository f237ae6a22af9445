//! What each word holds where a call is refused. The types above keep such words from their callers.
use super::*;

const STALE: u64 = 0xa5a5_a5a5;

/// The first log of the specification: k = 6, entries at 0, 25 and 64, used 89.
fn first_log() -> [u8; 128] {
    let mut image = [0; 128];
    let mut used = 0;
    for (tag, payload) in [(4, &b"123456789"[..]), (4, b""), (4, b"123456789")] {
        let mut answer = [STALE; 3];
        assert_eq!(append(6, used, &mut image, tag, payload, &mut answer), 0);
        used = answer[2];
    }
    assert_eq!(used, 89);
    image
}

/// The same, its last payload damaged: 7 at 64.
fn damaged_log() -> [u8; 128] {
    let mut image = first_log();
    image[80] ^= 1;
    image
}

fn view(k: u64, image: &[u8], used: u64) -> View<'_> {
    View { k, image, used }
}

/// The returned number and recovery's answer, for tables of one row.
fn recovered(v: View, size: u64, own: u64) -> (u8, RecoveredWords, [Vec<u64>; 4]) {
    let mut tables = [(); 4].map(|()| vec![STALE; 8]);
    let mut words = [STALE; 161];
    (recover(v, size, own, &mut tables, &mut words), words, tables)
}

/// What `open` returns, and whether it left the store's words as they were.
fn opened(size: u64, own: u64, words: &RecoveredWords) -> (u8, bool) {
    let mut store = [STALE; 140];
    let number = open(size, own, words, &mut store);
    (number, store == [STALE; 140])
}

/// What `writer` returns, and `used` after the call.
fn resumed(words: &RecoveredWords) -> (u8, u64) {
    let mut used = STALE;
    (writer(words, &mut used), used)
}

#[test]
fn a_refused_recovery_opens_no_store() {
    let image = first_log();
    let (number, words, _) = recovered(view(5, &image, 89), 4, 0);
    assert_eq!(number, 1);
    assert_eq!(opened(4, 0, &words), (1, true));
    assert_eq!(resumed(&words), (1, STALE));
    // The recovery's number comes before the committee's.
    assert_eq!(opened(0, 0, &words), (1, true));
}

#[test]
fn every_number_of_a_recovery_is_answered_again() {
    let image = first_log();
    let (_, mut words, _) = recovered(view(6, &image, 89), 4, 0);
    for number in 1..=19 {
        words[0] = number.into();
        assert_eq!((opened(4, 0, &words), resumed(&words)), ((number, true), (number, STALE)));
    }
    // No recovery answers more: not 0, even where the lowest byte is.
    for number in [20, 255, 256, 1 << 32, u64::MAX] {
        words[0] = number;
        assert_eq!((opened(4, 0, &words), resumed(&words)), ((18, true), (18, STALE)), "{number}");
    }
}

#[test]
fn a_committee_that_cannot_be_opens_no_store() {
    let image = first_log();
    let (number, words, _) = recovered(view(6, &image, 89), 4, 0);
    assert_eq!(number, 0);
    for (size, own) in [(0, 0), (4, 4), (129, 0), (u64::MAX, 0), (4, u64::MAX)] {
        assert_eq!(opened(size, own, &words), (18, true), "size {size}, own {own}");
        // Of a recovery for that committee, too.
        let (number, words, _) = recovered(view(6, &image, 89), size, own);
        assert_eq!((number, words[1]), (18, 0));
        assert_eq!((opened(size, own, &words), resumed(&words)), ((18, true), (18, STALE)));
    }
    assert_eq!(opened(128, 127, &words), (0, false));
}

#[test]
fn a_refused_recovery_leaves_zeros() {
    let (whole, damaged) = (first_log(), damaged_log());
    let (k, used) = (view(29, &whole, 89), view(6, &whole, 129));
    for (v, size, refused, start) in [(view(6, &damaged, 89), 4, 7, 64), (k, 4, 1, 0), (used, 4, 2, 0), (view(6, &whole, 89), 0, 18, 0)] {
        let (number, words, tables) = recovered(v, size, 0);
        assert_eq!(number, refused);
        assert_eq!(words[..5], [refused.into(), start, 3, 0, 0]);
        assert_eq!(words[5..], [0; 156]);
        assert!(tables.iter().all(|t| t[..] == [0; 8]));
    }
}

/// What `recovery_page` returns, the length that it stores, `out` with this many bytes, and tables of one row.
fn paged(v: View, size: u64, room: usize) -> (u8, u64, Vec<u8>, [Vec<u64>; 4]) {
    let mut tables = [(); 4].map(|()| vec![STALE; 8]);
    let (mut out, mut length) = (vec![0xee; room], STALE);
    let number = recovery_page(v, size, 0, &mut tables, &mut out, &mut length);
    (number, length, out, tables)
}

/// What `out` with this many bytes holds of a text.
fn clipped(text: &str, room: usize) -> Vec<u8> {
    text.bytes().chain(std::iter::repeat(0xee)).take(room).collect()
}

#[test]
fn a_page_is_clipped_where_the_buffer_ends() {
    let (mut image, mut answer) = ([0; 64], [STALE; 3]);
    assert_eq!(append(6, 0, &mut image, 2, &[0; 8], &mut answer), 0);
    let foot = "            1             0             0 ";
    for (used, stop) in [(24, "END"), (25, "TORN"), (64, "ZEROS")] {
        let v = view(6, &image, used);
        let text = format!("{:72}\n{:72}\n{:72}\n", "PENDING", "            0 payload", format!("{foot}{stop}"));
        for room in [0, 1, 7, 72, 73, 74, 218, 219, 220, 300] {
            let (number, length, out, tables) = paged(v, 4, room);
            assert_eq!((number, length, out), (0, 219, clipped(&text, room)), "{room} bytes");
            assert_eq!(tables, recovered(v, 4, 0).2);
        }
    }
    let (number, length, out, _) = paged(view(6, &image, 0), 4, 146);
    let none = format!("{:72}\n{:72}\n", "PENDING", "            0             0             0 END");
    assert_eq!((number, length, out), (0, 146, none.into_bytes()));
}

#[test]
fn a_refused_page_is_a_number() {
    let (whole, damaged) = (first_log(), damaged_log());
    let (mut two, mut answer) = ([0; 64], [0, 0, 0]);
    for _ in 0..2 {
        assert_eq!(append(6, answer[2], &mut two, 2, &[0; 8], &mut answer), 0);
    }
    for (v, size, refused) in [
        (view(6, &damaged, 89), 4, 7),
        (view(6, &two, 48), 4, 15),
        // Each of these before the next.
        (view(29, &whole, 129), 0, 1),
        (view(6, &whole, 129), 0, 2),
        (view(6, &damaged, 89), 0, 18),
    ] {
        let text = format!("{refused:13}{:59}\n", "");
        for room in [0, 12, 13, 72, 73, 200] {
            let (number, length, out, tables) = paged(v, size, room);
            assert_eq!((number, length, out), (refused, 73, clipped(&text, room)), "{room} bytes");
            assert!(tables.iter().all(|t| t[..] == [0; 8]));
        }
    }
}

#[test]
fn a_refused_walk_has_no_stop() {
    let walked = |k, image: &[u8], used| {
        let mut answer = [STALE; 5];
        (walk(view(k, image, used), &mut answer), answer)
    };
    assert_eq!(walked(6, &first_log(), 89), (0, [0, 0, 0, 89, 0]));
    assert_eq!(walked(6, &first_log(), 80), (0, [0, 0, 2, 41, 39]));
    assert_eq!(walked(6, &first_log(), 128), (0, [0, 0, 1, 89, 39]));
    assert_eq!(walked(6, &damaged_log(), 89), (7, [7, 64, 3, 0, 0]));
    assert_eq!(walked(5, &first_log(), 89), (1, [1, 0, 3, 0, 0]));
    assert_eq!(walked(6, &first_log(), 129), (2, [2, 0, 3, 0, 0]));
}

#[test]
fn a_refused_step_is_no_entry() {
    let step = |k, image: &[u8], used, e| {
        let mut answer = [STALE; 6];
        (walk_step(view(k, image, used), e, &mut answer), answer)
    };
    assert_eq!(step(6, &first_log(), 89, 41), (0, [0, 0, 64, 4, 9, 0xcbf4_3926]));
    assert_eq!(step(6, &first_log(), 89, 89), (0, [0, 1, 0, 0, 0, 0]));
    assert_eq!(step(6, &first_log(), 128, 89), (0, [0, 2, 0, 0, 0, 0]));
    assert_eq!(step(6, &first_log(), 80, 41), (0, [0, 3, 0, 0, 0, 0]));
    assert_eq!(step(6, &damaged_log(), 89, 41), (7, [7, 4, 64, 0, 0, 0]));
    assert_eq!(step(5, &first_log(), 89, 0), (1, [1, 4, 0, 0, 0, 0]));
    assert_eq!(step(6, &first_log(), 129, 0), (2, [2, 4, 0, 0, 0, 0]));
}

#[test]
fn other_refusals_leave_zeros() {
    let mut image = damaged_log();
    let mut answer = [STALE; 5];
    assert_eq!((read(view(6, &image, 89), 64, &mut answer), answer), (7, [7, 0, 0, 0, 0]));
    let mut answer = [STALE; 3];
    assert_eq!((append(6, 89, &mut image, 4, &[0; 24], &mut answer), answer), (4, [4, 0, 89]));
    assert_eq!(image, damaged_log());
    let (mut block, mut include) = ([STALE; 15], [STALE; 8]);
    assert_eq!((decode_block(&image, 0, &mut block), block), (0, [0; 15]));
    assert_eq!((include_at(&image, 120, 0, &mut include), include), (0, [0; 8]));
}

#[test]
fn a_store_that_cannot_be_is_refused_and_kept() {
    let (mut image, mut index, reference) = (first_log(), [STALE; 8], [0; 6]);
    let stale = [STALE; 140];
    let mut store = stale;
    let mut told = [STALE; 2];
    assert_eq!((block_exists(view(6, &image, 89), &store, &index, &reference, &mut told), told), (18, [18, 0]));
    let mut cleaned = [STALE; 2];
    assert_eq!((cleanup(view(6, &image, 89), &store, &mut index, 1, &mut cleaned), cleaned), (18, [18, 0]));
    let mut inserted = [STALE; 3];
    assert_eq!((insert(6, 89, &mut image, &mut store, &mut index, false, &[0; 20], &mut inserted), inserted), (18, [18, 0, 89]));
    assert_eq!((image, index), (first_log(), [STALE; 8]));
    let (mut looked, mut out) = ([STALE; 2], [STALE; 9]);
    let lent = Lent { store: &mut store, index: &index };
    assert_eq!((get_block(view(6, &image, 89), lent, &reference, &mut out, &mut looked), looked, out), (18, [18, 0], [0; 9]));
    let mut transaction = [STALE; 4];
    let lent = Lent { store: &mut store, index: &index };
    assert_eq!((get_transaction(view(6, &image, 89), lent, &reference, 0, &mut transaction), transaction), (18, [18, 0, 0, 0]));
    let (mut linked_words, mut work) = ([STALE; 2], [STALE; 9]);
    let lent = Lent { store: &mut store, index: &index };
    let number = linked(view(6, &image, 89), lent, &[], &reference, &mut work, &mut linked_words);
    assert_eq!((number, linked_words, work), (18, [18, 0], [0; 9]));
    assert_eq!(store, stale);
}

#[test]
fn the_writer_goes_on_at_e() {
    let image = first_log();
    for (used, e) in [(89, 89), (88, 41), (64, 41), (41, 41), (40, 25), (25, 25), (24, 0), (0, 0)] {
        let (number, words, _) = recovered(view(6, &image, used), 4, 0);
        assert_eq!((number, words[3], words[4]), (0, e, used - e));
        assert_eq!(resumed(&words), (0, e));
    }
}

// ---- Records

/// A block of digest 0 with an empty Share: reference, no includes, one statement of 12 zeros, time, epoch marker, signature.
fn block_bytes() -> Vec<u8> {
    let words = [1u64, 3, 32, 0, 0, 0, 0, 0, 1].map(u64::to_le_bytes).concat();
    [&words[..], &[0; 12 + 16 + 1], &64u64.to_le_bytes(), &[5; 64]].concat()
}

/// A commit with one leader, without a sub-dag, and a state of three bytes.
fn commit_bytes() -> Vec<u8> {
    let words = [1u64, 1, 3, 32, 0, 0, 0, 0, 0, 3].map(u64::to_le_bytes).concat();
    [&words[..], b"abc"].concat()
}

/// The number that an encoder returns, its answer, and whether it left the bytes as they were.
fn encoded<const N: usize>(encode: impl FnOnce(&mut [u8], &mut EncodingWords) -> u8) -> (u8, EncodingWords, bool) {
    let (mut out, mut answer) = ([0xee; N], [STALE; 2]);
    let number = encode(&mut out, &mut answer);
    (number, answer, out == [0xee; N])
}

#[test]
fn what_decoders_answer() {
    let block = block_bytes();
    let mut w = [STALE; 15];
    assert_eq!((decode_block(&block, 0, &mut w), w), (0, [1, 3, 1, 0, 0, 0, 0, 64, 0, 72, 1, 0, 0, 0, 173]));
    let own = [&7u64.to_le_bytes()[..], &block, b"behind"].concat();
    let mut w = [STALE; 16];
    assert_eq!((decode_own_block(&own, 0, &mut w), w), (0, [1, 3, 1, 0, 0, 0, 0, 72, 0, 80, 1, 0, 0, 0, 181, 7]));
    let mut w = [STALE; 4];
    assert_eq!((decode_payload(&block, 64, &mut w), w), (0, [1, 72, 1, 84]));
    let mut w = [STALE; 28];
    assert_eq!((decode_statement(&block, 72, &mut w), w[0], w[1], w[2], w[3], w[27]), (0, 1, 0, 84, 0, 84));
    assert_eq!(w[4..27], [0; 23]);
    let mut w = [STALE; 6];
    assert_eq!((decode_commit(&commit_bytes(), 0, &mut w), w), (0, [1, 8, 1, 80, 3, 83]));
    let mut w = [STALE; 10];
    assert_eq!((decode_commit_data(&commit_bytes(), 8, &mut w), w), (0, [1, 3, 1, 0, 0, 0, 0, 72, 0, 72]));
}

#[test]
fn what_does_not_decode_leaves_zeros() {
    for at in [0, 3, 120, 128, 129, usize::MAX] {
        let bytes = [0xff; 128];
        let (mut own, mut payload, mut statement) = ([STALE; 16], [STALE; 4], [STALE; 28]);
        assert_eq!((decode_own_block(&bytes, at, &mut own), own), (0, [0; 16]));
        assert_eq!((decode_payload(&bytes, at, &mut payload), payload), (0, [0; 4]));
        assert_eq!((decode_statement(&bytes, at, &mut statement), statement), (0, [0; 28]));
        let (mut commit, mut data) = ([STALE; 6], [STALE; 10]);
        assert_eq!((decode_commit(&bytes, at, &mut commit), commit), (0, [0; 6]));
        assert_eq!((decode_commit_data(&bytes, at, &mut data), data), (0, [0; 10]));
    }
}

#[test]
fn what_encoders_answer() {
    let (reference, locator, range) = ([1; 6], [2; 7], [3; 8]);
    assert_eq!(encoded::<56>(|out, a| encode_reference(out, 0, &reference, a)), (0, [1, 56], false));
    assert_eq!(encoded::<20>(|out, a| encode_share(out, 4, b"abcd", a)), (0, [1, 20], false));
    for (kind, size) in [(0, 72), (1, 73), (2, 137)] {
        assert_eq!(encoded::<140>(|out, a| encode_vote(out, 1, &locator, kind, &locator, a)), (0, [1, 1 + size], false));
    }
    assert_eq!(encoded::<76>(|out, a| encode_vote_range(out, 0, &range, a)), (0, [1, 76], false));
    assert_eq!(encoded::<32>(|out, a| encode_payload(out, 0, &[0; 24], 2, a)), (0, [1, 32], false));
    let block = block_bytes();
    assert_eq!(encoded::<200>(|out, a| encode_own_block(out, 9, 7, &block, a)), (0, [1, 9 + 8 + 173], false));
    assert_eq!(encoded::<64>(|out, a| encode_commit_data(out, 0, &reference, &[], 0, a)), (0, [1, 64], false));
    assert_eq!(encoded::<83>(|out, a| encode_commit(out, 0, &commit_bytes()[8..72], 1, b"abc", a)), (0, [1, 83], false));
}

/// The block above, made of its words: the epoch marker is set where its word is not 0.
#[test]
fn what_the_block_encoder_writes() {
    for marker in [0, 1, u64::MAX] {
        let (mut out, mut answer) = ([0xee; 180], [STALE; 2]);
        let fields = [3, 1, 0, 0, 0, 0, 0, 1, 0, 0, marker];
        assert_eq!((encode_block(&mut out, 2, &fields, &[5; 64], &[], &[0; 12], &mut answer), answer), (0, [1, 175]));
        let mut wanted = block_bytes();
        wanted[100] = (marker != 0).into();
        assert_eq!((&out[..2], &out[2..175], &out[175..]), (&[0xee; 2][..], &wanted[..], &[0xee; 5][..]));
    }
}

#[test]
fn what_is_no_record_is_not_encoded() {
    let (malformed, block, reference) = ((0, [0, 0], true), block_bytes(), [0; 6]);
    for kind in [3, 256, 1 << 32, u64::MAX] {
        assert_eq!(encoded::<200>(|out, a| encode_vote(out, 0, &[0; 7], kind, &[0; 7], a)), malformed);
    }
    // Another number of elements, bytes behind them, and no element.
    for (bytes, count) in [(&[0; 12][..], 0), (&[0; 12], 2), (&[0; 13], 1), (&[0; 11], 1), (&[9; 12], 1), (&[], u64::MAX)] {
        assert_eq!(encoded::<200>(|out, a| encode_payload(out, 0, bytes, count, a)), malformed);
        let fields = [0, 0, 0, 0, 0, 0, 0, count, 0, 0, 0];
        assert_eq!(encoded::<300>(|out, a| encode_block(out, 0, &fields, &[0; 64], &[], bytes, a)), malformed);
        let fields = [0, 0, 0, 0, 0, 0, count, 0, 0, 0, 0];
        assert_eq!(encoded::<300>(|out, a| encode_block(out, 0, &fields, &[0; 64], bytes, &[], a)), malformed);
        assert_eq!(encoded::<300>(|out, a| encode_commit_data(out, 0, &reference, bytes, count, a)), malformed);
        assert_eq!(encoded::<300>(|out, a| encode_commit(out, 0, bytes, count, b"", a)), malformed);
    }
    let behind = [&block[..], &[0]].concat();
    for bytes in [&block[1..], &block[..172], &behind, &[]] {
        assert_eq!(encoded::<300>(|out, a| encode_own_block(out, 0, 7, bytes, a)), malformed);
    }
}

#[test]
fn what_does_not_fit_is_not_encoded() {
    let (no_room, block, reference) = ((0, [2, 0], true), block_bytes(), [0; 6]);
    for at in [1, 8, 1000, usize::MAX] {
        assert_eq!(encoded::<56>(|out, a| encode_reference(out, at, &reference, a)), no_room);
        assert_eq!(encoded::<16>(|out, a| encode_share(out, at, b"abcd", a)), no_room);
        for kind in [0, 1, 2] {
            assert_eq!(encoded::<72>(|out, a| encode_vote(out, at, &[0; 7], kind, &[0; 7], a)), no_room);
        }
        assert_eq!(encoded::<76>(|out, a| encode_vote_range(out, at, &[0; 8], a)), no_room);
        assert_eq!(encoded::<20>(|out, a| encode_payload(out, at, &[0; 12], 1, a)), no_room);
        assert_eq!(encoded::<161>(|out, a| encode_block(out, at, &[0; 11], &[0; 64], &[], &[], a)), no_room);
        assert_eq!(encoded::<181>(|out, a| encode_own_block(out, at, 7, &block, a)), no_room);
        assert_eq!(encoded::<64>(|out, a| encode_commit_data(out, at, &reference, &[], 0, a)), no_room);
        assert_eq!(encoded::<19>(|out, a| encode_commit(out, at, &[], 0, b"abc", a)), no_room);
    }
}

#[test]
fn the_checksum_of_published_vectors() {
    assert_eq!((crc32(b""), crc32(b"a"), crc32(b"123456789")), (0, 0xe8b7_be43, 0xcbf4_3926));
}

/// The numbers of words in the header's enums are those of the arrays here.
#[test]
fn the_header_has_the_same_lengths() {
    let header = std::fs::read_to_string(concat!(env!("CARGO_MANIFEST_DIR"), "/../include/kadzhomir.h")).unwrap();
    let words = |bytes: usize| bytes / size_of::<u64>();
    for (name, length) in [
        ("REFERENCE", words(size_of::<ReferenceWords>())),
        ("STORE", words(size_of::<StoreWords>())),
        ("RECOVERED", words(size_of::<RecoveredWords>())),
        ("LOCATOR", words(size_of::<LocatorWords>())),
        ("RANGE", words(size_of::<RangeWords>())),
        ("FIELDS", words(size_of::<FieldsWords>())),
        ("STATEMENT", words(size_of::<StatementWords>())),
        ("ENCODING", words(size_of::<EncodingWords>())),
    ] {
        assert!(header.contains(&format!("    KADZHOMIR_{name} = {length}\n")), "{name}");
    }
}

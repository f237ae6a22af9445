//! Random logs: written by both sides, opened, added to, asked, opened again, and damaged.
use super::make::Maker;
use super::panics::caught;
use super::sides::{check_refusal, reference, Logs, Stores, REGION};
use super::tally::Tally;
use crate::recovery::{position, K};
use crate::types::StatementBlock;
use kadzhomir::{Block, Refusal, Stop, WalPosition};
use rand::Rng;
use std::os::unix::fs::FileExt;

/// Enough for the entries of a log; with regions of 2^16 several of them.
const IMAGE: usize = if K == 16 { 8 << 16 } else { 1 << 17 };

/// The bytes that one more entry may take, with its padding.
const ROOM: u64 = if K == 16 { 2 << 16 } else { 1 << 13 };

pub fn run(t: &mut Tally, log: u64) {
    t.begin("random", log);
    let mut m = Maker::new(t.seed.wrapping_mul(1_000_003).wrapping_add(log));
    let mut logs = Logs::new(IMAGE);
    write(t, &mut m, &mut logs);
    logs.same_length(t);
    logs.same_bytes(t, 0);
    logs.same_entries(t);
    if let Some(mut stores) = logs.open(t, m.size, m.own) {
        grow(t, &mut m, &mut logs, &mut stores);
    }
    decode(t, &mut m);
    if log % 2 == 0 {
        damage(t, &mut m, &logs);
    }
    if log % 4 == 1 {
        read_anywhere(t, &mut m, logs);
    }
}

/// Both writers take the same entries.
fn write(t: &mut Tally, m: &mut Maker, logs: &mut Logs) {
    for _ in 0..m.r.gen_range(0..14) {
        let entry = if K == 16 && m.chance(5) { Some((4, sized(m, logs.port.used()))) } else { m.entry() };
        if let Some((tag, payload)) = entry {
            if logs.port.used() + ROOM > IMAGE as u64 {
                return;
            }
            m.starts.extend(logs.append(t, tag, &payload));
        }
    }
}

/// A payload that ends about where the region does.
fn sized(m: &mut Maker, used: u64) -> Vec<u8> {
    let left = REGION - used % REGION;
    let end = match m.r.gen_range(0..8) {
        0 | 1 => left,
        2 => left.saturating_sub(16),
        3 => left.saturating_sub(m.r.gen_range(16..60)),
        4 => left + m.r.gen_range(1..60),
        5 if m.hostile => left.saturating_sub(m.r.gen_range(1..16)), // the Rust's reader panics on these
        6 if m.hostile => REGION + m.r.gen_range(0..3),
        _ => m.r.gen_range(16..=REGION),
    };
    vec![m.r.gen(); end.saturating_sub(16) as usize]
}

/// Inserts, other entries, cleanups and questions; then the bytes, and both opened again.
fn grow(t: &mut Tally, m: &mut Maker, logs: &mut Logs, stores: &mut Stores) {
    for _ in 0..m.r.gen_range(0..16) {
        if logs.port.used() + ROOM > IMAGE as u64 {
            break;
        }
        match m.r.gen_range(0..12) {
            0 => {
                let (tag, payload) = m.other_entry();
                logs.append(t, tag, &payload);
            }
            1 => {
                let threshold = threshold(m);
                stores.cleanup(t, logs, threshold);
            }
            2..=4 => question(t, m, logs, stores),
            _ => {
                if !insert(t, m, logs, stores) {
                    return;
                }
            }
        }
    }
    stores.same_index(t, logs);
    (0..12).for_each(|_| question(t, m, logs, stores));
    logs.same_bytes(t, 0);
    logs.same_entries(t);
    if let Some(mut again) = logs.open(t, m.size, m.own) {
        again.same_summary(t, logs);
        (0..4).for_each(|_| question(t, m, logs, &mut again));
        damaged_lookup(t, m, logs, again);
    }
}

/// False where it is refused: the Rust's store is then half changed.
fn insert(t: &mut Tally, m: &mut Maker, logs: &mut Logs, stores: &mut Stores) -> bool {
    let next_entry = m.chance(3).then(|| m.next_entry());
    let Some(block) = m.block() else { return true };
    stores.insert(t, logs, next_entry, &block)
}

fn threshold(m: &mut Maker) -> u64 {
    match m.r.gen_range(0..5) {
        0 => 0,
        1 => u64::MAX,
        _ => m.round(),
    }
}

fn limit(m: &mut Maker) -> usize {
    match m.r.gen_range(0..6) {
        0 => usize::MAX,
        _ => m.r.gen_range(0..5),
    }
}

/// A round to ask after; the highest that there is panics in the Rust, and is refused.
fn from(m: &mut Maker) -> u64 {
    match m.r.gen_range(0..12) {
        0 => u64::MAX,
        1 | 2 => 0,
        _ => m.round().saturating_sub(1),
    }
}

/// One question of each kind in turn would miss their order: one at random.
fn question(t: &mut Tally, m: &mut Maker, logs: &Logs, stores: &mut Stores) {
    let (r, round, authority) = (m.reference(), m.round(), m.authority());
    match m.r.gen_range(0..9) {
        0 => stores.ask_block(t, logs, &r),
        1 => stores.ask_round(t, logs, round),
        2 => stores.ask_author(t, logs, authority, round),
        3 => {
            let authorities: Vec<u64> = (0..m.r.gen_range(0..4)).map(|_| m.authority()).collect();
            stores.ask_authors(t, logs, &authorities, round);
        }
        4 => {
            let (from, limit) = (from(m), limit(m));
            stores.ask_own(t, logs, from, limit);
        }
        5 => {
            let (from, limit) = (from(m), limit(m));
            stores.ask_others(t, logs, from, authority, limit);
        }
        6 => stores.ask_transaction(t, logs, &r, m.r.gen_range(0..6)),
        _ => {
            let (later, earlier) = (m.asked_block(), m.asked_block());
            stores.ask_linked(t, logs, &later, &earlier);
        }
    }
}

/// A block's bytes, as they are or changed, decoded by both.
fn decode(t: &mut Tally, m: &mut Maker) {
    let mut bytes = m.asked_block().serialized_bytes().to_vec();
    for _ in 0..m.r.gen_range(0..3) {
        m.change(&mut bytes);
    }
    let rust = bincode::deserialize::<StatementBlock>(&bytes).ok().map(|b| {
        let includes: Vec<_> = b.includes().iter().map(reference).collect();
        let head = (reference(b.reference()), includes, b.statements().len());
        (head, b.meta_creation_time_ns(), b.epoch_changed(), bincode::serialized_size(&b).unwrap() as usize)
    });
    let port = Block::decode(&bytes, 0).map(|b| {
        let includes = b.includes(&bytes).collect();
        ((b.reference, includes, b.statements.1), b.creation_time_ns, b.epoch_marker, b.end)
    });
    t.same("block decoded", rust, port);
}

/// Bytes of the log are changed, some with the checksum made right again; then both open it. Where the port's walk ends TORN
/// the Rust opens the entries that are whole: it would read a torn one as if zeros followed.
fn damage(t: &mut Tally, m: &mut Maker, logs: &Logs) {
    let used = logs.port.used() as usize;
    let mut bytes = logs.port.image()[..used].to_vec();
    if bytes.is_empty() {
        return;
    }
    for _ in 0..m.r.gen_range(1..3) {
        change_entry(m, &mut bytes, &logs.port);
    }
    let mut damaged = Logs::of(&bytes, vec![0x5a; IMAGE]);
    if let Ok(walked) = damaged.port.walk() {
        if walked.stop == Stop::Torn {
            check_torn(t, &damaged, walked.end.0);
            damaged = Logs::of(&bytes[..walked.end.0 as usize], vec![0x5a; IMAGE]);
            // What was torn lies behind the log for the port.
            damaged.port.image_mut()[..used].copy_from_slice(&bytes);
        }
    }
    damaged.pad();
    damaged.same_entries(t);
    damaged.open(t, m.size, m.own);
}

/// An entry that passes the log's end stands at E, or, where nothing stands there, at the next region's start.
fn check_torn(t: &mut Tally, logs: &Logs, end: u64) {
    let blank = |p: u64| REGION - p % REGION < 16 || p + 16 <= logs.port.used() && logs.port.image()[p as usize..][..12] == [0; 12];
    let p = if blank(end) && end % REGION != 0 { (end / REGION + 1) * REGION } else { end };
    t.holds("walk: TORN at an entry that passes the end", p < logs.port.used() && passes_end(logs, p), &(end, p));
}

/// A byte of an entry: of its header, or of its payload with or without the checksum's repair.
fn change_entry(m: &mut Maker, bytes: &mut [u8], log: &kadzhomir::Log<Vec<u8>>) {
    let entries: Vec<_> = log.entries().flatten().collect();
    if entries.is_empty() || m.chance(20) {
        return m.change(bytes);
    }
    let entry = entries[m.r.gen_range(0..entries.len())];
    let start = entry.position.0 as usize;
    if m.chance(2) {
        return m.change(&mut bytes[start..start + 16]);
    }
    m.change(&mut bytes[entry.payload()]);
    if !m.chance(4) {
        let checksum = crc32fast::hash(&bytes[entry.payload()]);
        bytes[start..start + 4].copy_from_slice(&checksum.to_le_bytes());
    }
}

/// Reads at entries' starts, beside them and anywhere, against the Rust's `read`.
fn read_anywhere(t: &mut Tally, m: &mut Maker, logs: Logs) {
    logs.pad();
    let used = logs.port.used();
    for _ in 0..12 {
        let start = m.starts[m.r.gen_range(0..m.starts.len())];
        let p = match m.r.gen_range(0..4) {
            0 | 1 => start,
            2 => start + m.r.gen_range(0..20),
            _ => m.r.gen_range(0..used + 40),
        };
        if p < (used / REGION + 1) * REGION && length_at(&logs, p) < 1 << 20 {
            same_read(t, &logs, p);
        }
    }
}

/// The length field at a position, 0 where no header stands there: a long one would make the Rust read zeros for long.
fn length_at(logs: &Logs, p: u64) -> u64 {
    let mut field = [0; 4];
    logs.file.read_exact_at(&mut field, p + 8).map_or(0, |_| u32::from_le_bytes(field) as u64)
}

fn same_read(t: &mut Tally, logs: &Logs, p: u64) {
    let rust = caught(|| logs.reader.read(position(p)).unwrap());
    let port = logs.port.read(WalPosition(p));
    t.same("read: whether past the log's end", passes_end(logs, p), port == Err(Refusal::PastUsed));
    match (rust, port) {
        (Ok((tag, data)), Ok(entry)) => {
            t.same("read", (tag, &data[..]), (entry.tag, &logs.port.image()[entry.payload()]));
        }
        (_, Err(Refusal::PastUsed)) => {}
        (Err(panic), Err(refusal)) => check_refusal(t, "read", &panic, refusal.number()),
        (rust, port) => t.differ("read", &format!("at {p}\nthe Rust: {:?}\nthe port: {port:?}", rust.map_err(|e| e.0))),
    }
}

/// Whether a read is to be refused because position, header or payload pass the log's end, where the Rust finds zeros.
fn passes_end(logs: &Logs, p: u64) -> bool {
    let (used, left, length) = (logs.port.used(), REGION - p % REGION, length_at(logs, p));
    p >= used || left >= 16 && (p + 16 > used || (16..=left).contains(&length) && p + length > used)
}

/// A block whose entry is damaged after the log was opened: it is not loaded, so that both read it.
fn damaged_lookup(t: &mut Tally, m: &mut Maker, logs: &mut Logs, mut stores: Stores) {
    let rows: Vec<_> = logs.port.store().index().collect();
    if rows.is_empty() {
        return;
    }
    logs.pad();
    let row = rows[m.r.gen_range(0..rows.len())];
    let entry = logs.port.read(row.position).unwrap();
    let mut bytes = logs.port.image()[row.position.0 as usize..entry.end().0 as usize].to_vec();
    let header = m.chance(2);
    if header {
        // The two high bytes of the length stay: the Rust would read zeros for long.
        let at = [0, 1, 2, 3, 7, 8, 9, 12, 13][m.r.gen_range(0..9)];
        m.change(&mut bytes[at..at + 1]);
    } else {
        m.change(&mut bytes[16..]);
        let checksum = crc32fast::hash(&bytes[16..]);
        bytes[..4].copy_from_slice(&checksum.to_le_bytes());
    }
    for (i, byte) in bytes.iter().enumerate() {
        logs.damage(row.position.0 as usize + i, *byte);
    }
    look_at_damage(t, logs, &mut stores, row);
}

fn look_at_damage(t: &mut Tally, logs: &Logs, stores: &mut Stores, row: kadzhomir::Indexed) {
    let asked = crate::types::BlockReference { authority: row.reference.authority, round: row.reference.round, digest: digest_of(&row) };
    let loads = logs.port.store().loads();
    let rust = caught(|| stores.rust.get_block(asked));
    let port = logs.port.store().get_block(&row.reference);
    let past = passes_end(logs, row.position.0);
    t.same("damaged lookup: whether past the log's end", past, port == Err(Refusal::PastUsed));
    match (rust, port) {
        (Ok(rust), Ok(port)) => {
            let rust = rust.map(|b| (reference(b.reference()), b.serialized_bytes().to_vec()));
            t.same("damaged lookup", rust, port.map(|f| (f.reference, logs.port.image()[f.bytes].to_vec())));
        }
        (_, Err(Refusal::PastUsed)) => {}
        (Err(panic), Err(refusal)) => {
            check_refusal(t, "damaged lookup", &panic, refusal.number());
            t.holds("damaged lookup: no load counted", logs.port.store().loads() == loads, &logs.port.store().loads());
        }
        (rust, port) => t.differ("damaged lookup", &format!("the Rust: {:?}\nthe port: {port:?}", rust.map_err(|p| p.0))),
    }
}

fn digest_of(row: &kadzhomir::Indexed) -> crate::types::BlockDigest {
    bincode::deserialize(&[&32u64.to_le_bytes()[..], &row.reference.digest].concat()).unwrap()
}

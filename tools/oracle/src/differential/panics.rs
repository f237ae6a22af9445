//! The Rust's panics, and the number with which the port refuses in each one's place (docs/DIFFERENCES.md).
use std::cell::RefCell;
use std::panic::{catch_unwind, set_hook, AssertUnwindSafe};

/// What a panic's message has in it, and the numbers that may stand for it.
const TABLE: [(&str, &[u8]); 16] = [
    ("Wal entry too big", &[3]),
    ("Non-zero crc at len 0", &[5]),
    ("assertion failed: from <= to", &[6]), // a slice of the mapped region, in the stand-in for minibytes
    ("Crc mismatch", &[7]),
    ("Unknown wal tag", &[8]),
    ("Trying to load index entry", &[8]),
    ("Failed to deserialize data from wal", &[9]),
    ("range end index 8 out of range", &[10]), // an own block's next entry
    ("Failed to deserialized own block", &[10]),
    ("Failed to deserialize payload", &[11]),
    ("Failed to deserialized commit data", &[12]),
    ("last_seen_by_authority not found", &[13]),
    ("assertion failed: self.own_blocks", &[14]),
    ("No entry found at position", &[16]),
    (LEFT_OVER, &[16]),
    ("attempt to add with overflow", &[19]),
];

/// A header of 16 bytes where 1 to 15 are left over in the region: a read is refused, a walk goes on (rule 2).
const LEFT_OVER: &str = "range end index 16 out of range";

thread_local! {
    static LAST: RefCell<String> = const { RefCell::new(String::new()) };
}

/// Panics are kept, not printed.
pub fn keep_panics() {
    set_hook(Box::new(|panic| LAST.with(|last| *last.borrow_mut() = panic.to_string())));
}

pub struct Panic(pub String);

impl Panic {
    pub fn numbers(&self) -> &'static [u8] {
        let found = TABLE.iter().find(|(part, _)| self.0.contains(part));
        found.map_or(&[], |(_, numbers)| numbers)
    }

    /// The position that the message names.
    pub fn position(&self) -> Option<u64> {
        let named = self.0.split("position").nth(1)?.trim_start_matches([' ', ':']);
        named.split(|c: char| !c.is_ascii_digit()).next()?.parse().ok()
    }

    pub fn left_over(&self) -> bool {
        self.0.contains(LEFT_OVER)
    }
}

/// The answer, or the panic.
pub fn caught<T>(f: impl FnOnce() -> T) -> Result<T, Panic> {
    catch_unwind(AssertUnwindSafe(f)).map_err(|_| Panic(LAST.with(|last| last.borrow().clone())))
}

//! The unedited Rust of the log store, beside small stand-ins for what it leans on.
#![allow(dead_code, unused_imports, unused_variables, clippy::all)]

/// Included rather than named by its path, so that `inside` may read private fields of the untouched file.
pub mod block_store {
    include!("../rust/block_store.rs");

    /// The index, which the store's queries answer only block by block.
    pub mod inside {
        use super::*;

        /// Each reference with its position and whether its block is loaded.
        pub fn index(store: &BlockStore) -> Vec<(BlockReference, WalPosition, bool)> {
            let inner = store.inner.read();
            let rounds = inner.index.iter();
            rounds
                .flat_map(|(round, blocks)| {
                    blocks.iter().map(|(&(authority, digest), entry)| {
                        let reference = BlockReference { authority, round: *round, digest };
                        match entry {
                            IndexEntry::WalPosition(position) => (reference, *position, false),
                            IndexEntry::Loaded(position, _) => (reference, *position, true),
                        }
                    })
                })
                .collect()
        }
    }
}
#[path = "../rust/committee.rs"]
pub mod committee;
#[path = "."]
pub mod consensus {
    #[path = "../rust/consensus/linearizer.rs"]
    pub mod linearizer;
}
#[path = "../rust/crypto.rs"]
pub mod crypto;
#[path = "../rust/data.rs"]
pub mod data;
#[path = "../rust/state.rs"]
pub mod state;
pub mod types {
    include!("../rust/types.rs");

    /// The test build names a type of a test module that the file does not have.
    #[cfg(test)]
    pub mod test {
        pub struct Dag;
    }
}
#[path = "../rust/wal.rs"]
pub mod wal;

/// core.rs, `MetaStatement` only.
pub mod core {
    use crate::types::{BaseStatement, BlockReference};
    #[derive(Debug)]
    pub enum MetaStatement {
        Include(BlockReference),
        Payload(Vec<BaseStatement>),
    }
}

pub mod config {
    pub trait ImportExport {}
}

pub mod serde {
    use serde::de::{self, Visitor};
    use std::fmt;
    use std::marker::PhantomData;

    pub trait ByteRepr: Sized {
        fn try_copy_from_slice<E: de::Error>(v: &[u8]) -> Result<Self, E>;
    }
    pub struct BytesVisitor<T>(PhantomData<T>);
    impl<T> BytesVisitor<T> {
        pub fn new() -> Self {
            Self(PhantomData)
        }
    }
    impl<'de, T: ByteRepr> Visitor<'de> for BytesVisitor<T> {
        type Value = T;
        fn expecting(&self, f: &mut fmt::Formatter) -> fmt::Result {
            write!(f, "bytes")
        }
        fn visit_bytes<E: de::Error>(self, v: &[u8]) -> Result<T, E> {
            T::try_copy_from_slice(v)
        }
        fn visit_borrowed_bytes<E: de::Error>(self, v: &'de [u8]) -> Result<T, E> {
            T::try_copy_from_slice(v)
        }
        fn visit_byte_buf<E: de::Error>(self, v: Vec<u8>) -> Result<T, E> {
            T::try_copy_from_slice(&v)
        }
    }
}

pub mod threshold_clock {
    use crate::{committee::Committee, types::StatementBlock};
    pub fn threshold_clock_valid_non_genesis(_: &StatementBlock, _: &Committee) -> bool {
        true
    }
}

pub mod range_map {
    use serde::{Deserialize, Serialize};
    use std::ops::Range;
    #[derive(Serialize, Deserialize)]
    pub struct RangeMap<K, V>(Vec<(K, V)>);
    impl<K, V> Default for RangeMap<K, V> {
        fn default() -> Self {
            Self(Vec::new())
        }
    }
    impl<K, V> RangeMap<K, V> {
        pub fn mutate_range<F: FnMut(Range<K>, &mut Option<V>)>(&mut self, _: Range<K>, _: F) {}
        pub fn is_empty(&self) -> bool {
            self.0.is_empty()
        }
    }
}

/// The metrics, of which the count of loaded blocks is read.
pub mod metrics {
    use std::sync::atomic::{AtomicU64, Ordering};
    #[derive(Default)]
    pub struct Counter(AtomicU64);
    impl Counter {
        pub fn inc(&self) {
            self.inc_by(1)
        }
        pub fn inc_by(&self, n: u64) {
            self.0.fetch_add(n, Ordering::Relaxed);
        }
        pub fn set(&self, _: i64) {}
        pub fn get(&self) -> u64 {
            self.0.load(Ordering::Relaxed)
        }
    }
    pub trait UtilizationTimerExt {
        fn utilization_timer(&self) {}
    }
    impl UtilizationTimerExt for Counter {}
    #[derive(Default)]
    pub struct Metrics {
        pub block_store_entries: Counter,
        pub block_store_cleanup_util: Counter,
        pub wal_mappings: Counter,
        pub block_store_unloaded_blocks: Counter,
        pub block_store_loaded_blocks: Counter,
    }
}

pub mod corpus;
#[cfg(feature = "differential")]
pub mod differential;
#[cfg(feature = "differential")]
pub mod measure;
pub mod recovery;
pub mod store;

/// The test build, in which regions have 2^16 bytes, as a program.
#[cfg(test)]
fn main() {
    #[cfg(feature = "differential")]
    if std::env::args().nth(1).as_deref() == Some("differential") {
        return differential::main();
    }
    recovery::main();
}

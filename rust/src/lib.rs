//! A log store that is proved: its write-ahead log, its recovery, and its block store; and a node's log in a file.
//!
//! The code behind these calls is the archive libnode.a, which `rt lib` in crates/node makes once each function is proved to
//! meet its contract. This crate only lends it memory, writes bytes to files and names its answers. A call serves whatever it
//! is given, or says by a [`Refusal`] why not; none panics on the log's bytes.
//!
//! - [`Node`]: a log in a file, opened, cut where a crash left it, appended to and synced. Begin here.
//! - [`Log`]: append, read, walk and recover a log in memory that the caller brings, and its recovery page.
//! - [`BlockStore`]: a recovered log with its index: insert, cleanup and lookups.
//! - [`Recovered`]: what a recovery found beside the index.
//! - [`BlockBuilder`], [`Payload`], [`OwnBlock`], [`Commit`]: what entries hold, encoded and decoded; [`Block`] is a view.
//! - [`Look`] and [`Cut`]: a log's file without a node, for tools.
#![deny(unsafe_code, missing_docs, missing_debug_implementations)]

mod block;
#[allow(unsafe_code)]
#[rustfmt::skip]
#[allow(clippy::too_many_arguments)]
mod ffi;
mod library;
mod log;
mod node;
mod page;
mod records;
mod recovered;
mod refusal;
mod rows;
mod store;
mod types;

pub use block::Block;
pub use library::{crc32, library_version, Version, VERSION};
pub use log::{Entries, Entry, Log, Stop, Walked};
pub use node::{Aside, Cut, Error, FileEntries, Look, Node, Opened, Options, Plan, Settings};
pub use page::RefusedPage;
pub use records::{encode_own_block, BlockBuilder, Commit, CommitData, OwnBlock, Payload, Statement, TransactionLocator, Vote};
pub use recovered::{Indexed, Pending, Recovered};
pub use refusal::{NotRecovered, Refusal, RefusedAt};
pub use store::{BlockStore, Found};
pub use types::{BlockReference, WalPosition};

//! Every lookup, asked of both sides.
use super::panics::caught;
use super::sides::{check_refusal, reference, Logs, PortStore, Reference, Stores};
use super::tally::Tally;
use crate::block_store::BlockStore;
use crate::data::Data;
use crate::types::{BlockReference, StatementBlock, TransactionLocator};
use kadzhomir::{Found, Refusal};

/// A block as both sides are compared by: its reference and its bytes.
type Shown = (Reference, Vec<u8>);

fn shown(block: &Data<StatementBlock>) -> Shown {
    (reference(block.reference()), block.serialized_bytes().to_vec())
}

fn shown_port(logs: &Logs, found: &Found) -> Shown {
    (found.reference, logs.port.image()[found.bytes.clone()].to_vec())
}

impl Stores {
    fn same_loads(&self, t: &mut Tally, logs: &Logs) {
        t.same("loads", self.metrics.block_store_loaded_blocks.get(), logs.port.store().loads());
    }

    /// A lookup that answers blocks. The Rust's order within a round is a HashMap's; the port's rows must ascend.
    fn same_blocks(
        &mut self,
        t: &mut Tally,
        logs: &Logs,
        kind: &'static str,
        rust: impl FnOnce(&BlockStore) -> Vec<Data<StatementBlock>>,
        port: impl FnOnce(&PortStore) -> Result<Vec<Found>, Refusal>,
    ) {
        let rust = caught(|| rust(&self.rust));
        match (rust, port(logs.port.store())) {
            (Ok(rust), Ok(port)) => {
                let mut rust: Vec<Shown> = rust.iter().map(shown).collect();
                rust.sort();
                t.same(kind, rust, port.iter().map(|f| shown_port(logs, f)).collect());
                self.same_loads(t, logs);
            }
            (Err(panic), Err(refusal)) => {
                check_refusal(t, kind, &panic, refusal.number());
                self.same_loads(t, logs);
            }
            (rust, port) => t.differ(kind, &format!("the Rust: {:?}\nthe port: {port:?}", rust.map_err(|p| p.0))),
        }
    }

    pub fn ask_block(&mut self, t: &mut Tally, logs: &Logs, r: &BlockReference) {
        let port = reference(r);
        self.same_blocks(
            t,
            logs,
            "get_block",
            |s| s.get_block(*r).into_iter().collect(),
            |s| Ok(s.get_block(&port)?.into_iter().collect()),
        );
        t.same("block_exists", Ok(self.rust.block_exists(*r)), logs.port.store().block_exists(&port));
    }

    pub fn ask_round(&mut self, t: &mut Tally, logs: &Logs, round: u64) {
        let (rust, port) = (|s: &BlockStore| s.get_blocks_by_round(round), |s: &PortStore| s.get_blocks_by_round(round));
        self.same_blocks(t, logs, "get_blocks_by_round", rust, port);
    }

    pub fn ask_author(&mut self, t: &mut Tally, logs: &Logs, authority: u64, round: u64) {
        self.same_blocks(
            t,
            logs,
            "get_blocks_at_authority_round",
            |s| s.get_blocks_at_authority_round(authority, round),
            |s| s.get_blocks_at_authority_round(authority, round),
        );
        let rust = self.rust.block_exists_at_authority_round(authority, round);
        t.same("block_exists_at_authority_round", Ok(rust), logs.port.store().block_exists_at_authority_round(authority, round));
    }

    pub fn ask_authors(&mut self, t: &mut Tally, logs: &Logs, authorities: &[u64], round: u64) {
        let rust = self.rust.all_blocks_exists_at_authority_round(authorities, round);
        let port = logs.port.store().all_blocks_exists_at_authority_round(authorities, round);
        t.same("all_blocks_exists_at_authority_round", Ok(rust), port);
        self.same_loads(t, logs);
    }

    pub fn ask_own(&mut self, t: &mut Tally, logs: &Logs, from: u64, limit: usize) {
        self.same_blocks(t, logs, "get_own_blocks", |s| s.get_own_blocks(from, limit), |s| s.get_own_blocks(from, limit));
    }

    pub fn ask_others(&mut self, t: &mut Tally, logs: &Logs, from: u64, authority: u64, limit: usize) {
        self.same_blocks(
            t,
            logs,
            "get_others_blocks",
            |s| s.get_others_blocks(from, authority, limit),
            |s| s.get_others_blocks(from, authority, limit),
        );
    }

    pub fn ask_transaction(&mut self, t: &mut Tally, logs: &Logs, r: &BlockReference, offset: u64) {
        let rust = self.rust.get_transaction(&TransactionLocator::new(*r, offset)).map(|x| x.into_data());
        let port = logs.port.store().get_transaction(&reference(r), offset);
        t.same("get_transaction", Ok(rust), port.map(|found| found.map(|range| logs.port.image()[range].to_vec())));
        self.same_loads(t, logs);
    }

    pub fn ask_linked(&mut self, t: &mut Tally, logs: &Logs, later: &Data<StatementBlock>, earlier: &Data<StatementBlock>) {
        let rust = self.rust.linked(later, earlier);
        let port = logs.port.store().linked(later.serialized_bytes(), &reference(earlier.reference()));
        t.same(if rust { "linked: yes" } else { "linked: no" }, Ok(rust), port);
        self.same_loads(t, logs);
    }

    pub fn cleanup(&mut self, t: &mut Tally, logs: &mut Logs, threshold: u64) {
        let before = self.metrics.block_store_unloaded_blocks.get();
        self.rust.cleanup(threshold);
        let unloaded = self.metrics.block_store_unloaded_blocks.get() - before;
        t.same("cleanup: unloaded", Ok(unloaded), logs.port.store_mut().cleanup(threshold));
        self.same_index(t, logs);
    }
}

//! Random blocks, payloads and arguments. A log's blocks lie in a few rounds, so that they meet.
use crate::data::Data;
use crate::recovery::{block_with, commit, share, statements};
use crate::types::*;
use minibytes::Bytes;
use rand::{rngs::StdRng, Rng, SeedableRng};
use std::collections::HashSet;

/// The rounds above the lowest in which a log's blocks lie.
const ROUNDS: u64 = 7;

pub struct Maker {
    pub r: StdRng,
    pub size: usize,
    pub own: u64,
    /// Whether a log may hold what is refused.
    pub hostile: bool,
    lowest: u64,
    own_rounds: HashSet<u64>,
    pub blocks: Vec<Data<StatementBlock>>,
    pub starts: Vec<u64>,
}

impl Maker {
    pub fn new(seed: u64) -> Self {
        let mut r = StdRng::seed_from_u64(seed);
        let size = match r.gen_range(0..20) {
            0 => 128,
            1 => r.gen_range(1..=128),
            _ => r.gen_range(1..=5),
        };
        let own = r.gen_range(0..size) as u64;
        let lowest = match r.gen_range(0..12) {
            0 => u64::MAX - ROUNDS,
            1 => 1 << 40,
            2 => r.gen_range(1..1000),
            _ => 0,
        };
        let hostile = r.gen_range(0..6) == 0;
        Self { r, size, own, hostile, lowest, own_rounds: HashSet::new(), blocks: Vec::new(), starts: vec![0] }
    }

    pub fn chance(&mut self, one_in: u32) -> bool {
        self.r.gen_range(0..one_in) == 0
    }

    pub fn round(&mut self) -> u64 {
        self.lowest + self.r.gen_range(0..ROUNDS)
    }

    /// An authority, now and then one that the committee has not.
    pub fn authority(&mut self) -> u64 {
        match self.r.gen_range(0..16) {
            0 => self.size as u64 + self.r.gen_range(0..3),
            1 => self.own,
            _ => self.r.gen_range(0..self.size) as u64,
        }
    }

    fn author(&mut self) -> u64 {
        if self.hostile && self.chance(24) {
            return self.size as u64 + self.r.gen_range(0..2);
        }
        self.r.gen_range(0..self.size.min(6)) as u64
    }

    /// A reference to some block: of those made, mostly; else one that is not there.
    pub fn reference(&mut self) -> BlockReference {
        if !self.blocks.is_empty() && !self.chance(5) {
            let i = self.r.gen_range(0..self.blocks.len());
            return *self.blocks[i].reference();
        }
        *self.block_of(1).reference()
    }

    /// A block, made but not kept.
    fn block_of(&mut self, includes: usize) -> Data<StatementBlock> {
        let (authority, round) = (self.author(), self.round());
        let below: Vec<BlockReference> = self.blocks.iter().map(|b| *b.reference()).filter(|b| b.round < round).collect();
        let next: Vec<BlockReference> = below.iter().copied().filter(|b| b.round + 1 == round).collect();
        let mut named = Vec::new();
        for _ in 0..includes {
            let among = if self.chance(5) { &below } else { &next };
            if !among.is_empty() {
                named.push(among[self.r.gen_range(0..among.len())]);
            }
        }
        let statements = self.some_statements();
        let begins = [self.r.gen_range(0..3)];
        block_with(authority, round, &begins, named, statements)
    }

    /// A block for the log; a second own block in a round only where the log may be refused.
    pub fn block(&mut self) -> Option<Data<StatementBlock>> {
        let includes = self.r.gen_range(0..6);
        let block = self.block_of(includes);
        let r = block.reference();
        if r.authority == self.own && !self.own_rounds.insert(r.round) && !(self.hostile && self.chance(4)) {
            return None;
        }
        self.blocks.push(block.clone());
        Some(block)
    }

    /// A block to ask about: one of those made, or a new one over them.
    pub fn asked_block(&mut self) -> Data<StatementBlock> {
        if !self.blocks.is_empty() && !self.chance(4) {
            let i = self.r.gen_range(0..self.blocks.len());
            return self.blocks[i].clone();
        }
        self.block_of(4)
    }

    pub fn some_statements(&mut self) -> Vec<BaseStatement> {
        let mut all = statements();
        all.push(share(""));
        let text = "x".repeat(self.r.gen_range(0..40));
        all.push(share(&text));
        (0..self.r.gen_range(0..5)).map(|_| all[self.r.gen_range(0..all.len())].clone()).collect()
    }

    pub fn next_entry(&mut self) -> u64 {
        match self.r.gen_range(0..8) {
            0 => u64::MAX,
            1 => self.r.gen_range(0..4000),
            2 => 0,
            _ => {
                let start = self.starts[self.r.gen_range(0..self.starts.len())];
                start + self.r.gen_range(0..40u64).saturating_sub(38)
            }
        }
    }

    fn commit(&mut self) -> Vec<u8> {
        let commits: Vec<_> = (0..self.r.gen_range(0..4))
            .map(|_| {
                let leader = self.reference();
                let sub_dag = (0..self.r.gen_range(0..4)).map(|_| self.reference()).collect();
                commit(leader, sub_dag)
            })
            .collect();
        let state: Bytes = self.bytes(9).into();
        bincode::serialize(&(commits, state)).unwrap()
    }

    pub fn bytes(&mut self, most: usize) -> Vec<u8> {
        let n = self.r.gen_range(0..=most);
        (0..n).map(|_| self.r.gen()).collect()
    }

    /// An entry that is no insert: a payload, a state or a commit.
    pub fn other_entry(&mut self) -> (u32, Vec<u8>) {
        match self.r.gen_range(0..4) {
            0 => (4, self.bytes(30)),
            1 => (5, self.commit()),
            _ => (2, bincode::serialize(&self.some_statements()).unwrap()),
        }
    }

    /// Any entry. In a hostile log some do not decode, have trailing bytes or an unknown tag.
    pub fn entry(&mut self) -> Option<(u32, Vec<u8>)> {
        let (tag, mut payload) = match self.r.gen_range(0..9) {
            0..=3 => (1, self.block()?.serialized_bytes().to_vec()),
            4 | 5 => {
                let next = self.next_entry();
                (3, [&next.to_le_bytes()[..], self.block()?.serialized_bytes()].concat())
            }
            _ => self.other_entry(),
        };
        if self.chance(20) {
            payload.extend(self.bytes(3));
        }
        if self.hostile && self.chance(12) {
            match self.r.gen_range(0..4) {
                0 => return Some((self.r.gen_range(0..9), payload)),
                1 => return Some((2, self.bytes(9))),
                2 => payload.truncate(payload.len() / 2),
                _ => self.change(&mut payload),
            }
        }
        Some((tag, payload))
    }

    /// Changes a byte.
    pub fn change(&mut self, bytes: &mut [u8]) {
        if !bytes.is_empty() {
            let at = self.r.gen_range(0..bytes.len());
            bytes[at] = match self.r.gen_range(0..4) {
                0 => 0,
                1 => bytes[at] ^ 1,
                2 => bytes[at].wrapping_add(1),
                _ => self.r.gen(),
            };
        }
    }
}

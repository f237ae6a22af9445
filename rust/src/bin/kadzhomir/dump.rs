//! An entry, decoded, a field to a line.
use crate::{Failure, Status};
use kadzhomir::{Block, BlockReference, Commit, Entry, Look, OwnBlock, Payload, Statement, TransactionLocator, Vote, WalPosition};
use std::io::Write;

pub fn hex(bytes: &[u8]) -> String {
    bytes.iter().map(|b| format!("{b:02x}")).collect()
}

pub fn dump(look: &Look, position: WalPosition, out: &mut impl Write) -> Result<Status, Failure> {
    let (entry, payload) = match look.read(position) {
        Ok(read) => read,
        Err(error) => {
            if let Some(refusal) = error.refusal() {
                writeln!(out, "REFUSED {} {position}", refusal.number())?;
                out.flush()?;
            }
            return Err(error.into());
        }
    };
    writeln!(out, "position {}\ntag {} {}\nlength {}", entry.position, entry.tag, name(entry.tag), entry.len)?;
    writeln!(out, "checksum {:08x}\nend {}", entry.checksum, entry.end())?;
    match lines(&entry, &payload) {
        Some(lines) => {
            lines.iter().try_for_each(|line| writeln!(out, "{line}"))?;
            Ok(Status::Sound)
        }
        None => {
            writeln!(out, "undecoded {}", hex(&payload))?;
            Ok(Status::Damaged)
        }
    }
}

fn name(tag: u32) -> &'static str {
    ["unknown", "block", "payload", "own-block", "state", "commit"][if tag <= 5 { tag as usize } else { 0 }]
}

/// The lines of a payload that its tag allows.
fn lines(entry: &Entry, payload: &[u8]) -> Option<Vec<String>> {
    match entry.tag {
        1 => Some(block(&Block::decode(payload, 0)?, payload)),
        2 => Some(Payload::decode(payload)?.statements.iter().map(statement).collect()),
        3 => {
            let own = OwnBlock::decode(payload)?;
            let mut lines = vec![format!("next-entry {}", own.next_entry)];
            lines.extend(block(&own.block, payload));
            Some(lines)
        }
        4 => Some(vec![format!("state {}", hex(payload))]),
        5 => Some(commit(&Commit::decode(payload)?)),
        _ => None,
    }
}

fn reference(r: &BlockReference) -> String {
    format!("{} {} {}", r.authority, r.round, hex(&r.digest))
}

fn locator(l: &TransactionLocator) -> String {
    format!("{} {}", reference(&l.block), l.offset)
}

fn block(block: &Block, bytes: &[u8]) -> Vec<String> {
    let mut lines = vec![format!("block {}", reference(&block.reference))];
    lines.extend(block.includes(bytes).map(|r| format!("include {}", reference(&r))));
    lines.extend(block.statements(bytes).map(|s| statement(&s)));
    lines.push(format!("created {}", block.creation_time_ns));
    lines.push(format!("epoch-marker {}", u8::from(block.epoch_marker)));
    lines.push(format!("signature {}", hex(&bytes[block.signature()])));
    lines
}

fn statement(statement: &Statement) -> String {
    match statement {
        Statement::Share(bytes) => format!("share {}", hex(bytes)),
        Statement::Vote { locator: l, vote: Vote::Accept } => format!("accept {}", locator(l)),
        Statement::Vote { locator: l, vote: Vote::Reject(None) } => format!("reject {}", locator(l)),
        Statement::Vote { locator: l, vote: Vote::Reject(Some(other)) } => format!("reject {} for {}", locator(l), locator(other)),
        Statement::VoteRange { block, start, end } => format!("vote-range {} {start} {end}", reference(block)),
    }
}

fn commit(commit: &Commit) -> Vec<String> {
    let mut lines = Vec::new();
    for data in &commit.commits {
        lines.push(format!("leader {}", reference(&data.leader)));
        lines.extend(data.sub_dag.iter().map(|r| format!("committed {}", reference(r))));
    }
    lines.push(format!("state {}", hex(&commit.state)));
    lines
}

//! A small node that runs: it logs the cards that it reads, a line each, and takes them up in blocks of its own.
//!
//!     cargo run --example node -- --create PATH
//!     cargo run --example node -- PATH
//!
//! It opens the log at PATH and tells on standard error what it found; the first time only, `--create` makes it. (A node that made a new
//! log where the old one is missing would sign a second block in rounds that it has signed.) For each line of standard input it logs a
//! card and syncs; once that has returned it writes `card POSITION`: from then on no crash loses the card. Every eight cards it makes an
//! own block of those that are pending and writes `block ROUND POSITION`. Kill it at any moment and start it again.
use kadzhomir::{
    encode_own_block, BlockBuilder, BlockReference, Error, Node, Options, Payload, Pending, Recovered, Statement, WalPosition,
};
use std::ffi::OsString;
use std::io::{BufRead, Write};
use std::path::Path;
use std::process::ExitCode;

const OFFICES: u64 = 4;
const OWN: u64 = 0;
/// How many cards a block takes up.
const CARDS: usize = 8;

fn main() -> ExitCode {
    match run() {
        Ok(()) => ExitCode::SUCCESS,
        Err(error) => {
            eprintln!("node: {error}");
            ExitCode::FAILURE
        }
    }
}

fn run() -> Result<(), Box<dyn std::error::Error>> {
    let words: Vec<OsString> = std::env::args_os().skip(1).collect();
    let (create, path) = match &words[..] {
        [path] => (false, path),
        [flag, path] if flag == "--create" => (true, path),
        _ => return Err("usage: node [--create] PATH".into()),
    };
    let (mut node, mut pending) = start(Path::new(path), create)?;
    for card in std::io::stdin().lock().lines() {
        let statement = Statement::Share(card?.into_bytes());
        let payload = Payload::from(vec![statement.clone()]).encode();
        let position = node.batch(|node| node.append_payload(&payload))?;
        tell(format_args!("card {position}"))?;
        pending.push(statement);
        if pending.len() >= CARDS {
            let (round, position) = node.batch(|node| take_up(node, &pending))?;
            tell(format_args!("block {round} {position}"))?;
            pending.clear();
        }
    }
    Ok(())
}

/// Opens the log, or creates it, with the cards that wait for a block.
fn start(path: &Path, create: bool) -> Result<(Node, Vec<Statement>), Error> {
    let options = Options::new(OFFICES, OWN);
    if create {
        return Ok((Node::create(path, &options)?, Vec::new()));
    }
    let opened = Node::open(path, &options)?;
    if let Some(aside) = &opened.aside {
        eprintln!("{} bytes that were never acknowledged are now in {}", aside.bytes, aside.path.display());
    }
    let pending = cards(&opened.node, &opened.recovered);
    eprintln!("{} bytes, round {}, {} cards pending", opened.node.known(), opened.node.store().highest_round(), pending.len());
    Ok((opened.node, pending))
}

/// The statements that are pending. Recovery has decoded each.
fn cards(node: &Node, recovered: &Recovered) -> Vec<Statement> {
    let bytes = |p: Pending| match p {
        Pending::Payload { position, len } => &node.log().image()[position.0 as usize + 16..][..len as usize],
        Pending::Block { .. } => &[],
    };
    recovered.pending().map(bytes).filter_map(Payload::decode).flat_map(|p| p.statements).collect()
}

/// Logs an own block of the next round with these statements. It takes up all that was logged before it.
fn take_up(node: &mut Node, statements: &[Statement]) -> Result<(u64, WalPosition), Error> {
    let round = node.store().highest_round() + 1;
    // A real node computes the digest and signs; this store carries both as they are.
    let reference = BlockReference { authority: OWN, round, digest: [0; 32] };
    let block = BlockBuilder::new(reference).includes(node.store().last_own_block_ref()).statements(statements.to_vec()).build();
    let next_entry = WalPosition(node.log().used());
    let own_block = encode_own_block(next_entry, &block).expect("a builder makes a block");
    Ok((round, node.insert_own_block(&own_block)?))
}

/// A line that whoever sent the card may act upon.
fn tell(line: std::fmt::Arguments) -> std::io::Result<()> {
    let mut out = std::io::stdout().lock();
    writeln!(out, "{line}")?;
    out.flush()
}

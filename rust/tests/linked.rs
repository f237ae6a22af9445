//! Ancestors: a chain of includes, one round a step, through indexed blocks.
use kadzhomir::{Block, BlockReference, Log, Refusal};

fn reference(authority: u64, round: u64) -> BlockReference {
    BlockReference { authority, round, digest: [authority as u8; 32] }
}

fn put_reference(bytes: &mut Vec<u8>, r: &BlockReference) {
    bytes.extend([r.authority, r.round, 32].iter().flat_map(|w| w.to_le_bytes()));
    bytes.extend(r.digest);
}

fn block(r: BlockReference, includes: &[BlockReference]) -> Vec<u8> {
    let mut bytes = Vec::new();
    put_reference(&mut bytes, &r);
    bytes.extend((includes.len() as u64).to_le_bytes());
    includes.iter().for_each(|i| put_reference(&mut bytes, i));
    bytes.extend([0; 8 + 16 + 1]);
    bytes.extend(64u64.to_le_bytes());
    bytes.extend([5; 64]);
    bytes
}

#[test]
fn chains() {
    let (mut store, _) = Log::new(16, vec![0; 1 << 14], 0).recover(4, 0).unwrap();
    store.insert_block(&block(reference(1, 1), &[])).unwrap();
    store.insert_block(&block(reference(2, 1), &[])).unwrap();
    store.insert_block(&block(reference(1, 2), &[reference(2, 1)])).unwrap();
    // Round 3's block names a block of round 2, and one of round 1 past it.
    let later = block(reference(3, 3), &[reference(1, 2), reference(1, 1)]);
    assert_eq!(store.linked(&later, &reference(2, 1)), Ok(true));
    assert_eq!(store.linked(&later, &reference(1, 1)), Ok(false));
    assert_eq!(store.linked(&later, &reference(3, 3)), Ok(true));
    assert_eq!(store.linked(&later, &reference(1, 3)), Ok(false));
    assert_eq!(store.linked(&later[1..], &reference(1, 1)), Err(Refusal::Block));
}

#[test]
fn decoded_fields() {
    let bytes = block(reference(3, 3), &[reference(1, 2), reference(1, 1)]);
    let decoded = Block::decode(&bytes, 0).unwrap();
    assert_eq!(decoded.reference, reference(3, 3));
    assert_eq!(decoded.includes(&bytes).collect::<Vec<_>>(), [reference(1, 2), reference(1, 1)]);
    assert_eq!((decoded.statements.1, decoded.creation_time_ns, decoded.epoch_marker), (0, 0, false));
    assert_eq!((decoded.end, &bytes[decoded.signature()]), (bytes.len(), &[5; 64][..]));
}

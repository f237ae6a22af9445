//! The functions of include/kadzhomir.h, each behind one that takes slices and arrays. All unsafe code of the crate is here.
//! It is sound because a slice and an array are valid for their length, and what is lent to be written can overlap nothing
//! else, as the header asks; and because the functions ask nothing else: they serve any words and bytes, or refuse them by
//! number.

#[cfg(test)]
mod tests;

pub type StoreWords = [u64; 140];
pub type ReferenceWords = [u64; 6];
pub type RecoveredWords = [u64; 161];
pub type LocatorWords = [u64; 7];
pub type RangeWords = [u64; 8];
pub type FieldsWords = [u64; 11];
pub type StatementWords = [u64; 28];
pub type EncodingWords = [u64; 2];

mod c {
    use super::{
        EncodingWords, FieldsWords, LocatorWords, RangeWords, RecoveredWords, ReferenceWords, StatementWords, StoreWords,
    };

    extern "C" {
        pub fn kadzhomir_append(
            k: u64, used: u64, image: *mut u8, image_len: usize, tag: u32, payload: *const u8, payload_len: usize, answer: *mut [u64; 3],
        ) -> u8;
        pub fn kadzhomir_read(k: u64, image: *const u8, image_len: usize, used: u64, position: u64, answer: *mut [u64; 5]) -> u8;
        pub fn kadzhomir_walk_step(k: u64, image: *const u8, image_len: usize, used: u64, e: u64, answer: *mut [u64; 6]) -> u8;
        pub fn kadzhomir_walk(k: u64, image: *const u8, image_len: usize, used: u64, answer: *mut [u64; 5]) -> u8;
        pub fn kadzhomir_recover(
            k: u64, image: *const u8, image_len: usize, used: u64, size: u64, own: u64, pending: *mut u64, pending_len: usize,
            unprocessed: *mut u64, unprocessed_len: usize, committed: *mut u64, committed_len: usize, index: *mut u64, index_len: usize,
            answer: *mut RecoveredWords,
        ) -> u8;
        pub fn kadzhomir_recovery_page(
            k: u64, image: *const u8, image_len: usize, used: u64, size: u64, own: u64, pending: *mut u64, pending_len: usize,
            unprocessed: *mut u64, unprocessed_len: usize, committed: *mut u64, committed_len: usize, index: *mut u64, index_len: usize,
            out: *mut u8, out_len: usize, length: *mut u64,
        ) -> u8;
        pub fn kadzhomir_writer(recovered: *const RecoveredWords, used: *mut u64) -> u8;
        pub fn kadzhomir_open(size: u64, own: u64, recovered: *const RecoveredWords, store: *mut StoreWords) -> u8;
        pub fn kadzhomir_insert_block(
            k: u64, used: u64, image: *mut u8, image_len: usize, store: *mut StoreWords, index: *mut u64, index_len: usize,
            block: *const u8, block_len: usize, answer: *mut [u64; 3],
        ) -> u8;
        pub fn kadzhomir_insert_own_block(
            k: u64, used: u64, image: *mut u8, image_len: usize, store: *mut StoreWords, index: *mut u64, index_len: usize,
            own_block: *const u8, own_block_len: usize, answer: *mut [u64; 3],
        ) -> u8;
        pub fn kadzhomir_cleanup(
            k: u64, image: *const u8, image_len: usize, used: u64, store: *const StoreWords, index: *mut u64, index_len: usize, t: u64,
            answer: *mut [u64; 2],
        ) -> u8;
        pub fn kadzhomir_block_exists(
            k: u64, image: *const u8, image_len: usize, used: u64, store: *const StoreWords, index: *const u64, index_len: usize,
            reference: *const ReferenceWords, answer: *mut [u64; 2],
        ) -> u8;
        pub fn kadzhomir_block_exists_at_authority_round(
            k: u64, image: *const u8, image_len: usize, used: u64, store: *const StoreWords, index: *const u64, index_len: usize,
            authority: u64, round: u64, answer: *mut [u64; 2],
        ) -> u8;
        pub fn kadzhomir_all_blocks_exists_at_authority_round(
            k: u64, image: *const u8, image_len: usize, used: u64, store: *const StoreWords, index: *const u64, index_len: usize,
            authorities: *const u64, authorities_len: usize, round: u64, answer: *mut [u64; 2],
        ) -> u8;
        pub fn kadzhomir_get_block(
            k: u64, image: *const u8, image_len: usize, used: u64, store: *mut StoreWords, index: *const u64, index_len: usize,
            reference: *const ReferenceWords, out: *mut u64, out_len: usize, answer: *mut [u64; 2],
        ) -> u8;
        pub fn kadzhomir_get_blocks_by_round(
            k: u64, image: *const u8, image_len: usize, used: u64, store: *mut StoreWords, index: *const u64, index_len: usize, round: u64,
            out: *mut u64, out_len: usize, answer: *mut [u64; 2],
        ) -> u8;
        pub fn kadzhomir_get_blocks_at_authority_round(
            k: u64, image: *const u8, image_len: usize, used: u64, store: *mut StoreWords, index: *const u64, index_len: usize,
            authority: u64, round: u64, out: *mut u64, out_len: usize, answer: *mut [u64; 2],
        ) -> u8;
        pub fn kadzhomir_get_own_blocks(
            k: u64, image: *const u8, image_len: usize, used: u64, store: *mut StoreWords, index: *const u64, index_len: usize,
            from_excluded: u64, limit: usize, out: *mut u64, out_len: usize, answer: *mut [u64; 2],
        ) -> u8;
        pub fn kadzhomir_get_others_blocks(
            k: u64, image: *const u8, image_len: usize, used: u64, store: *mut StoreWords, index: *const u64, index_len: usize,
            from_excluded: u64, authority: u64, limit: usize, out: *mut u64, out_len: usize, answer: *mut [u64; 2],
        ) -> u8;
        pub fn kadzhomir_get_transaction(
            k: u64, image: *const u8, image_len: usize, used: u64, store: *mut StoreWords, index: *const u64, index_len: usize,
            reference: *const ReferenceWords, offset: u64, answer: *mut [u64; 4],
        ) -> u8;
        pub fn kadzhomir_linked(
            k: u64, image: *const u8, image_len: usize, used: u64, store: *mut StoreWords, index: *const u64, index_len: usize,
            later: *const u8, later_len: usize, earlier: *const ReferenceWords, work: *mut u64, work_len: usize, answer: *mut [u64; 2],
        ) -> u8;
        pub fn kadzhomir_decode_block(bytes: *const u8, bytes_len: usize, at: usize, answer: *mut [u64; 15]) -> u8;
        pub fn kadzhomir_include_at(bytes: *const u8, bytes_len: usize, place: usize, i: usize, answer: *mut [u64; 8]) -> u8;
        pub fn kadzhomir_decode_statement(bytes: *const u8, bytes_len: usize, at: usize, answer: *mut StatementWords) -> u8;
        pub fn kadzhomir_decode_payload(bytes: *const u8, bytes_len: usize, at: usize, answer: *mut [u64; 4]) -> u8;
        pub fn kadzhomir_decode_own_block(bytes: *const u8, bytes_len: usize, at: usize, answer: *mut [u64; 16]) -> u8;
        pub fn kadzhomir_decode_commit(bytes: *const u8, bytes_len: usize, at: usize, answer: *mut [u64; 6]) -> u8;
        pub fn kadzhomir_decode_commit_data(bytes: *const u8, bytes_len: usize, at: usize, answer: *mut [u64; 10]) -> u8;
        pub fn kadzhomir_encode_reference(
            out: *mut u8, out_len: usize, at: usize, reference: *const ReferenceWords, answer: *mut EncodingWords,
        ) -> u8;
        pub fn kadzhomir_encode_share(
            out: *mut u8, out_len: usize, at: usize, bytes: *const u8, bytes_len: usize, answer: *mut EncodingWords,
        ) -> u8;
        pub fn kadzhomir_encode_vote(
            out: *mut u8, out_len: usize, at: usize, locator: *const LocatorWords, kind: u64, other: *const LocatorWords,
            answer: *mut EncodingWords,
        ) -> u8;
        pub fn kadzhomir_encode_vote_range(
            out: *mut u8, out_len: usize, at: usize, range: *const RangeWords, answer: *mut EncodingWords,
        ) -> u8;
        pub fn kadzhomir_encode_payload(
            out: *mut u8, out_len: usize, at: usize, statements: *const u8, statements_len: usize, count: u64, answer: *mut EncodingWords,
        ) -> u8;
        pub fn kadzhomir_encode_block(
            out: *mut u8, out_len: usize, at: usize, block: *const FieldsWords, signature: *const [u8; 64], includes: *const u8,
            includes_len: usize, statements: *const u8, statements_len: usize, answer: *mut EncodingWords,
        ) -> u8;
        pub fn kadzhomir_encode_own_block(
            out: *mut u8, out_len: usize, at: usize, next_entry: u64, block: *const u8, block_len: usize, answer: *mut EncodingWords,
        ) -> u8;
        pub fn kadzhomir_encode_commit_data(
            out: *mut u8, out_len: usize, at: usize, leader: *const ReferenceWords, sub_dag: *const u8, sub_dag_len: usize, count: u64,
            answer: *mut EncodingWords,
        ) -> u8;
        pub fn kadzhomir_encode_commit(
            out: *mut u8, out_len: usize, at: usize, commits: *const u8, commits_len: usize, count: u64, state: *const u8,
            state_len: usize, answer: *mut EncodingWords,
        ) -> u8;
        pub fn kadzhomir_crc32(bytes: *const u8, bytes_len: usize) -> u32;
        pub fn kadzhomir_version() -> u32;
    }
}

/// The arguments of a call that reads a log: its exponent, its image and its length.
#[derive(Clone, Copy, Debug)]
pub struct View<'a> {
    pub k: u64,
    pub image: &'a [u8],
    pub used: u64,
}

/// A store's words and its index rows, as a query takes them.
pub struct Lent<'a> {
    pub store: &'a mut StoreWords,
    pub index: &'a [u64],
}

pub fn append(k: u64, used: u64, image: &mut [u8], tag: u32, payload: &[u8], answer: &mut [u64; 3]) -> u8 {
    unsafe { c::kadzhomir_append(k, used, image.as_mut_ptr(), image.len(), tag, payload.as_ptr(), payload.len(), answer) }
}

pub fn read(v: View, position: u64, answer: &mut [u64; 5]) -> u8 {
    unsafe { c::kadzhomir_read(v.k, v.image.as_ptr(), v.image.len(), v.used, position, answer) }
}

pub fn walk_step(v: View, e: u64, answer: &mut [u64; 6]) -> u8 {
    unsafe { c::kadzhomir_walk_step(v.k, v.image.as_ptr(), v.image.len(), v.used, e, answer) }
}

pub fn walk(v: View, answer: &mut [u64; 5]) -> u8 {
    unsafe { c::kadzhomir_walk(v.k, v.image.as_ptr(), v.image.len(), v.used, answer) }
}

/// The tables are pending, unprocessed, committed and index.
pub fn recover(v: View, size: u64, own: u64, tables: &mut [Vec<u64>; 4], answer: &mut RecoveredWords) -> u8 {
    let [p, u, c, i] = tables;
    unsafe {
        c::kadzhomir_recover(
            v.k, v.image.as_ptr(), v.image.len(), v.used, size, own, p.as_mut_ptr(), p.len(), u.as_mut_ptr(), u.len(), c.as_mut_ptr(),
            c.len(), i.as_mut_ptr(), i.len(), answer,
        )
    }
}

/// The tables are as `recover` leaves them. `length` is the length of the whole text, of which `out` gets what it has room for.
pub fn recovery_page(v: View, size: u64, own: u64, tables: &mut [Vec<u64>; 4], out: &mut [u8], length: &mut u64) -> u8 {
    let [p, u, c, i] = tables;
    unsafe {
        c::kadzhomir_recovery_page(
            v.k, v.image.as_ptr(), v.image.len(), v.used, size, own, p.as_mut_ptr(), p.len(), u.as_mut_ptr(), u.len(), c.as_mut_ptr(),
            c.len(), i.as_mut_ptr(), i.len(), out.as_mut_ptr(), out.len(), length,
        )
    }
}

/// Stores E in `used`; where refused, `used` is as it was.
pub fn writer(recovered: &RecoveredWords, used: &mut u64) -> u8 {
    unsafe { c::kadzhomir_writer(recovered, used) }
}

/// Where refused, the store is as it was.
pub fn open(size: u64, own: u64, recovered: &RecoveredWords, store: &mut StoreWords) -> u8 {
    unsafe { c::kadzhomir_open(size, own, recovered, store) }
}

/// Inserts a block (`own` false), or an own block behind its next entry.
pub fn insert(
    k: u64, used: u64, image: &mut [u8], store: &mut StoreWords, index: &mut [u64], own: bool, bytes: &[u8], answer: &mut [u64; 3],
) -> u8 {
    let call = if own { c::kadzhomir_insert_own_block } else { c::kadzhomir_insert_block };
    unsafe { call(k, used, image.as_mut_ptr(), image.len(), store, index.as_mut_ptr(), index.len(), bytes.as_ptr(), bytes.len(), answer) }
}

pub fn cleanup(v: View, store: &StoreWords, index: &mut [u64], t: u64, answer: &mut [u64; 2]) -> u8 {
    unsafe { c::kadzhomir_cleanup(v.k, v.image.as_ptr(), v.image.len(), v.used, store, index.as_mut_ptr(), index.len(), t, answer) }
}

pub fn block_exists(v: View, store: &StoreWords, index: &[u64], reference: &ReferenceWords, answer: &mut [u64; 2]) -> u8 {
    unsafe {
        c::kadzhomir_block_exists(v.k, v.image.as_ptr(), v.image.len(), v.used, store, index.as_ptr(), index.len(), reference, answer)
    }
}

pub fn block_exists_at_authority_round(
    v: View, store: &StoreWords, index: &[u64], authority: u64, round: u64, answer: &mut [u64; 2],
) -> u8 {
    unsafe {
        c::kadzhomir_block_exists_at_authority_round(
            v.k, v.image.as_ptr(), v.image.len(), v.used, store, index.as_ptr(), index.len(), authority, round, answer,
        )
    }
}

pub fn all_blocks_exists_at_authority_round(
    v: View, store: &StoreWords, index: &[u64], authorities: &[u64], round: u64, answer: &mut [u64; 2],
) -> u8 {
    unsafe {
        c::kadzhomir_all_blocks_exists_at_authority_round(
            v.k, v.image.as_ptr(), v.image.len(), v.used, store, index.as_ptr(), index.len(), authorities.as_ptr(), authorities.len(),
            round, answer,
        )
    }
}

pub fn get_block(v: View, lent: Lent, reference: &ReferenceWords, out: &mut [u64], answer: &mut [u64; 2]) -> u8 {
    let (s, i) = (lent.store, lent.index);
    unsafe {
        c::kadzhomir_get_block(
            v.k, v.image.as_ptr(), v.image.len(), v.used, s, i.as_ptr(), i.len(), reference, out.as_mut_ptr(), out.len(), answer,
        )
    }
}

pub fn get_blocks_by_round(v: View, lent: Lent, round: u64, out: &mut [u64], answer: &mut [u64; 2]) -> u8 {
    let (s, i) = (lent.store, lent.index);
    unsafe {
        c::kadzhomir_get_blocks_by_round(
            v.k, v.image.as_ptr(), v.image.len(), v.used, s, i.as_ptr(), i.len(), round, out.as_mut_ptr(), out.len(), answer,
        )
    }
}

pub fn get_blocks_at_authority_round(v: View, lent: Lent, authority: u64, round: u64, out: &mut [u64], answer: &mut [u64; 2]) -> u8 {
    let (s, i) = (lent.store, lent.index);
    unsafe {
        c::kadzhomir_get_blocks_at_authority_round(
            v.k, v.image.as_ptr(), v.image.len(), v.used, s, i.as_ptr(), i.len(), authority, round, out.as_mut_ptr(), out.len(), answer,
        )
    }
}

pub fn get_own_blocks(v: View, lent: Lent, from_excluded: u64, limit: usize, out: &mut [u64], answer: &mut [u64; 2]) -> u8 {
    let (s, i) = (lent.store, lent.index);
    unsafe {
        c::kadzhomir_get_own_blocks(
            v.k, v.image.as_ptr(), v.image.len(), v.used, s, i.as_ptr(), i.len(), from_excluded, limit, out.as_mut_ptr(), out.len(), answer,
        )
    }
}

pub fn get_others_blocks(
    v: View, lent: Lent, from_excluded: u64, authority: u64, limit: usize, out: &mut [u64], answer: &mut [u64; 2],
) -> u8 {
    let (s, i) = (lent.store, lent.index);
    unsafe {
        c::kadzhomir_get_others_blocks(
            v.k, v.image.as_ptr(), v.image.len(), v.used, s, i.as_ptr(), i.len(), from_excluded, authority, limit, out.as_mut_ptr(),
            out.len(), answer,
        )
    }
}

pub fn get_transaction(v: View, lent: Lent, reference: &ReferenceWords, offset: u64, answer: &mut [u64; 4]) -> u8 {
    let (s, i) = (lent.store, lent.index);
    unsafe {
        c::kadzhomir_get_transaction(v.k, v.image.as_ptr(), v.image.len(), v.used, s, i.as_ptr(), i.len(), reference, offset, answer)
    }
}

pub fn linked(v: View, lent: Lent, later: &[u8], earlier: &ReferenceWords, work: &mut [u64], answer: &mut [u64; 2]) -> u8 {
    let (s, i) = (lent.store, lent.index);
    unsafe {
        c::kadzhomir_linked(
            v.k, v.image.as_ptr(), v.image.len(), v.used, s, i.as_ptr(), i.len(), later.as_ptr(), later.len(), earlier, work.as_mut_ptr(),
            work.len(), answer,
        )
    }
}

pub fn decode_block(bytes: &[u8], at: usize, answer: &mut [u64; 15]) -> u8 {
    unsafe { c::kadzhomir_decode_block(bytes.as_ptr(), bytes.len(), at, answer) }
}

pub fn include_at(bytes: &[u8], place: usize, i: usize, answer: &mut [u64; 8]) -> u8 {
    unsafe { c::kadzhomir_include_at(bytes.as_ptr(), bytes.len(), place, i, answer) }
}

pub fn decode_statement(bytes: &[u8], at: usize, answer: &mut StatementWords) -> u8 {
    unsafe { c::kadzhomir_decode_statement(bytes.as_ptr(), bytes.len(), at, answer) }
}

pub fn decode_payload(bytes: &[u8], at: usize, answer: &mut [u64; 4]) -> u8 {
    unsafe { c::kadzhomir_decode_payload(bytes.as_ptr(), bytes.len(), at, answer) }
}

pub fn decode_own_block(bytes: &[u8], at: usize, answer: &mut [u64; 16]) -> u8 {
    unsafe { c::kadzhomir_decode_own_block(bytes.as_ptr(), bytes.len(), at, answer) }
}

pub fn decode_commit(bytes: &[u8], at: usize, answer: &mut [u64; 6]) -> u8 {
    unsafe { c::kadzhomir_decode_commit(bytes.as_ptr(), bytes.len(), at, answer) }
}

pub fn decode_commit_data(bytes: &[u8], at: usize, answer: &mut [u64; 10]) -> u8 {
    unsafe { c::kadzhomir_decode_commit_data(bytes.as_ptr(), bytes.len(), at, answer) }
}

pub fn encode_reference(out: &mut [u8], at: usize, reference: &ReferenceWords, answer: &mut EncodingWords) -> u8 {
    unsafe { c::kadzhomir_encode_reference(out.as_mut_ptr(), out.len(), at, reference, answer) }
}

pub fn encode_share(out: &mut [u8], at: usize, bytes: &[u8], answer: &mut EncodingWords) -> u8 {
    unsafe { c::kadzhomir_encode_share(out.as_mut_ptr(), out.len(), at, bytes.as_ptr(), bytes.len(), answer) }
}

pub fn encode_vote(out: &mut [u8], at: usize, locator: &LocatorWords, kind: u64, other: &LocatorWords, answer: &mut EncodingWords) -> u8 {
    unsafe { c::kadzhomir_encode_vote(out.as_mut_ptr(), out.len(), at, locator, kind, other, answer) }
}

pub fn encode_vote_range(out: &mut [u8], at: usize, range: &RangeWords, answer: &mut EncodingWords) -> u8 {
    unsafe { c::kadzhomir_encode_vote_range(out.as_mut_ptr(), out.len(), at, range, answer) }
}

pub fn encode_payload(out: &mut [u8], at: usize, statements: &[u8], count: u64, answer: &mut EncodingWords) -> u8 {
    unsafe { c::kadzhomir_encode_payload(out.as_mut_ptr(), out.len(), at, statements.as_ptr(), statements.len(), count, answer) }
}

pub fn encode_block(
    out: &mut [u8], at: usize, block: &FieldsWords, signature: &[u8; 64], includes: &[u8], statements: &[u8], answer: &mut EncodingWords,
) -> u8 {
    let (i, s) = (includes, statements);
    unsafe {
        c::kadzhomir_encode_block(
            out.as_mut_ptr(), out.len(), at, block, signature, i.as_ptr(), i.len(), s.as_ptr(), s.len(), answer,
        )
    }
}

pub fn encode_own_block(out: &mut [u8], at: usize, next_entry: u64, block: &[u8], answer: &mut EncodingWords) -> u8 {
    unsafe { c::kadzhomir_encode_own_block(out.as_mut_ptr(), out.len(), at, next_entry, block.as_ptr(), block.len(), answer) }
}

pub fn encode_commit_data(
    out: &mut [u8], at: usize, leader: &ReferenceWords, sub_dag: &[u8], count: u64, answer: &mut EncodingWords,
) -> u8 {
    unsafe { c::kadzhomir_encode_commit_data(out.as_mut_ptr(), out.len(), at, leader, sub_dag.as_ptr(), sub_dag.len(), count, answer) }
}

pub fn encode_commit(out: &mut [u8], at: usize, commits: &[u8], count: u64, state: &[u8], answer: &mut EncodingWords) -> u8 {
    let (c, s) = (commits, state);
    unsafe { c::kadzhomir_encode_commit(out.as_mut_ptr(), out.len(), at, c.as_ptr(), c.len(), count, s.as_ptr(), s.len(), answer) }
}

pub fn crc32(bytes: &[u8]) -> u32 {
    unsafe { c::kadzhomir_crc32(bytes.as_ptr(), bytes.len()) }
}

pub fn version() -> u32 {
    unsafe { c::kadzhomir_version() }
}

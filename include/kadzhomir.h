/*
 * kadzhomir.h: the log store of a ledger node, for programs in C, C++ and Rust.
 *
 * Link libnode.a ("rt lib" in crates/node). Every function is proved to meet its contract (crates/node*); the contracts say
 * what each word below holds, for every argument.
 *
 * A slice, of any length, is a pointer and a number of elements. An array (a store, a reference, an answer) has the
 * length that its type names, and is passed as a pointer alone. Pointers must be valid for that many elements, and what a
 * call may write (what is not const) may overlap no other argument: that is all that is asked. What is const may overlap,
 * as a later block that stands in the image. Whatever the words and the bytes are, a call serves them or refuses by
 * number, and ends.
 *
 * Each call returns the refusal's number, 0 where there is none, and writes every word of its answer. "Checks" lists the
 * numbers in the order in which they are looked for; docs/REFUSALS.md says what each means and what to do about it.
 *
 * A reference is round, authority, and the digest as four big-endian words. A store is words that the caller keeps, with
 * its index rows: lend both as the last call left them. Tables are rows of 8 words; docs/LAYOUTS.md has the rows of each.
 */
#ifndef KADZHOMIR_H
#define KADZHOMIR_H

#include <stddef.h>
#include <stdint.h>

/* The version that this header declares, as one number: major * 65536 + minor * 256 + patch. kadzhomir_version() tells the
   archive's; use header and archive of one version. */
#define KADZHOMIR_VERSION_MAJOR 0
#define KADZHOMIR_VERSION_MINOR 2
#define KADZHOMIR_VERSION_PATCH 1
#define KADZHOMIR_VERSION (KADZHOMIR_VERSION_MAJOR * 65536 + KADZHOMIR_VERSION_MINOR * 256 + KADZHOMIR_VERSION_PATCH)

/* As the next entry of an own block: no payload and no block before it stays pending. */
#define KADZHOMIR_POSITION_MAX UINT64_MAX

/* ---- Numbers that arguments and answers hold */

/* The refusals; docs/REFUSALS.md. */
enum kadzhomir_refusal {
    KADZHOMIR_REFUSAL_NONE = 0,
    KADZHOMIR_REFUSAL_REGION_EXPONENT = 1,
    KADZHOMIR_REFUSAL_USED = 2,
    KADZHOMIR_REFUSAL_ENTRY_TOO_LARGE = 3,
    KADZHOMIR_REFUSAL_IMAGE_FULL = 4,
    KADZHOMIR_REFUSAL_CHECKSUM_WITHOUT_LENGTH = 5,
    KADZHOMIR_REFUSAL_LENGTH = 6,
    KADZHOMIR_REFUSAL_CHECKSUM = 7,
    KADZHOMIR_REFUSAL_TAG = 8,
    KADZHOMIR_REFUSAL_BLOCK = 9,
    KADZHOMIR_REFUSAL_OWN_BLOCK = 10,
    KADZHOMIR_REFUSAL_PAYLOAD = 11,
    KADZHOMIR_REFUSAL_COMMIT = 12,
    KADZHOMIR_REFUSAL_AUTHORITY = 13,
    KADZHOMIR_REFUSAL_SECOND_OWN_BLOCK = 14,
    KADZHOMIR_REFUSAL_ROWS = 15,
    KADZHOMIR_REFUSAL_NO_ENTRY = 16,
    KADZHOMIR_REFUSAL_PAST_USED = 17,
    KADZHOMIR_REFUSAL_STORE = 18,
    KADZHOMIR_REFUSAL_AFTER_ROUND = 19
};

/* The tags of entries. Append takes every tag; recovery knows these. */
enum kadzhomir_tag {
    KADZHOMIR_TAG_BLOCK = 1,
    KADZHOMIR_TAG_PAYLOAD = 2,
    KADZHOMIR_TAG_OWN_BLOCK = 3,
    KADZHOMIR_TAG_STATE = 4,
    KADZHOMIR_TAG_COMMIT = 5
};

/* Where a walk or a recovery stopped: at used, at zeros, or at an entry that is not whole. A refused one has no stop. */
enum kadzhomir_stop {
    KADZHOMIR_STOP_END = 0,
    KADZHOMIR_STOP_ZEROS = 1,
    KADZHOMIR_STOP_TORN = 2,
    KADZHOMIR_STOP_REFUSED = 3
};

/* What a walk's step found. */
enum kadzhomir_kind {
    KADZHOMIR_KIND_ENTRY = 0,
    KADZHOMIR_KIND_END = 1,
    KADZHOMIR_KIND_ZEROS = 2,
    KADZHOMIR_KIND_TORN = 3,
    KADZHOMIR_KIND_REFUSED = 4
};

/* What an encoder did: what it was given is no record, the record is encoded, or it does not fit. */
enum kadzhomir_encoded {
    KADZHOMIR_ENCODED_MALFORMED = 0,
    KADZHOMIR_ENCODED_END = 1,
    KADZHOMIR_ENCODED_NO_ROOM = 2
};

/* Statements and votes. */
enum kadzhomir_statement_kind {
    KADZHOMIR_STATEMENT_KIND_SHARE = 0,
    KADZHOMIR_STATEMENT_KIND_VOTE = 1,
    KADZHOMIR_STATEMENT_KIND_VOTE_RANGE = 2
};
enum kadzhomir_vote_kind {
    KADZHOMIR_VOTE_ACCEPT = 0,
    KADZHOMIR_VOTE_REJECT = 1,
    KADZHOMIR_VOTE_REJECT_OTHER = 2
};

/* What a pending row is about. */
enum kadzhomir_pending_kind {
    KADZHOMIR_PENDING_KIND_BLOCK = 1,
    KADZHOMIR_PENDING_KIND_PAYLOAD = 2
};

/* Bounds of arguments, and the bytes of an entry's header, behind which its payload stands. */
enum kadzhomir_bound {
    KADZHOMIR_K_MIN = 6,
    KADZHOMIR_K_MAX = 28,
    KADZHOMIR_AUTHORITIES = 128,
    KADZHOMIR_HEADER_BYTES = 16
};

/* Bytes of a record: of those with a list, a state or a block in them, what it has beside the bytes of these. */
enum kadzhomir_bytes {
    KADZHOMIR_BYTES_REFERENCE = 56,
    KADZHOMIR_BYTES_SIGNATURE = 64,
    KADZHOMIR_BYTES_SHARE = 12,
    KADZHOMIR_BYTES_VOTE_ACCEPT = 72,
    KADZHOMIR_BYTES_VOTE_REJECT = 73,
    KADZHOMIR_BYTES_VOTE_REJECT_OTHER = 137,
    KADZHOMIR_BYTES_VOTE_RANGE = 76,
    KADZHOMIR_BYTES_PAYLOAD = 8,
    KADZHOMIR_BYTES_BLOCK = 161,
    KADZHOMIR_BYTES_OWN_BLOCK = 8,
    KADZHOMIR_BYTES_COMMIT_DATA = 64,
    KADZHOMIR_BYTES_COMMIT = 16
};

/* ---- Words. An enum has the place of each word, and last how many there are. A word that is named after a reference, a
   locator or a range is the first of its words. */

/* A reference: round, authority, four words of the digest. */
enum kadzhomir_reference_words {
    KADZHOMIR_REFERENCE_ROUND = 0,
    KADZHOMIR_REFERENCE_AUTHORITY = 1,
    KADZHOMIR_REFERENCE_DIGEST = 2,
    KADZHOMIR_REFERENCE = 6
};

/* A locator: a reference and an offset. A range: a reference, the first offset, and the one behind the last. */
enum kadzhomir_locator_words {
    KADZHOMIR_LOCATOR_REFERENCE = 0,
    KADZHOMIR_LOCATOR_OFFSET = 6,
    KADZHOMIR_LOCATOR = 7
};
enum kadzhomir_range_words {
    KADZHOMIR_RANGE_REFERENCE = 0,
    KADZHOMIR_RANGE_START = 6,
    KADZHOMIR_RANGE_END = 7,
    KADZHOMIR_RANGE = 8
};

/* A table's row, and the words of each table's rows. A pending row has a reference (block) or a number of bytes (payload);
   LOADED is 0 where the block is not loaded. A lookup's row has the place and the number of the block's bytes. */
enum kadzhomir_row_words {
    KADZHOMIR_PENDING_POSITION = 0,
    KADZHOMIR_PENDING_KIND = 1,
    KADZHOMIR_PENDING_REFERENCE = 2,
    KADZHOMIR_PENDING_BYTES = 2,
    KADZHOMIR_UNPROCESSED_REFERENCE = 0,
    KADZHOMIR_UNPROCESSED_POSITION = 6,
    KADZHOMIR_COMMITTED_REFERENCE = 0,
    KADZHOMIR_INDEXED_REFERENCE = 0,
    KADZHOMIR_INDEXED_POSITION = 6,
    KADZHOMIR_INDEXED_LOADED = 7,
    KADZHOMIR_FOUND_REFERENCE = 0,
    KADZHOMIR_FOUND_PLACE = 6,
    KADZHOMIR_FOUND_BYTES = 7,
    KADZHOMIR_ROW = 8
};

/* A store. ROWS are the index rows counted; the index has an own block where THERE is not 0, and else its reference is
   zero, unless other words were lent there, which stay; LAST_SEEN is the first of the last seen rounds, one for each of
   KADZHOMIR_AUTHORITIES. */
enum kadzhomir_store_words {
    KADZHOMIR_STORE_COMMITTEE_SIZE = 0,
    KADZHOMIR_STORE_OWN_AUTHORITY = 1,
    KADZHOMIR_STORE_ROWS = 2,
    KADZHOMIR_STORE_LOADS = 3,
    KADZHOMIR_STORE_OWN_BLOCK_THERE = 4,
    KADZHOMIR_STORE_OWN_BLOCK = 5,
    KADZHOMIR_STORE_HIGHEST_ROUND = 11,
    KADZHOMIR_STORE_LAST_SEEN = 12,
    KADZHOMIR_STORE = 140
};

/* The length of an array parameter, which a C compiler may check. C++ has only the pointer. */
#ifdef __cplusplus
#define KADZHOMIR_AT_LEAST(n) n
extern "C" {
#else
#define KADZHOMIR_AT_LEAST(n) static n
#endif

/* ---- The log: regions of 2^k bytes, an image, and `used`, the number of its bytes that are the log's */

/* Appends an entry. answer: number, position, used after the call; refused: number, 0, used as it was, and no byte of the
   image is changed. Checks: 1, 2, 3, 4. */
enum kadzhomir_appended_words {
    KADZHOMIR_APPENDED_NUMBER = 0,
    KADZHOMIR_APPENDED_POSITION = 1,
    KADZHOMIR_APPENDED_USED = 2,
    KADZHOMIR_APPENDED = 3
};
uint8_t kadzhomir_append(uint64_t k, uint64_t used, uint8_t *image, size_t image_len, uint32_t tag, const uint8_t *payload,
    size_t payload_len, uint64_t answer[KADZHOMIR_AT_LEAST(KADZHOMIR_APPENDED)]);

/* Reads the entry at a position; its payload stands at position + 16. answer: number, position, tag, payload's length,
   checksum; refused: number and zeros. Checks: 1, 2, 17 (position), 16 (region), 17 (header), 16 or 5, 6, 17 (payload),
   7. */
enum kadzhomir_entry_words {
    KADZHOMIR_ENTRY_NUMBER = 0,
    KADZHOMIR_ENTRY_POSITION = 1,
    KADZHOMIR_ENTRY_TAG = 2,
    KADZHOMIR_ENTRY_LENGTH = 3,
    KADZHOMIR_ENTRY_CHECKSUM = 4,
    KADZHOMIR_ENTRY = 5
};
uint8_t kadzhomir_read(uint64_t k, const uint8_t *image, size_t image_len, uint64_t used, uint64_t position,
    uint64_t answer[KADZHOMIR_AT_LEAST(KADZHOMIR_ENTRY)]);

/* The walk's next entry from E on; E is 0 at first, and then position + 16 + length. answer: number, kind
   (KADZHOMIR_KIND_..), and of an entry position, tag, payload's length, checksum; zeros where the walk stops; refused:
   number, KADZHOMIR_KIND_REFUSED, start of the entry concerned (0 for 1 and 2), zeros. Checks: 1, 2, 5, 6, 7. */
enum kadzhomir_step_words {
    KADZHOMIR_STEP_NUMBER = 0,
    KADZHOMIR_STEP_KIND = 1,
    KADZHOMIR_STEP_POSITION = 2,
    KADZHOMIR_STEP_START = 2,
    KADZHOMIR_STEP_TAG = 3,
    KADZHOMIR_STEP_LENGTH = 4,
    KADZHOMIR_STEP_CHECKSUM = 5,
    KADZHOMIR_STEP = 6
};
uint8_t kadzhomir_walk_step(uint64_t k, const uint8_t *image, size_t image_len, uint64_t used, uint64_t e,
    uint64_t answer[KADZHOMIR_AT_LEAST(KADZHOMIR_STEP)]);

/* Walks the whole log. answer: number, start 0, stop (KADZHOMIR_STOP_..), E, unread bytes; refused: number, start of the
   entry concerned (0 for 1 and 2), KADZHOMIR_STOP_REFUSED, 0, 0. Checks: 1, 2, of each entry 5, 6, 7. */
enum kadzhomir_walked_words {
    KADZHOMIR_WALKED_NUMBER = 0,
    KADZHOMIR_WALKED_START = 1,
    KADZHOMIR_WALKED_STOP = 2,
    KADZHOMIR_WALKED_END = 3,
    KADZHOMIR_WALKED_UNREAD = 4,
    KADZHOMIR_WALKED = 5
};
uint8_t kadzhomir_walk(uint64_t k, const uint8_t *image, size_t image_len, uint64_t used,
    uint64_t answer[KADZHOMIR_AT_LEAST(KADZHOMIR_WALKED)]);

/* Recovers what a log holds, for a committee of `size` and the authority `own`, into four tables whose old contents are
   not read. answer: as of the walk; then the numbers of rows of pending, unprocessed, committed and index; last own block,
   state, committed state (there, place, bytes); last committed leader, the index's own block (there, reference); highest
   round; the last seen rounds. Refused: number, start (0 for 1, 2 and 18), KADZHOMIR_STOP_REFUSED, then zeros, and the
   tables are all zero. Checks: 1, 2, 18 (committee); of each entry 5, 6, 7, 8, then 9, 10 or 12, then 13, 14, 15; last
   11. */
enum kadzhomir_recovered_words {
    KADZHOMIR_RECOVERED_NUMBER = 0,
    KADZHOMIR_RECOVERED_START = 1,
    KADZHOMIR_RECOVERED_STOP = 2,
    KADZHOMIR_RECOVERED_END = 3,
    KADZHOMIR_RECOVERED_UNREAD = 4,
    KADZHOMIR_RECOVERED_PENDING = 5,
    KADZHOMIR_RECOVERED_UNPROCESSED = 6,
    KADZHOMIR_RECOVERED_COMMITTED = 7,
    KADZHOMIR_RECOVERED_INDEX = 8,
    KADZHOMIR_RECOVERED_LAST_OWN_BLOCK_THERE = 9,
    KADZHOMIR_RECOVERED_LAST_OWN_BLOCK_PLACE = 10,
    KADZHOMIR_RECOVERED_LAST_OWN_BLOCK_BYTES = 11,
    KADZHOMIR_RECOVERED_STATE_THERE = 12,
    KADZHOMIR_RECOVERED_STATE_PLACE = 13,
    KADZHOMIR_RECOVERED_STATE_BYTES = 14,
    KADZHOMIR_RECOVERED_COMMITTED_STATE_THERE = 15,
    KADZHOMIR_RECOVERED_COMMITTED_STATE_PLACE = 16,
    KADZHOMIR_RECOVERED_COMMITTED_STATE_BYTES = 17,
    KADZHOMIR_RECOVERED_LEADER_THERE = 18,
    KADZHOMIR_RECOVERED_LEADER = 19,
    KADZHOMIR_RECOVERED_OWN_BLOCK_THERE = 25,
    KADZHOMIR_RECOVERED_OWN_BLOCK = 26,
    KADZHOMIR_RECOVERED_HIGHEST_ROUND = 32,
    KADZHOMIR_RECOVERED_LAST_SEEN = 33,
    KADZHOMIR_RECOVERED = 161
};
uint8_t kadzhomir_recover(uint64_t k, const uint8_t *image, size_t image_len, uint64_t used, uint64_t size, uint64_t own,
    uint64_t *pending, size_t pending_len, uint64_t *unprocessed, size_t unprocessed_len, uint64_t *committed,
    size_t committed_len, uint64_t *index, size_t index_len, uint64_t answer[KADZHOMIR_AT_LEAST(KADZHOMIR_RECOVERED)]);

/* The recovery page, for the office wall: recovers as kadzhomir_recover does, into the same tables, and writes what is
   pending into `out`, as text in lines of KADZHOMIR_PAGE_LINE bytes, 72 columns and a line feed. A page is a heading, a row
   for each pending entry, KADZHOMIR_PAGE_ROWS at most, and a foot with the numbers of rows of pending, unprocessed and
   committed and the stop word; with nothing pending there is one page, without rows. Refused: the line of the number alone,
   and the tables are all zero. What does not fit into `out` is left out, what stands there behind the text is as it was,
   and no NUL is written. *length is the length of the whole text: lend 0 bytes to learn it. Where n rows are lent for
   pending, it has at most n lines and two for each KADZHOMIR_PAGE_ROWS of them, counted up; two where n is 0. Checks: as of
   kadzhomir_recover. */
enum kadzhomir_page {
    KADZHOMIR_PAGE_ROWS = 58,
    KADZHOMIR_PAGE_LINE = 73
};
uint8_t kadzhomir_recovery_page(uint64_t k, const uint8_t *image, size_t image_len, uint64_t used, uint64_t size,
    uint64_t own, uint64_t *pending, size_t pending_len, uint64_t *unprocessed, size_t unprocessed_len, uint64_t *committed,
    size_t committed_len, uint64_t *index, size_t index_len, uint8_t *out, size_t out_len, uint64_t *length);

/* Where to go on appending and inserting, with the same k: stores E in *used. `recovered` is recovery's answer. Checks:
   the recovery's number (18 where that word is above 19); refused, *used is as it was. */
uint8_t kadzhomir_writer(const uint64_t recovered[KADZHOMIR_AT_LEAST(KADZHOMIR_RECOVERED)], uint64_t *used);

/* ---- The block store */

/* The store of a recovery for this committee and own authority, beside the index rows that it filled; `recovered` is its
   answer. Go on writing at the used that kadzhomir_writer gives. Checks: the recovery's number (18 where that word is
   above 19), 18 (committee); refused, the store's words are as they were. */
uint8_t kadzhomir_open(uint64_t size, uint64_t own, const uint64_t recovered[KADZHOMIR_AT_LEAST(KADZHOMIR_RECOVERED)],
    uint64_t store[KADZHOMIR_AT_LEAST(KADZHOMIR_STORE)]);

/* Logs a block and indexes it. answer: number, position, used after the call; refused: number, 0, used as it was, and
   image, store and index are as they were. Checks: 1, 2, 18, 3, 4, 9, 13, 14, 15. */
enum kadzhomir_inserted_words {
    KADZHOMIR_INSERTED_NUMBER = 0,
    KADZHOMIR_INSERTED_POSITION = 1,
    KADZHOMIR_INSERTED_USED = 2,
    KADZHOMIR_INSERTED = 3
};
uint8_t kadzhomir_insert_block(uint64_t k, uint64_t used, uint8_t *image, size_t image_len,
    uint64_t store[KADZHOMIR_AT_LEAST(KADZHOMIR_STORE)], uint64_t *index, size_t index_len, const uint8_t *block,
    size_t block_len, uint64_t answer[KADZHOMIR_AT_LEAST(KADZHOMIR_INSERTED)]);

/* The same of an own block, 8 bytes of its next entry and then the block; 10 in the place of 9. */
uint8_t kadzhomir_insert_own_block(uint64_t k, uint64_t used, uint8_t *image, size_t image_len,
    uint64_t store[KADZHOMIR_AT_LEAST(KADZHOMIR_STORE)], uint64_t *index, size_t index_len, const uint8_t *own_block,
    size_t own_block_len, uint64_t answer[KADZHOMIR_AT_LEAST(KADZHOMIR_INSERTED)]);

/* Unloads rounds up to t; t = 0 does nothing. answer: number, how many blocks were loaded; refused: number, 0, and the
   index is as it was. Checks: 1, 2, 18. */
enum kadzhomir_cleaned_words {
    KADZHOMIR_CLEANED_NUMBER = 0,
    KADZHOMIR_CLEANED_BLOCKS = 1,
    KADZHOMIR_CLEANED = 2
};
uint8_t kadzhomir_cleanup(uint64_t k, const uint8_t *image, size_t image_len, uint64_t used,
    const uint64_t store[KADZHOMIR_AT_LEAST(KADZHOMIR_STORE)], uint64_t *index, size_t index_len, uint64_t t,
    uint64_t answer[KADZHOMIR_AT_LEAST(KADZHOMIR_CLEANED)]);

/* Questions that read no block: whether a reference is indexed; whether an authority has a block in a round; whether each
   of the authorities has one, no in a round without blocks. answer: number, 1 for yes and 0 for no; refused: number, 0.
   Checks: 1, 2, 18. */
enum kadzhomir_told_words {
    KADZHOMIR_TOLD_NUMBER = 0,
    KADZHOMIR_TOLD_YES = 1,
    KADZHOMIR_TOLD = 2
};
uint8_t kadzhomir_block_exists(uint64_t k, const uint8_t *image, size_t image_len, uint64_t used,
    const uint64_t store[KADZHOMIR_AT_LEAST(KADZHOMIR_STORE)], const uint64_t *index, size_t index_len,
    const uint64_t reference[KADZHOMIR_AT_LEAST(KADZHOMIR_REFERENCE)],
    uint64_t answer[KADZHOMIR_AT_LEAST(KADZHOMIR_TOLD)]);
uint8_t kadzhomir_block_exists_at_authority_round(uint64_t k, const uint8_t *image, size_t image_len, uint64_t used,
    const uint64_t store[KADZHOMIR_AT_LEAST(KADZHOMIR_STORE)], const uint64_t *index, size_t index_len, uint64_t authority,
    uint64_t round, uint64_t answer[KADZHOMIR_AT_LEAST(KADZHOMIR_TOLD)]);
uint8_t kadzhomir_all_blocks_exists_at_authority_round(uint64_t k, const uint8_t *image, size_t image_len, uint64_t used,
    const uint64_t store[KADZHOMIR_AT_LEAST(KADZHOMIR_STORE)], const uint64_t *index, size_t index_len,
    const uint64_t *authorities, size_t authorities_len, uint64_t round,
    uint64_t answer[KADZHOMIR_AT_LEAST(KADZHOMIR_TOLD)]);

/* Lookups: the block with a reference; the blocks of a round; those of an authority in it; at most `limit` own blocks
   after a round; an authority's blocks in the first `limit` indexed rounds after a round. They are rows of `out`
   (reference, place of the block's bytes in the image, their number, bytes of the entry behind the block with them), zeros
   behind them, and the store counts the loads. answer: number, rows found; refused: number, 0, `out` is all zero and the
   store as it was. Checks: 1, 2, 18, 19 (after a round); of each block a read's, 8, then 9 or 10; last 15. */
enum kadzhomir_looked_words {
    KADZHOMIR_LOOKED_NUMBER = 0,
    KADZHOMIR_LOOKED_ROWS = 1,
    KADZHOMIR_LOOKED = 2
};
uint8_t kadzhomir_get_block(uint64_t k, const uint8_t *image, size_t image_len, uint64_t used,
    uint64_t store[KADZHOMIR_AT_LEAST(KADZHOMIR_STORE)], const uint64_t *index, size_t index_len,
    const uint64_t reference[KADZHOMIR_AT_LEAST(KADZHOMIR_REFERENCE)], uint64_t *out, size_t out_len,
    uint64_t answer[KADZHOMIR_AT_LEAST(KADZHOMIR_LOOKED)]);
uint8_t kadzhomir_get_blocks_by_round(uint64_t k, const uint8_t *image, size_t image_len, uint64_t used,
    uint64_t store[KADZHOMIR_AT_LEAST(KADZHOMIR_STORE)], const uint64_t *index, size_t index_len, uint64_t round,
    uint64_t *out, size_t out_len, uint64_t answer[KADZHOMIR_AT_LEAST(KADZHOMIR_LOOKED)]);
uint8_t kadzhomir_get_blocks_at_authority_round(uint64_t k, const uint8_t *image, size_t image_len, uint64_t used,
    uint64_t store[KADZHOMIR_AT_LEAST(KADZHOMIR_STORE)], const uint64_t *index, size_t index_len, uint64_t authority,
    uint64_t round, uint64_t *out, size_t out_len, uint64_t answer[KADZHOMIR_AT_LEAST(KADZHOMIR_LOOKED)]);
uint8_t kadzhomir_get_own_blocks(uint64_t k, const uint8_t *image, size_t image_len, uint64_t used,
    uint64_t store[KADZHOMIR_AT_LEAST(KADZHOMIR_STORE)], const uint64_t *index, size_t index_len, uint64_t from_excluded,
    size_t limit, uint64_t *out, size_t out_len, uint64_t answer[KADZHOMIR_AT_LEAST(KADZHOMIR_LOOKED)]);
uint8_t kadzhomir_get_others_blocks(uint64_t k, const uint8_t *image, size_t image_len, uint64_t used,
    uint64_t store[KADZHOMIR_AT_LEAST(KADZHOMIR_STORE)], const uint64_t *index, size_t index_len, uint64_t from_excluded,
    uint64_t authority, size_t limit, uint64_t *out, size_t out_len,
    uint64_t answer[KADZHOMIR_AT_LEAST(KADZHOMIR_LOOKED)]);

/* The transaction that a locator (reference and offset) names. answer: number, 1 where there is one, place and number of
   its bytes in the image; zeros where there is none; refused: number and zeros, and the store is as it was. Checks: 1, 2,
   18; of the block a read's, 8, then 9 or 10. */
enum kadzhomir_transaction_words {
    KADZHOMIR_TRANSACTION_NUMBER = 0,
    KADZHOMIR_TRANSACTION_THERE = 1,
    KADZHOMIR_TRANSACTION_PLACE = 2,
    KADZHOMIR_TRANSACTION_BYTES = 3,
    KADZHOMIR_TRANSACTION = 4
};
uint8_t kadzhomir_get_transaction(uint64_t k, const uint8_t *image, size_t image_len, uint64_t used,
    uint64_t store[KADZHOMIR_AT_LEAST(KADZHOMIR_STORE)], const uint64_t *index, size_t index_len,
    const uint64_t reference[KADZHOMIR_AT_LEAST(KADZHOMIR_REFERENCE)], uint64_t offset,
    uint64_t answer[KADZHOMIR_AT_LEAST(KADZHOMIR_TRANSACTION)]);

/* Whether the block `earlier` is an ancestor of the later one, whose bytes are given. `work` has at least as many rows as
   the store counts (else 15), and ends all zero. answer: number, 1 for yes and 0 for no; refused: number, 0, and the store
   is as it was. Checks: 1, 2, 18, 9 (later block), 15; of each block a read's, 8, then 9 or 10. */
enum kadzhomir_linked_words {
    KADZHOMIR_LINKED_NUMBER = 0,
    KADZHOMIR_LINKED_YES = 1,
    KADZHOMIR_LINKED = 2
};
uint8_t kadzhomir_linked(uint64_t k, const uint8_t *image, size_t image_len, uint64_t used,
    uint64_t store[KADZHOMIR_AT_LEAST(KADZHOMIR_STORE)], const uint64_t *index, size_t index_len, const uint8_t *later,
    size_t later_len, const uint64_t earlier[KADZHOMIR_AT_LEAST(KADZHOMIR_REFERENCE)], uint64_t *work, size_t work_len,
    uint64_t answer[KADZHOMIR_AT_LEAST(KADZHOMIR_LINKED)]);

/* ---- Records, laid out as docs/LAYOUTS.md says: each call returns 0 */

/* Decoders. Each takes any bytes and any place, and looks at nothing behind the record. answer: 1 where the record decodes,
   else all words are zero. Places count from the first of the bytes; a list has the place of its first element, and the
   number of its elements. END is the place behind the record. */

/* The block at a place: reference, includes, statements, creation time (low and high half), epoch marker. The signature's
   64 bytes stand before the end. */
enum kadzhomir_block_words {
    KADZHOMIR_BLOCK_OK = 0,
    KADZHOMIR_BLOCK_REFERENCE = 1,
    KADZHOMIR_BLOCK_INCLUDES = 7,
    KADZHOMIR_BLOCK_INCLUDES_NUMBER = 8,
    KADZHOMIR_BLOCK_STATEMENTS = 9,
    KADZHOMIR_BLOCK_STATEMENTS_NUMBER = 10,
    KADZHOMIR_BLOCK_TIME_LOW = 11,
    KADZHOMIR_BLOCK_TIME_HIGH = 12,
    KADZHOMIR_BLOCK_EPOCH_MARKER = 13,
    KADZHOMIR_BLOCK_END = 14,
    KADZHOMIR_BLOCK = 15
};
uint8_t kadzhomir_decode_block(const uint8_t *bytes, size_t bytes_len, size_t at,
    uint64_t answer[KADZHOMIR_AT_LEAST(KADZHOMIR_BLOCK)]);

/* An own block: the words of its block, and its next entry. */
enum kadzhomir_own_block_words {
    KADZHOMIR_OWN_BLOCK_OK = 0,
    KADZHOMIR_OWN_BLOCK_REFERENCE = 1,
    KADZHOMIR_OWN_BLOCK_INCLUDES = 7,
    KADZHOMIR_OWN_BLOCK_INCLUDES_NUMBER = 8,
    KADZHOMIR_OWN_BLOCK_STATEMENTS = 9,
    KADZHOMIR_OWN_BLOCK_STATEMENTS_NUMBER = 10,
    KADZHOMIR_OWN_BLOCK_TIME_LOW = 11,
    KADZHOMIR_OWN_BLOCK_TIME_HIGH = 12,
    KADZHOMIR_OWN_BLOCK_EPOCH_MARKER = 13,
    KADZHOMIR_OWN_BLOCK_END = 14,
    KADZHOMIR_OWN_BLOCK_NEXT_ENTRY = 15,
    KADZHOMIR_OWN_BLOCK = 16
};
uint8_t kadzhomir_decode_own_block(const uint8_t *bytes, size_t bytes_len, size_t at,
    uint64_t answer[KADZHOMIR_AT_LEAST(KADZHOMIR_OWN_BLOCK)]);

/* The i-th, from 0 on, of the references that stand one behind the other at a place; how many there are is not known
   here. */
enum kadzhomir_include_words {
    KADZHOMIR_INCLUDE_OK = 0,
    KADZHOMIR_INCLUDE_REFERENCE = 1,
    KADZHOMIR_INCLUDE_END = 7,
    KADZHOMIR_INCLUDE = 8
};
uint8_t kadzhomir_include_at(const uint8_t *bytes, size_t bytes_len, size_t place, size_t i,
    uint64_t answer[KADZHOMIR_AT_LEAST(KADZHOMIR_INCLUDE)]);

/* A statement: its kind (KADZHOMIR_STATEMENT_KIND_..); place and number of a Share's bytes; a Vote's locator, vote
   (KADZHOMIR_VOTE_..) and the locator that a Reject names; a VoteRange's range. What a kind does not have is zero. */
enum kadzhomir_statement_words {
    KADZHOMIR_STATEMENT_OK = 0,
    KADZHOMIR_STATEMENT_KIND = 1,
    KADZHOMIR_STATEMENT_PLACE = 2,
    KADZHOMIR_STATEMENT_BYTES = 3,
    KADZHOMIR_STATEMENT_LOCATOR = 4,
    KADZHOMIR_STATEMENT_VOTE = 11,
    KADZHOMIR_STATEMENT_OTHER = 12,
    KADZHOMIR_STATEMENT_RANGE = 19,
    KADZHOMIR_STATEMENT_END = 27,
    KADZHOMIR_STATEMENT = 28
};
uint8_t kadzhomir_decode_statement(const uint8_t *bytes, size_t bytes_len, size_t at,
    uint64_t answer[KADZHOMIR_AT_LEAST(KADZHOMIR_STATEMENT)]);

/* A payload: its statements, to be decoded one from the end of the other on. */
enum kadzhomir_payload_words {
    KADZHOMIR_PAYLOAD_OK = 0,
    KADZHOMIR_PAYLOAD_STATEMENTS = 1,
    KADZHOMIR_PAYLOAD_STATEMENTS_NUMBER = 2,
    KADZHOMIR_PAYLOAD_END = 3,
    KADZHOMIR_PAYLOAD = 4
};
uint8_t kadzhomir_decode_payload(const uint8_t *bytes, size_t bytes_len, size_t at,
    uint64_t answer[KADZHOMIR_AT_LEAST(KADZHOMIR_PAYLOAD)]);

/* A commit: its list of leaders and sub-dags, and the place and the number of the state's bytes. */
enum kadzhomir_commit_words {
    KADZHOMIR_COMMIT_OK = 0,
    KADZHOMIR_COMMIT_COMMITS = 1,
    KADZHOMIR_COMMIT_COMMITS_NUMBER = 2,
    KADZHOMIR_COMMIT_STATE_PLACE = 3,
    KADZHOMIR_COMMIT_STATE_BYTES = 4,
    KADZHOMIR_COMMIT_END = 5,
    KADZHOMIR_COMMIT = 6
};
uint8_t kadzhomir_decode_commit(const uint8_t *bytes, size_t bytes_len, size_t at,
    uint64_t answer[KADZHOMIR_AT_LEAST(KADZHOMIR_COMMIT)]);

/* An element of a commit's list: leader, and the references of its sub-dag. */
enum kadzhomir_commit_data_words {
    KADZHOMIR_COMMIT_DATA_OK = 0,
    KADZHOMIR_COMMIT_DATA_LEADER = 1,
    KADZHOMIR_COMMIT_DATA_SUB_DAG = 7,
    KADZHOMIR_COMMIT_DATA_SUB_DAG_NUMBER = 8,
    KADZHOMIR_COMMIT_DATA_END = 9,
    KADZHOMIR_COMMIT_DATA = 10
};
uint8_t kadzhomir_decode_commit_data(const uint8_t *bytes, size_t bytes_len, size_t at,
    uint64_t answer[KADZHOMIR_AT_LEAST(KADZHOMIR_COMMIT_DATA)]);

/* Encoders. Each writes a record into `out` from the place `at` on. answer: kind (KADZHOMIR_ENCODED_..), and the place
   behind the record, 0 where it is not encoded; `out` is changed only where it is. Lists are lent as encoded elements in a
   row, with their number: where the bytes are not that many elements and nothing else, the record is malformed, whatever
   the room. */
enum kadzhomir_encoding_words {
    KADZHOMIR_ENCODING_KIND = 0,
    KADZHOMIR_ENCODING_END = 1,
    KADZHOMIR_ENCODING = 2
};

/* A reference, and the statements Share, Vote and VoteRange. `kind` is the vote (KADZHOMIR_VOTE_..; any other is
   malformed); `other` is encoded in a KADZHOMIR_VOTE_REJECT_OTHER alone. */
uint8_t kadzhomir_encode_reference(uint8_t *out, size_t out_len, size_t at,
    const uint64_t reference[KADZHOMIR_AT_LEAST(KADZHOMIR_REFERENCE)],
    uint64_t answer[KADZHOMIR_AT_LEAST(KADZHOMIR_ENCODING)]);
uint8_t kadzhomir_encode_share(uint8_t *out, size_t out_len, size_t at, const uint8_t *bytes, size_t bytes_len,
    uint64_t answer[KADZHOMIR_AT_LEAST(KADZHOMIR_ENCODING)]);
uint8_t kadzhomir_encode_vote(uint8_t *out, size_t out_len, size_t at,
    const uint64_t locator[KADZHOMIR_AT_LEAST(KADZHOMIR_LOCATOR)], uint64_t kind,
    const uint64_t other[KADZHOMIR_AT_LEAST(KADZHOMIR_LOCATOR)],
    uint64_t answer[KADZHOMIR_AT_LEAST(KADZHOMIR_ENCODING)]);
uint8_t kadzhomir_encode_vote_range(uint8_t *out, size_t out_len, size_t at,
    const uint64_t range[KADZHOMIR_AT_LEAST(KADZHOMIR_RANGE)], uint64_t answer[KADZHOMIR_AT_LEAST(KADZHOMIR_ENCODING)]);

/* A payload of `count` statements. */
uint8_t kadzhomir_encode_payload(uint8_t *out, size_t out_len, size_t at, const uint8_t *statements, size_t statements_len,
    uint64_t count, uint64_t answer[KADZHOMIR_AT_LEAST(KADZHOMIR_ENCODING)]);

/* A block: its words are reference, numbers of includes and statements, creation time (low and high half), and epoch
   marker, set where it is not 0. The digest is not computed. */
enum kadzhomir_fields_words {
    KADZHOMIR_FIELDS_REFERENCE = 0,
    KADZHOMIR_FIELDS_INCLUDES_NUMBER = 6,
    KADZHOMIR_FIELDS_STATEMENTS_NUMBER = 7,
    KADZHOMIR_FIELDS_TIME_LOW = 8,
    KADZHOMIR_FIELDS_TIME_HIGH = 9,
    KADZHOMIR_FIELDS_EPOCH_MARKER = 10,
    KADZHOMIR_FIELDS = 11
};
uint8_t kadzhomir_encode_block(uint8_t *out, size_t out_len, size_t at,
    const uint64_t block[KADZHOMIR_AT_LEAST(KADZHOMIR_FIELDS)],
    const uint8_t signature[KADZHOMIR_AT_LEAST(KADZHOMIR_BYTES_SIGNATURE)], const uint8_t *includes, size_t includes_len,
    const uint8_t *statements, size_t statements_len, uint64_t answer[KADZHOMIR_AT_LEAST(KADZHOMIR_ENCODING)]);

/* An own block, of its next entry and the bytes of its block, which are a block and nothing else. */
uint8_t kadzhomir_encode_own_block(uint8_t *out, size_t out_len, size_t at, uint64_t next_entry, const uint8_t *block,
    size_t block_len, uint64_t answer[KADZHOMIR_AT_LEAST(KADZHOMIR_ENCODING)]);

/* An element of a commit's list, of a leader and `count` references; and a commit, of `count` such elements and a state. */
uint8_t kadzhomir_encode_commit_data(uint8_t *out, size_t out_len, size_t at,
    const uint64_t leader[KADZHOMIR_AT_LEAST(KADZHOMIR_REFERENCE)], const uint8_t *sub_dag, size_t sub_dag_len,
    uint64_t count, uint64_t answer[KADZHOMIR_AT_LEAST(KADZHOMIR_ENCODING)]);
uint8_t kadzhomir_encode_commit(uint8_t *out, size_t out_len, size_t at, const uint8_t *commits, size_t commits_len,
    uint64_t count, const uint8_t *state, size_t state_len,
    uint64_t answer[KADZHOMIR_AT_LEAST(KADZHOMIR_ENCODING)]);

/* ---- Checksum and version */

/* The CRC-32 (IEEE 802.3) of some bytes: what an entry's checksum is of its payload. */
uint32_t kadzhomir_crc32(const uint8_t *bytes, size_t bytes_len);

/* The archive's version, as KADZHOMIR_VERSION is the header's. */
uint32_t kadzhomir_version(void);

#ifdef __cplusplus
}
#endif

#endif

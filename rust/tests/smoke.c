/* A program in C over the archive: appends, walks, recovers, inserts and looks up; writes a recovery page; encodes and decodes
   each record; and what refused calls leave. */
#include "kadzhomir.h"

#include <stdio.h>
#include <string.h>

enum { K = 16, SIZE = 4, OWN = 0, ROWS = 4, WORDS = ROWS * KADZHOMIR_ROW, STATE_BYTES = 5 };
enum { ROUND = 3, AUTHORITY = 1, OFFSET = 9, ENTRY_BYTES = KADZHOMIR_HEADER_BYTES + STATE_BYTES };

static const uint64_t reference[KADZHOMIR_REFERENCE] = { ROUND, AUTHORITY, 0, 0, 0, 0 };
static const uint64_t locator[KADZHOMIR_LOCATOR] = { ROUND, AUTHORITY, 0, 0, 0, 0, OFFSET };
static const uint8_t state[STATE_BYTES] = { 's', 't', 'a', 't', 'e' };
static uint8_t image[4096];
static uint64_t pending[WORDS], unprocessed[WORDS], committed[WORDS], rows[WORDS];
static uint64_t recovered[KADZHOMIR_RECOVERED], store[KADZHOMIR_STORE], answer[KADZHOMIR_ENCODING];
static int failures;

static void expect(const char *what, uint64_t found, uint64_t wanted) {
    if (found == wanted) return;
    printf("%s: %llu, not %llu\n", what, (unsigned long long)found, (unsigned long long)wanted);
    failures++;
}

/* What the last encoder answered; gives the end. */
static size_t encoded(const char *what, uint8_t returned, size_t end) {
    expect(what, returned, 0);
    expect(what, answer[KADZHOMIR_ENCODING_KIND], KADZHOMIR_ENCODED_END);
    expect(what, answer[KADZHOMIR_ENCODING_END], end);
    return end;
}

/* A block with a Share of the state. The first block of a chain includes none, the others one. */
static size_t put_block(uint8_t *out, size_t out_len, uint64_t round, uint64_t authority, const uint64_t *included) {
    static const uint8_t signature[KADZHOMIR_BYTES_SIGNATURE] = { 0 };
    uint8_t share[KADZHOMIR_BYTES_SHARE + STATE_BYTES], includes[KADZHOMIR_BYTES_REFERENCE];
    uint64_t fields[KADZHOMIR_FIELDS] = { 0 };
    size_t bytes = included ? sizeof includes : 0;

    encoded("share", kadzhomir_encode_share(share, sizeof share, 0, state, sizeof state, answer), sizeof share);
    if (included) encoded("include", kadzhomir_encode_reference(includes, sizeof includes, 0, included, answer), bytes);
    (fields + KADZHOMIR_FIELDS_REFERENCE)[KADZHOMIR_REFERENCE_ROUND] = round;
    (fields + KADZHOMIR_FIELDS_REFERENCE)[KADZHOMIR_REFERENCE_AUTHORITY] = authority;
    fields[KADZHOMIR_FIELDS_INCLUDES_NUMBER] = included != NULL;
    fields[KADZHOMIR_FIELDS_STATEMENTS_NUMBER] = 1;
    fields[KADZHOMIR_FIELDS_TIME_LOW] = 77;
    fields[KADZHOMIR_FIELDS_TIME_HIGH] = 78;
    fields[KADZHOMIR_FIELDS_EPOCH_MARKER] = 1;
    return encoded("block", kadzhomir_encode_block(out, out_len, 0, fields, signature, includes, bytes, share, sizeof share, answer),
        KADZHOMIR_BYTES_BLOCK + bytes + sizeof share);
}

static uint8_t recover(uint64_t k, uint64_t used) {
    return kadzhomir_recover(k, image, sizeof image, used, SIZE, OWN, pending, WORDS, unprocessed, WORDS, committed, WORDS, rows, WORDS,
        recovered);
}

static uint8_t page(uint64_t k, uint64_t used, uint8_t *out, size_t out_len, uint64_t *length) {
    return kadzhomir_recovery_page(k, image, sizeof image, used, SIZE, OWN, pending, WORDS, unprocessed, WORDS, committed, WORDS, rows,
        WORDS, out, out_len, length);
}

static void serves_a_log(void) {
    uint64_t appended[KADZHOMIR_APPENDED], walked[KADZHOMIR_WALKED], entry[KADZHOMIR_ENTRY], step[KADZHOMIR_STEP], used;

    expect("append", kadzhomir_append(K, 0, image, sizeof image, KADZHOMIR_TAG_STATE, state, sizeof state, appended), 0);
    used = appended[KADZHOMIR_APPENDED_USED];
    expect("used", used, ENTRY_BYTES);
    expect("read", kadzhomir_read(K, image, sizeof image, used, appended[KADZHOMIR_APPENDED_POSITION], entry), 0);
    expect("tag", entry[KADZHOMIR_ENTRY_TAG], KADZHOMIR_TAG_STATE);
    expect("length", entry[KADZHOMIR_ENTRY_LENGTH], STATE_BYTES);
    expect("checksum", entry[KADZHOMIR_ENTRY_CHECKSUM], kadzhomir_crc32(state, sizeof state));
    expect("step", kadzhomir_walk_step(K, image, sizeof image, used, 0, step), 0);
    expect("step's kind", step[KADZHOMIR_STEP_KIND], KADZHOMIR_KIND_ENTRY);
    expect("step's position", step[KADZHOMIR_STEP_POSITION], entry[KADZHOMIR_ENTRY_POSITION]);
    expect("step's tag", step[KADZHOMIR_STEP_TAG], entry[KADZHOMIR_ENTRY_TAG]);
    expect("step's length", step[KADZHOMIR_STEP_LENGTH], entry[KADZHOMIR_ENTRY_LENGTH]);
    expect("step's checksum", step[KADZHOMIR_STEP_CHECKSUM], entry[KADZHOMIR_ENTRY_CHECKSUM]);
    expect("last step", kadzhomir_walk_step(K, image, sizeof image, used, used, step), 0);
    expect("last step's kind", step[KADZHOMIR_STEP_KIND], KADZHOMIR_KIND_END);
    expect("walk", kadzhomir_walk(K, image, sizeof image, used, walked), 0);
    expect("stop", walked[KADZHOMIR_WALKED_STOP], KADZHOMIR_STOP_END);
    expect("end", walked[KADZHOMIR_WALKED_END], used);
    expect("unread", walked[KADZHOMIR_WALKED_UNREAD], 0);
}

static void serves_a_store(void) {
    uint64_t inserted[KADZHOMIR_INSERTED], looked[KADZHOMIR_LOOKED], out[KADZHOMIR_ROW], used;
    uint8_t block[256];
    size_t n = put_block(block, sizeof block, ROUND, AUTHORITY, NULL);

    expect("recover", recover(K, ENTRY_BYTES), 0);
    expect("state's bytes", recovered[KADZHOMIR_RECOVERED_STATE_BYTES], STATE_BYTES);
    expect("writer", kadzhomir_writer(recovered, &used), 0);
    expect("open", kadzhomir_open(SIZE, OWN, recovered, store), 0);
    expect("insert", kadzhomir_insert_block(K, used, image, sizeof image, store, rows, WORDS, block, n, inserted), 0);
    expect("position", inserted[KADZHOMIR_INSERTED_POSITION], ENTRY_BYTES);
    expect("highest round", store[KADZHOMIR_STORE_HIGHEST_ROUND], ROUND);
    used = inserted[KADZHOMIR_INSERTED_USED];
    expect("get_block", kadzhomir_get_block(K, image, sizeof image, used, store, rows, WORDS, reference, out, KADZHOMIR_ROW, looked), 0);
    expect("rows", looked[KADZHOMIR_LOOKED_ROWS], 1);
    expect("place", out[KADZHOMIR_FOUND_PLACE], ENTRY_BYTES + KADZHOMIR_HEADER_BYTES);
    expect("bytes", out[KADZHOMIR_FOUND_BYTES], n);
    expect("block's bytes", (uint64_t)memcmp(image + out[KADZHOMIR_FOUND_PLACE], block, n), 0);
    /* A cut in the block's entry: the writer goes on before it. */
    expect("recover a cut", recover(K, used - 1), 0);
    expect("stop of a cut", recovered[KADZHOMIR_RECOVERED_STOP], KADZHOMIR_STOP_TORN);
    expect("writer", kadzhomir_writer(recovered, &used), 0);
    expect("used again", used, ENTRY_BYTES);
}

static uint64_t append(uint64_t *used, uint32_t tag, const uint8_t *payload, size_t n) {
    uint64_t appended[KADZHOMIR_APPENDED];

    expect("append", kadzhomir_append(K, *used, image, sizeof image, tag, payload, n, appended), 0);
    *used = appended[KADZHOMIR_APPENDED_USED];
    return appended[KADZHOMIR_APPENDED_POSITION];
}

/* A log with every tag: a state, a block, a payload and the own block that leaves it pending, another block, a commit. */
enum { STATE_AT, BLOCK_AT, PAYLOAD_AT, OWN_AT, OTHER_AT, COMMIT_AT, POSITIONS };
static uint64_t at[POSITIONS];

static uint64_t whole_log(void) {
    uint8_t bytes[512], list[512], out[512];
    uint64_t used = 0;
    size_t n;

    memset(image, 0, sizeof image);
    at[STATE_AT] = append(&used, KADZHOMIR_TAG_STATE, state, sizeof state);
    at[BLOCK_AT] = append(&used, KADZHOMIR_TAG_BLOCK, bytes, put_block(bytes, sizeof bytes, ROUND, AUTHORITY, NULL));
    kadzhomir_encode_payload(out, sizeof out, 0, NULL, 0, 0, answer);
    at[PAYLOAD_AT] = append(&used, KADZHOMIR_TAG_PAYLOAD, out, (size_t)answer[KADZHOMIR_ENCODING_END]);
    n = put_block(bytes, sizeof bytes, ROUND + 1, OWN, reference);
    kadzhomir_encode_own_block(out, sizeof out, 0, at[PAYLOAD_AT], bytes, n, answer);
    at[OWN_AT] = append(&used, KADZHOMIR_TAG_OWN_BLOCK, out, (size_t)answer[KADZHOMIR_ENCODING_END]);
    at[OTHER_AT] = append(&used, KADZHOMIR_TAG_BLOCK, bytes, put_block(bytes, sizeof bytes, ROUND + 2, AUTHORITY + 1, NULL));
    kadzhomir_encode_reference(bytes, sizeof bytes, 0, reference, answer);
    kadzhomir_encode_commit_data(list, sizeof list, 0, reference, bytes, KADZHOMIR_BYTES_REFERENCE, 1, answer);
    kadzhomir_encode_commit(out, sizeof out, 0, list, (size_t)answer[KADZHOMIR_ENCODING_END], 1, state, sizeof state, answer);
    at[COMMIT_AT] = append(&used, KADZHOMIR_TAG_COMMIT, out, (size_t)answer[KADZHOMIR_ENCODING_END]);
    return used;
}

/* The words of a recovery, by their names. */
static void serves_a_recovery(void) {
    uint64_t end = whole_log();

    expect("recover all", recover(K, end), 0);
    expect("end", recovered[KADZHOMIR_RECOVERED_END], end);
    expect("unread", recovered[KADZHOMIR_RECOVERED_UNREAD], 0);
    expect("pending", recovered[KADZHOMIR_RECOVERED_PENDING], 2);
    expect("unprocessed", recovered[KADZHOMIR_RECOVERED_UNPROCESSED], 3);
    expect("committed", recovered[KADZHOMIR_RECOVERED_COMMITTED], 1);
    expect("index", recovered[KADZHOMIR_RECOVERED_INDEX], 3);
    expect("last own block there", recovered[KADZHOMIR_RECOVERED_LAST_OWN_BLOCK_THERE], 1);
    expect("last own block", recovered[KADZHOMIR_RECOVERED_LAST_OWN_BLOCK_PLACE], at[OWN_AT] + KADZHOMIR_HEADER_BYTES);
    expect("its end", recovered[KADZHOMIR_RECOVERED_LAST_OWN_BLOCK_PLACE] + recovered[KADZHOMIR_RECOVERED_LAST_OWN_BLOCK_BYTES], at[OTHER_AT]);
    expect("state there", recovered[KADZHOMIR_RECOVERED_STATE_THERE], 1);
    expect("state", recovered[KADZHOMIR_RECOVERED_STATE_PLACE], at[STATE_AT] + KADZHOMIR_HEADER_BYTES);
    expect("state's bytes", recovered[KADZHOMIR_RECOVERED_STATE_BYTES], STATE_BYTES);
    expect("committed state there", recovered[KADZHOMIR_RECOVERED_COMMITTED_STATE_THERE], 1);
    expect("committed state", recovered[KADZHOMIR_RECOVERED_COMMITTED_STATE_PLACE], end - STATE_BYTES);
    expect("committed state's bytes", recovered[KADZHOMIR_RECOVERED_COMMITTED_STATE_BYTES], STATE_BYTES);
    expect("leader there", recovered[KADZHOMIR_RECOVERED_LEADER_THERE], 1);
    expect("leader", (uint64_t)memcmp(recovered + KADZHOMIR_RECOVERED_LEADER, reference, sizeof reference), 0);
    expect("own block there", recovered[KADZHOMIR_RECOVERED_OWN_BLOCK_THERE], 1);
    expect("own block", (recovered + KADZHOMIR_RECOVERED_OWN_BLOCK)[KADZHOMIR_REFERENCE_ROUND], ROUND + 1);
    expect("highest round", recovered[KADZHOMIR_RECOVERED_HIGHEST_ROUND], ROUND + 2);
    expect("last seen", (recovered + KADZHOMIR_RECOVERED_LAST_SEEN)[AUTHORITY + 1], ROUND + 2);
    expect("last seen of all", KADZHOMIR_RECOVERED - KADZHOMIR_RECOVERED_LAST_SEEN, KADZHOMIR_AUTHORITIES);
}

/* The page of the same log, whose length is learnt first. It leaves the tables as the recovery above did. */
static void serves_a_page(void) {
    enum { LINE = KADZHOMIR_PAGE_LINE, LINES = 4 };
    static const char foot[] = "            2             3             1 END ";
    uint64_t end = recovered[KADZHOMIR_RECOVERED_END], length = 0;
    uint8_t text[LINES * LINE];
    size_t i;

    expect("page's length", page(K, end, NULL, 0, &length), 0);
    expect("its bytes", length, sizeof text);
    expect("page", page(K, end, text, sizeof text, &length), 0);
    for (i = 1; i <= LINES; i++) expect("line feed", text[i * LINE - 1], '\n');
    expect("heading", (uint64_t)memcmp(text, "PENDING ", 8), 0);
    expect("payload's row", (uint64_t)memcmp(text + LINE + 14, "payload ", 8), 0);
    expect("block's row", (uint64_t)memcmp(text + 2 * LINE + 14, "block      2                    5 ", 34), 0);
    expect("foot", (uint64_t)memcmp(text + 3 * LINE, foot, sizeof foot - 1), 0);
}

/* The words of the tables' rows: those of the recovery above. */
static void serves_rows(void) {
    const uint64_t *second = pending + KADZHOMIR_ROW;

    expect("pending payload", pending[KADZHOMIR_PENDING_KIND], KADZHOMIR_PENDING_KIND_PAYLOAD);
    expect("its position", pending[KADZHOMIR_PENDING_POSITION], at[PAYLOAD_AT]);
    expect("its bytes", pending[KADZHOMIR_PENDING_BYTES], KADZHOMIR_BYTES_PAYLOAD);
    expect("pending block", second[KADZHOMIR_PENDING_KIND], KADZHOMIR_PENDING_KIND_BLOCK);
    expect("its round", (second + KADZHOMIR_PENDING_REFERENCE)[KADZHOMIR_REFERENCE_ROUND], ROUND + 2);
    expect("unprocessed block", (uint64_t)memcmp(unprocessed + KADZHOMIR_UNPROCESSED_REFERENCE, reference, sizeof reference), 0);
    expect("its position", unprocessed[KADZHOMIR_UNPROCESSED_POSITION], at[BLOCK_AT]);
    expect("committed block", (uint64_t)memcmp(committed + KADZHOMIR_COMMITTED_REFERENCE, reference, sizeof reference), 0);
    expect("indexed block", (uint64_t)memcmp(rows + KADZHOMIR_INDEXED_REFERENCE, reference, sizeof reference), 0);
    expect("its position", rows[KADZHOMIR_INDEXED_POSITION], at[BLOCK_AT]);
    expect("not loaded", rows[KADZHOMIR_INDEXED_LOADED], 0);
}

/* The words of a store, and of its other calls, on the same log. */
static void serves_questions(void) {
    uint64_t told[KADZHOMIR_TOLD], found[KADZHOMIR_TRANSACTION], linked[KADZHOMIR_LINKED], cleaned[KADZHOMIR_CLEANED];
    uint64_t inserted[KADZHOMIR_INSERTED], work[WORDS], used = recovered[KADZHOMIR_RECOVERED_END];
    uint8_t later[512];
    size_t n = put_block(later, sizeof later, ROUND + 1, AUTHORITY + 2, reference);

    expect("open", kadzhomir_open(SIZE, OWN, recovered, store), 0);
    expect("size", store[KADZHOMIR_STORE_COMMITTEE_SIZE], SIZE);
    expect("own", store[KADZHOMIR_STORE_OWN_AUTHORITY], OWN);
    expect("rows", store[KADZHOMIR_STORE_ROWS], 3);
    expect("own block there", store[KADZHOMIR_STORE_OWN_BLOCK_THERE], 1);
    expect("own block", (store + KADZHOMIR_STORE_OWN_BLOCK)[KADZHOMIR_REFERENCE_ROUND], ROUND + 1);
    expect("last seen", (store + KADZHOMIR_STORE_LAST_SEEN)[AUTHORITY], ROUND);
    expect("exists", kadzhomir_block_exists(K, image, sizeof image, used, store, rows, WORDS, reference, told), 0);
    expect("it does", told[KADZHOMIR_TOLD_YES], 1);
    expect("transaction", kadzhomir_get_transaction(K, image, sizeof image, used, store, rows, WORDS, reference, 0, found), 0);
    expect("there is one", found[KADZHOMIR_TRANSACTION_THERE], 1);
    expect("its bytes", found[KADZHOMIR_TRANSACTION_BYTES], STATE_BYTES);
    expect("as shared", (uint64_t)memcmp(image + found[KADZHOMIR_TRANSACTION_PLACE], state, sizeof state), 0);
    expect("loads", store[KADZHOMIR_STORE_LOADS], 1);
    expect("linked", kadzhomir_linked(K, image, sizeof image, used, store, rows, WORDS, later, n, reference, work, WORDS, linked), 0);
    expect("it is", linked[KADZHOMIR_LINKED_YES], 1);
    expect("insert", kadzhomir_insert_block(K, used, image, sizeof image, store, rows, WORDS, later, n, inserted), 0);
    used = inserted[KADZHOMIR_INSERTED_USED];
    expect("cleanup", kadzhomir_cleanup(K, image, sizeof image, used, store, rows, WORDS, ROUND + 1, cleaned), 0);
    expect("unloaded", cleaned[KADZHOMIR_CLEANED_BLOCKS], 1);
}

static void serves_blocks(void) {
    uint64_t block[KADZHOMIR_BLOCK], own[KADZHOMIR_OWN_BLOCK], statement[KADZHOMIR_STATEMENT], include[KADZHOMIR_INCLUDE];
    uint8_t bytes[256], out[512];
    size_t n = put_block(bytes, sizeof bytes, ROUND, AUTHORITY, reference), end;

    expect("decode_block", kadzhomir_decode_block(bytes, n, 0, block), 0);
    expect("block", block[KADZHOMIR_BLOCK_OK], 1);
    expect("round", (block + KADZHOMIR_BLOCK_REFERENCE)[KADZHOMIR_REFERENCE_ROUND], ROUND);
    expect("includes", block[KADZHOMIR_BLOCK_INCLUDES_NUMBER], 1);
    kadzhomir_include_at(bytes, n, (size_t)block[KADZHOMIR_BLOCK_INCLUDES], 0, include);
    expect("include", (uint64_t)memcmp(include + KADZHOMIR_INCLUDE_REFERENCE, reference, sizeof reference), 0);
    expect("statements", block[KADZHOMIR_BLOCK_STATEMENTS_NUMBER], 1);
    expect("time", block[KADZHOMIR_BLOCK_TIME_LOW], 77);
    expect("time's high half", block[KADZHOMIR_BLOCK_TIME_HIGH], 78);
    expect("epoch marker", block[KADZHOMIR_BLOCK_EPOCH_MARKER], 1);
    expect("end of the block", block[KADZHOMIR_BLOCK_END], n);
    kadzhomir_decode_statement(bytes, n, (size_t)block[KADZHOMIR_BLOCK_STATEMENTS], statement);
    expect("share", statement[KADZHOMIR_STATEMENT_KIND], KADZHOMIR_STATEMENT_KIND_SHARE);
    expect("share's bytes", (uint64_t)memcmp(bytes + statement[KADZHOMIR_STATEMENT_PLACE], state, sizeof state), 0);
    end = encoded("own block", kadzhomir_encode_own_block(out, sizeof out, 0, KADZHOMIR_POSITION_MAX, bytes, n, answer),
        KADZHOMIR_BYTES_OWN_BLOCK + n);
    kadzhomir_decode_own_block(out, end, 0, own);
    expect("next entry", own[KADZHOMIR_OWN_BLOCK_NEXT_ENTRY], KADZHOMIR_POSITION_MAX);
    expect("end of the own block", own[KADZHOMIR_OWN_BLOCK_END], end);
}

static void serves_payloads(void) {
    static const uint64_t range[KADZHOMIR_RANGE] = { ROUND, AUTHORITY, 0, 0, 0, 0, OFFSET, OFFSET + 2 };
    uint64_t payload[KADZHOMIR_PAYLOAD], statement[KADZHOMIR_STATEMENT];
    uint8_t bytes[512], out[512];
    size_t end = KADZHOMIR_BYTES_VOTE_REJECT_OTHER, n;

    encoded("vote", kadzhomir_encode_vote(bytes, sizeof bytes, 0, locator, KADZHOMIR_VOTE_REJECT_OTHER, locator, answer), end);
    n = encoded("vote range", kadzhomir_encode_vote_range(bytes, sizeof bytes, end, range, answer), end + KADZHOMIR_BYTES_VOTE_RANGE);
    end = encoded("payload", kadzhomir_encode_payload(out, sizeof out, 0, bytes, n, 2, answer), KADZHOMIR_BYTES_PAYLOAD + n);
    kadzhomir_decode_payload(out, end, 0, payload);
    expect("payload", payload[KADZHOMIR_PAYLOAD_OK], 1);
    expect("statements", payload[KADZHOMIR_PAYLOAD_STATEMENTS_NUMBER], 2);
    kadzhomir_decode_statement(out, end, (size_t)payload[KADZHOMIR_PAYLOAD_STATEMENTS], statement);
    expect("vote", statement[KADZHOMIR_STATEMENT_VOTE], KADZHOMIR_VOTE_REJECT_OTHER);
    expect("vote's offset", (statement + KADZHOMIR_STATEMENT_LOCATOR)[KADZHOMIR_LOCATOR_OFFSET], OFFSET);
    expect("other's offset", (statement + KADZHOMIR_STATEMENT_OTHER)[KADZHOMIR_LOCATOR_OFFSET], OFFSET);
    kadzhomir_decode_statement(out, end, (size_t)statement[KADZHOMIR_STATEMENT_END], statement);
    expect("range", statement[KADZHOMIR_STATEMENT_KIND], KADZHOMIR_STATEMENT_KIND_VOTE_RANGE);
    expect("range's end", (statement + KADZHOMIR_STATEMENT_RANGE)[KADZHOMIR_RANGE_END], OFFSET + 2);
    expect("end of the payload", statement[KADZHOMIR_STATEMENT_END], payload[KADZHOMIR_PAYLOAD_END]);
}

static void serves_commits(void) {
    uint64_t commit[KADZHOMIR_COMMIT], data[KADZHOMIR_COMMIT_DATA], include[KADZHOMIR_INCLUDE];
    uint8_t sub_dag[KADZHOMIR_BYTES_REFERENCE], list[256], out[256];
    size_t n, end;

    encoded("reference", kadzhomir_encode_reference(sub_dag, sizeof sub_dag, 0, reference, answer), sizeof sub_dag);
    n = encoded("commit data", kadzhomir_encode_commit_data(list, sizeof list, 0, reference, sub_dag, sizeof sub_dag, 1, answer),
        KADZHOMIR_BYTES_COMMIT_DATA + sizeof sub_dag);
    end = encoded("commit", kadzhomir_encode_commit(out, sizeof out, 0, list, n, 1, state, sizeof state, answer),
        KADZHOMIR_BYTES_COMMIT + n + sizeof state);
    kadzhomir_decode_commit(out, end, 0, commit);
    expect("commits", commit[KADZHOMIR_COMMIT_COMMITS_NUMBER], 1);
    expect("end of the commit", commit[KADZHOMIR_COMMIT_END], end);
    expect("state", (uint64_t)memcmp(out + commit[KADZHOMIR_COMMIT_STATE_PLACE], state, sizeof state), 0);
    kadzhomir_decode_commit_data(out, end, (size_t)commit[KADZHOMIR_COMMIT_COMMITS], data);
    expect("leader's round", (data + KADZHOMIR_COMMIT_DATA_LEADER)[KADZHOMIR_REFERENCE_ROUND], ROUND);
    expect("sub-dag", data[KADZHOMIR_COMMIT_DATA_SUB_DAG_NUMBER], 1);
    kadzhomir_include_at(out, end, (size_t)data[KADZHOMIR_COMMIT_DATA_SUB_DAG], 0, include);
    expect("sub-dag's authority", (include + KADZHOMIR_INCLUDE_REFERENCE)[KADZHOMIR_REFERENCE_AUTHORITY], AUTHORITY);
}

static void refuses(void) {
    uint64_t walked[KADZHOMIR_WALKED], step[KADZHOMIR_STEP], kept[KADZHOMIR_STORE], length, used = 7;
    uint8_t line[KADZHOMIR_PAGE_LINE];

    expect("walk, k of 5", kadzhomir_walk(KADZHOMIR_K_MIN - 1, image, sizeof image, 21, walked), KADZHOMIR_REFUSAL_REGION_EXPONENT);
    expect("no stop", walked[KADZHOMIR_WALKED_STOP], KADZHOMIR_STOP_REFUSED);
    expect("step, used of 4097", kadzhomir_walk_step(K, image, sizeof image, sizeof image + 1, 0, step), KADZHOMIR_REFUSAL_USED);
    expect("no entry", step[KADZHOMIR_STEP_KIND], KADZHOMIR_KIND_REFUSED);
    memset(store, 9, sizeof store);
    memcpy(kept, store, sizeof store);
    expect("open, committee of 0", kadzhomir_open(0, OWN, recovered, store), KADZHOMIR_REFUSAL_STORE);
    expect("recover, k of 29", recover(KADZHOMIR_K_MAX + 1, 21), KADZHOMIR_REFUSAL_REGION_EXPONENT);
    expect("no stop of a recovery", recovered[KADZHOMIR_RECOVERED_STOP], KADZHOMIR_STOP_REFUSED);
    expect("page, k of 29", page(KADZHOMIR_K_MAX + 1, 21, line, sizeof line, &length), KADZHOMIR_REFUSAL_REGION_EXPONENT);
    expect("a line", length, sizeof line);
    expect("its number", (uint64_t)memcmp(line, "            1 ", 14), 0);
    expect("open of a refused recovery", kadzhomir_open(SIZE, OWN, recovered, store), KADZHOMIR_REFUSAL_REGION_EXPONENT);
    expect("store kept", (uint64_t)memcmp(store, kept, sizeof store), 0);
    expect("writer of a refused recovery", kadzhomir_writer(recovered, &used), KADZHOMIR_REFUSAL_REGION_EXPONENT);
    expect("used kept", used, 7);
}

static void refuses_records(void) {
    uint64_t payload[KADZHOMIR_PAYLOAD];
    uint8_t out[KADZHOMIR_BYTES_VOTE_ACCEPT - 1] = { 0 };

    kadzhomir_encode_vote(out, sizeof out, 0, locator, KADZHOMIR_VOTE_ACCEPT, locator, answer);
    expect("no room", answer[KADZHOMIR_ENCODING_KIND], KADZHOMIR_ENCODED_NO_ROOM);
    kadzhomir_encode_payload(out, sizeof out, 0, state, sizeof state, 1, answer);
    expect("malformed", answer[KADZHOMIR_ENCODING_KIND], KADZHOMIR_ENCODED_MALFORMED);
    expect("no end", answer[KADZHOMIR_ENCODING_END], 0);
    kadzhomir_decode_payload(state, sizeof state, 0, payload);
    expect("no payload", payload[KADZHOMIR_PAYLOAD_OK], 0);
}

int main(void) {
    expect("version", kadzhomir_version(), KADZHOMIR_VERSION);
    serves_a_log();
    serves_a_store();
    serves_a_recovery();
    serves_a_page();
    serves_rows();
    serves_questions();
    serves_blocks();
    serves_payloads();
    serves_commits();
    refuses();
    refuses_records();
    return failures != 0;
}

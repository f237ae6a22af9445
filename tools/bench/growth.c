// How the time of recovery grows with the number of blocks. growth.sh builds and runs this.
//
// A log has n blocks of 4 authorities, in the rounds i / 4 + 1. Authority 0 is the own one: its blocks have tag 3 and
// name their own entry as the next one, or MAX, by turns. Each block includes up to 3 blocks of the round before it.
// Layouts are those of docs/LAYOUTS.md. The bytes and the checksums are made here, without the library's code.
#define _POSIX_C_SOURCE 199309L
#include "kadzhomir.h"

#include <math.h>
#include <stdint.h>
#include <stdio.h>
#include <stdlib.h>
#include <string.h>
#include <time.h>

enum { K = 28, AUTHORITIES = 4, OWN = 0, INCLUDES = 3, ROW = KADZHOMIR_ROW, MOST_BYTES = 16 + 8 + 161 + INCLUDES * 56 };

static void fail(const char *what) {
    fprintf(stderr, "growth: %s\n", what);
    exit(1);
}

static void check(int holds, const char *what) {
    if (!holds) fail(what);
}

static void *lend(size_t count, size_t size) {
    void *p = calloc(count, size);
    check(p != NULL, "no memory");
    return p;
}

// ---- Bytes

static uint32_t crc_table[256];

static void make_crc_table(void) {
    for (uint32_t b = 0; b < 256; b++) {
        uint32_t c = b;
        for (int bit = 0; bit < 8; bit++) c = c & 1 ? c >> 1 ^ 0xedb88320 : c >> 1;
        crc_table[b] = c;
    }
}

static uint32_t crc32(const uint8_t *p, size_t n) {
    uint32_t c = 0xffffffff;
    while (n--) c = c >> 8 ^ crc_table[(c ^ *p++) & 0xff];
    return ~c;
}

static uint8_t *put(uint8_t *p, uint64_t v, int bytes) {
    for (int i = 0; i < bytes; i++) *p++ = (uint8_t)(v >> (8 * i));
    return p;
}

static uint64_t mix(uint64_t x) {
    x += 0x9e3779b97f4a7c15;
    x = (x ^ x >> 30) * 0xbf58476d1ce4e5b9;
    x = (x ^ x >> 27) * 0x94d049bb133111eb;
    return x ^ x >> 31;
}

// The reference of block i, with a digest made of i.
static uint8_t *put_reference(uint8_t *p, uint64_t i) {
    p = put(p, i % AUTHORITIES, 8);
    p = put(p, i / AUTHORITIES + 1, 8);
    p = put(p, 32, 8);
    for (uint64_t part = 0; part < 4; part++) p = put(p, mix(4 * i + part), 8);
    return p;
}

static uint8_t *put_block(uint8_t *p, uint64_t i) {
    uint64_t round = i / AUTHORITIES, includes = round ? INCLUDES : 0;
    p = put_reference(p, i);
    p = put(p, includes, 8);
    for (uint64_t a = 0; a < includes; a++) p = put_reference(p, (round - 1) * AUTHORITIES + a);
    p = put(p, 0, 8);
    p = put(p, 1790000000000000000 + i, 8);
    p = put(p, 0, 8);
    p = put(p, 0, 1);
    p = put(p, 64, 8);
    for (int part = 0; part < 8; part++) p = put(p, mix(~(8 * i + part)), 8);
    return p;
}

// ---- A log

struct log {
    uint64_t n, used, pending, moved;
    uint64_t *order; // the blocks as they stand in the log
    uint64_t *start; // where the entry of block i starts
    uint8_t *image;
};

enum order { RISING, FALLING, RANDOM };
static const char *order_name[] = { "rising", "falling", "random" };

static uint32_t tag_of(uint64_t i) {
    return i % AUTHORITIES == OWN ? 3 : 1;
}

// The payload of block i, whose entry starts at `at`.
static size_t put_payload(uint8_t *p, uint64_t i, uint64_t at) {
    uint8_t *q = p;
    if (tag_of(i) == 3) q = put(q, i / AUTHORITIES % 2 ? UINT64_MAX : at, 8);
    return (size_t)(put_block(q, i) - p);
}

// How many rows the insertions of a sorted table move: for each block, those before it in the log that sort behind it.
static uint64_t count_moved(const struct log *l) {
    uint64_t *tree = lend(l->n + 1, 8), moved = 0;
    for (uint64_t j = 0; j < l->n; j++) {
        uint64_t smaller = 0;
        for (uint64_t i = l->order[j] + 1; i; i &= i - 1) smaller += tree[i];
        moved += j - smaller;
        for (uint64_t i = l->order[j] + 1; i <= l->n; i += i & -i) tree[i]++;
    }
    free(tree);
    return moved;
}

static struct log make_log(uint64_t n, enum order order) {
    struct log l = { .n = n, .order = lend(n, 8), .start = lend(n, 8), .image = lend(n, MOST_BYTES) };
    for (uint64_t j = 0; j < n; j++) l.order[j] = order == FALLING ? n - 1 - j : j;
    if (order == RANDOM) {
        for (uint64_t j = n - 1; j > 0; j--) {
            uint64_t other = mix(j) % (j + 1), kept = l.order[j];
            l.order[j] = l.order[other];
            l.order[other] = kept;
        }
    }
    for (uint64_t j = 0; j < n; j++) {
        uint64_t i = l.order[j], at = l.used;
        uint8_t *entry = l.image + at;
        size_t len = put_payload(entry + 16, i, at);
        put(entry, crc32(entry + 16, len), 8);
        put(entry + 8, len + 16, 4);
        put(entry + 12, tag_of(i), 4);
        l.start[i] = at;
        l.used = at + 16 + len;
        l.pending = tag_of(i) == 3 ? 0 : l.pending + 1;
    }
    check(l.used <= (uint64_t)1 << K, "the log passes one region");
    l.moved = count_moved(&l);
    return l;
}

static void drop_log(struct log *l) {
    free(l->order);
    free(l->start);
    free(l->image);
}

// The same log by appends: the same bytes.
static void check_appends(const struct log *l) {
    uint8_t *image = lend(l->used, 1), payload[MOST_BYTES];
    uint64_t used = 0, answer[KADZHOMIR_APPENDED];
    for (uint64_t j = 0; j < l->n; j++) {
        uint64_t i = l->order[j];
        size_t len = put_payload(payload, i, used);
        check(kadzhomir_append(K, used, image, l->used, tag_of(i), payload, len, answer) == 0, "an append was refused");
        check(answer[0] == 0 && answer[1] == l->start[i], "an append answers another position");
        used = answer[2];
    }
    check(used == l->used && memcmp(image, l->image, used) == 0, "the appends write other bytes");
    check(kadzhomir_append(K, used, image, used, 1, payload, 0, answer) == 4, "an append past the image is not refused");
    check(answer[0] == 4 && answer[2] == used, "a refused append moves used");
    free(image);
}

// ---- Recovery

struct tables {
    size_t words;
    uint64_t *pending, *unprocessed, *committed, *index;
};

static uint64_t answer[KADZHOMIR_RECOVERED];

static uint8_t recover(const struct log *l, const struct tables *t) {
    return kadzhomir_recover(K, l->image, l->used, l->used, AUTHORITIES, OWN, t->pending, t->words, t->unprocessed, t->words,
        t->committed, t->words, t->index, t->words, answer);
}

// What recovery must answer of the log.
static void check_recovered(const struct log *l, const struct tables *t) {
    uint64_t highest = (l->n - 1) / AUTHORITIES + 1;
    check(answer[0] == 0 && answer[1] == 0, "recovery was refused");
    check(answer[2] == KADZHOMIR_STOP_END && answer[3] == l->used && answer[4] == 0, "the walk does not end at used");
    check(answer[5] == l->pending, "the pending rows are other ones");
    check(answer[6] == l->n && answer[7] == 0 && answer[8] == l->n, "a table has another number of rows");
    check(answer[9] == 1 && answer[12] == 0 && answer[15] == 0 && answer[18] == 0, "a state or a leader is invented");
    check(answer[25] == 1 && answer[26] == highest && answer[27] == OWN && answer[32] == highest, "the own block is another one");
    for (uint64_t a = 0; a < 128; a++) check(answer[33 + a] == (a < AUTHORITIES ? highest : 0), "a last seen round is another one");
    for (uint64_t i = 0; i < l->n; i++) {
        const uint64_t *row = t->index + ROW * i, *seen = t->unprocessed + ROW * i;
        check(row[0] == i / AUTHORITIES + 1 && row[1] == i % AUTHORITIES && row[6] == l->start[i], "an index row is another one");
        check(seen[6] == l->start[l->order[i]], "an unprocessed row is another one");
    }
}

static double now_ms(void) {
    struct timespec t;
    clock_gettime(CLOCK_MONOTONIC, &t);
    return t.tv_sec * 1e3 + t.tv_nsec / 1e6;
}

struct times {
    double best, worst;
};

static void took(struct times *t, double ms) {
    if (ms < t->best) t->best = ms;
    if (ms > t->worst) t->worst = ms;
}

static void measure(uint64_t n, enum order order, int rounds) {
    struct log l = make_log(n, order);
    struct tables t = { .words = ROW * n };
    t.pending = lend(t.words, 8);
    t.unprocessed = lend(t.words, 8);
    t.committed = lend(t.words, 8);
    t.index = lend(t.words, 8);
    if (order == RISING && n <= 10000) check_appends(&l);
    struct times whole = { INFINITY, 0 }, walk = { INFINITY, 0 };
    for (int i = 0; i <= rounds; i++) {
        double t0 = now_ms();
        uint8_t number = recover(&l, &t);
        double t1 = now_ms();
        check(number == 0, "recovery was refused");
        check_recovered(&l, &t);
        double t2 = now_ms();
        number = kadzhomir_walk(K, l.image, l.used, l.used, answer);
        double t3 = now_ms();
        check(number == 0 && answer[2] == KADZHOMIR_STOP_END && answer[3] == l.used, "the walk does not end at used");
        if (i == 0) continue; // the first touches the pages
        took(&whole, t1 - t0);
        took(&walk, t3 - t2);
    }
    double rest = (whole.best - walk.best) * 1e6;
    printf("%-8s %7llu %6.1f %9.3f %9.3f %9.1f %11.2f %9.3f %6.1f%% %10.1f %11llu", order_name[order], (unsigned long long)n,
        l.used / 1e6, whole.best, whole.worst, whole.best * 1e6 / n, whole.best * 1e6 / (n * log2(n)), walk.best,
        100 * walk.best / whole.best, rest / n, (unsigned long long)l.moved);
    if (l.moved) printf(" %7.2f", rest / l.moved);
    printf("\n");
    fflush(stdout);
    free(t.pending);
    free(t.unprocessed);
    free(t.committed);
    free(t.index);
    drop_log(&l);
}

int main(void) {
    make_crc_table();
    printf("best, worst: of several recoveries, in ms; walk: the walk alone, which reads each header and checks each checksum;\n"
           "rest: recovery without the walk; moved: the rows that insertions into the sorted index move\n\n");
    printf("%-8s %7s %6s %9s %9s %9s %11s %9s %7s %10s %11s %7s\n", "rounds", "blocks", "MB", "best", "worst", "ns/block",
        "ns/(n lb n)", "walk", "share", "rest/block", "moved", "ns/row");
    measure(1000, RISING, 50);
    measure(10000, RISING, 20);
    measure(100000, RISING, 7);
    measure(1000, FALLING, 20);
    measure(10000, FALLING, 5);
    measure(1000, RANDOM, 20);
    measure(10000, RANDOM, 5);
    return 0;
}

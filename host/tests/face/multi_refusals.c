/* What multi keys refuse, in which order, and what a refusal leaves. */
#include "face.h"

#include <stdlib.h>
#include <string.h>

/* A call of the maker that is refused. */
struct refused {
    uint64_t domain, buckets;
    const uint64_t *points;
    size_t n, values, words, scratch, key0, key1;
    uint64_t number;
};

/* What is lent to it: always the same, and more than it says. */
struct lent {
    struct buffer key0, key1, words, scratch, answer;
};

/* The call answers its number, leaves keys and words, and zeroes so much of the scratch. */
static void make_is_refused(const struct posting *p, const struct refused *r, struct lent *l, size_t zeros)
{
    ANSWERS(r->number,
            morgnet_multi_generate_keys(r->domain, r->buckets, p->hash_keys, r->points, r->n, p->values, r->values,
                                        cells(&l->words), r->words, cells(&l->scratch), r->scratch, bytes(&l->key0),
                                        r->key0, bytes(&l->key1), r->key1, cells(&l->answer)));
    CHECK(stays(&l->key0) && stays(&l->key1) && stays(&l->words) && zeroed(&l->answer, 3));
    CHECK(zeroed(&l->scratch, zeros));
    spoil(&l->scratch);
    spoil(&l->answer);
}

/* Before the scratch is touched: Domain, Buckets, Count, Point, Scratch, and the one that comes first where two apply.
 */
static void make_refuses_early(const struct posting *p, struct lent *l, size_t length, size_t drawn)
{
    const size_t needed = 4 * 12 + 8;
    uint64_t twice[8], falling[8], outside[8];
    memcpy(twice, p->points, sizeof twice);
    memcpy(falling, p->points, sizeof falling);
    memcpy(outside, p->points, sizeof outside);
    twice[5] = twice[4];
    falling[0] = falling[1] + 1;
    outside[7] = 300;
    const struct refused calls[] = {
        {0, 12, p->points, 8, 8, drawn, needed, length, length, MORGNET_DOMAIN},
        {MORGNET_MULTI_CELLS_MAX + 1, 0, p->points, 0, 1, 0, 0, 0, 0, MORGNET_DOMAIN},
        {300, 0, p->points, 8, 8, drawn, needed, length, length, MORGNET_BUCKETS},
        {300, MORGNET_BUCKETS_MAX + 1, p->points, 0, 0, 0, 0, 0, 0, MORGNET_BUCKETS},
        {300, 12, p->points, 0, 0, drawn, needed, length, length, MORGNET_COUNT},
        {300, 12, p->points, 8, 7, drawn, needed, length, length, MORGNET_COUNT},
        {300, 12, p->points, 7, 8, drawn, needed, length, length, MORGNET_COUNT},
        {300, 7, outside, 8, 8, 0, 0, 0, 0, MORGNET_COUNT},
        {MORGNET_MULTI_CELLS_MAX, 1, p->points, 0, 0, 0, 0, 0, 0, MORGNET_COUNT},
        {300, 12, twice, 8, 8, drawn, needed, length, length, MORGNET_POINT},
        {300, 12, falling, 8, 8, drawn, needed, length, length, MORGNET_POINT},
        {300, 12, outside, 8, 8, 0, 0, 0, 0, MORGNET_POINT},
        {300, 12, p->points, 8, 8, drawn, needed - 1, length, length, MORGNET_SCRATCH},
        {300, 12, p->points, 8, 8, 0, 0, 0, 0, MORGNET_SCRATCH},
    };
    for (size_t i = 0; i < sizeof calls / sizeof *calls; i++) {
        make_is_refused(p, &calls[i], l, 0);
    }
}

/* Afterwards: Place, Words, Room. */
static void make_refuses_late(const struct posting *p, struct lent *l, size_t length, size_t drawn)
{
    const size_t needed = 4 * 12 + 8;
    const struct refused calls[] = {
        {300, 12, p->points, 8, 8, drawn - 1, needed, length, length, MORGNET_WORDS},
        {300, 12, p->points, 8, 8, 0, needed + 4, 0, 0, MORGNET_WORDS},
        {300, 12, p->points, 8, 8, drawn, needed, length - 1, length, MORGNET_ROOM},
        {300, 12, p->points, 8, 8, drawn + 1, needed + 4, length, length - 1, MORGNET_ROOM},
        {300, 12, p->points, 8, 8, drawn, needed, 0, 0, MORGNET_ROOM},
    };
    for (size_t i = 0; i < sizeof calls / sizeof *calls; i++) {
        make_is_refused(p, &calls[i], l, needed);
    }
    uint64_t table[256], counters[64];
    struct posting tight = *p;
    do {
        any_bytes(tight.hash_keys, 48);
    } while (walk(8, tight.hash_keys, tight.points, 8, table, counters) != UINT64_MAX);
    const struct refused place = {300, 8, tight.points, 8, 8, 0, 4 * 8 + 8, 0, 0, MORGNET_PLACE};
    make_is_refused(&tight, &place, l, 4 * 8 + 8);
}

static void multi_make_refuses(void)
{
    const struct posting p = draw(300, 12, 8);
    uint64_t wanted[3];
    wanted_of(&p, wanted);
    const size_t length = (size_t)wanted[0], drawn = 2 * (size_t)wanted[1];
    struct lent l = {lend_bytes(length + 5), lend_bytes(length + 5), lend_cells(drawn + 1), lend_cells(60),
                     lend_cells(3)};
    make_refuses_early(&p, &l, length, drawn);
    make_refuses_late(&p, &l, length, drawn);
    give_back_bytes(&l.key0);
    give_back_bytes(&l.key1);
    give_back_cells(&l.words);
    give_back_cells(&l.scratch);
    give_back_cells(&l.answer);
}

/* A bad image is Key in every reading, whatever else is wrong, and everything lent stays. */
static void multi_key_is_bad(const uint8_t *image, size_t length)
{
    struct buffer share = lend_cells(1), part = lend_cells(2), scratch = lend_cells(500), table = lend_cells(50);
    uint8_t *own = copy(image, length);
    ANSWERS(MORGNET_KEY, morgnet_multi_evaluate_at(own, length, UINT64_MAX, cells(&scratch), 0, cells(&share)));
    ANSWERS(MORGNET_KEY, morgnet_multi_record(own, length, UINT64_MAX, cells(&part)));
    ANSWERS(MORGNET_KEY, morgnet_multi_evaluate_domain(own, length, cells(&scratch), 500, cells(&table), 50));
    ANSWERS(MORGNET_KEY, morgnet_multi_add_to(own, length, cells(&scratch), 0, cells(&table), 0));
    CHECK(zeroed(&share, 1) && zeroed(&part, 2) && stays(&scratch) && stays(&table));
    free(own);
    give_back_cells(&share);
    give_back_cells(&part);
    give_back_cells(&scratch);
    give_back_cells(&table);
}

/* Whatever else is wrong with a call on such an image comes before Mismatch. */
static void mismatch_is_last(const uint8_t *image, size_t length, uint64_t domain, uint64_t buckets)
{
    const size_t size = (size_t)domain, needed = (size_t)MORGNET_MULTI_SCRATCH(domain, buckets);
    struct buffer share = lend_cells(1), scratch = lend_cells(needed + 1), table = lend_cells(size + 1);
    ANSWERS(MORGNET_INDEX,
            morgnet_multi_evaluate_at(image, length, domain, cells(&scratch), (size_t)buckets, cells(&share)));
    ANSWERS(MORGNET_SCRATCH,
            morgnet_multi_evaluate_at(image, length, 0, cells(&scratch), (size_t)buckets - 1, cells(&share)));
    ANSWERS(MORGNET_SCRATCH,
            morgnet_multi_evaluate_domain(image, length, cells(&scratch), needed - 1, cells(&table), size));
    ANSWERS(MORGNET_ROOM,
            morgnet_multi_evaluate_domain(image, length, cells(&scratch), needed, cells(&table), size - 1));
    ANSWERS(MORGNET_TABLE, morgnet_multi_add_to(image, length, cells(&scratch), needed, cells(&table), size + 1));
    ANSWERS(MORGNET_SCRATCH, morgnet_multi_add_to(image, length, cells(&scratch), needed - 1, cells(&table), size));
    CHECK(zeroed(&share, 1) && stays(&scratch) && stays(&table));
    give_back_cells(&share);
    give_back_cells(&scratch);
    give_back_cells(&table);
}

/* A fair image that belongs to no such table is Mismatch, and zeroes the scratch that is needed. */
static void multi_mismatches(const uint8_t *image, size_t length, uint64_t domain, uint64_t buckets)
{
    const size_t size = (size_t)domain, needed = (size_t)MORGNET_MULTI_SCRATCH(domain, buckets);
    struct buffer share = lend_cells(1), scratch = lend_cells(needed + 1), table = lend_cells(size + 1);
    ANSWERS(MORGNET_MISMATCH,
            morgnet_multi_evaluate_at(image, length, 0, cells(&scratch), (size_t)buckets + 1, cells(&share)));
    CHECK(zeroed(&share, 1) && zeroed(&scratch, (size_t)buckets));
    spoil(&scratch);
    ANSWERS(MORGNET_MISMATCH,
            morgnet_multi_evaluate_domain(image, length, cells(&scratch), needed + 1, cells(&table), size + 1));
    CHECK(stays(&table) && zeroed(&scratch, needed));
    spoil(&scratch);
    ANSWERS(MORGNET_MISMATCH, morgnet_multi_add_to(image, length, cells(&scratch), needed, cells(&table), size));
    CHECK(stays(&table) && zeroed(&scratch, needed));
    give_back_cells(&share);
    give_back_cells(&scratch);
    give_back_cells(&table);
    mismatch_is_last(image, length, domain, buckets);
}

/* The key that the tests below damage. */
enum { DOMAIN = 50, BUCKETS = 9, FIRST = 72 + 8 * BUCKETS };

/* Each refusal of reading and adding a good key, and the one that comes first where two apply. */
static void multi_read_refuses(const uint8_t *key, size_t length)
{
    const size_t needed = (size_t)MORGNET_MULTI_SCRATCH(DOMAIN, BUCKETS);
    struct buffer share = lend_cells(1), scratch = lend_cells(needed + 2), table = lend_cells(60);
    ANSWERS(MORGNET_INDEX, morgnet_multi_evaluate_at(key, length, 50, cells(&scratch), 9, cells(&share)));
    ANSWERS(MORGNET_INDEX, morgnet_multi_evaluate_at(key, length, UINT64_MAX, cells(&scratch), 0, cells(&share)));
    CHECK(zeroed(&share, 1));
    spoil(&share);
    ANSWERS(MORGNET_SCRATCH, morgnet_multi_evaluate_at(key, length, 49, cells(&scratch), 8, cells(&share)));
    CHECK(zeroed(&share, 1));
    ANSWERS(MORGNET_SCRATCH,
            morgnet_multi_evaluate_domain(key, length, cells(&scratch), needed - 1, cells(&table), 60));
    ANSWERS(MORGNET_SCRATCH,
            morgnet_multi_evaluate_domain(key, length, cells(&scratch), needed - 1, cells(&table), 49));
    ANSWERS(MORGNET_ROOM, morgnet_multi_evaluate_domain(key, length, cells(&scratch), needed, cells(&table), 49));
    ANSWERS(MORGNET_TABLE, morgnet_multi_add_to(key, length, cells(&scratch), needed, cells(&table), 51));
    ANSWERS(MORGNET_TABLE, morgnet_multi_add_to(key, length, cells(&scratch), 0, cells(&table), 49));
    ANSWERS(MORGNET_SCRATCH, morgnet_multi_add_to(key, length, cells(&scratch), needed - 1, cells(&table), 50));
    CHECK(stays(&scratch) && stays(&table));
    give_back_cells(&share);
    give_back_cells(&scratch);
    give_back_cells(&table);
}

/* Every layout rule, one at a time. */
static void multi_layout(const uint8_t *key, size_t length)
{
    static const struct broken rules[] = {
        {0, 4, 2},           {0, 4, UINT32_MAX},
        {4, 4, 0},           {4, 4, 8},
        {4, 4, 10},          {4, 4, 65536},
        {8, 8, 0},           {8, 8, MORGNET_MULTI_CELLS_MAX + 1},
        {16, 4, 0},          {16, 4, 10},
        {20, 4, 71},         {20, 4, 8},
        {72, 8, FIRST + 1},  {72, 8, FIRST - 1},
        {72, 8, UINT64_MAX}, {80, 8, FIRST},
        {FIRST, 8, 0},       {FIRST, 8, UINT64_C(1) << 35},
        {FIRST + 40, 8, 4},
    };
    for (size_t cut = 0; cut < length; cut += cut < 200 ? 1 : 13) {
        multi_key_is_bad(key, cut);
    }
    multi_key_is_bad(key, length - 1);
    uint8_t *bad = room(length + 1);
    for (size_t i = 0; i < sizeof rules / sizeof *rules; i++) {
        memcpy(bad, key, length);
        put(bad, rules[i].at, rules[i].count, rules[i].n);
        multi_key_is_bad(bad, length);
    }
    memcpy(bad, key, length);
    bad[length] = 0;
    multi_key_is_bad(bad, length + 1);
    free(bad);
}

/* A gap before the first record. */
static void multi_gap(const uint8_t *key, size_t length)
{
    uint8_t *bad = room(length + 8);
    memcpy(bad, key, FIRST);
    memset(bad + FIRST, 0, 8);
    memcpy(bad + FIRST + 8, key + FIRST, length - FIRST);
    for (size_t b = 0; b < BUCKETS; b++) {
        const uint64_t entry = field(key, 72 + 8 * b, 8);
        put(bad, 72 + 8 * b, 8, entry == 0 ? 0 : entry + 8);
    }
    multi_key_is_bad(bad, length + 8);
    free(bad);
}

/* More buckets than there may be, with a directory for all of them. */
static void multi_too_many_buckets(const uint8_t *key)
{
    uint8_t *bad = room(72 + 8 * 65536);
    memcpy(bad, key, 72);
    memset(bad + 72, 0, 8 * 65536);
    put(bad, 4, 4, 65536);
    multi_key_is_bad(bad, 72 + 8 * 65536);
    free(bad);
}

/* Fair images of no such table: another hash key, another table size, another record size, no record at all. */
static void multi_foreign(const uint8_t *key, size_t length)
{
    uint8_t *bad = copy(key, length);
    bad[30] ^= 1;
    multi_mismatches(bad, length, DOMAIN, BUCKETS);
    memcpy(bad, key, length);
    put(bad, 8, 8, DOMAIN - 1);
    multi_mismatches(bad, length, DOMAIN - 1, BUCKETS);
    const uint64_t size = field(key, FIRST, 8), other = size % 2 == 0 ? size - 1 : size + 1;
    CHECK(size > 2 && single_length(size) == single_length(other));
    memcpy(bad, key, length);
    put(bad, FIRST, 8, other);
    multi_mismatches(bad, length, DOMAIN, BUCKETS);
    memcpy(bad, key, length);
    memset(bad + 72, 0, FIRST - 72);
    multi_mismatches(bad, FIRST, DOMAIN, BUCKETS);
    free(bad);
}

void test_multi_refusals(void)
{
    const struct posting p = draw(DOMAIN, BUCKETS, 6);
    uint8_t *image[2];
    const size_t length = make_multi(&p, image);
    multi_make_refuses();
    multi_read_refuses(image[0], length);
    multi_layout(image[0], length);
    multi_gap(image[0], length);
    multi_too_many_buckets(image[0]);
    multi_foreign(image[0], length);
    free(image[0]);
    free(image[1]);
}

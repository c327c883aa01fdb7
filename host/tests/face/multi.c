/* Multi keys: making, records, one cell, the whole domain, adding. */
#include "face.h"

#include <stdlib.h>
#include <string.h>

struct posting draw(uint64_t domain, uint64_t buckets, size_t n)
{
    struct posting p = {.domain = domain, .buckets = buckets, .n = n};
    uint64_t table[256], counters[64];
    for (size_t i = 0; i < n; i++) {
        /* rising: one out of each of n equal parts of the table, and the last cell */
        p.points[i] = domain * i / n + (domain >= 2 * n ? any() % (domain / n) : 0);
        p.values[i] = i % 5 == 4 ? 0 : any();
    }
    p.points[n - 1] = domain - 1;
    do {
        any_bytes(p.hash_keys, 48);
    } while (walk(buckets, p.hash_keys, p.points, n, table, counters) == UINT64_MAX);
    return p;
}

/* What document 01 says of the length, the words and the evictions. */
void wanted_of(const struct posting *p, uint64_t wanted[3])
{
    uint64_t table[256], counters[64], sizes[256] = {0};
    for (uint64_t x = 0; x < p->domain; x++) {
        for (int k = 0; k < 3; k++) {
            uint64_t b;
            morgnet_bucket(p->hash_keys + 16 * k, p->buckets, x, &b);
            sizes[b]++;
        }
    }
    wanted[0] = 72 + 8 * p->buckets;
    wanted[1] = 0;
    for (uint64_t b = 0; b < p->buckets; b++) {
        wanted[0] += sizes[b] == 0 ? 0 : single_length(sizes[b]) - 8;
        wanted[1] += sizes[b] == 0 ? 0 : sizes[b] == 1 ? 1 : 2;
    }
    wanted[2] = walk(p->buckets, p->hash_keys, p->points, p->n, table, counters);
}

size_t make_multi(const struct posting *p, uint8_t *image[2])
{
    uint64_t wanted[3];
    wanted_of(p, wanted);
    const size_t length = (size_t)wanted[0], needed = (size_t)(4 * p->buckets) + p->n;
    CHECK(length <= MORGNET_MULTI_IMAGE_MAX(p->buckets) && needed == MORGNET_MULTI_MAKE_SCRATCH(p->buckets, p->n));
    struct buffer key0 = lend_bytes(length), key1 = lend_bytes(length + 9), words = lend_cells(2 * (size_t)wanted[1]);
    struct buffer scratch = lend_cells(needed + 2), answer = lend_cells(3);
    ANSWERS(MORGNET_OK, morgnet_multi_generate_keys(p->domain, p->buckets, p->hash_keys, p->points, p->n, p->values,
                                                    p->n, cells(&words), words.size / 8, cells(&scratch), needed + 2,
                                                    bytes(&key0), length, bytes(&key1), length + 9, cells(&answer)));
    CHECK(memcmp(cells(&answer), wanted, 24) == 0 && stays_past(&answer, 24));
    CHECK(zeroed(&scratch, needed) && stays(&words) && stays_past(&key0, length) && stays_past(&key1, length));
    for (unsigned party = 0; party < 2; party++) {
        image[party] = copy(bytes(party ? &key1 : &key0), length);
        CHECK(field(image[party], 0, 4) == party && field(image[party], 4, 4) == p->buckets);
        CHECK(field(image[party], 8, 8) == p->domain && field(image[party], 16, 4) == p->n);
        CHECK(field(image[party], 20, 4) == 72 && memcmp(image[party] + 24, p->hash_keys, 48) == 0);
    }
    give_back_bytes(&key0);
    give_back_bytes(&key1);
    give_back_cells(&words);
    give_back_cells(&scratch);
    give_back_cells(&answer);
    return length;
}
/* The records stand one after the other, and each is the directory's. */
static void records_fill(const uint8_t *image, size_t length, uint64_t buckets)
{
    struct buffer part = lend_cells(2);
    uint64_t next = 72 + 8 * buckets;
    for (uint64_t b = 0; b < buckets; b++) {
        ANSWERS(MORGNET_OK, morgnet_multi_record(image, length, b, cells(&part)));
        const uint64_t entry = field(image, (size_t)(72 + 8 * b), 8);
        CHECK(cells(&part)[0] == entry && stays_past(&part, 16));
        CHECK(entry == 0 ? cells(&part)[1] == 0 : entry == next && cells(&part)[1] >= 56);
        next += cells(&part)[1];
        spoil(&part);
    }
    CHECK(next == length);
    ANSWERS(MORGNET_INDEX, morgnet_multi_record(image, length, buckets, cells(&part)));
    CHECK(zeroed(&part, 2));
    spoil(&part);
    ANSWERS(MORGNET_INDEX, morgnet_multi_record(image, length, UINT64_MAX, cells(&part)));
    CHECK(zeroed(&part, 2));
    give_back_cells(&part);
}

/* The shares of all cells from the bytes of an image: the sum over each cell's distinct buckets, at its first entry. */
static void shares_by_rule(const uint8_t *image, unsigned party, uint64_t domain, uint64_t buckets, uint64_t *out)
{
    uint64_t count[256] = {0};
    for (uint64_t x = 0; x < domain; x++) {
        uint64_t b[3];
        out[x] = 0;
        for (int k = 0; k < 3; k++) {
            morgnet_bucket(image + 24 + 16 * k, buckets, x, &b[k]);
            if ((k > 0 && b[k] == b[0]) || (k > 1 && b[k] == b[1])) {
                continue;
            }
            out[x] += share_by_rule(image + field(image, (size_t)(72 + 8 * b[k]), 8), party, count[b[k]]);
        }
        for (int k = 0; k < 3; k++) {
            count[b[k]]++;
        }
    }
}

/* Single cells of a key are its shares, at both ends, at points and elsewhere. */
static void multi_cells(const struct posting *p, const uint8_t *image, size_t length, const uint64_t *shares)
{
    struct buffer share = lend_cells(1), scratch = lend_cells((size_t)p->buckets + 7);
    int reads = 1;
    for (size_t k = 0; k < 12; k++) {
        const uint64_t x = k == 0 ? 0 : k == 1 ? p->domain - 1 : k < 6 ? p->points[k % p->n] : any() % p->domain;
        spoil(&scratch);
        reads &= morgnet_multi_evaluate_at(image, length, x, cells(&scratch), (size_t)p->buckets + (k & 1),
                                           cells(&share)) == MORGNET_OK;
        reads &= cells(&share)[0] == shares[x] && stays_past(&share, 8);
        reads &= zeroed(&scratch, (size_t)p->buckets);
    }
    CHECK(reads);
    give_back_cells(&share);
    give_back_cells(&scratch);
}

/* The whole domain of one party's key, adding it and reading single cells of it agree with the rule. */
static void multi_reads(const struct posting *p, const uint8_t *image, size_t length, unsigned party,
                        struct buffer *out)
{
    const size_t size = (size_t)p->domain, needed = (size_t)MORGNET_MULTI_SCRATCH(p->domain, p->buckets);
    struct buffer table = lend_cells(size), scratch = lend_cells(needed + 7);
    ANSWERS(MORGNET_OK,
            morgnet_multi_evaluate_domain(image, length, cells(&scratch), needed + 7, cells(out), size + 3));
    CHECK(stays_past(out, 8 * size) && zeroed(&scratch, needed));
    uint64_t *rule = room(8 * size);
    shares_by_rule(image, party, p->domain, p->buckets, rule);
    CHECK(memcmp(rule, cells(out), 8 * size) == 0);
    free(rule);
    spoil(&scratch);
    ANSWERS(MORGNET_OK, morgnet_multi_add_to(image, length, cells(&scratch), needed, cells(&table), size));
    CHECK(zeroed(&scratch, needed) && stays_past(&table, 8 * size));
    int sums = 1;
    for (size_t i = 0; i < size; i++) {
        sums &= cells(&table)[i] == cells_before(&table)[i] + cells(out)[i];
    }
    CHECK(sums);
    multi_cells(p, image, length, cells(out));
    give_back_cells(&table);
    give_back_cells(&scratch);
}

/* Both parties' keys read alike in every way, and the shares sum to the posting. */
static void multi_agrees(uint64_t domain, uint64_t buckets, size_t n)
{
    const struct posting p = draw(domain, buckets, n);
    uint8_t *image[2];
    const size_t size = (size_t)domain, length = make_multi(&p, image);
    struct buffer out[2] = {lend_cells(size + 3), lend_cells(size + 3)};
    for (unsigned party = 0; party < 2; party++) {
        records_fill(image[party], length, buckets);
        multi_reads(&p, image[party], length, party, &out[party]);
    }
    int fits = 1;
    size_t next = 0;
    for (size_t i = 0; i < size; i++) {
        const int posted = next < n && p.points[next] == i;
        fits &= cells(&out[0])[i] + cells(&out[1])[i] == (posted ? p.values[next] : 0);
        next += (size_t)posted;
    }
    CHECK(fits && next == n);
    for (int party = 0; party < 2; party++) {
        free(image[party]);
        give_back_cells(&out[party]);
    }
}

/* Document 01, "Known sums". */
static void multi_known_sums(void)
{
    uint64_t words[4], scratch[16], answer[3], points[2] = {0, 0}, values[2] = {3, 4};
    uint8_t hash_keys[48], key0[200], key1[200];
    any_bytes(hash_keys, 48);
    any_bytes((uint8_t *)words, sizeof words);
    ANSWERS(MORGNET_OK, morgnet_multi_generate_keys(1, 1, hash_keys, points, 1, values, 1, words, 4, scratch, 16, key0,
                                                    200, key1, 200, answer));
    CHECK(answer[0] == 152 && answer[1] == 2 && answer[2] == 0 && field(key0, 80, 8) == 3);
    ANSWERS(MORGNET_COUNT, morgnet_multi_generate_keys(MORGNET_MULTI_CELLS_MAX, 1, hash_keys, points, 0, values, 0,
                                                       words, 4, scratch, 16, key0, 200, key1, 200, answer));
    ANSWERS(MORGNET_DOMAIN, morgnet_multi_generate_keys(UINT64_C(1) << 32, 1, hash_keys, points, 0, values, 0, words, 4,
                                                        scratch, 16, key0, 200, key1, 200, answer));
    points[0] = points[1] = 4;
    ANSWERS(MORGNET_POINT, morgnet_multi_generate_keys(5, 2, hash_keys, points, 2, values, 2, words, 4, scratch, 16,
                                                       key0, 200, key1, 200, answer));
}

/* The number of points is held to the buckets and not to the cells. */
static void multi_points_above_cells(void)
{
    const struct posting p = draw(2, 8, 2);
    uint8_t *image[2];
    uint64_t scratch[8], share, again;
    const size_t length = make_multi(&p, image);
    ANSWERS(MORGNET_OK, morgnet_multi_evaluate_at(image[0], length, 1, scratch, 8, &share));
    put(image[0], 16, 4, 8);
    ANSWERS(MORGNET_OK, morgnet_multi_evaluate_at(image[0], length, 1, scratch, 8, &again));
    CHECK(share == again);
    free(image[0]);
    free(image[1]);
}

/* As many buckets as there may be. */
static void multi_most_buckets(void)
{
    const size_t needed = (size_t)MORGNET_MULTI_MAKE_SCRATCH(MORGNET_BUCKETS_MAX, 1), length = 72 + 8 * 65535 + 3 * 56;
    struct buffer scratch = lend_cells(needed), key0 = lend_bytes(length), key1 = lend_bytes(length);
    const uint64_t point = 0, value = 6;
    uint64_t words[6], answer[3], share[2];
    uint8_t hash_keys[48];
    any_bytes((uint8_t *)words, sizeof words);
    any_bytes(hash_keys, 48);
    ANSWERS(MORGNET_OK,
            morgnet_multi_generate_keys(1, MORGNET_BUCKETS_MAX, hash_keys, &point, 1, &value, 1, words, 6,
                                        cells(&scratch), needed, bytes(&key0), length, bytes(&key1), length, answer));
    CHECK(answer[0] == length && answer[1] == 3 && answer[2] == 0 && zeroed(&scratch, needed));
    for (int party = 0; party < 2; party++) {
        ANSWERS(MORGNET_OK, morgnet_multi_evaluate_at(bytes(party ? &key1 : &key0), length, 0, cells(&scratch), 65535,
                                                      &share[party]));
    }
    CHECK(share[0] + share[1] == 6);
    give_back_cells(&scratch);
    give_back_bytes(&key0);
    give_back_bytes(&key1);
}

void test_multi(void)
{
    static const struct {
        uint64_t domain, buckets;
        size_t n;
    } sizes[] = {
        {1, 1, 1},    {1, 5, 1},    {2, 2, 1},   {2, 8, 2},      {3, 2, 1},      {5, 3, 2},       {9, 30, 9},
        {17, 200, 4}, {100, 12, 6}, {500, 1, 1}, {1000, 40, 30}, {2000, 64, 40}, {4096, 100, 60},
    };
    for (size_t i = 0; i < sizeof sizes / sizeof *sizes; i++) {
        multi_agrees(sizes[i].domain, sizes[i].buckets, sizes[i].n);
    }
    multi_known_sums();
    multi_points_above_cells();
    multi_most_buckets();
}

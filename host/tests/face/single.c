/* Single keys: making, one cell, the whole domain, adding. */
#include "face.h"

#include <stdlib.h>
#include <string.h>

/* The length of a single image, 8 bytes and the record. */
size_t single_length(uint64_t size)
{
    size_t words = 0;
    while ((UINT64_C(2) << words) < size) {
        words++;
    }
    return 8 + 56 + 16 * words;
}

/* The share of a cell from the bytes of a record, by the rules of document 01 over morgnet_tree_hash. */
uint64_t share_by_rule(const uint8_t *record, unsigned party, uint64_t index)
{
    const uint64_t size = field(record, 0, 8), last = field(record, 48, 8);
    if (size == 1) {
        return last;
    }
    uint64_t s[2] = {field(record, 8, 8), field(record, 16, 8)}, h[2];
    unsigned height = 1;
    while ((UINT64_C(1) << height) < size) {
        height++;
    }
    for (unsigned level = 0; level + 1 < height; level++) {
        const uint64_t bit = index >> (height - 1 - level) & 1, odd = s[0] & 1;
        morgnet_tree_hash(s, h);
        for (int half = 0; half < 2; half++) {
            s[half] = h[half] ^ (bit ? s[half] : 0) ^ (odd ? field(record, 56 + 16 * level + 8 * (size_t)half, 8) : 0);
        }
    }
    const uint64_t bit = index & 1, odd = s[0] & 1, lcw = field(record, 40, 8) >> bit & 1;
    s[0] ^= bit;
    morgnet_tree_hash(s, h);
    s[0] = h[0] ^ (odd ? field(record, 24, 8) | lcw : 0);
    s[1] = h[1] ^ (odd ? field(record, 32, 8) : 0);
    const uint64_t share = (s[0] >> 1 | s[1] << 63) + (s[0] & 1 ? last : 0);
    return party ? 0 - share : share;
}

/* Makes a pair with too much room, checks the frame, and hands out both images. */
size_t make_single(uint64_t domain, uint64_t point, uint64_t value, uint8_t *image[2])
{
    const size_t wanted = single_length(domain), more = any() % 40;
    const uint64_t needed = domain == 1 ? 1 : 2;
    struct buffer key0 = lend_bytes(wanted + more), key1 = lend_bytes(wanted), answer = lend_cells(2);
    struct buffer words = lend_cells((size_t)(2 * needed + any() % 3));
    ANSWERS(MORGNET_OK, morgnet_single_generate_keys(domain, point, value, cells(&words), words.size / 8, bytes(&key0),
                                                     key0.size, bytes(&key1), key1.size, cells(&answer)));
    CHECK(cells(&answer)[0] == wanted && cells(&answer)[1] == needed && stays_past(&answer, 16));
    CHECK(stays_past(&key0, wanted) && stays_past(&key1, wanted) && stays(&words));
    for (unsigned party = 0; party < 2; party++) {
        image[party] = copy(bytes(party ? &key1 : &key0), wanted);
        CHECK(field(image[party], 0, 4) == party && field(image[party], 4, 4) == 8 &&
              field(image[party], 8, 8) == domain);
        /* the first word, with bit 0 set, is what the seeds differ by; the second is party 0's */
        const uint64_t low = domain == 1 ? 0 : cells(&words)[2] ^ (party ? cells(&words)[0] | 1 : 0);
        const uint64_t high = domain == 1 ? 0 : cells(&words)[3] ^ (party ? cells(&words)[1] : 0);
        CHECK(field(image[party], 16, 8) == low && field(image[party], 24, 8) == high);
    }
    give_back_bytes(&key0);
    give_back_bytes(&key1);
    give_back_cells(&answer);
    give_back_cells(&words);
    return wanted;
}
/* The whole domain of one party's key, adding it and reading single cells of it agree with the rule. */
static void single_reads(const uint8_t *image, size_t length, unsigned party, uint64_t point, struct buffer *out)
{
    const size_t size = out->size / 8 - 3;
    struct buffer table = lend_cells(size), share = lend_cells(1), scratch = lend_cells(2 * size + 5);
    ANSWERS(MORGNET_OK,
            morgnet_single_evaluate_domain(image, length, cells(&scratch), 2 * size + 5, cells(out), size + 3));
    CHECK(stays_past(out, 8 * size) && zeroed(&scratch, 2 * size));
    spoil(&scratch);
    ANSWERS(MORGNET_OK, morgnet_single_add_to(image, length, cells(&scratch), 2 * size, cells(&table), size));
    CHECK(zeroed(&scratch, 2 * size) && stays_past(&table, 8 * size));
    int sums = 1, reads = 1;
    for (size_t i = 0; i < size; i++) {
        sums &= cells(&table)[i] == cells_before(&table)[i] + cells(out)[i];
        sums &= cells(out)[i] == share_by_rule(image + 8, party, i);
        if (i < 50 || i + 50 > size || i == point) {
            reads &= morgnet_single_evaluate_at(image, length, i, cells(&share)) == MORGNET_OK;
            reads &= cells(&share)[0] == cells(out)[i] && stays_past(&share, 8);
        }
    }
    CHECK(sums);
    CHECK(reads);
    give_back_cells(&table);
    give_back_cells(&share);
    give_back_cells(&scratch);
}

/* Both parties' keys read alike in every way, and the shares sum to the point. */
static void single_agrees(uint64_t domain, uint64_t point, uint64_t value)
{
    uint8_t *image[2];
    const size_t size = (size_t)domain, length = make_single(domain, point, value, image);
    struct buffer out[2] = {lend_cells(size + 3), lend_cells(size + 3)};
    for (unsigned party = 0; party < 2; party++) {
        single_reads(image[party], length, party, point, &out[party]);
    }
    int fits = 1;
    for (size_t i = 0; i < size; i++) {
        fits &= cells(&out[0])[i] + cells(&out[1])[i] == (i == point ? value : 0);
    }
    CHECK(fits);
    for (int party = 0; party < 2; party++) {
        free(image[party]);
        give_back_cells(&out[party]);
    }
}

/* An odd hcw is fair, and hides lcw. */
static void single_odd_hcw(void)
{
    uint8_t *image[2];
    const size_t length = make_single(10, 3, 77, image);
    uint64_t share;
    for (uint64_t lcw = 0; lcw < 4; lcw++) {
        image[0][32] |= 1;
        put(image[0], 48, 8, lcw);
        int reads = 1;
        for (uint64_t x = 0; x < 10; x++) {
            reads &= morgnet_single_evaluate_at(image[0], length, x, &share) == MORGNET_OK;
            reads &= share == share_by_rule(image[0] + 8, 0, x);
        }
        CHECK(reads);
    }
    free(image[0]);
    free(image[1]);
}

/* As many cells as there may be. */
static void single_most_cells(void)
{
    uint8_t *image[2];
    uint64_t share[2];
    const size_t length = make_single(MORGNET_SINGLE_CELLS_MAX, MORGNET_SINGLE_CELLS_MAX - 1, 9, image);
    CHECK(length == MORGNET_SINGLE_IMAGE_MAX);
    ANSWERS(MORGNET_OK, morgnet_single_evaluate_at(image[0], length, MORGNET_SINGLE_CELLS_MAX - 1, &share[0]));
    ANSWERS(MORGNET_OK, morgnet_single_evaluate_at(image[1], length, MORGNET_SINGLE_CELLS_MAX - 1, &share[1]));
    CHECK(share[0] + share[1] == 9);
    ANSWERS(MORGNET_INDEX, morgnet_single_evaluate_at(image[1], length, MORGNET_SINGLE_CELLS_MAX, &share[1]));
    free(image[0]);
    free(image[1]);
}

/* Document 01, "Known sums": S 1, beta 5, word low half 7. */
static void single_known_sum(void)
{
    const uint64_t words[2] = {7, 123};
    uint64_t answer[2];
    uint8_t key0[64], key1[64];
    ANSWERS(MORGNET_OK, morgnet_single_generate_keys(1, 0, 5, words, 2, key0, 64, key1, 64, answer));
    CHECK(answer[0] == 64 && answer[1] == 1);
    CHECK(field(key0, 56, 8) == 7 && field(key1, 56, 8) == UINT64_C(18446744073709551614));
}

void test_single(void)
{
    static const uint64_t sizes[] = {1, 2, 3, 4, 5, 7, 8, 9, 100, 1000, 1024, 1025, 4097};
    for (size_t i = 0; i < sizeof sizes / sizeof *sizes; i++) {
        single_agrees(sizes[i], 0, any());
        single_agrees(sizes[i], sizes[i] - 1, any());
        single_agrees(sizes[i], any() % sizes[i], i % 3 ? any() : 0);
    }
    single_odd_hcw();
    single_most_cells();
    single_known_sum();
}

/* What single keys refuse, in which order, and what a refusal leaves. */
#include "face.h"

#include <stdlib.h>
#include <string.h>

/* Each refusal of making, and the one that comes first where two apply. */
static void single_make_refuses(void)
{
    struct buffer key0 = lend_bytes(600), key1 = lend_bytes(600), words = lend_cells(4), answer = lend_cells(2);
    const size_t length = single_length(1000);
    const struct {
        uint64_t domain, point;
        size_t words, key0, key1;
        uint64_t number;
    } cases[] = {
        {0, 0, 4, 600, 600, MORGNET_DOMAIN},
        {MORGNET_SINGLE_CELLS_MAX + 1, 0, 4, 600, 600, MORGNET_DOMAIN},
        {UINT64_MAX, UINT64_MAX, 0, 0, 0, MORGNET_DOMAIN},
        {1000, 1000, 4, 600, 600, MORGNET_POINT},
        {1000, UINT64_MAX, 0, 0, 0, MORGNET_POINT},
        {1, 1, 4, 600, 600, MORGNET_POINT},
        {1000, 999, 3, 600, 600, MORGNET_WORDS},
        {1000, 999, 0, 0, 0, MORGNET_WORDS},
        {1, 0, 1, 600, 600, MORGNET_WORDS},
        {1000, 999, 4, length - 1, 600, MORGNET_ROOM},
        {1000, 999, 4, 600, length - 1, MORGNET_ROOM},
        {1, 0, 2, 0, 64, MORGNET_ROOM},
        {MORGNET_SINGLE_CELLS_MAX, MORGNET_SINGLE_CELLS_MAX - 1, 4, 591, 600, MORGNET_ROOM},
    };
    for (size_t i = 0; i < sizeof cases / sizeof *cases; i++) {
        ANSWERS(cases[i].number,
                morgnet_single_generate_keys(cases[i].domain, cases[i].point, 5, cells(&words), cases[i].words,
                                             bytes(&key0), cases[i].key0, bytes(&key1), cases[i].key1, cells(&answer)));
        CHECK(stays(&key0) && stays(&key1) && stays(&words) && zeroed(&answer, 2));
        spoil(&answer);
    }
    ANSWERS(MORGNET_OK, morgnet_single_generate_keys(1000, 999, 5, cells(&words), 4, bytes(&key0), length, bytes(&key1),
                                                     length, cells(&answer)));
    CHECK(stays_past(&key0, length) && stays_past(&key1, length));
    give_back_bytes(&key0);
    give_back_bytes(&key1);
    give_back_cells(&words);
    give_back_cells(&answer);
}

/* A bad image is Key in every reading, whatever else is wrong, and everything lent stays. */
static void single_key_is_bad(const uint8_t *image, size_t length)
{
    struct buffer share = lend_cells(1), scratch = lend_cells(40), table = lend_cells(10);
    uint8_t *own = copy(image, length);
    ANSWERS(MORGNET_KEY, morgnet_single_evaluate_at(own, length, UINT64_MAX, cells(&share)));
    CHECK(zeroed(&share, 1));
    ANSWERS(MORGNET_KEY, morgnet_single_evaluate_domain(own, length, cells(&scratch), 0, cells(&table), 0));
    ANSWERS(MORGNET_KEY, morgnet_single_add_to(own, length, cells(&scratch), 40, cells(&table), 10));
    ANSWERS(MORGNET_KEY, morgnet_single_add_to(own, length, cells(&scratch), 0, cells(&table), 0));
    CHECK(stays(&scratch) && stays(&table));
    free(own);
    give_back_cells(&share);
    give_back_cells(&scratch);
    give_back_cells(&table);
}

/* Each refusal of reading and adding a good key, and the one that comes first where two apply. */
static void single_read_refuses(void)
{
    uint8_t *image[2];
    const size_t length = make_single(10, 3, 77, image);
    struct buffer share = lend_cells(1), scratch = lend_cells(30), table = lend_cells(20);
    const uint8_t *key = image[1];

    ANSWERS(MORGNET_INDEX, morgnet_single_evaluate_at(key, length, 10, cells(&share)));
    CHECK(zeroed(&share, 1));
    spoil(&share);
    ANSWERS(MORGNET_INDEX, morgnet_single_evaluate_at(key, length, UINT64_MAX, cells(&share)));
    CHECK(zeroed(&share, 1));

    ANSWERS(MORGNET_SCRATCH, morgnet_single_evaluate_domain(key, length, cells(&scratch), 19, cells(&table), 20));
    ANSWERS(MORGNET_SCRATCH, morgnet_single_evaluate_domain(key, length, cells(&scratch), 19, cells(&table), 9));
    ANSWERS(MORGNET_ROOM, morgnet_single_evaluate_domain(key, length, cells(&scratch), 20, cells(&table), 9));
    ANSWERS(MORGNET_ROOM, morgnet_single_evaluate_domain(key, length, cells(&scratch), 20, cells(&table), 0));
    ANSWERS(MORGNET_TABLE, morgnet_single_add_to(key, length, cells(&scratch), 30, cells(&table), 11));
    ANSWERS(MORGNET_TABLE, morgnet_single_add_to(key, length, cells(&scratch), 30, cells(&table), 9));
    ANSWERS(MORGNET_TABLE, morgnet_single_add_to(key, length, cells(&scratch), 0, cells(&table), 9));
    ANSWERS(MORGNET_SCRATCH, morgnet_single_add_to(key, length, cells(&scratch), 19, cells(&table), 10));
    CHECK(stays(&scratch) && stays(&table));
    free(image[0]);
    free(image[1]);
    give_back_cells(&share);
    give_back_cells(&scratch);
    give_back_cells(&table);
}

/* Every layout rule, one at a time. */
static void single_layout(void)
{
    static const struct broken rules[] = {
        {0, 4, 2},
        {0, 4, 0x10001},
        {4, 4, 7},
        {4, 4, 9},
        {4, 4, 72},
        {8, 8, 0},
        {8, 8, MORGNET_SINGLE_CELLS_MAX + 1},
        {8, 8, UINT64_MAX},
        {8, 8, 8},
        {8, 8, 17},
        {48, 8, 4},
        {48, 8, UINT64_C(1) << 63},
    };
    uint8_t *image[2];
    const size_t length = make_single(10, 3, 77, image);
    for (size_t cut = 0; cut < length; cut++) {
        single_key_is_bad(image[1], cut);
    }
    uint8_t *bad = room(length + 1);
    for (size_t i = 0; i < sizeof rules / sizeof *rules; i++) {
        memcpy(bad, image[1], length);
        put(bad, rules[i].at, rules[i].count, rules[i].n);
        single_key_is_bad(bad, length);
    }
    memcpy(bad, image[1], length);
    bad[length] = 0;
    single_key_is_bad(bad, length + 1);
    free(bad);
    free(image[0]);
    free(image[1]);
}

/* A record above the limit, as long as its size asks. */
static void single_too_many_cells(void)
{
    enum { LENGTH = 8 + 56 + 16 * 34 };
    uint8_t bad[LENGTH] = {0};
    put(bad, 4, 4, 8);
    put(bad, 8, 8, MORGNET_SINGLE_CELLS_MAX + 1);
    single_key_is_bad(bad, LENGTH);
}

/* One cell: seed, hcw and lcw are zeros. */
static void single_one_cell(void)
{
    uint8_t *image[2];
    const size_t length = make_single(1, 0, 5, image);
    for (size_t at = 16; at < 56; at++) {
        uint8_t *bad = copy(image[0], length);
        bad[at] = 1;
        single_key_is_bad(bad, length);
        free(bad);
    }
    free(image[0]);
    free(image[1]);
}

void test_single_refusals(void)
{
    single_make_refuses();
    single_read_refuses();
    single_layout();
    single_too_many_cells();
    single_one_cell();
}

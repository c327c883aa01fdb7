/* Placement of points into buckets. */
#include "face.h"

#include <string.h>

/* The walk of document 01 over morgnet_bucket. Answers the evictions, or UINT64_MAX where it gives up. */
uint64_t walk(uint64_t buckets, const uint8_t hash_keys[48], const uint64_t *points, size_t n, uint64_t *table,
              uint64_t *counters)
{
    uint64_t evictions = 0;
    memset(table, 0, 8 * (size_t)buckets);
    memset(counters, 0, 8 * n);
    for (size_t p = 0; p < n; p++) {
        uint64_t hand = p + 1, tries = 0;
        while (hand != 0) {
            uint64_t b;
            uint64_t *counter = &counters[hand - 1];
            morgnet_bucket(hash_keys + 16 * *counter, buckets, points[hand - 1], &b);
            *counter = (*counter + 1) % 3;
            const uint64_t held = table[b];
            table[b] = hand;
            hand = held;
            if (held != 0) {
                evictions++;
                if (++tries == n + 1) {
                    return UINT64_MAX;
                }
            }
        }
    }
    return evictions;
}
/* Points, hash keys and the buckets for them. */
struct list {
    uint64_t domain, buckets, points[40];
    size_t n, needed;
    uint8_t hash_keys[48];
};

static struct list draw_list(size_t most)
{
    struct list l = {.n = 1 + any() % most};
    l.buckets = l.n + any() % 8;
    l.needed = (size_t)l.buckets + l.n;
    any_bytes(l.hash_keys, 48);
    l.points[0] = any() % 5;
    for (size_t i = 1; i < l.n; i++) {
        l.points[i] = l.points[i - 1] + 1 + any() % 100;
    }
    l.domain = l.points[l.n - 1] + 1 + any() % 3;
    return l;
}

/* The call does as the rule does. Says whether the points were placed. */
static int places(const struct list *l, struct buffer *scratch, struct buffer *evictions)
{
    uint64_t table[40], counters[40];
    const uint64_t wanted = walk(l->buckets, l->hash_keys, l->points, l->n, table, counters);
    const int given_up = wanted == UINT64_MAX;
    ANSWERS(given_up ? MORGNET_PLACE : MORGNET_OK,
            morgnet_place(l->domain, l->buckets, l->hash_keys, l->points, l->n, cells(scratch),
                          l->needed + (given_up ? 3 : 0), cells(evictions)));
    if (given_up) {
        CHECK(zeroed(scratch, l->needed) && zeroed(evictions, 1));
        return 0;
    }
    CHECK(memcmp(cells(scratch), table, 8 * (size_t)l->buckets) == 0);
    CHECK(memcmp(cells(scratch) + l->buckets, counters, 8 * l->n) == 0);
    CHECK(stays_past(scratch, 8 * l->needed) && cells(evictions)[0] == wanted && stays_past(evictions, 8));
    return 1;
}

/* Each refusal but Place, and the one that comes first where two apply. */
static void place_refuses(const struct list *l, struct buffer *scratch, struct buffer *evictions)
{
    const uint64_t last = l->points[l->n - 1];
    const struct {
        uint64_t domain, buckets;
        size_t n, scratch;
        uint64_t number;
    } bad[] = {
        {0, l->buckets, l->n, l->needed, MORGNET_DOMAIN},
        {MORGNET_MULTI_CELLS_MAX + 1, 0, 0, 0, MORGNET_DOMAIN},
        {l->domain, 0, l->n, l->needed, MORGNET_BUCKETS},
        {l->domain, MORGNET_BUCKETS_MAX + 1, 0, 0, MORGNET_BUCKETS},
        {l->domain, l->buckets, 0, l->needed, MORGNET_COUNT},
        {l->domain, l->n - 1, l->n, 0, l->n == 1 ? MORGNET_BUCKETS : MORGNET_COUNT},
        {last, l->buckets, l->n, 0, last == 0 ? MORGNET_DOMAIN : MORGNET_POINT},
        {l->domain, l->buckets, l->n, l->needed - 1, MORGNET_SCRATCH},
    };
    for (size_t i = 0; i < sizeof bad / sizeof *bad; i++) {
        ANSWERS(bad[i].number, morgnet_place(bad[i].domain, bad[i].buckets, l->hash_keys, l->points, bad[i].n,
                                             cells(scratch), bad[i].scratch, cells(evictions)));
        CHECK(stays(scratch) && zeroed(evictions, 1));
        spoil(evictions);
    }
}

void test_place(void)
{
    unsigned given_up = 0, placed = 0;
    for (int round = 0; round < 400; round++) {
        const struct list l = draw_list(round < 200 ? 4 : 30);
        struct buffer scratch = lend_cells(l.needed + 3), evictions = lend_cells(1);
        if (places(&l, &scratch, &evictions)) {
            placed++;
        } else {
            given_up++;
        }
        spoil(&scratch);
        spoil(&evictions);
        place_refuses(&l, &scratch, &evictions);
        give_back_cells(&scratch);
        give_back_cells(&evictions);
    }
    CHECK(given_up > 10 && placed > 100);
}

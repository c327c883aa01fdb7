/* How much stack the calls use: each runs on a stack of our own, filled before, and what it changed is measured. */
#define _XOPEN_SOURCE 700 /* for pthread_attr_setstack */
#include "face.h"

#include <pthread.h>
#include <stdio.h>
#include <stdlib.h>
#include <string.h>

enum { STACK = 1 << 18, FILL = 0x5a, MOST = 8192, DOMAIN = 300, BUCKETS = 20, CALLS = 15 };

/* What the calls are given; which call runs; and where the stack stood when it began. */
struct work {
    struct posting p;
    uint8_t *single[2], *multi[2], block[16];
    size_t single_length, multi_length;
    uint64_t words[4 * BUCKETS], scratch[6 * DOMAIN + 2 * BUCKETS], cells[DOMAIN], answer[3], number;
    uint8_t key[2][MORGNET_MULTI_IMAGE_MAX(BUCKETS)];
    int which;
    uintptr_t began;
};

static void run_single(struct work *w)
{
    const size_t room = sizeof w->scratch / 8, bytes = sizeof w->key[0];
    switch (w->which) {
    case 0:
        w->number = morgnet_single_generate_keys(MORGNET_SINGLE_CELLS_MAX, 5, 6, w->words, 4, w->key[0], bytes,
                                                 w->key[1], bytes, w->answer);
        break;
    case 1:
        w->number = morgnet_single_evaluate_at(w->single[0], w->single_length, 7, w->answer);
        break;
    case 2:
        w->number = morgnet_single_evaluate_domain(w->single[0], w->single_length, w->scratch, room, w->cells, DOMAIN);
        break;
    default:
        w->number = morgnet_single_add_to(w->single[1], w->single_length, w->scratch, room, w->cells, DOMAIN);
    }
}

static void run_multi(struct work *w)
{
    const struct posting *p = &w->p;
    const size_t room = sizeof w->scratch / 8, bytes = sizeof w->key[0];
    switch (w->which) {
    case 4:
        w->number = morgnet_multi_generate_keys(DOMAIN, BUCKETS, p->hash_keys, p->points, p->n, p->values, p->n, w->words,
                                                sizeof w->words / 8, w->scratch, room, w->key[0], bytes, w->key[1],
                                                bytes, w->answer);
        break;
    case 5:
        w->number = morgnet_multi_evaluate_at(w->multi[0], w->multi_length, 7, w->scratch, room, w->answer);
        break;
    case 6:
        w->number = morgnet_multi_evaluate_domain(w->multi[0], w->multi_length, w->scratch, room, w->cells, DOMAIN);
        break;
    case 7:
        w->number = morgnet_multi_add_to(w->multi[1], w->multi_length, w->scratch, room, w->cells, DOMAIN);
        break;
    default:
        w->number = morgnet_multi_record(w->multi[0], w->multi_length, 3, w->answer);
    }
}

static void run_layer(struct work *w)
{
    const struct posting *p = &w->p;
    switch (w->which) {
    case 9:
        w->number = morgnet_height(MORGNET_SINGLE_CELLS_MAX, w->answer);
        break;
    case 10:
        w->number = morgnet_bucket(p->hash_keys, BUCKETS, 7, w->answer);
        break;
    case 11:
        w->number = morgnet_place(DOMAIN, BUCKETS, p->hash_keys, p->points, p->n, w->scratch, sizeof w->scratch / 8,
                                  w->answer);
        break;
    case 12:
        morgnet_aes_encrypt(p->hash_keys, w->block, w->key[0]);
        break;
    case 13:
        morgnet_hash_ccr(p->hash_keys, w->words, w->answer);
        break;
    default:
        morgnet_tree_hash(w->words, w->answer);
    }
}

static void *runs(void *given)
{
    struct work *w = given;
    char here;
    w->began = (uintptr_t)&here;
    (w->which < 4 ? run_single : w->which < 9 ? run_multi : run_layer)(w);
    return NULL;
}

/* The bytes between where the stack stood and the lowest that changed. */
static size_t used(struct work *w, uint8_t *stack)
{
    pthread_t thread;
    pthread_attr_t how;
    memset(stack, FILL, STACK);
    w->number = 0;
    int runs_well = pthread_attr_init(&how) == 0 && pthread_attr_setstack(&how, stack, STACK) == 0
                    && pthread_create(&thread, &how, runs, w) == 0 && pthread_join(thread, NULL) == 0;
    CHECK(runs_well && w->number == MORGNET_OK);
    pthread_attr_destroy(&how);
    size_t low = 0;
    while (low < STACK && stack[low] == FILL) {
        low++;
    }
    return (size_t)(w->began - (uintptr_t)stack) - low;
}

void test_stack(void)
{
    struct work *w = room(sizeof *w);
    uint8_t *stack = aligned_alloc(4096, STACK);
    size_t most = 0;
    CHECK(stack != NULL);
    memset(w, 0, sizeof *w);
    w->p = draw(DOMAIN, BUCKETS, 8);
    w->multi_length = make_multi(&w->p, w->multi);
    w->single_length = make_single(DOMAIN, 7, 1, w->single);
    for (w->which = 0; w->which < CALLS; w->which++) {
        const size_t now = used(w, stack);
        CHECK(now > 0 && now <= MOST);
        most = now > most ? now : most;
    }
    printf("face: the most stack that a call used: %lu bytes\n", (unsigned long)most);
    for (int party = 0; party < 2; party++) {
        free(w->multi[party]);
        free(w->single[party]);
    }
    free(stack);
    free(w);
}

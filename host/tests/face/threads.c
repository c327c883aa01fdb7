/* Many calls at once. */
#include "face.h"

#include <pthread.h>
#include <stdlib.h>
#include <string.h>

enum { THREADS = 8, DOMAIN = 2000, BUCKETS = 50 };

struct job {
    const uint8_t *multi, *single;
    size_t multi_length, single_length;
    uint64_t *table;
    uint64_t refused;
};

/* The same two keys, over and over, into the thread's own table. */
static void *adds(void *given)
{
    struct job *job = given;
    uint64_t *scratch = room(8 * MORGNET_MULTI_SCRATCH(DOMAIN, BUCKETS));
    for (int i = 0; i < 5; i++) {
        job->refused |= morgnet_multi_add_to(job->multi, job->multi_length, scratch,
                                             (size_t)MORGNET_MULTI_SCRATCH(DOMAIN, BUCKETS), job->table, DOMAIN);
        job->refused |= morgnet_single_add_to(job->single, job->single_length, scratch,
                                              (size_t)MORGNET_SINGLE_SCRATCH(DOMAIN), job->table, DOMAIN);
    }
    free(scratch);
    return NULL;
}

void test_threads(void)
{
    const struct posting p = draw(DOMAIN, BUCKETS, 20);
    uint8_t *multi[2], *single[2];
    const size_t multi_length = make_multi(&p, multi), single_length = make_single(DOMAIN, 7, 1, single);
    struct job jobs[THREADS + 1];
    pthread_t threads[THREADS];
    for (int i = 0; i <= THREADS; i++) {
        jobs[i] = (struct job){multi[1], single[1], multi_length, single_length, room(8 * DOMAIN), 0};
        memset(jobs[i].table, 0, 8 * DOMAIN);
    }
    for (int i = 0; i < THREADS; i++) {
        CHECK(pthread_create(&threads[i], NULL, adds, &jobs[i]) == 0);
    }
    adds(&jobs[THREADS]);
    for (int i = 0; i < THREADS; i++) {
        pthread_join(threads[i], NULL);
        CHECK(jobs[i].refused == 0 && memcmp(jobs[i].table, jobs[THREADS].table, 8 * DOMAIN) == 0);
    }
    for (int i = 0; i <= THREADS; i++) {
        free(jobs[i].table);
    }
    for (int party = 0; party < 2; party++) {
        free(multi[party]);
        free(single[party]);
    }
}

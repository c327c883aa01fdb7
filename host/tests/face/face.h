/*
 * Every call of include/morgnet.h, from C: what it answers, every refusal in its order, and what each leaves. Every
 * buffer stands between guard bytes and is longer than needed where it may be; results hold junk before each call.
 *
 *   gcc -std=c11 -Wall -Wextra -Werror -pedantic -pthread -I include host/tests/face/?*.c target/staticlib/libmorgnet.a
 */
#ifndef FACE_H
#define FACE_H

#include "morgnet.h"

/* ---- checks: each counts, and one that fails is told with its line */

extern unsigned long passed, failed;

void check_at(const char *file, int line, int holds, const char *what);
void same_at(const char *file, int line, uint64_t got, uint64_t wanted, const char *what);

#define CHECK(fact) check_at(__FILE__, __LINE__, (fact), #fact)
#define ANSWERS(number, call) same_at(__FILE__, __LINE__, (call), (number), #call)

/* ---- numbers that look like chance, the same in every run */

uint64_t any(void);
void any_bytes(uint8_t *to, size_t count);

/* ---- buffers between guards */

enum { GUARD = 64 };

/* A buffer of size bytes between two guards, with a copy of what it held. */
struct buffer {
    uint8_t *whole;
    uint8_t *before;
    size_t size;
};

void *room(size_t size);
struct buffer lend_cells(size_t count);
struct buffer lend_bytes(size_t count);
uint8_t *bytes(const struct buffer *b);
uint64_t *cells(const struct buffer *b);
const uint64_t *cells_before(const struct buffer *b);
int stays_past(const struct buffer *b, size_t written);
int stays(const struct buffer *b);
int zeroed(const struct buffer *b, size_t count);
void settle(struct buffer *b);
void spoil(struct buffer *b);
void give_back_cells(struct buffer *b);
void give_back_bytes(struct buffer *b);

/* ---- fields of an image */

uint64_t field(const uint8_t *image, size_t at, size_t count);
void put(uint8_t *image, size_t at, size_t count, uint64_t n);
uint8_t *copy(const uint8_t *image, size_t length);

/* Numbers put into an image, one at a time, each of which breaks a rule of its layout. */
struct broken {
    size_t at, count;
    uint64_t n;
};

/* ---- keys and postings */

size_t single_length(uint64_t size);
uint64_t share_by_rule(const uint8_t *record, unsigned party, uint64_t index);
size_t make_single(uint64_t domain, uint64_t point, uint64_t value, uint8_t *image[2]);

uint64_t walk(uint64_t buckets, const uint8_t hash_keys[48], const uint64_t *points, size_t n, uint64_t *table,
              uint64_t *counters);

/* A posting with hash keys under which it can be placed. */
struct posting {
    uint64_t domain, buckets, points[64], values[64];
    size_t n;
    uint8_t hash_keys[48];
};

struct posting draw(uint64_t domain, uint64_t buckets, size_t n);
void wanted_of(const struct posting *p, uint64_t wanted[3]);
size_t make_multi(const struct posting *p, uint8_t *image[2]);

/* ---- the tests */

void test_height(void);
void test_aes(void);
void test_hashes(void);
void test_single(void);
void test_single_refusals(void);
void test_place(void);
void test_multi(void);
void test_multi_refusals(void);
void test_threads(void);
void test_stack(void);

#endif

/* What the tests of the C face share: checks, numbers that look like chance, buffers between guards, fields. */
#include "face.h"

#include <inttypes.h>
#include <stdio.h>
#include <stdlib.h>
#include <string.h>

/* ---- checks */

unsigned long passed, failed;

void check_at(const char *file, int line, int holds, const char *what)
{
    if (holds) {
        passed++;
    } else {
        failed++;
        printf("%s:%d: fails: %s\n", file, line, what);
    }
}

void same_at(const char *file, int line, uint64_t got, uint64_t wanted, const char *what)
{
    if (got == wanted) {
        passed++;
    } else {
        failed++;
        printf("%s:%d: %s answers %" PRIu64 ", wanted %" PRIu64 "\n", file, line, what, got, wanted);
    }
}

/* ---- numbers that look like chance, the same in every run */

static uint64_t state = 88172645463325252u;

uint64_t any(void)
{
    state ^= state << 13;
    state ^= state >> 7;
    state ^= state << 17;
    return state * 2685821657736338717u;
}

void any_bytes(uint8_t *to, size_t count)
{
    for (size_t i = 0; i < count; i++) {
        to[i] = (uint8_t)(any() >> 32);
    }
}

/* ---- buffers between guards */

void *room(size_t size)
{
    void *p = malloc(size ? size : 1);
    if (p == NULL) {
        printf("face: no memory\n");
        exit(2);
    }
    return p;
}

/* A buffer of junk. Bytes may stand anywhere, so they begin at an odd address; numbers are aligned. */
static struct buffer lend(size_t size, int aligned)
{
    struct buffer b;
    b.size = size;
    b.whole = room(size + 2 * GUARD + 1);
    b.before = room(size + 2 * GUARD + 1);
    any_bytes(b.whole, size + 2 * GUARD + 1);
    memcpy(b.before, b.whole, size + 2 * GUARD + 1);
    if (!aligned) {
        b.whole++;
        b.before++;
    }
    return b;
}

struct buffer lend_cells(size_t count) { return lend(8 * count, 1); }
struct buffer lend_bytes(size_t count) { return lend(count, 0); }
uint8_t *bytes(const struct buffer *b) { return b->whole + GUARD; }
uint64_t *cells(const struct buffer *b) { return (uint64_t *)(void *)(b->whole + GUARD); }
const uint64_t *cells_before(const struct buffer *b) { return (const uint64_t *)(const void *)(b->before + GUARD); }

/* Nothing changed but, perhaps, the first `written` bytes. */
int stays_past(const struct buffer *b, size_t written)
{
    return memcmp(b->whole, b->before, GUARD) == 0 &&
           memcmp(b->whole + GUARD + written, b->before + GUARD + written, b->size - written + GUARD) == 0;
}

int stays(const struct buffer *b) { return stays_past(b, 0); }

/* The first `count` cells are zeros, and nothing else changed. */
int zeroed(const struct buffer *b, size_t count)
{
    for (size_t i = 0; i < count; i++) {
        if (cells(b)[i] != 0) {
            return 0;
        }
    }
    return stays_past(b, 8 * count);
}

/* What it holds now is what it held. */
void settle(struct buffer *b) { memcpy(b->before, b->whole, b->size + 2 * GUARD); }

/* Junk again, after a call that changed it. */
void spoil(struct buffer *b)
{
    any_bytes(bytes(b), b->size);
    settle(b);
}

static void give_back(struct buffer *b, int aligned)
{
    free(b->whole - !aligned);
    free(b->before - !aligned);
}

void give_back_cells(struct buffer *b) { give_back(b, 1); }
void give_back_bytes(struct buffer *b) { give_back(b, 0); }

/* ---- fields of an image */

uint64_t field(const uint8_t *image, size_t at, size_t count)
{
    uint64_t n = 0;
    while (count-- > 0) {
        n = n << 8 | image[at + count];
    }
    return n;
}

void put(uint8_t *image, size_t at, size_t count, uint64_t n)
{
    for (size_t i = 0; i < count; i++) {
        image[at + i] = (uint8_t)(n >> (8 * i));
    }
}

/* An image of its own, so that reading past it would be seen by a memory checker. */
uint8_t *copy(const uint8_t *image, size_t length)
{
    uint8_t *to = room(length);
    memcpy(to, image, length);
    return to;
}

/*
 * Morgnet: point functions shared between two parties.
 *
 * A table has cells 0, 1, 2 .. A posting names some cells and a value for each; every other cell's value is 0. Making
 * turns a posting into two KEYS. Each key gives every cell a SHARE, and the two shares of a cell add up, modulo 2^64,
 * to the cell's value. A partner adds the shares of its key to its own table of uint64_t; the two partners' tables,
 * added cell by cell, hold the sums of all postings.
 *
 *   single key   one point, tables up to 2^34 cells
 *   multi key    1 to 65,535 points, tables up to 2^32 - 1 cells; it is cut into BUCKETS, at least one a point
 *
 * What is proved. What each call answers, and every element of every buffer after it, on success and on refusal, is
 * proved to be what stands here, for every value of its arguments; and that the shares add up (docs/PROMISES.md). Not
 * proved: the compiler's back end, and what is said of secrets, time and stack.
 *
 * Linking: libmorgnet.a (made by 'tools/library', x86-64 Linux), and memcpy and memset of the C library.
 *
 * Calls. A call returns 0 for success, else a refusal of the enum below: the first that applies, in the order that the
 * call lists. Nothing is allocated, opened, printed or kept between calls; no call uses more than some 8 KiB of stack.
 * Calls share nothing, so any number of them may run at once, in any threads, as long as none of them uses a buffer
 * that another of them writes.
 *
 * Buffers. A buffer is a pointer and its length in ELEMENTS (not bytes); an array in brackets has the length that
 * stands there. Nothing tests what follows; the caller owes it:
 *   - a buffer has the length that is passed, and no pointer is null, also where the length is 0;
 *   - a pointer to uint64_t is aligned for uint64_t (8 bytes); bytes may stand anywhere;
 *   - a buffer that the call writes overlaps no other buffer of that call. Those that it only reads may overlap.
 * Random words, scratch, outputs and key buffers that are written may be longer than the call needs: it takes the part
 * that it needs, from the start, and the rest stays. The others are exact:
 *   - a KEY that is read has the length of its image, and one byte more is a refusal: cut a key buffer to the length
 *     that making answered before it is read;
 *   - a TABLE has one element for each cell;
 *   - there is one value for each point.
 *
 * What a refused call leaves. Results (answer, share, part, ..) are written on every return, and are zeros on a
 * refusal. Key buffers, outputs and tables are then as they were, to the last byte. Where a refusal says so, the
 * elements of scratch that the call needs are zeros; every other refusal leaves scratch as it came.
 *
 * Scratch may hold anything before a call. After a success the elements that the call needs are zeros, so that nothing
 * of a key stays there (morgnet_place alone gives its result in it).
 *
 * Images. A key is a string of bytes, its image. Whoever is sent one finds in its front, little-endian, what scratch
 * and table have to be; the rest is the library's:
 *
 *                   bytes 0 to 3   4 to 7              8 to 15           16 to 19           20 to 23
 *   single image    party, 0 or 1  the number 8        number of cells
 *   multi image     party, 0 or 1  number of buckets   number of cells   number of points   the number 72
 *
 * A multi image has a RECORD for each bucket that has entries: a small key over them (morgnet_multi_record).
 *
 * What is secret. Random words are secret, uniform, and used once: whoever knows them, or both keys, knows the posting.
 * Hash keys have to be fresh, not secret; they stand in both images. One key alone is meant to tell nothing of a
 * posting but the numbers in its front; that rests on the scheme and on AES. TIME DEPENDS ON SECRETS: in this release
 * the cipher looks bytes up in a table of 256 by bytes of seeds, so how long a call takes, and what it leaves in the
 * processor's caches, depends on them. Whoever must not learn a key must not share a processor with these calls.
 *
 * Example. One posting over 1000 cells, added by one partner:
 *
 *   enum { CELLS = 1000, BUCKETS = 52, POINTS = 2 };
 *   uint64_t points[POINTS] = {17, 404}, values[POINTS] = {5, 6}, words[4 * BUCKETS], answer[3], number;
 *   uint8_t hash_keys[48], key0[MORGNET_MULTI_IMAGE_MAX(BUCKETS)], key1[MORGNET_MULTI_IMAGE_MAX(BUCKETS)];
 *   uint64_t scratch[MORGNET_MULTI_MAKE_SCRATCH(BUCKETS, POINTS)];
 *   if (getrandom(words, sizeof words, 0) != (ssize_t)sizeof words) {  // two random words for each bucket
 *       abort();
 *   }
 *   do {
 *       if (getrandom(hash_keys, 48, 0) != 48) {
 *           abort();
 *       }
 *       number = morgnet_multi_generate_keys(CELLS, BUCKETS, hash_keys, points, POINTS, values, POINTS, words,
 *                                            4 * BUCKETS, scratch, MORGNET_MULTI_MAKE_SCRATCH(BUCKETS, POINTS),
 *                                            key0, sizeof key0, key1, sizeof key1, answer);
 *   } while (number == MORGNET_PLACE);
 *   // The first answer[0] bytes of key0 go to one partner, those of key1 to the other, who has a table of 1000 cells:
 *   uint64_t *room = malloc(8 * MORGNET_MULTI_SCRATCH(CELLS, BUCKETS));
 *   number = morgnet_multi_add_to(key1, answer[0], room, MORGNET_MULTI_SCRATCH(CELLS, BUCKETS), table, CELLS);
 *   free(room);
 */
#ifndef MORGNET_H
#define MORGNET_H

#include <stddef.h>
#include <stdint.h>

#ifdef __cplusplus
extern "C" {
#endif

/* What a call returns. */
enum morgnet_answer {
    MORGNET_OK       = 0,
    MORGNET_DOMAIN   = 1,  /* the number of cells is 0 or above the limit */
    MORGNET_BUCKETS  = 2,  /* the number of buckets is 0 or above 65,535 */
    MORGNET_COUNT    = 3,  /* there are no points, more points than buckets, or not as many values as points */
    MORGNET_POINT    = 4,  /* a point is not below the number of cells, or not above the point before it */
    MORGNET_SCRATCH  = 5,  /* scratch is shorter than needed */
    MORGNET_PLACE    = 6,  /* the points did not fit into the buckets under these hash keys: draw others */
    MORGNET_WORDS    = 7,  /* there are too few random words */
    MORGNET_ROOM     = 8,  /* a key buffer or an output is too short */
    MORGNET_KEY      = 9,  /* the bytes are no key image: damaged, cut, longer than the image, or of the other kind */
    MORGNET_INDEX    = 10, /* the cell is not below the number of cells, or the bucket not below that of buckets */
    MORGNET_TABLE    = 11, /* the table has not as many elements as the key has cells */
    MORGNET_MISMATCH = 12  /* a record has not the size that the hash keys give its bucket: damaged or forged */
};

/* Limits. */
#define MORGNET_SINGLE_CELLS_MAX UINT64_C(17179869184) /* 2^34 */
#define MORGNET_MULTI_CELLS_MAX  UINT64_C(4294967295)  /* 2^32 - 1 */
#define MORGNET_BUCKETS_MAX      UINT64_C(65535)

/* Room in bytes that is enough for every image. The exact length is in the answer. */
#define MORGNET_SINGLE_IMAGE_MAX         UINT64_C(592)
#define MORGNET_MULTI_IMAGE_MAX(buckets) (72 + 592 * (uint64_t)(buckets))

/* Scratch that a call needs, in elements of 8 bytes. */
#define MORGNET_SINGLE_SCRATCH(cells)               (2 * (uint64_t)(cells))
#define MORGNET_MULTI_MAKE_SCRATCH(buckets, points) (4 * (uint64_t)(buckets) + (uint64_t)(points))
#define MORGNET_MULTI_AT_SCRATCH(buckets)           ((uint64_t)(buckets))
#define MORGNET_MULTI_SCRATCH(cells, buckets)       (6 * (uint64_t)(cells) + 2 * (uint64_t)(buckets))
#define MORGNET_PLACE_SCRATCH(buckets, points)      ((uint64_t)(buckets) + (uint64_t)(points))

/* ---- single keys */

/*
 * Make the two keys of one point.
 *
 *   domain  in    number of cells, 1 to 2^34
 *   point   in    the cell, below domain
 *   value   in    its value, any
 *   words   in    random words of two elements each, low half first: 1 word where domain is 1, else 2 words.
 *                 An odd last element is ignored.
 *   key0    out   party 0's image; MORGNET_SINGLE_IMAGE_MAX bytes are always enough
 *   key1    out   party 1's image, of the same length
 *   answer  out   [0] image length in bytes (64 for 1 or 2 cells, 16 more for each doubling), [1] words used
 *
 * Returns   MORGNET_OK: both images are written.
 *           MORGNET_DOMAIN, MORGNET_POINT (point is not below domain), MORGNET_WORDS, MORGNET_ROOM (either key buffer),
 *           in this order: both key buffers are as they were.
 */
uint64_t morgnet_single_generate_keys(uint64_t domain, uint64_t point, uint64_t value,
                                      const uint64_t *words, size_t words_len,
                                      uint8_t *key0, size_t key0_len,
                                      uint8_t *key1, size_t key1_len,
                                      uint64_t answer[2]);

/*
 * Read one cell's share.
 *
 *   key     in    an image, of exactly its length
 *   index   in    the cell
 *   share   out   its share
 *
 * Returns   MORGNET_OK. MORGNET_KEY, MORGNET_INDEX, in this order.
 */
uint64_t morgnet_single_evaluate_at(const uint8_t *key, size_t key_len, uint64_t index, uint64_t *share);

/*
 * Read every cell's share.
 *
 *   key      in      an image, of exactly its length; S below is its number of cells
 *   scratch  work    at least MORGNET_SINGLE_SCRATCH(S) = 2 S elements
 *   out      out     at least S elements; the first S are the shares of cells 0 to S - 1, the others stay
 *
 * Returns   MORGNET_OK: out is written, 2 S elements of scratch are zeros.
 *           MORGNET_KEY, MORGNET_SCRATCH, MORGNET_ROOM, in this order: out and scratch are as they were.
 */
uint64_t morgnet_single_evaluate_domain(const uint8_t *key, size_t key_len,
                                        uint64_t *scratch, size_t scratch_len,
                                        uint64_t *out, size_t out_len);

/*
 * Add a key to a table: each cell becomes itself plus its share, modulo 2^64.
 *
 *   key      in        an image, of exactly its length; S below is its number of cells
 *   scratch  work      at least MORGNET_SINGLE_SCRATCH(S) = 2 S elements
 *   table    in, out   exactly S elements
 *
 * Returns   MORGNET_OK: the shares are added, 2 S elements of scratch are zeros.
 *           MORGNET_KEY, MORGNET_TABLE, MORGNET_SCRATCH, in this order: table and scratch are as they were.
 */
uint64_t morgnet_single_add_to(const uint8_t *key, size_t key_len,
                               uint64_t *scratch, size_t scratch_len,
                               uint64_t *table, size_t table_len);

/* ---- multi keys */

/*
 * Make the two keys of a posting.
 *
 *   domain     in     number of cells, D: 1 to 2^32 - 1
 *   buckets    in     number of buckets, B: 1 to 65,535, at least the number of points. The more, the seldomer
 *                     MORGNET_PLACE, and the longer the image. 9 buckets for 5 points and 48 more is a good choice:
 *                     measured, MORGNET_PLACE then came once in 114,000 draws of hash keys for 2 points, and in none
 *                     of those tried for 10 to 58,000 (docs/BENCH.md). More than 60,000 points do not fit into 65,535
 *                     buckets: split the posting.
 *   hash_keys  in     three random keys of 16 bytes
 *   points     in     n cells, rising, each below domain
 *   values     in     n values, any (0 is a value like the others)
 *   words      in     random words of two elements each, low half first: 2 for each bucket (4 B elements) are always
 *                     enough; a bucket of one entry uses 1, an empty one none. An odd last element is ignored.
 *   scratch    work   at least MORGNET_MULTI_MAKE_SCRATCH(B, n) = 4 B + n elements
 *   key0       out    party 0's image; MORGNET_MULTI_IMAGE_MAX(B) bytes are always enough
 *   key1       out    party 1's image, of the same length
 *   answer     out    [0] image length in bytes, [1] words used, [2] evictions: how often a point had to move on
 *
 * Returns   MORGNET_OK: both images are written; the 4 B + n elements of scratch are zeros.
 *           MORGNET_DOMAIN, MORGNET_BUCKETS, MORGNET_COUNT, MORGNET_POINT, MORGNET_SCRATCH, in this order: key buffers
 *           and scratch are as they were.
 *           MORGNET_PLACE, MORGNET_WORDS, MORGNET_ROOM (either key buffer), in this order: key buffers are as they
 *           were; the 4 B + n elements of scratch are zeros. After MORGNET_PLACE, call again with fresh hash keys.
 */
uint64_t morgnet_multi_generate_keys(uint64_t domain, uint64_t buckets, const uint8_t hash_keys[48],
                                     const uint64_t *points, size_t points_len,
                                     const uint64_t *values, size_t values_len,
                                     const uint64_t *words, size_t words_len,
                                     uint64_t *scratch, size_t scratch_len,
                                     uint8_t *key0, size_t key0_len,
                                     uint8_t *key1, size_t key1_len,
                                     uint64_t answer[3]);

/*
 * Read one cell's share. It counts the buckets' entries over all cells, so its time grows with the number of cells that
 * the key names: compare that with your table first, or a forged key of 2^32 - 1 cells keeps the call busy for half an
 * hour. (The other calls refuse such a key by MORGNET_SCRATCH, MORGNET_ROOM or MORGNET_TABLE at once.)
 *
 *   key      in     an image, of exactly its length; D and B below are its numbers of cells and buckets
 *   index    in     the cell
 *   scratch  work   at least MORGNET_MULTI_AT_SCRATCH(B) = B elements
 *   share    out    its share
 *
 * Returns   MORGNET_OK: the B elements of scratch are zeros.
 *           MORGNET_KEY, MORGNET_INDEX, MORGNET_SCRATCH, in this order: scratch is as it was.
 *           MORGNET_MISMATCH (of any bucket, not only the cell's): the B elements of scratch are zeros.
 */
uint64_t morgnet_multi_evaluate_at(const uint8_t *key, size_t key_len, uint64_t index,
                                   uint64_t *scratch, size_t scratch_len,
                                   uint64_t *share);

/*
 * Read every cell's share.
 *
 *   key      in     an image, of exactly its length; D and B below are its numbers of cells and buckets
 *   scratch  work   at least MORGNET_MULTI_SCRATCH(D, B) = 6 D + 2 B elements
 *   out      out    at least D elements; the first D are the shares of cells 0 to D - 1, the others stay
 *
 * Returns   MORGNET_OK: out is written; the 6 D + 2 B elements of scratch are zeros.
 *           MORGNET_KEY, MORGNET_SCRATCH, MORGNET_ROOM, in this order: out and scratch are as they were.
 *           MORGNET_MISMATCH: out is as it was; the 6 D + 2 B elements of scratch are zeros.
 */
uint64_t morgnet_multi_evaluate_domain(const uint8_t *key, size_t key_len,
                                       uint64_t *scratch, size_t scratch_len,
                                       uint64_t *out, size_t out_len);

/*
 * Add a key to a table: each cell becomes itself plus its share, modulo 2^64.
 *
 *   key      in        an image, of exactly its length; D and B below are its numbers of cells and buckets
 *   scratch  work      at least MORGNET_MULTI_SCRATCH(D, B) = 6 D + 2 B elements
 *   table    in, out   exactly D elements
 *
 * Returns   MORGNET_OK: the shares are added; the 6 D + 2 B elements of scratch are zeros.
 *           MORGNET_KEY, MORGNET_TABLE, MORGNET_SCRATCH, in this order: table and scratch are as they were.
 *           MORGNET_MISMATCH: table is as it was; the 6 D + 2 B elements of scratch are zeros.
 */
uint64_t morgnet_multi_add_to(const uint8_t *key, size_t key_len,
                              uint64_t *scratch, size_t scratch_len,
                              uint64_t *table, size_t table_len);

/*
 * Find a bucket's record in a multi image.
 *
 *   key      in    an image, of exactly its length
 *   bucket   in    the bucket, from 0
 *   part     out   [0] the byte of key where the record begins, [1] its length in bytes; 0, 0 where it has none
 *
 * Returns   MORGNET_OK. MORGNET_KEY, MORGNET_INDEX, in this order.
 */
uint64_t morgnet_multi_record(const uint8_t *key, size_t key_len, uint64_t bucket, uint64_t part[2]);

/* ---- what the keys are made of */

/*
 * The height of the tree over some cells: the least h with 2^h at least size.
 *
 *   size     in    1 to 2^34
 *   height   out   0 to 34
 *
 * Returns   MORGNET_OK, MORGNET_DOMAIN.
 */
uint64_t morgnet_height(uint64_t size, uint64_t *height);

/*
 * The bucket that one hash key gives an item.
 *
 *   hash_key  in    16 bytes
 *   buckets   in    1 to 65,535
 *   item      in    any
 *   bucket    out   below buckets
 *
 * Returns   MORGNET_OK, MORGNET_BUCKETS.
 */
uint64_t morgnet_bucket(const uint8_t hash_key[16], uint64_t buckets, uint64_t item, uint64_t *bucket);

/*
 * Place points into buckets, as making does, and tell where they went.
 *
 *   domain, buckets, hash_keys, points   in   as for morgnet_multi_generate_keys; n below is points_len
 *   scratch    out   at least MORGNET_PLACE_SCRATCH(B, n) = B + n elements: for each bucket 0, or 1 + the place (from
 *                    0) of its point in points; then for each point the function it would use next (0, 1 or 2)
 *   evictions  out   how often a point had to move on
 *
 * Returns   MORGNET_OK.
 *           MORGNET_DOMAIN, MORGNET_BUCKETS, MORGNET_COUNT, MORGNET_POINT, MORGNET_SCRATCH, in this order: scratch is
 *           as it was.
 *           MORGNET_PLACE: the B + n elements of scratch are zeros.
 */
uint64_t morgnet_place(uint64_t domain, uint64_t buckets, const uint8_t hash_keys[48],
                       const uint64_t *points, size_t points_len,
                       uint64_t *scratch, size_t scratch_len,
                       uint64_t *evictions);

/* AES-128 (FIPS 197) on one block. This and the two hashes below refuse nothing. */
void morgnet_aes_encrypt(const uint8_t key[16], const uint8_t block[16], uint8_t out[16]);

/*
 * The circular correlation robust hash under a key: AES of y, xor y, where the high half of y is the xor of both halves
 * of x, and its low half the high half of x. A word of 128 bits is two elements, low half first; AES takes it as 16
 * little-endian bytes.
 */
void morgnet_hash_ccr(const uint8_t key[16], const uint64_t x[2], uint64_t out[2]);

/*
 * The hash of the trees: the above under the fixed key 47 42 37 13 ef be ad de, twice, of x xor a fixed mask (low half
 * c0ffeeeec00ffeee, high half c000ffeec0ffffee).
 */
void morgnet_tree_hash(const uint64_t x[2], uint64_t out[2]);

#ifdef __cplusplus
}
#endif
#endif

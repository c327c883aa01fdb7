/* The layers below the keys: height, AES, hashes, buckets. */
#include "face.h"

#include <string.h>

void test_height(void)
{
    static const uint64_t sizes[][2] = {
        {1, 0},
        {2, 1},
        {3, 2},
        {4, 2},
        {5, 3},
        {1000, 10},
        {1024, 10},
        {1025, 11},
        {MORGNET_SINGLE_CELLS_MAX - 1, 34},
        {MORGNET_SINGLE_CELLS_MAX, 34},
    };
    struct buffer h = lend_cells(1);
    for (size_t i = 0; i < sizeof sizes / sizeof *sizes; i++) {
        ANSWERS(MORGNET_OK, morgnet_height(sizes[i][0], cells(&h)));
        CHECK(cells(&h)[0] == sizes[i][1]);
        CHECK(stays_past(&h, 8));
        spoil(&h);
    }
    static const uint64_t bad[] = {0, MORGNET_SINGLE_CELLS_MAX + 1, UINT64_MAX};
    for (size_t i = 0; i < 3; i++) {
        ANSWERS(MORGNET_DOMAIN, morgnet_height(bad[i], cells(&h)));
        CHECK(zeroed(&h, 1));
        spoil(&h);
    }
    give_back_cells(&h);
}

/* FIPS 197, appendices B and C.1. */
void test_aes(void)
{
    static const uint8_t keys[2][16] = {
        {0x2b, 0x7e, 0x15, 0x16, 0x28, 0xae, 0xd2, 0xa6, 0xab, 0xf7, 0x15, 0x88, 0x09, 0xcf, 0x4f, 0x3c},
        {0x00, 0x01, 0x02, 0x03, 0x04, 0x05, 0x06, 0x07, 0x08, 0x09, 0x0a, 0x0b, 0x0c, 0x0d, 0x0e, 0x0f},
    };
    static const uint8_t plain[2][16] = {
        {0x32, 0x43, 0xf6, 0xa8, 0x88, 0x5a, 0x30, 0x8d, 0x31, 0x31, 0x98, 0xa2, 0xe0, 0x37, 0x07, 0x34},
        {0x00, 0x11, 0x22, 0x33, 0x44, 0x55, 0x66, 0x77, 0x88, 0x99, 0xaa, 0xbb, 0xcc, 0xdd, 0xee, 0xff},
    };
    static const uint8_t wanted[2][16] = {
        {0x39, 0x25, 0x84, 0x1d, 0x02, 0xdc, 0x09, 0xfb, 0xdc, 0x11, 0x85, 0x97, 0x19, 0x6a, 0x0b, 0x32},
        {0x69, 0xc4, 0xe0, 0xd8, 0x6a, 0x7b, 0x04, 0x30, 0xd8, 0xcd, 0xb7, 0x80, 0x70, 0xb4, 0xc5, 0x5a},
    };
    struct buffer out = lend_bytes(16);
    for (int i = 0; i < 2; i++) {
        morgnet_aes_encrypt(keys[i], plain[i], bytes(&out));
        CHECK(memcmp(bytes(&out), wanted[i], 16) == 0);
        CHECK(stays_past(&out, 16));
    }
    give_back_bytes(&out);
}

/* The hash from AES, as document 01 has it. */
static void ccr_from_aes(const uint8_t key[16], const uint64_t x[2], uint64_t out[2])
{
    const uint64_t sigma[2] = {x[1], x[1] ^ x[0]};
    uint8_t block[16], encrypted[16];
    put(block, 0, 8, sigma[0]);
    put(block, 8, 8, sigma[1]);
    morgnet_aes_encrypt(key, block, encrypted);
    out[0] = field(encrypted, 0, 8) ^ sigma[0];
    out[1] = field(encrypted, 8, 8) ^ sigma[1];
}

void test_hashes(void)
{
    static const uint8_t tree_key[16] = {
        0x47, 0x42, 0x37, 0x13, 0xef, 0xbe, 0xad, 0xde, 0x47, 0x42, 0x37, 0x13, 0xef, 0xbe, 0xad, 0xde,
    };
    struct buffer out = lend_cells(2), bucket = lend_cells(1);
    for (int i = 0; i < 200; i++) {
        uint8_t key[16];
        any_bytes(key, 16);
        const uint64_t x[2] = {i < 4 ? (uint64_t)i : any(), i < 8 ? 0 : any()};
        uint64_t wanted[2];
        ccr_from_aes(key, x, wanted);
        morgnet_hash_ccr(key, x, cells(&out));
        CHECK(memcmp(cells(&out), wanted, 16) == 0 && stays_past(&out, 16));

        const uint64_t masked[2] = {x[0] ^ UINT64_C(0xc0ffeeeec00ffeee), x[1] ^ UINT64_C(0xc000ffeec0ffffee)};
        ccr_from_aes(tree_key, masked, wanted);
        morgnet_tree_hash(x, cells(&out));
        CHECK(memcmp(cells(&out), wanted, 16) == 0 && stays_past(&out, 16));

        const uint64_t item[2] = {x[0], 0};
        const uint64_t buckets = i < 2 ? 1 : i < 4 ? MORGNET_BUCKETS_MAX : 1 + any() % MORGNET_BUCKETS_MAX;
        ccr_from_aes(key, item, wanted);
        ANSWERS(MORGNET_OK, morgnet_bucket(key, buckets, item[0], cells(&bucket)));
        CHECK(cells(&bucket)[0] == wanted[0] % buckets && stays_past(&bucket, 8));
        spoil(&bucket);
        static const uint64_t bad[] = {0, MORGNET_BUCKETS_MAX + 1, UINT64_MAX};
        ANSWERS(MORGNET_BUCKETS, morgnet_bucket(key, bad[i % 3], item[0], cells(&bucket)));
        CHECK(zeroed(&bucket, 1));
        spoil(&bucket);
    }
    give_back_cells(&out);
    give_back_cells(&bucket);
}

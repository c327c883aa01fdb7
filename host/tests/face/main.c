/* Runs every test of the C face, and counts what passed and failed. What the tests are stands in face.h. */
#include "face.h"

#include <stdio.h>

int main(void)
{
    test_height();
    test_aes();
    test_hashes();
    test_place();
    test_single();
    test_single_refusals();
    test_multi();
    test_multi_refusals();
    test_threads();
    test_stack();
    printf("face: %lu passed, %lu failed\n", passed, failed);
    return failed != 0;
}

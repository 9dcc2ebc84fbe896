/* "The digest itself takes 0 to 65,536 bytes and fills 32; for other lengths question 6 says no." */
#include <string.h>
#include "check.h"
#include "sockjade.h"
#include "tests.h"

static uint8_t input[65536 + 1024]; /* byte i is i mod 251 */

static void accept_digest(const char *what, size_t len, const char *expected) {
    uint8_t out[64];
    memset(out, 0xAA, sizeof out);
    check_number(what, sockjade_digest(input, len, out, SOCKJADE_DIGEST_SIZE), SOCKJADE_ACCEPTED, 0);
    check_hex(what, out, expected);
    check_filled(what, out + 32, 0xAA, sizeof out - 32);
}

static void refuse_digest(const char *what, size_t len, size_t out_len) {
    uint8_t out[64];
    memset(out, 0xAA, sizeof out);
    check_number(what, sockjade_digest(input, len, out, out_len), SOCKJADE_LENGTH_WRONG, 6);
    check_filled(what, out, 0xAA, sizeof out);
}

/* The expected digest of n bytes is from b3sum:
 * perl -e 'print pack "C*", map { $_ % 251 } 0 .. $ARGV[0] - 1' n | b3sum --no-names */
void test_digest(void) {
    for (size_t i = 0; i < sizeof input; i++)
        input[i] = (uint8_t)(i % 251);
    accept_digest("digest of 0 bytes", 0, "af1349b9f5f9a1a6a0404dea36dcc9499bcb25c9adc112b7cc9a93cae41f3262");
    accept_digest("digest of 1 byte", 1, "2d3adedff11b61f14c886e35afa036736dcd87a74d27b5c1510225d0f592e213");
    accept_digest("digest of 1,025 bytes", 1025, "d00278ae47eb27b34faecf67b4fe263f82d5412916c1ffd97c8cb7fb814b8444");
    accept_digest("digest of the longest input", SOCKJADE_LONGEST_INPUT,
                  "68d647e619a930e7b1082f74f334b0c65a315725569bdc123f0ee11881717bfe"); /* of 65,536 bytes */
    refuse_digest("digest of one byte more", SOCKJADE_LONGEST_INPUT + 1, SOCKJADE_DIGEST_SIZE);
    refuse_digest("digest into 31 bytes", 1, SOCKJADE_DIGEST_SIZE - 1);
    refuse_digest("digest into 33 bytes", 1, SOCKJADE_DIGEST_SIZE + 1);
}

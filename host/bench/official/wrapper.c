/* The official code behind one function; ENTRY is its name in this build. */
#include "blake3.h"

void ENTRY(const uint8_t *input, size_t length, uint8_t *out) {
    blake3_hasher hasher;
    blake3_hasher_init(&hasher);
    blake3_hasher_update(&hasher, input, length);
    blake3_hasher_finalize(&hasher, out, BLAKE3_OUT_LEN);
}

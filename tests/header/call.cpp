/* Calls from C++: they link where the header's declarations are `extern "C"`. */
#include "sockjade.h"

int main() {
    const uint8_t input[1] = {0}, disk[1] = {0};
    uint8_t memory[1] = {0}, out[SOCKJADE_DIGEST_SIZE];
    uint64_t result = sockjade_states(memory, sizeof memory, disk, sizeof disk, input, sizeof input, 0, out, sizeof out);
    if (sockjade_number(result) != SOCKJADE_MEMORY_INVALID || sockjade_second(result) != 0)
        return 1;
    result = sockjade_versions_block(input, sizeof input, SOCKJADE_LAST_PART + 1);
    if (sockjade_number(result) != SOCKJADE_PART_OUT_OF_RANGE || sockjade_second(result) == SOCKJADE_NO_BLOCK)
        return 1;
    if (sockjade_migrate(input, sizeof input, memory, sizeof memory) != SOCKJADE_MEMORY_INVALID)
        return 1;
    return sockjade_digest(input, sizeof input, out, sizeof out) == SOCKJADE_ACCEPTED ? 0 : 1;
}

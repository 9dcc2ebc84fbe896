#include <stdio.h>
#include <string.h>
#include "sockjade.h"

static uint8_t memory[SOCKJADE_MEMORY_SIZE];
static uint8_t disk[SOCKJADE_GROUP_SIZE];
static uint8_t proof[SOCKJADE_PROOF_SIZE]; /* the server's copy of the page, and its tag */
static uint8_t answer[SOCKJADE_ANSWER_SIZE];

/* One command to block 0. What kinds 3 to 6 answer is what the next update brings. */
static unsigned command(uint32_t kind, uint32_t now, uint32_t value, const uint8_t *data, size_t data_len) {
    int update = kind == SOCKJADE_WRITE || kind == SOCKJADE_UNFREEZE || kind == SOCKJADE_INCREMENT;
    uint32_t number = sockjade_command(memory, sizeof memory, disk, sizeof disk, kind, 0, now, value, data, data_len, proof,
                                       update ? sizeof proof : 0, answer, sizeof answer);
    if (number == SOCKJADE_ACCEPTED && (update || kind == SOCKJADE_PAGE))
        memcpy(proof, answer, sizeof proof);
    return number;
}

/* The states of blocks 0 and 1 in one call, which answers two numbers: its own and that of pages read. */
static void print_states(uint32_t now) {
    const uint8_t blocks[2 * SOCKJADE_NUMBER_SIZE] = {0, 0, 0, 0, 1, 0, 0, 0};
    uint8_t shown[2 * SOCKJADE_SHOWN_SIZE];
    uint64_t result = sockjade_states(memory, sizeof memory, disk, sizeof disk, blocks, sizeof blocks, now, shown, sizeof shown);
    printf("states at %u %u, pages read %u\n", (unsigned)now, (unsigned)sockjade_number(result), (unsigned)sockjade_second(result));
    if (sockjade_number(result) != SOCKJADE_ACCEPTED)
        return;
    for (const uint8_t *s = shown; s < shown + sizeof shown; s += SOCKJADE_SHOWN_SIZE) {
        uint64_t left = 0;
        for (int i = 8; i >= 1; i--)
            left = left << 8 | s[i];
        printf("  state %u, time left %lld\n", (unsigned)s[0], (long long)left);
    }
}

int main(void) {
    const uint8_t salt[SOCKJADE_SALT_SIZE] = {0}; /* from the box's own generator, in earnest */
    uint8_t block[SOCKJADE_BLOCK_SIZE];
    memset(block, 'a', sizeof block);
    printf("format %u\n", (unsigned)sockjade_format(memory, sizeof memory, disk, sizeof disk, 1, salt, sizeof salt));
    printf("page %u\n", command(SOCKJADE_PAGE, 1000, 0, block, 0));
    printf("write, lock 500 %u\n", command(SOCKJADE_WRITE, 1000, 500, block, sizeof block));
    printf("write again %u\n", command(SOCKJADE_WRITE, 1001, 500, block, sizeof block));
    printf("unfreeze %u\n", command(SOCKJADE_UNFREEZE, 1200, 0, block, 0));
    print_states(1650);
    printf("write at 1700 %u\n", command(SOCKJADE_WRITE, 1700, 9, block, sizeof block));
    printf("write at 1701 %u\n", command(SOCKJADE_WRITE, 1701, 9, block, sizeof block));
    printf("read %u", command(SOCKJADE_READ, 1701, 0, block, 0));
    printf(" %c\n", answer[0]);
    return 0;
}

/* An office's program: it stores a file in parts of one block each, replaces some of them, and reads the newest version of each back. */
#include <stdio.h>
#include <stdlib.h>
#include <string.h>
#include "sockjade.h"

enum { PARTS = 4, DAY = 86400 };

static uint8_t memory[SOCKJADE_MEMORY_SIZE];
static uint8_t disk[SOCKJADE_GROUP_SIZE];
static uint8_t versions[SOCKJADE_VERSIONS_SIZE]; /* the version store's state, to be kept with memory and disk */
static uint8_t answer[SOCKJADE_ANSWER_SIZE];
static uint8_t file[PARTS][SOCKJADE_BLOCK_SIZE]; /* what the office has put, to compare with */

static void print_number(const char *what, uint32_t number) {
    printf("%s: %u\n", what, (unsigned)number);
    if (number != SOCKJADE_ACCEPTED)
        exit(EXIT_FAILURE);
}

/* A command without data and proof. */
static uint32_t command(uint32_t kind, uint32_t block, uint32_t now) {
    const uint8_t none[1] = {0};
    return sockjade_command(memory, sizeof memory, disk, sizeof disk, kind, block, now, 0, none, 0, none, 0, answer, sizeof answer);
}

/* Puts a version of 512 times the letter. */
static uint32_t put_part(uint32_t part, uint32_t now, char letter) {
    uint8_t version[SOCKJADE_BLOCK_SIZE];
    memset(version, letter, sizeof version);
    uint64_t result = sockjade_versions_put(versions, sizeof versions, memory, sizeof memory, disk, sizeof disk, part, now, version,
                                            sizeof version);
    printf("%u put part %u, %c: %u, block %u\n", (unsigned)now, (unsigned)part, letter, (unsigned)sockjade_number(result),
           (unsigned)sockjade_second(result));
    if (sockjade_number(result) == SOCKJADE_ACCEPTED && part < PARTS)
        memcpy(file[part], version, sizeof version);
    return sockjade_number(result);
}

/* Reads the part's newest version: whether it is what was put. */
static int read_back(uint32_t part, uint32_t now) {
    uint64_t result = sockjade_versions_block(versions, sizeof versions, part);
    uint32_t block = sockjade_second(result);
    if (sockjade_number(result) != SOCKJADE_ACCEPTED || block == SOCKJADE_NO_BLOCK) {
        printf("part %u: no version\n", (unsigned)part);
        return 0;
    }
    int same = command(SOCKJADE_READ, block, now) == SOCKJADE_ACCEPTED && memcmp(answer, file[part], SOCKJADE_BLOCK_SIZE) == 0;
    printf("part %u in block %u, %c: %s\n", (unsigned)part, (unsigned)block, answer[0], same ? "as it was put" : "DIFFERS");
    return same;
}

static unsigned little_endian(const uint8_t *bytes) {
    return (unsigned)bytes[0] | (unsigned)bytes[1] << 8 | (unsigned)bytes[2] << 16 | (unsigned)bytes[3] << 24;
}

/* The log block's records, up to the first that is not used, and where the log goes on. */
static void print_log(uint32_t block, uint32_t now) {
    print_number("read log block 0", command(SOCKJADE_READ, block, now));
    for (int i = 0; i < SOCKJADE_LOG_RECORDS && little_endian(answer + 8 * i) <= SOCKJADE_LAST_PART; i++)
        printf("  part %u in block %u\n", little_endian(answer + 8 * i), little_endian(answer + 8 * i + 4));
    printf("  next log block: %u\n", little_endian(answer + 8 * SOCKJADE_LOG_RECORDS));
}

/* A replaced version is held for the store's lock, and free then. */
static void print_state(uint32_t block, uint32_t now) {
    static const char *const names[] = {"free", "frozen", "counting"};
    if (command(SOCKJADE_ENTRY, block, now) == SOCKJADE_ACCEPTED && answer[16] <= SOCKJADE_COUNTING)
        printf("%u block %u: %s\n", (unsigned)now, (unsigned)block, names[answer[16]]);
}

int main(void) {
    const uint8_t salt[SOCKJADE_SALT_SIZE] = {0}; /* from the box's own generator, in earnest */
    int right = 1;
    print_number("format", sockjade_format(memory, sizeof memory, disk, sizeof disk, 1, salt, sizeof salt));
    print_number("start, lock of a day", sockjade_versions_start(versions, sizeof versions, DAY));
    for (uint32_t part = 0; part < PARTS; part++)
        right &= put_part(part, 1000, (char)('a' + part)) == SOCKJADE_ACCEPTED;
    right &= put_part(1, 2000, 'B') == SOCKJADE_ACCEPTED;
    right &= put_part(3, 2000, 'D') == SOCKJADE_ACCEPTED;
    right &= put_part(SOCKJADE_LAST_PART + 1, 2000, 'x') == SOCKJADE_PART_OUT_OF_RANGE;
    print_number("2100 flush", sockjade_versions_flush(versions, sizeof versions, memory, sizeof memory, disk, sizeof disk, 2100));
    print_number("2100 sync", command(SOCKJADE_SYNC, 0, 2100)); /* now a power cut loses none of it */
    print_log(0, 2100);
    for (uint32_t part = 0; part < PARTS; part++)
        right &= read_back(part, 2100);
    print_state(2, 2000 + DAY);
    print_state(2, 2000 + DAY + 1);
    print_state(5, 2000 + DAY + 1);
    return right ? EXIT_SUCCESS : EXIT_FAILURE;
}

/* Makes the box that .ci/recover tries the tool on: `attack FILE GROUPS`. An office puts parts under a lock of a day, flushes and syncs
 * at X = 2100. Then an intruder sends what there is: each command has the number written here, or the program ends with status 1. */
#include <stdio.h>
#include <stdlib.h>
#include <string.h>
#include "sockjade.h"

enum { DAY = 86400, X = 2100, NEXT_LOG = 76 };

static uint8_t memory[SOCKJADE_MEMORY_SIZE], disk[SOCKJADE_MOST_GROUPS * SOCKJADE_GROUP_SIZE], versions[SOCKJADE_VERSIONS_SIZE];
static uint8_t data[SOCKJADE_BLOCK_SIZE], proof[SOCKJADE_PROOF_SIZE], answer[SOCKJADE_ANSWER_SIZE];
static size_t disk_len;

static void expect(const char *what, uint32_t now, uint32_t number, uint32_t expected) {
    if (number == expected)
        return;
    fprintf(stderr, "attack: %s at %u: %u, not %u\n", what, (unsigned)now, (unsigned)number, (unsigned)expected);
    exit(EXIT_FAILURE);
}

static uint32_t command(uint32_t kind, uint32_t block, uint32_t now, uint32_t value) {
    int update = kind == SOCKJADE_WRITE || kind == SOCKJADE_UNFREEZE || kind == SOCKJADE_INCREMENT;
    size_t data_len = kind == SOCKJADE_WRITE ? SOCKJADE_BLOCK_SIZE : kind == SOCKJADE_NEW_SALT ? SOCKJADE_SALT_SIZE : 0;
    return sockjade_command(memory, sizeof memory, disk, disk_len, kind, block, now, value, data, data_len, proof,
                            update ? sizeof proof : 0, answer, sizeof answer);
}

/* An update with the current page. */
static uint32_t update(uint32_t kind, uint32_t block, uint32_t now, uint32_t value) {
    expect("page", now, command(SOCKJADE_PAGE, block / SOCKJADE_BLOCKS_PER_GROUP, now, 0), SOCKJADE_ACCEPTED);
    memcpy(proof, answer, sizeof proof);
    return command(kind, block, now, value);
}

/* A version of 512 times the letter. */
static void put(uint32_t part, uint32_t now, int letter, uint32_t block) {
    memset(data, letter, sizeof data);
    uint64_t result = sockjade_versions_put(versions, sizeof versions, memory, sizeof memory, disk, disk_len, part, now, data, sizeof data);
    expect("put", now, sockjade_number(result), SOCKJADE_ACCEPTED);
    expect("the block of a put", now, sockjade_second(result), block);
}

static uint32_t flush(uint32_t now) {
    return sockjade_versions_flush(versions, sizeof versions, memory, sizeof memory, disk, disk_len, now);
}

/* Parts 0 to 62 in blocks 1 to 63 fill the log's first block, 0; parts 63 to 69 are in blocks 65 to 71. Then parts 1, 3, 255 and 5 are put
 * into 72 to 75, and the log's second block, 64, is stored. Letters are a to z by turns, those of the last four B, D, Z and F. */
static void use_office(void) {
    for (uint32_t part = 0; part < 70; part++)
        put(part, 1000, 'a' + (int)part % 26, part < 63 ? part + 1 : part + 2);
    put(1, 2000, 'B', 72);
    put(3, 2000, 'D', 73);
    put(255, 2000, 'Z', 74);
    put(5, X, 'F', 75);
    expect("flush", X, flush(X), SOCKJADE_ACCEPTED);
    expect("sync", X, command(SOCKJADE_SYNC, 0, X, 0), SOCKJADE_ACCEPTED);
}

static void store_number(uint8_t *out, uint32_t number) {
    for (int i = 0; i < 4; i++)
        out[i] = (uint8_t)(number >> 8 * i);
}

/* Writes a log block that gives each part from the first on the same block, and goes on with another. */
static void write_log(uint32_t block, uint32_t now, uint32_t first, uint32_t named, uint32_t next) {
    for (uint32_t i = 0; i < SOCKJADE_LOG_RECORDS; i++) {
        store_number(data + 8 * i, first + i);
        store_number(data + 8 * i + 4, named);
    }
    store_number(data + 8 * SOCKJADE_LOG_RECORDS, next);
    store_number(data + 8 * SOCKJADE_LOG_RECORDS + 4, 0);
    expect("a log block", now, update(SOCKJADE_WRITE, block, now, DAY), SOCKJADE_ACCEPTED);
}

static void write_block(uint32_t block, uint32_t now, uint32_t lock) {
    memset(data, '!', sizeof data);
    expect("write", now, update(SOCKJADE_WRITE, block, now, lock), SOCKJADE_ACCEPTED);
}

/* Every block of the log and of its versions is unfrozen: they count to 2101 + a day + 1. Those of the versions that were replaced, 2, 4
 * and 6, count already. */
static void unfreeze_all(uint32_t now) {
    for (uint32_t block = 0; block < NEXT_LOG; block++) {
        int counting = block == 2 || block == 4 || block == 6;
        expect("unfreeze", now, update(SOCKJADE_UNFREEZE, block, now, 0), counting ? SOCKJADE_STATE_WRONG : SOCKJADE_ACCEPTED);
    }
}

static void intrude(void) {
    uint8_t old[SOCKJADE_PROOF_SIZE];
    expect("write a version", X + 1, update(SOCKJADE_WRITE, 1, X + 1, 0), SOCKJADE_STATE_WRONG);
    memcpy(old, proof, sizeof old);
    unfreeze_all(X + 1);
    expect("sync", X + 1, command(SOCKJADE_SYNC, 0, X + 1, 0), SOCKJADE_ACCEPTED);
    /* The next log block, with what leads to it and on from it. */
    write_block(77, X + 2, DAY);
    write_log(NEXT_LOG, X + 2, 0, 77, 78);
    write_log(78, X + 2, 193, 77, 0);
    expect("restart, which loses these", X + 3, command(SOCKJADE_RESTART, 0, X + 3, 0), SOCKJADE_ACCEPTED);
    write_block(77, X + 3, DAY);
    write_log(NEXT_LOG, X + 3, 0, 77, 78);
    write_log(78, X + 3, 193, 77, 0);
    memset(data, 'n', sizeof data);
    expect("new salt", X + 4, command(SOCKJADE_NEW_SALT, 0, X + 4, 0), SOCKJADE_ACCEPTED);
    memcpy(proof, old, sizeof proof);
    expect("write with an old page", X + 4, command(SOCKJADE_WRITE, 1, X + 4, 0), SOCKJADE_TAG_WRONG);
    put(200, X + 5, '!', 79);
    expect("flush to a block that is taken", X + 5, flush(X + 5), SOCKJADE_STATE_WRONG);
    expect("a longer countdown", X + 5, update(SOCKJADE_INCREMENT, 64, X + 5, 7), SOCKJADE_ACCEPTED);
    /* Of what was replaced, that of 2000 has lapsed, and is overwritten; that of X is not free yet. */
    write_block(2, X + DAY - 50, DAY);
    write_block(4, X + DAY - 50, DAY);
    expect("write", X + DAY - 1, update(SOCKJADE_WRITE, 6, X + DAY - 1, DAY), SOCKJADE_STATE_WRONG);
    expect("read", X + DAY - 1, command(SOCKJADE_READ, 0, X + DAY - 1, 0), SOCKJADE_ACCEPTED);
}

int main(int argc, char **argv) {
    const uint8_t salt[SOCKJADE_SALT_SIZE] = {1};
    if (argc != 3)
        return EXIT_FAILURE;
    uint32_t groups = (uint32_t)strtoul(argv[2], NULL, 10);
    disk_len = groups * (size_t)SOCKJADE_GROUP_SIZE;
    expect("format", 0, sockjade_format(memory, sizeof memory, disk, disk_len, groups, salt, sizeof salt), SOCKJADE_ACCEPTED);
    expect("start", 0, sockjade_versions_start(versions, sizeof versions, DAY), SOCKJADE_ACCEPTED);
    use_office();
    intrude();
    FILE *file = fopen(argv[1], "wb");
    if (file == NULL || fwrite(memory, sizeof memory, 1, file) != 1 || fwrite(disk, disk_len, 1, file) != 1 || fclose(file) != 0) {
        perror(argv[1]);
        return EXIT_FAILURE;
    }
    return EXIT_SUCCESS;
}

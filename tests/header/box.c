#include "box.h"
#include <stdio.h>
#include <string.h>
#include "check.h"

static void fill_salt(uint8_t salt[32]) {
    for (unsigned i = 0; i < 32; i++)
        salt[i] = (uint8_t)i;
}

void format_box(struct box *box) {
    uint8_t salt[32 + ROOM] = {0};
    memset(box, 0, sizeof *box);
    memset(box->disk, 0x78, sizeof box->disk);
    fill_salt(salt);
    uint32_t number = sockjade_format(box->memory, SOCKJADE_MEMORY_SIZE, box->disk, TEST_GROUPS * SOCKJADE_GROUP_SIZE, TEST_GROUPS,
                                      salt, SOCKJADE_SALT_SIZE);
    check_number("format two groups", number, SOCKJADE_ACCEPTED, 0);
}

static int is_update(uint32_t kind) {
    return kind == SOCKJADE_WRITE || kind == SOCKJADE_UNFREEZE || kind == SOCKJADE_INCREMENT;
}

static size_t data_size(uint32_t kind) {
    if (kind == SOCKJADE_WRITE)
        return SOCKJADE_BLOCK_SIZE;
    return kind == SOCKJADE_NEW_SALT ? SOCKJADE_SALT_SIZE : 0;
}

struct command make_command(uint32_t kind, uint32_t block, uint32_t now, uint32_t value) {
    return (struct command){.kind = kind, .block = block, .now = now, .value = value,
                            .memory_len = SOCKJADE_MEMORY_SIZE, .disk_len = TEST_GROUPS * SOCKJADE_GROUP_SIZE,
                            .data_len = data_size(kind), .proof_len = is_update(kind) ? SOCKJADE_PROOF_SIZE : 0,
                            .answer_len = SOCKJADE_ANSWER_SIZE};
}

static uint32_t run_command(struct box *box, struct command c) {
    return sockjade_command(box->memory, c.memory_len, box->disk, c.disk_len, c.kind, c.block, c.now, c.value, box->data,
                            c.data_len, box->proof, c.proof_len, box->answer, c.answer_len);
}

void accept_command(const char *what, struct box *box, struct command command) {
    memset(box->answer, 0xAA, sizeof box->answer);
    check_number(what, run_command(box, command), SOCKJADE_ACCEPTED, 0);
}

void refuse_command(const char *what, struct box *box, struct command command, uint32_t constant, uint32_t expected) {
    static struct box before;
    memset(box->answer, 0xAA, sizeof box->answer);
    before = *box;
    check_number(what, run_command(box, command), constant, expected);
    check_same(what, (const uint8_t *)box, (const uint8_t *)&before, sizeof before);
}

void fetch_page(struct box *box, uint32_t group, uint32_t now) {
    accept_command("page", box, make_command(SOCKJADE_PAGE, group, now, 0));
    memcpy(box->proof, box->answer, 544);
}

void accept_update(const char *what, struct box *box, uint32_t kind, uint32_t block, uint32_t now, uint32_t value) {
    memset(box->data, 0x61, sizeof box->data);
    fetch_page(box, block / SOCKJADE_BLOCKS_PER_GROUP, now);
    accept_command(what, box, make_command(kind, block, now, value));
}

void refuse_update(const char *what, struct box *box, struct command command, uint32_t constant, uint32_t expected) {
    fetch_page(box, command.block / SOCKJADE_BLOCKS_PER_GROUP, command.now);
    refuse_command(what, box, command, constant, expected);
}

void store_little_endian(uint8_t *out, uint32_t number, unsigned size) {
    for (unsigned i = 0; i < size; i++)
        out[i] = i < 4 ? (uint8_t)(number >> 8 * i) : 0;
}

void store_hex(uint8_t *out, const char *bytes) {
    unsigned byte = 0;
    int used = 0;
    for (; sscanf(bytes, " %2x%n", &byte, &used) == 1; bytes += used)
        *out++ = (uint8_t)byte;
}

void make_tag(uint8_t *tag, uint32_t group, uint32_t count, const uint8_t *page) {
    uint8_t message[556];
    fill_salt(message);
    store_little_endian(message + 32, group, 8);
    store_little_endian(message + 40, count, 4);
    memcpy(message + 44, page, 512);
    check_number("digest for a tag", sockjade_digest(message, sizeof message, tag, SOCKJADE_TAG_SIZE), SOCKJADE_ACCEPTED, 0);
}

void check_blank(const char *what, const uint8_t *found, unsigned entries) {
    for (unsigned i = 0; i < entries; i++)
        check_hex(what, found + 8 * i, "00 00 00 00 01 00 00 00");
}

/* The largest box, after document 02, Q-7: "G may be 1 to 64." Its last block, 4095, lies at 4095 + 63, behind it the page of group 63. */
#include <string.h>
#include "box.h"
#include "check.h"
#include "tests.h"

enum { GROUPS = 64, LAST_BLOCK = 4095, BLOCK_4095 = 4158 * 512, PAGE_63 = 4159 * 512, COUNT_63 = 284 };

static uint8_t wide_memory[MEMORY + ROOM], wide_disk[GROUPS * 33280 + ROOM], wide_state[1536];
static uint8_t wide_data[512], wide_proof[544], wide_answer[544];

/* The box of this many groups, its salt 00 01 .. 1F, as the other tests' is. */
static void format_wide(uint32_t groups) {
    uint8_t salt[32];
    for (unsigned i = 0; i < 32; i++)
        salt[i] = (uint8_t)i;
    memset(wide_disk, 0x78, sizeof wide_disk);
    uint32_t number = sockjade_format(wide_memory, SOCKJADE_MEMORY_SIZE, wide_disk, groups * (size_t)SOCKJADE_GROUP_SIZE, groups, salt, 32);
    check_number("format the largest box", number, SOCKJADE_ACCEPTED, 0);
}

/* A command to the box of 64 groups gets the number. An update brings what the last page or update has answered. */
static void run_wide(const char *what, uint32_t kind, uint32_t block, uint32_t now, uint32_t value, uint32_t constant, uint32_t expected) {
    struct command c = make_command(kind, block, now, value);
    uint32_t number = sockjade_command(wide_memory, SOCKJADE_MEMORY_SIZE, wide_disk, GROUPS * SOCKJADE_GROUP_SIZE, kind, block, now,
                                       value, wide_data, c.data_len, wide_proof, c.proof_len, wide_answer, SOCKJADE_ANSWER_SIZE);
    check_number(what, number, constant, expected);
    if (number == SOCKJADE_ACCEPTED && (c.proof_len > 0 || kind == SOCKJADE_PAGE))
        memcpy(wide_proof, wide_answer, sizeof wide_proof);
}

static void accept_wide(const char *what, uint32_t kind, uint32_t block, uint32_t now, uint32_t value) {
    run_wide(what, kind, block, now, value, SOCKJADE_ACCEPTED, 0);
}

/* Block 4095 is written at 1000 under a lock of 500. */
static void write_last_block(void) {
    format_wide(GROUPS);
    memset(wide_data, 0x61, sizeof wide_data);
    accept_wide("page of group 63", SOCKJADE_PAGE, 63, 1000, 0);
    accept_wide("write block 4095", SOCKJADE_WRITE, LAST_BLOCK, 1000, 500);
}

/* The tag is from b3sum: perl -e 'print pack("C*", 0 .. 31), pack("Q<", 63), pack("L<", 1), pack("L<L<", 0, 1) x 63,
 * pack("L<L<", 500, 2000)' | b3sum --no-names */
static void test_last_block(void) {
    write_last_block();
    check_blank("other entries of group 63", wide_answer, 63);
    check_hex("entry of block 4095", wide_answer + 63 * 8, "F4 01 00 00 D0 07 00 00");
    check_hex("tag of group 63", wide_answer + 512, "a12325dd919756aaee1d95e2867b4ae4dbac74935114f70d59d04df4d63222e7");
    check_filled("counts of the other groups", wide_memory + COUNTS, 0, 63 * 4);
    check_hex("count of group 63 and what follows", wide_memory + COUNT_63, "01 00 00 00 E8 03 00 00 40 3F 01 00");
    check_same("held page of group 63", wide_memory + HELD_PAGE, wide_answer, 512);
    check_filled("data before block 4095", wide_disk + BLOCK_4095 - 63 * 512, 0x78, 63 * 512);
    check_filled("data of block 4095", wide_disk + BLOCK_4095, 0x61, 512);
    check_blank("disk's page of group 63", wide_disk + PAGE_63, 64);
    check_filled("behind the disk", wide_disk + PAGE_63 + 512, 0x78, ROOM);
    accept_wide("read block 4095", SOCKJADE_READ, LAST_BLOCK, 1000, 0);
    check_filled("block 4095 read", wide_answer, 0x61, 512);
    accept_wide("sync", SOCKJADE_SYNC, 0, 1001, 0);
    check_hex("entry of block 4095 on the disk", wide_disk + PAGE_63 + 63 * 8, "F4 01 00 00 D0 07 00 00");
    check_hex("memory after a sync", wide_memory + COUNT_63, "01 00 00 00 E9 03 00 00 40 FF 00 00");
    accept_wide("identify", SOCKJADE_IDENTIFY, 0, 1001, 0);
    check_hex("answer of identify", wide_answer, "40 00 00 00 00 10 00 00");
}

/* "Is the block below 64 × G .., the group below G" */
static void test_beyond(void) {
    const uint8_t block[4] = {0x00, 0x10, 0, 0}; /* 4096 */
    write_last_block();
    run_wide("read block 4096", SOCKJADE_READ, LAST_BLOCK + 1, 1000, 0, SOCKJADE_ADDRESS_OUT_OF_RANGE, 5);
    run_wide("write block 4096", SOCKJADE_WRITE, LAST_BLOCK + 1, 1000, 0, SOCKJADE_ADDRESS_OUT_OF_RANGE, 5);
    run_wide("page of group 64", SOCKJADE_PAGE, 64, 1000, 0, SOCKJADE_ADDRESS_OUT_OF_RANGE, 5);
    uint64_t listed = sockjade_states(wide_memory, MEMORY, wide_disk, GROUPS * 33280, block, 4, 1000, wide_answer, 9);
    check_number("list of block 4096", sockjade_number(listed), SOCKJADE_ADDRESS_OUT_OF_RANGE, 5);
    wide_memory[HELD] = 64;
    run_wide("memory that holds group 64", SOCKJADE_IDENTIFY, 0, 1000, 0, SOCKJADE_MEMORY_INVALID, 1);
    wide_memory[HELD] = 63;
    wide_memory[GROUP_NUMBER] = 65;
    run_wide("memory of 65 groups", SOCKJADE_IDENTIFY, 0, 1000, 0, SOCKJADE_MEMORY_INVALID, 1);
    wide_memory[GROUP_NUMBER] = 64;
    accept_wide("memory of 64 groups", SOCKJADE_IDENTIFY, 0, 1000, 0);
    format_wide(63);
    wide_memory[COUNT_63 + 3] = 1;
    run_wide("count of a group that 63 groups do not have", SOCKJADE_IDENTIFY, 0, 1000, 0, SOCKJADE_MEMORY_INVALID, 1);
}

/* "new salt: .. all counts 0", the last one too; a restart of the last group. */
static void test_last_count(void) {
    write_last_block();
    accept_wide("restart", SOCKJADE_RESTART, 0, 1001, 0);
    check_hex("memory after a restart", wide_memory + COUNT_63, "02 00 00 00 E9 03 00 00 40 FF 00 00");
    accept_wide("new salt", SOCKJADE_NEW_SALT, 0, 1002, 0);
    check_filled("counts after a new salt", wide_memory + COUNTS, 0, 256);
}

/* A version that goes to this block. */
static void put_wide(const char *what, uint32_t part, uint32_t block) {
    uint64_t result = sockjade_versions_put(wide_state, sizeof wide_state, wide_memory, MEMORY, wide_disk, GROUPS * 33280, part, 1000,
                                            wide_data, sizeof wide_data);
    check_number(what, sockjade_number(result), SOCKJADE_ACCEPTED, 0);
    check_number(what, sockjade_second(result), block, block);
}

static void flush_wide(void) {
    uint32_t number = sockjade_versions_flush(wide_state, sizeof wide_state, wide_memory, MEMORY, wide_disk, GROUPS * 33280, 1000);
    check_number("flush in the largest box", number, SOCKJADE_ACCEPTED, 0);
}

/* A new version store, whose last taken block is set, in bytes 8 to 11 of its state. */
static void start_wide(uint32_t last_taken) {
    format_wide(GROUPS);
    check_number("start", sockjade_versions_start(wide_state, sizeof wide_state, 500), SOCKJADE_ACCEPTED, 0);
    store_little_endian(wide_state + 8, last_taken, 4);
}

/* Versions go to the last block, and then round; block 0 is the reserve. */
static void test_versions_round(void) {
    start_wide(LAST_BLOCK - 1);
    put_wide("part 8", 8, LAST_BLOCK);
    put_wide("part 8 again", 8, 1);
    accept_wide("entry of block 4095", SOCKJADE_ENTRY, LAST_BLOCK, 1000, 0);
    check_hex("the version replaced", wide_answer, "DD 05 00 00 D1 07 00 00"); /* 1,000 + 500 + 1 = 1,501 */
    store_little_endian(wide_state + 16 + 4 * 8, LAST_BLOCK, 4);
    uint64_t found = sockjade_versions_block(wide_state, sizeof wide_state, 8);
    check_number("a version in block 4095", sockjade_second(found), LAST_BLOCK, 4095);
    store_little_endian(wide_state + 16 + 4 * 8, LAST_BLOCK + 1, 4);
    found = sockjade_versions_block(wide_state, sizeof wide_state, 8);
    check_number("a version in block 4096", sockjade_number(found), SOCKJADE_MEMORY_INVALID, 1);
}

/* The log goes from block 0 to block 4095, and a recovery too. */
static void test_recovery_round(void) {
    uint8_t recovered[1024];
    start_wide(LAST_BLOCK - 2);
    put_wide("part 7", 7, LAST_BLOCK - 1);
    flush_wide();
    check_hex("block 4095 is the reserve", wide_state + 4, "FF 0F 00 00");
    put_wide("part 255, going round", SOCKJADE_LAST_PART, 1);
    flush_wide();
    check_hex("record in block 4095", wide_disk + BLOCK_4095, "FF 00 00 00 01 00 00 00 FF FF FF FF");
    uint32_t number = sockjade_recover(wide_memory, MEMORY, wide_disk, GROUPS * 33280, 1000, 1000, recovered, sizeof recovered);
    check_number("recover in the largest box", number, SOCKJADE_ACCEPTED, 0);
    check_hex("part 7", recovered + 4 * 7, "FE 0F 00 00");
    check_hex("part 255", recovered + 4 * 255, "01 00 00 00");
}

void test_groups(void) {
    test_last_block();
    test_beyond();
    test_last_count();
    test_versions_round();
    test_recovery_round();
}

/* The version store, after document 02, Q-3, with the places of the state's bytes as docs/DECISIONS.md has them. Quotations are Q-3's. */
#include "check.h"
#include "store.h"
#include "tests.h"

/* "with a lock R, named once at its start (0 or above question 10's lock limit gets 10)"; "block 0, the reserve at the start" */
static void test_start(void) {
    start_store(500);
    check_hex("state at the start", store.state, "F4 01 00 00 00 00 00 00 00 00 00 00 00 00 00 00");
    check_filled("no versions and no records", store.state + 16, 0xFF, 1520);
    check_filled("behind the state", store.state + 1536, 0xAA, ROOM);
    for (uint32_t part = 0; part <= 255; part++)
        check_block("a part without a version", part, SOCKJADE_NO_BLOCK);
    check_number("what stands for none", SOCKJADE_NO_BLOCK, SOCKJADE_NO_BLOCK, 4294967295u);
    refuse_start("lock 0", 1536, 0, SOCKJADE_LIMIT_EXCEEDED, 10);
    refuse_start("lock 2,147,483,648", 1536, 2147483648u, SOCKJADE_LIMIT_EXCEEDED, 10);
    refuse_start("a state of 1,535 bytes and lock 0", 1535, 0, SOCKJADE_MEMORY_INVALID, 1);
    refuse_start("a state of 1,537 bytes", 1537, 500, SOCKJADE_MEMORY_INVALID, 1);
    start_store(2147483647);
    check_hex("the longest lock", store.state, "FF FF FF 7F");
}

/* "puts each one-block version into a free block .. and then unfreezes the version it replaces"; "the next free block after the one last
 * taken (block 0 at first)"; "adds a record: part number, block, 4 bytes each" */
static void test_puts(void) {
    start_store(500);
    accept_put("part 7", 7, 1000, 0x61, 1);
    accept_put("the last part", SOCKJADE_LAST_PART, 1001, 0x62, 2);
    accept_put("part 7 again", 7, 1002, 0x63, 3);
    check_hex("state after three puts", store.state, "F4 01 00 00 00 00 00 00 03 00 00 00 03 00 00 00");
    check_filled("parts 0 to 6", store.state + 16, 0xFF, 28);
    check_hex("part 7's block", store.state + 44, "03 00 00 00");
    check_filled("parts 8 to 254", store.state + 48, 0xFF, 988);
    check_hex("part 255's block, and the records", store.state + 1036,
              "02 00 00 00  07 00 00 00 01 00 00 00  FF 00 00 00 02 00 00 00  07 00 00 00 03 00 00 00");
    check_filled("records not used", store.state + 1064, 0xFF, 472);
    check_filled("behind the state", store.state + 1536, 0xAA, ROOM);
    check_block("part 7", 7, 3);
    check_block("part 255", 255, 2);
    check_block("part 8", 8, SOCKJADE_NO_BLOCK);
    check_hex("held page: 0 blank, 1 unfrozen at 1002, 2 and 3 frozen", store.box.memory + HELD_PAGE,
              "00 00 00 00 01 00 00 00  DF 05 00 00 D1 07 00 00  F4 01 00 00 D2 07 00 00  F4 01 00 00 D4 07 00 00");
    check_hex("three writes and an unfreeze", store.box.memory + COUNTS, "04 00 00 00 00 00 00 00");
    check_filled("the version replaced", store.box.disk + 512, 0x61, 512);
    check_filled("the newest version of part 255", store.box.disk + 2 * 512, 0x62, 512);
    check_filled("the newest version of part 7", store.box.disk + 3 * 512, 0x63, 512);
    check_filled("all other data blocks of group 0", store.box.disk + 4 * 512, 0x78, 60 * 512);
}

/* "stored with lock R .. on demand (without records it only answers 0, before any question), the first in block 0" */
static void test_flush(void) {
    struct store_call nothing = {0};
    test_puts();
    accept_flush("flush", 1003);
    read_block(0, 1003);
    check_hex("log block", store.box.answer, "07 00 00 00 01 00 00 00  FF 00 00 00 02 00 00 00  07 00 00 00 03 00 00 00");
    check_filled("records not used in it", store.box.answer + 24, 0xFF, 480);
    check_hex("pointer of the log block", store.box.answer + 504, "04 00 00 00 00 00 00 00");
    check_hex("entry of the log block", store.box.memory + HELD_PAGE, "F4 01 00 00 D6 07 00 00");
    check_hex("state after a flush", store.state, "F4 01 00 00 04 00 00 00 04 00 00 00 00 00 00 00");
    check_filled("no records", store.state + 1040, 0xFF, 496);
    nothing.state_len = 1536;
    refuse_flush("flush without records, and nothing else right", nothing, SOCKJADE_ACCEPTED, 0);
    nothing.state_len = 1535;
    refuse_flush("flush of no state", nothing, SOCKJADE_MEMORY_INVALID, 1);
    accept_put("behind the reserve, before the lapsed block", 7, 1503, 0x64, 5);
    read_block(5, 1503);
    check_filled("part 7 read back", store.box.answer, 0x64, 512);
}

/* "Sixty-three records .. and an 8-byte pointer to the next block, taken as reserve then, make a log block, stored .. when full, last in
 * its put" */
static void test_full_log(void) {
    uint8_t record[8];
    start_store(9);
    for (uint32_t put = 1; put < SOCKJADE_LOG_RECORDS; put++)
        accept_put("a put before the log is full", put % 5, 1000 + put, (uint8_t)put, put);
    check_hex("62 records", store.state, "09 00 00 00 00 00 00 00 3E 00 00 00 3E 00 00 00");
    accept_put("the put that fills the log", 255, 1062, 0xEE, 63);
    check_hex("a new log", store.state, "09 00 00 00 40 00 00 00 40 00 00 00 00 00 00 00");
    check_filled("no records in it", store.state + 1040, 0xFF, 496);
    read_block(0, 1062);
    for (uint32_t put = 1; put <= 62; put++) {
        store_little_endian(record, put % 5, 4);
        store_little_endian(record + 4, put, 4);
        check_same("a record of the full log block", store.box.answer + 8 * (put - 1), record, 8);
    }
    check_hex("its last record, and its pointer", store.box.answer + 496, "FF 00 00 00 3F 00 00 00  40 00 00 00 00 00 00 00");
}

/* "going round, never the reserved one; lapsed blocks are used again", those that count are not. */
static void test_lapsed(void) {
    test_full_log();
    for (uint32_t put = 65; put <= 127; put++)
        accept_put("puts to the end of the box", put % 5, 1100, (uint8_t)put, put);
    check_hex("the reserve is the first lapsed block", store.state, "09 00 00 00 01 00 00 00 01 00 00 00 00 00 00 00");
    for (uint32_t put = 2; put <= 56; put++)
        accept_put("puts to lapsed blocks", put % 5, 1100, (uint8_t)put, put);
    refuse_put("one left, and those that were replaced at 1100", make_store_call(0, 1100), SOCKJADE_TOO_FEW_FREE, 14);
    refuse_put("the same in their last second", make_store_call(0, 1109), SOCKJADE_TOO_FEW_FREE, 14);
    accept_put("the one left", 0, 1110, 0xDD, 57);
    accept_put("the next one, unfrozen at 1100", 0, 1110, 0xDE, 58);
}

void test_versions(void) {
    test_start();
    test_puts();
    test_flush();
    test_lapsed();
    test_put_refused();
    test_state_refused();
    test_flush_refused();
    test_commands_refused();
}

/* Recovery, after document 02, Q-6. Quotations are Q-6's. */
#include <string.h>
#include "check.h"
#include "store.h"
#include "tests.h"

struct recovery {
    uint32_t point, now;
    size_t memory_len, disk_len, result_len;
};

static uint8_t result[1024 + ROOM];
static struct box before;

/* A recovery with the lengths that the buffers have. */
static struct recovery make_recovery(uint32_t point, uint32_t now) {
    return (struct recovery){point, now, SOCKJADE_MEMORY_SIZE, TEST_GROUPS * SOCKJADE_GROUP_SIZE, SOCKJADE_RECOVERED_SIZE};
}

/* The recovery gets the number, and no byte of the box is changed. The result is of bytes AA before. */
static void run_recovery(const char *what, struct recovery r, uint32_t constant, uint32_t expected) {
    memset(result, 0xAA, sizeof result);
    before = store.box;
    uint32_t number = sockjade_recover(store.box.memory, r.memory_len, store.box.disk, r.disk_len, r.point, r.now, result, r.result_len);
    check_number(what, number, constant, expected);
    check_same(what, (const uint8_t *)&store.box, (const uint8_t *)&before, sizeof before);
    check_filled("behind the result", result + 1024, 0xAA, ROOM);
}

static void refuse_recovery(const char *what, struct recovery r, uint32_t constant, uint32_t expected) {
    run_recovery(what, r, constant, expected);
    check_filled(what, result, 0xAA, 1024);
}

/* The recovery is accepted, and finds nothing. */
static void find_nothing(const char *what, uint32_t point, uint32_t now) {
    run_recovery(what, make_recovery(point, now), SOCKJADE_ACCEPTED, 0);
    check_filled(what, result, 0xFF, 1024);
}

/* It finds part 7, part 9 and part 255, written in hexadecimal, and no others. */
static void find_three(const char *what, uint32_t point, uint32_t now, const char *part_7, const char *part_9, const char *part_255) {
    run_recovery(what, make_recovery(point, now), SOCKJADE_ACCEPTED, 0);
    check_filled(what, result, 0xFF, 28);
    check_hex(what, result + 28, part_7);
    check_filled(what, result + 32, 0xFF, 4);
    check_hex(what, result + 36, part_9);
    check_filled(what, result + 40, 0xFF, 980);
    check_hex(what, result + 1020, part_255);
}

/* It finds what was put by `put_and_sync`. */
static void find_versions(const char *what, uint32_t point, uint32_t now) {
    find_three(what, point, now, "03 00 00 00", "FF FF FF FF", "02 00 00 00");
}

/* Part 7 is put into block 1, part 255 into 2 and part 7 again into 3, under a lock of 500; the log block is written, and the box
 * synced, at 1003. The next log block would be 4. */
static void put_and_sync(void) {
    start_store(500);
    accept_put("part 7", 7, 1000, 0x61, 1);
    accept_put("the last part", SOCKJADE_LAST_PART, 1001, 0x62, 2);
    accept_put("part 7 again", 7, 1002, 0x63, 3);
    find_nothing("no log block yet", 1002, 1002);
    accept_flush("flush", 1003);
    find_versions("by the held page", 1003, 1003);
    accept_command("sync", &store.box, make_command(SOCKJADE_SYNC, 0, 1003, 0));
}

/* "The result is 256 block numbers of 4 bytes, FF FF FF FF for none"; "stops at a block that is .. written after X" */
static void test_result(void) {
    put_and_sync();
    find_versions("at X", 1003, 1003);
    find_versions("later", 1003, 2147483647);
    find_versions("as of any time after", 4294967295u, 1003);
    find_nothing("before the log block was written", 1002, 1003);
    find_nothing("as of 0", 0, 1003);
    check_number("what stands for none", SOCKJADE_NO_BLOCK, SOCKJADE_NO_BLOCK, 4294967295u);
    find_versions("at X again", 1003, 1003);
    for (uint32_t part = 0; part <= SOCKJADE_LAST_PART; part++) {
        uint8_t block[4];
        store_little_endian(block, sockjade_second(sockjade_versions_block(store.state, SOCKJADE_VERSIONS_SIZE, part)), 4);
        check_same("the store's own map", result + 4 * part, block, 4);
    }
}

/* A log block whose records name block 5 for parts 7, 9 and 255, as the data of a write. */
static void spoof_log(uint64_t pointer) {
    const uint8_t parts[] = {7, 9, 255};
    memset(store.box.data, 0xFF, sizeof store.box.data);
    for (size_t i = 0; i < sizeof parts; i++) {
        store_little_endian(store.box.data + 8 * i, parts[i], 4);
        store_little_endian(store.box.data + 8 * i + 4, 5, 4);
    }
    store_little_endian(store.box.data + 8 * SOCKJADE_LOG_RECORDS, (uint32_t)pointer, 4);
    store_little_endian(store.box.data + 8 * SOCKJADE_LOG_RECORDS + 4, (uint32_t)(pointer >> 32), 4);
}

/* "all later commands are timed after X .. then at clocks before X + R the result is the keeper's own map at X, whatever those commands
 * were": the log and both versions are unfrozen at 1004, so that they count to 1505, and the next log block is written. */
static void test_intrusion(void) {
    const uint32_t blocks[] = {0, 2, 3};
    put_and_sync();
    for (size_t i = 0; i < 3; i++)
        accept_update("unfreeze", &store.box, SOCKJADE_UNFREEZE, blocks[i], 1004, 0);
    accept_update("write a free block", &store.box, SOCKJADE_WRITE, 5, 1004, 900);
    fetch_page(&store.box, 0, 1005);
    spoof_log(0);
    accept_command("write the next log block", &store.box, make_command(SOCKJADE_WRITE, 4, 1005, 900));
    find_versions("after the intrusion", 1003, 1005);
    find_versions("in the last second of the promise", 1003, 1502);
    find_three("as of the time of the intrusion", 1005, 1502, "05 00 00 00", "05 00 00 00", "05 00 00 00");
    find_versions("a second before that", 1004, 1502);
    find_versions("in the last second of the countdown", 1003, 1504);
    find_nothing("the log is free", 1003, 1505);
    read_block(3, 1502);
    check_filled("part 7 read back", store.box.answer, 0x63, 512);
    accept_command("restart", &store.box, make_command(SOCKJADE_RESTART, 0, 1502, 0));
    find_versions("what was not synced is lost", 1003, 1505);
}

/* The same box with this pointer in its log block, which was written by nobody; block 4 is a log block of the same time. */
static void point_to(uint64_t pointer) {
    put_and_sync();
    spoof_log(4294967295u);
    memcpy(store.box.disk + 4 * 512, store.box.data, 512);
    memcpy(store.box.disk + PAGE_0 + 8 * 4, store.box.disk + PAGE_0, 8);
    memcpy(store.box.disk + PAGE_0 + 8 * 5, store.box.disk + PAGE_0, 8);
    store_little_endian(store.box.disk + 8 * SOCKJADE_LOG_RECORDS, (uint32_t)pointer, 4);
    store_little_endian(store.box.disk + 8 * SOCKJADE_LOG_RECORDS + 4, (uint32_t)(pointer >> 32), 4);
}

/* "stops at a block that is free, out of range, written after X, written before its parent, or already walked"; "the last record .. counts
 * whose block is in range, not free and written by X" */
static void test_stops(void) {
    point_to(4);
    find_three("both log blocks", 1003, 1003, "05 00 00 00", "05 00 00 00", "05 00 00 00");
    store_little_endian(store.box.disk + PAGE_0 + 8 * 5 + 4, 2 * 1004, 4);
    find_versions("block 5 written after X", 1003, 1003);
    point_to(4);
    store_little_endian(store.box.disk + PAGE_0 + 8 * 4 + 4, 2 * 1002, 4);
    find_versions("written before its parent", 1003, 1003);
    store_little_endian(store.box.disk + PAGE_0 + 8 * 4 + 4, 2 * 1004, 4);
    find_versions("written after X", 1003, 1003);
    store_little_endian(store.box.disk + PAGE_0 + 8 * 4 + 4, 2 * 1003 + 1, 4);
    find_versions("free from 500 on", 1003, 1003);
    point_to(0);
    find_versions("already walked", 1003, 1003);
    point_to(TEST_GROUPS * SOCKJADE_BLOCKS_PER_GROUP);
    find_versions("out of range", 1003, 1003);
    point_to(4294967296u + 4);
    find_versions("out of range by its upper half", 1003, 1003);
}

/* "Questions 1, 2, 4 and 6 (a result of 1,024 bytes) are put" */
static void test_refused(void) {
    struct recovery r = {.point = 1003, .now = 1002, .memory_len = MEMORY - 1, .disk_len = 1, .result_len = 1023};
    put_and_sync();
    refuse_recovery("all wrong", r, SOCKJADE_MEMORY_INVALID, 1);
    r.memory_len = MEMORY;
    refuse_recovery("from the disk on", r, SOCKJADE_DISK_SIZE_WRONG, 2);
    r.disk_len = 2 * 33280;
    refuse_recovery("from the time on", r, SOCKJADE_TIME_OUT_OF_RANGE, 4);
    r.now = 2147483648u;
    refuse_recovery("a time too late", r, SOCKJADE_TIME_OUT_OF_RANGE, 4);
    r.now = 1003;
    refuse_recovery("a result of 1,023 bytes", r, SOCKJADE_LENGTH_WRONG, 6);
    r.result_len = 1025;
    refuse_recovery("a result of 1,025 bytes", r, SOCKJADE_LENGTH_WRONG, 6);
    store.box.memory[ZERO] = 1;
    refuse_recovery("byte 295", make_recovery(1003, 1003), SOCKJADE_MEMORY_INVALID, 1);
    store.box.memory[ZERO] = 0;
    find_versions("nothing wrong", 1003, 1003);
}

void test_recovery(void) {
    test_result();
    test_intrusion();
    test_stops();
    test_refused();
}

/* The numbers that a version store's calls are refused with, after document 02, Q-3: "A put whose commands wouldn't all be accepted gets
 * the first such number and alters nothing; a store on demand likewise, 14 included." */
#include <string.h>
#include "check.h"
#include "store.h"
#include "tests.h"

/* A new store with one version, of part 7 in block 1, at 1000. */
static void put_one(void) {
    start_store(500);
    accept_put("part 7", 7, 1000, 0x61, 1);
}

/* On the disk's page of a group with no page held: word and stamp of a block of group 0. */
static void store_entry(uint32_t block, uint32_t word, uint32_t stamp) {
    store_little_endian(store.box.disk + 64 * 512 + 8 * block, word, 4);
    store_little_endian(store.box.disk + 64 * 512 + 8 * block + 4, stamp, 4);
}

/* The store's box has no page held, and all blocks of both groups but this many, from block 2 on, are frozen. */
static void leave_free(uint32_t left) {
    accept_command("sync", &store.box, make_command(SOCKJADE_SYNC, 0, 1000, 0));
    for (uint32_t block = 1; block < 64; block++)
        store_entry(block, block >= 2 && block < 2 + left ? 0 : 500, block >= 2 && block < 2 + left ? 1 : 2000);
    for (uint32_t block = 0; block < 64; block++)
        memcpy(store.box.disk + 129 * 512 + 8 * block, store.box.disk + 64 * 512 + 8, 8);
}

/* "13, part number over 255, asked first; 14, .. asked after 13 and questions 1, 2 and 4"; content is the write's own question. */
void test_put_refused(void) {
    struct store_call call = {.part = SOCKJADE_LAST_PART + 1, .now = 999, .state_len = 1535, .memory_len = MEMORY - 1, .disk_len = 1};
    put_one();
    leave_free(1);
    refuse_put("all wrong", call, SOCKJADE_PART_OUT_OF_RANGE, 13);
    call.part = 7;
    refuse_put("all but the part", call, SOCKJADE_MEMORY_INVALID, 1);
    call.state_len = 1536;
    refuse_put("from the memory on", call, SOCKJADE_MEMORY_INVALID, 1);
    call.memory_len = MEMORY;
    refuse_put("from the disk on", call, SOCKJADE_DISK_SIZE_WRONG, 2);
    call.disk_len = 2 * 33280;
    refuse_put("from the time on", call, SOCKJADE_TIME_OUT_OF_RANGE, 4);
    call.now = 1000;
    refuse_put("one block free, and no content", call, SOCKJADE_TOO_FEW_FREE, 14);
    leave_free(2);
    refuse_put("no content", call, SOCKJADE_LENGTH_WRONG, 6);
    call.data_len = 513;
    refuse_put("513 bytes of content", call, SOCKJADE_LENGTH_WRONG, 6);
    accept_put("two blocks free", 7, 1000, 0x62, 2);
    refuse_block("part 256 of no state", 0, SOCKJADE_LAST_PART + 1, SOCKJADE_PART_OUT_OF_RANGE, 13);
    refuse_block("1,535 bytes of state", 1535, 7, SOCKJADE_MEMORY_INVALID, 1);
}

/* The store with one version, and one byte of the state changed: each call gets 1. */
static void refuse_state_byte(const char *what, size_t offset, uint8_t byte) {
    put_one();
    store.state[offset] = byte;
    refuse_block(what, 1536, 8, SOCKJADE_MEMORY_INVALID, 1);
    refuse_put(what, make_store_call(8, 1000), SOCKJADE_MEMORY_INVALID, 1);
    refuse_flush(what, make_store_call(0, 1000), SOCKJADE_MEMORY_INVALID, 1);
}

/* A state "whose bytes no start and calls can have left". A reserve or a last taken block in no group is none of these. */
void test_state_refused(void) {
    refuse_state_byte("a lock of 2,147,484,148", 3, 0x80);
    refuse_state_byte("63 records", 12, 63);
    refuse_state_byte("a record that is not there", 12, 2);
    refuse_state_byte("a version of part 9 in block 4,294,967,040", 52, 0);
    refuse_state_byte("a version of part 7 in block 4,097", 45, 16);
    refuse_state_byte("a record of part 263", 1041, 1);
    refuse_state_byte("a record of block 4,097", 1045, 16);
    refuse_state_byte("the first byte behind the records", 1048, 0);
    refuse_state_byte("the last byte behind the records", 1535, 0);
    put_one();
    store_little_endian(store.state + 8, 4294967295u, 4);
    accept_put("a last taken block in no group", 8, 1000, 0x62, 2);
    store_little_endian(store.state + 4, 4096, 4);
    accept_put("a reserve in no group", 8, 1000, 0x63, 3);
}

void test_flush_refused(void) {
    struct store_call call = {.now = 999, .state_len = 1537, .memory_len = MEMORY + 1, .disk_len = 1};
    put_one();
    leave_free(1);
    refuse_flush("all wrong", call, SOCKJADE_MEMORY_INVALID, 1);
    call.state_len = 1536;
    refuse_flush("from the memory on", call, SOCKJADE_MEMORY_INVALID, 1);
    call.memory_len = MEMORY;
    refuse_flush("from the disk on", call, SOCKJADE_DISK_SIZE_WRONG, 2);
    call.disk_len = 2 * 33280;
    refuse_flush("from the time on", call, SOCKJADE_TIME_OUT_OF_RANGE, 4);
    call.now = 1000;
    refuse_flush("one block free", call, SOCKJADE_TOO_FEW_FREE, 14);
    leave_free(2);
    store_entry(0, 500, 2000);
    refuse_flush("the reserve is frozen", call, SOCKJADE_STATE_WRONG, 9);
    store_entry(0, 0, 1);
    memset(store.box.memory + COUNTS, 0xFF, 4);
    refuse_flush("the count is exhausted", call, SOCKJADE_COUNT_EXHAUSTED, 8);
    memset(store.box.memory + COUNTS, 0, 4);
    store.state[4] = 128;
    refuse_flush("the reserve is in no group", call, SOCKJADE_ADDRESS_OUT_OF_RANGE, 5);
    store.state[4] = 0;
    accept_flush("nothing wrong", 1000);
}

/* 9, 8, 10 and 5 at a later command than the first: then that one is not given either. */
void test_commands_refused(void) {
    put_one();
    accept_update("unfreeze by another", &store.box, SOCKJADE_UNFREEZE, 1, 1000, 0);
    refuse_put("a version that is not frozen", make_store_call(7, 1000), SOCKJADE_STATE_WRONG, 9);
    struct store_call empty = make_store_call(7, 1000);
    empty.data_len = 0;
    refuse_put("the same, and no content: the write is the first command", empty, SOCKJADE_LENGTH_WRONG, 6);
    put_one();
    store_little_endian(store.box.memory + COUNTS, 4294967293u, 4);
    refuse_put("a count for the write alone", make_store_call(7, 1000), SOCKJADE_COUNT_EXHAUSTED, 8);
    accept_put("a part without a version", 8, 1000, 0x62, 2);
    put_one();
    store_little_endian(store.box.memory + HELD_PAGE + 8, 4294967295u - 1000, 4);
    refuse_put("a lock that no command writes", make_store_call(7, 1000), SOCKJADE_LIMIT_EXCEEDED, 10);
    put_one();
    store_little_endian(store.state + 44, 128, 4);
    refuse_put("a version in no group", make_store_call(7, 1000), SOCKJADE_ADDRESS_OUT_OF_RANGE, 5);
    start_store(500);
    accept_update("write by another, to the reserve", &store.box, SOCKJADE_WRITE, 0, 1000, 9);
    for (uint32_t put = 1; put <= 62; put++)
        accept_put("puts beside it", put, 1000, 0x61, put);
    refuse_put("the reserve is not free for the log block", make_store_call(63, 1000), SOCKJADE_STATE_WRONG, 9);
}

#include "store.h"
#include <string.h>
#include "check.h"

struct store store;
static struct store kept;

void start_store(uint32_t lock) {
    format_box(&store.box);
    memset(store.state, 0xAA, sizeof store.state);
    check_number("start", sockjade_versions_start(store.state, SOCKJADE_VERSIONS_SIZE, lock), SOCKJADE_ACCEPTED, 0);
}

struct store_call make_store_call(uint32_t part, uint32_t now) {
    return (struct store_call){part, now, SOCKJADE_VERSIONS_SIZE, SOCKJADE_MEMORY_SIZE, TEST_GROUPS * SOCKJADE_GROUP_SIZE,
                               SOCKJADE_BLOCK_SIZE};
}

static uint64_t run_put(struct store_call c) {
    return sockjade_versions_put(store.state, c.state_len, store.box.memory, c.memory_len, store.box.disk, c.disk_len, c.part, c.now,
                                 store.box.data, c.data_len);
}

static uint32_t run_flush(struct store_call c) {
    return sockjade_versions_flush(store.state, c.state_len, store.box.memory, c.memory_len, store.box.disk, c.disk_len, c.now);
}

/* A result of 64 bits has these two numbers. */
static void check_result(const char *what, uint64_t result, uint32_t constant, uint32_t expected, uint32_t second) {
    check_number(what, sockjade_number(result), constant, expected);
    check_number(what, sockjade_second(result), second, second);
}

static void check_unchanged(const char *what) {
    check_same(what, (const uint8_t *)&store, (const uint8_t *)&kept, sizeof kept);
}

void accept_put(const char *what, uint32_t part, uint32_t now, uint8_t byte, uint32_t block) {
    memset(store.box.data, byte, sizeof store.box.data);
    check_result(what, run_put(make_store_call(part, now)), SOCKJADE_ACCEPTED, 0, block);
}

void refuse_put(const char *what, struct store_call call, uint32_t constant, uint32_t expected) {
    kept = store;
    check_result(what, run_put(call), constant, expected, 0);
    check_unchanged(what);
}

void accept_flush(const char *what, uint32_t now) {
    check_number(what, run_flush(make_store_call(0, now)), SOCKJADE_ACCEPTED, 0);
}

void refuse_flush(const char *what, struct store_call call, uint32_t constant, uint32_t expected) {
    kept = store;
    check_number(what, run_flush(call), constant, expected);
    check_unchanged(what);
}

void refuse_start(const char *what, size_t state_len, uint32_t lock, uint32_t constant, uint32_t expected) {
    kept = store;
    check_number(what, sockjade_versions_start(store.state, state_len, lock), constant, expected);
    check_unchanged(what);
}

void check_block(const char *what, uint32_t part, uint32_t block) {
    check_result(what, sockjade_versions_block(store.state, SOCKJADE_VERSIONS_SIZE, part), SOCKJADE_ACCEPTED, 0, block);
}

void refuse_block(const char *what, size_t state_len, uint32_t part, uint32_t constant, uint32_t expected) {
    check_result(what, sockjade_versions_block(store.state, state_len, part), constant, expected, 0);
}

void read_block(uint32_t block, uint32_t now) {
    accept_command("read", &store.box, make_command(SOCKJADE_READ, block, now, 0));
}

/* Each number that a command can be refused with, and the limits about it, after document 01's "Questions, in order" and document
 * 02's Q-2. */
#include <string.h>
#include "box.h"
#include "check.h"
#include "tests.h"

static struct box box;

/* A new box of which one byte of the memory is changed. */
static void refuse_memory(const char *what, size_t offset, uint8_t byte) {
    format_box(&box);
    box.memory[offset] = byte;
    refuse_command(what, &box, make_command(SOCKJADE_IDENTIFY, 0, 0, 0), SOCKJADE_MEMORY_INVALID, 1);
}

/* A new box whose memory holds a group's page, after so many updates. Each group's count is 0. */
static void refuse_held(const char *what, uint8_t group, uint8_t updates) {
    format_box(&box);
    box.memory[HELD] = group;
    box.memory[UPDATES] = updates;
    refuse_command(what, &box, make_command(SOCKJADE_IDENTIFY, 0, 0, 0), SOCKJADE_MEMORY_INVALID, 1);
}

/* "1. Is the memory .. bytes and valid?" The updates with a page held are in updates.c, and groups from 63 on in groups.c. */
static void test_memory(void) {
    struct command command = make_command(SOCKJADE_IDENTIFY, 0, 0, 0);
    format_box(&box);
    command.memory_len--;
    refuse_command("memory of 807 bytes", &box, command, SOCKJADE_MEMORY_INVALID, 1);
    command.memory_len += 2;
    refuse_command("memory of 809 bytes", &box, command, SOCKJADE_MEMORY_INVALID, 1);
    refuse_memory("memory of no groups", GROUP_NUMBER, 0);
    refuse_memory("memory of 65 groups", GROUP_NUMBER, 65);
    refuse_held("memory that holds group 2", 2, 1);
    refuse_held("memory that holds a group of count 0", 1, 1);
    refuse_memory("last time 2,147,483,648", LAST_TIME + 3, 0x80);
    refuse_memory("count of group 2", COUNTS + 4 * 2, 1);
    refuse_memory("updates with none held", UPDATES, 1);
    refuse_memory("byte 295", ZERO, 1);
    refuse_memory("last byte of a held page with none held", MEMORY - 1, 1);
}

/* "2. Is the disk G × 33,280 bytes?" */
static void test_disk(void) {
    struct command command = make_command(SOCKJADE_IDENTIFY, 0, 0, 0);
    format_box(&box);
    command.disk_len--;
    refuse_command("disk one byte short", &box, command, SOCKJADE_DISK_SIZE_WRONG, 2);
    command.disk_len += 2;
    refuse_command("disk one byte long", &box, command, SOCKJADE_DISK_SIZE_WRONG, 2);
}

/* "3. Is the kind 1 to 10?" */
static void test_kind(void) {
    format_box(&box);
    refuse_command("kind 0", &box, make_command(0, 0, 0, 0), SOCKJADE_KIND_UNKNOWN, 3);
    refuse_command("kind 11", &box, make_command(SOCKJADE_IDENTIFY + 1, 0, 0, 0), SOCKJADE_KIND_UNKNOWN, 3);
    refuse_command("kind 4,294,967,295", &box, make_command(4294967295u, 0, 0, 0), SOCKJADE_KIND_UNKNOWN, 3);
}

/* "4. Is now at least the last time and at most 2,147,483,647?" */
static void test_time(void) {
    format_box(&box);
    accept_command("read at 1000", &box, make_command(SOCKJADE_READ, 0, 1000, 0));
    refuse_command("read at 999", &box, make_command(SOCKJADE_READ, 0, 999, 0), SOCKJADE_TIME_OUT_OF_RANGE, 4);
    refuse_command("read at 2,147,483,648", &box, make_command(SOCKJADE_READ, 0, 2147483648u, 0), SOCKJADE_TIME_OUT_OF_RANGE, 4);
    accept_command("read at 2,147,483,647", &box, make_command(SOCKJADE_READ, 0, 2147483647, 0));
}

static void refuse_address(const char *what, uint32_t kind, uint32_t block) {
    refuse_command(what, &box, make_command(kind, block, 0, 0), SOCKJADE_ADDRESS_OUT_OF_RANGE, 5);
}

/* "5. Is the block below 64 × G (kinds 1, 2, 4, 5, 6), the group below G (kind 3)?" */
static void test_address(void) {
    const uint32_t kinds[] = {SOCKJADE_READ, SOCKJADE_ENTRY, SOCKJADE_WRITE, SOCKJADE_UNFREEZE, SOCKJADE_INCREMENT};
    format_box(&box);
    for (size_t i = 0; i < sizeof kinds / sizeof kinds[0]; i++)
        refuse_address("block 128", kinds[i], 2 * SOCKJADE_BLOCKS_PER_GROUP);
    refuse_address("page of group 2", SOCKJADE_PAGE, 2);
    accept_command("block 127", &box, make_command(SOCKJADE_READ, 2 * SOCKJADE_BLOCKS_PER_GROUP - 1, 0, 0));
    accept_command("page of group 1", &box, make_command(SOCKJADE_PAGE, 1, 0, 0));
}

static void refuse_length(const char *what, struct command command) {
    refuse_command(what, &box, command, SOCKJADE_LENGTH_WRONG, 6);
}

static void refuse_longer(uint32_t kind) {
    struct command data = make_command(kind, 0, 0, 0), proof = data, answer = data;
    data.data_len++;
    proof.proof_len++;
    answer.answer_len++;
    refuse_length("data one byte long", data);
    refuse_length("proof one byte long", proof);
    refuse_length("answer of 545 bytes", answer);
}

static void refuse_shorter(uint32_t kind) {
    struct command data = make_command(kind, 0, 0, 0), proof = data, answer = data;
    answer.answer_len--;
    refuse_length("answer of 543 bytes", answer);
    if (data.data_len-- > 0)
        refuse_length("data one byte short", data);
    if (proof.proof_len-- > 0)
        refuse_length("proof of 543 bytes", proof);
}

/* "6. Are data (512 for 4, 32 for 9, else 0), proof (544 for 4, 5, 6, else 0) and answer (544) of the kind's length?" */
static void test_length(void) {
    format_box(&box);
    for (uint32_t kind = SOCKJADE_READ; kind <= SOCKJADE_IDENTIFY; kind++) {
        refuse_longer(kind);
        refuse_shorter(kind);
    }
}

/* "7. For 4, 5, 6: is the tag that of the brought page under the present salt and count?" */
static void test_tag(void) {
    struct command write = make_command(SOCKJADE_WRITE, 65, 1000, 500);
    format_box(&box);
    fetch_page(&box, 1, 1000);
    box.proof[SOCKJADE_PAGE_SIZE + SOCKJADE_TAG_SIZE - 1] ^= 1;
    refuse_command("last byte of the tag changed", &box, write, SOCKJADE_TAG_WRONG, 7);
    fetch_page(&box, 1, 1000);
    box.proof[SOCKJADE_PAGE_SIZE - 1] ^= 1;
    refuse_command("last byte of the page changed", &box, write, SOCKJADE_TAG_WRONG, 7);
    accept_update("write", &box, SOCKJADE_WRITE, 64, 1000, 500);
    refuse_command("page from before the write", &box, write, SOCKJADE_TAG_WRONG, 7);
    fetch_page(&box, 1, 1000);
    accept_command("restart", &box, make_command(SOCKJADE_RESTART, 0, 1000, 0));
    refuse_command("page that a restart lost", &box, write, SOCKJADE_TAG_WRONG, 7);
}

/* A new box in which group 0's count is as given, and its blank page is brought with the tag of that count. */
static void set_count(const char *bytes_expected, uint32_t count) {
    format_box(&box);
    for (unsigned i = 0; i < 4; i++)
        box.memory[COUNTS + i] = (uint8_t)(count >> 8 * i);
    check_hex("count set", box.memory + COUNTS, bytes_expected);
    memcpy(box.proof, box.disk + 64 * 512, 512);
    make_tag(box.proof + SOCKJADE_PAGE_SIZE, 0, count, box.proof);
}

/* "8. For 4, 5, 6: is the count below 4,294,967,294?" */
static void test_count(void) {
    struct command write = make_command(SOCKJADE_WRITE, 0, 1000, 500);
    set_count("FE FF FF FF", 4294967294u);
    refuse_command("count 4,294,967,294", &box, write, SOCKJADE_COUNT_EXHAUSTED, 8);
    set_count("FF FF FF FF", 4294967295u);
    refuse_command("count 4,294,967,295", &box, write, SOCKJADE_COUNT_EXHAUSTED, 8);
    set_count("FD FF FF FF", 4294967293u);
    accept_command("count 4,294,967,293", &box, write);
    check_hex("the last count", box.memory + COUNTS, "FE FF FF FF");
    refuse_update("the last count", &box, make_command(SOCKJADE_UNFREEZE, 0, 1000, 0), SOCKJADE_COUNT_EXHAUSTED, 8);
}

static void refuse_state(const char *what, uint32_t kind, uint32_t now) {
    refuse_update(what, &box, make_command(kind, 0, now, 1), SOCKJADE_STATE_WRONG, 9);
}

/* "9. Write: free? Unfreeze: frozen? Increment: frozen or counting?" */
static void test_state(void) {
    format_box(&box);
    refuse_state("unfreeze a free block", SOCKJADE_UNFREEZE, 1000);
    refuse_state("increment a free block", SOCKJADE_INCREMENT, 1000);
    accept_update("write", &box, SOCKJADE_WRITE, 0, 1000, 500);
    refuse_state("write a frozen block", SOCKJADE_WRITE, 1100);
    accept_update("unfreeze", &box, SOCKJADE_UNFREEZE, 0, 1200, 0);
    refuse_state("unfreeze a counting block", SOCKJADE_UNFREEZE, 1300);
    refuse_state("write a counting block", SOCKJADE_WRITE, 1700); /* 1,200 + 500, in the lock's last second */
    refuse_state("increment a block that is free again", SOCKJADE_INCREMENT, 1701);
    accept_update("write at the expiry", &box, SOCKJADE_WRITE, 0, 1701, 9);
}

static void refuse_limit(const char *what, uint32_t kind, uint32_t value) {
    refuse_update(what, &box, make_command(kind, 0, 2147483647, value), SOCKJADE_LIMIT_EXCEEDED, 10);
}

/* "10. Is a lock written or grown at most 2,147,483,647"; and document 02, Q-2: "The expiry limit in question 10 becomes
 * 4,294,967,295." */
static void test_limit(void) {
    format_box(&box);
    refuse_limit("lock 2,147,483,648", SOCKJADE_WRITE, 2147483648u);
    accept_update("lock 2,147,483,646", &box, SOCKJADE_WRITE, 0, 2147483647, 2147483646);
    refuse_limit("lock grown to 2,147,483,648", SOCKJADE_INCREMENT, 2);
    accept_update("unfreeze to 4,294,967,294", &box, SOCKJADE_UNFREEZE, 0, 2147483647, 0); /* 2,147,483,647 + 2,147,483,646 + 1 */
    refuse_limit("expiry grown to 4,294,967,296", SOCKJADE_INCREMENT, 2);
    accept_update("expiry grown to 4,294,967,295", &box, SOCKJADE_INCREMENT, 0, 2147483647, 1);
    check_hex("the latest expiry", box.answer, "FF FF FF FF FF FF FF FF");
    format_box(&box);
    store_little_endian(box.disk + 64 * 512, 2147483648u, 4); /* a lock that no command writes, on group 0's page */
    store_little_endian(box.disk + 64 * 512 + 4, 0, 4);
    refuse_limit("unfreeze to 4,294,967,296", SOCKJADE_UNFREEZE, 0);
}

/* "11. Does the new salt differ from the present one?" */
static void test_salt(void) {
    format_box(&box);
    memcpy(box.data, box.memory, 32);
    refuse_command("the present salt", &box, make_command(SOCKJADE_NEW_SALT, 0, 1000, 0), SOCKJADE_SALT_UNCHANGED, 11);
    box.data[31] ^= 1;
    accept_command("a salt that differs", &box, make_command(SOCKJADE_NEW_SALT, 0, 1000, 0));
}

void test_numbers(void) {
    test_memory();
    test_disk();
    test_kind();
    test_time();
    test_address();
    test_length();
    test_tag();
    test_count();
    test_state();
    test_limit();
    test_salt();
}

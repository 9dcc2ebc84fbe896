/* Lists of blocks, after document 02, Q-1: "takes 1 to 64 block numbers (4 bytes each, repeats allowed), now and an answer buffer of 9
 * bytes for each, and gives per number, in the list's order, the state byte and the 8-byte time left". */
#include <string.h>
#include "box.h"
#include "check.h"
#include "tests.h"

enum { PAGES = 64 }; /* of the largest box */

struct query {
    uint32_t now;
    size_t memory_len, disk_len, blocks_len, answer_len;
};

static struct box box, before;
static uint8_t large_memory[MEMORY + ROOM], large_disk[PAGES * 33280 + ROOM];

/* A new box. Block 0 was written at 1000 under a lock of 500 and unfrozen at 1200, and its page went to the disk when block 64 was
 * written at 1300 under a lock of 7: group 1's page is held, and on the disk it is blank. */
static void write_two_groups(void) {
    format_box(&box);
    accept_update("write", &box, SOCKJADE_WRITE, 0, 1000, 500);
    accept_update("unfreeze", &box, SOCKJADE_UNFREEZE, 0, 1200, 0);
    accept_update("write in another group", &box, SOCKJADE_WRITE, 64, 1300, 7);
}

/* A query with the lengths for so many numbers. */
static struct query make_query(size_t numbers, uint32_t now) {
    return (struct query){now, SOCKJADE_MEMORY_SIZE, TEST_GROUPS * SOCKJADE_GROUP_SIZE, numbers * SOCKJADE_NUMBER_SIZE,
                          numbers * SOCKJADE_SHOWN_SIZE};
}

/* The box's data are a list that begins with three numbers. All further numbers are 0. */
static void list_three(uint32_t first, uint32_t second, uint32_t third) {
    memset(box.data, 0, sizeof box.data);
    store_little_endian(box.data, first, 4);
    store_little_endian(box.data + 4, second, 4);
    store_little_endian(box.data + 8, third, 4);
}

/* The answer is of bytes AA before. */
static uint64_t run_query(struct query q) {
    memset(box.answer, 0xAA, sizeof box.answer);
    before = box;
    return sockjade_states(box.memory, q.memory_len, box.disk, q.disk_len, box.data, q.blocks_len, q.now, box.answer, q.answer_len);
}

/* The query is accepted, with the pages read; it changes the last time and the answer of so many bytes alone. */
static void accept_query(const char *what, struct query query, uint32_t pages, size_t answered) {
    uint64_t result = run_query(query);
    check_number(what, sockjade_number(result), SOCKJADE_ACCEPTED, 0);
    check_number(what, sockjade_second(result), pages, pages);
    store_little_endian(before.memory + LAST_TIME, query.now, 4);
    memcpy(before.answer, box.answer, answered);
    check_same(what, (const uint8_t *)&box, (const uint8_t *)&before, sizeof before);
}

/* The query is refused with the number, and no byte is changed. */
static void refuse_query(const char *what, struct query query, uint32_t constant, uint32_t expected) {
    uint64_t result = run_query(query);
    check_number(what, sockjade_number(result), constant, expected);
    check_number(what, sockjade_second(result), 0, 0);
    check_same(what, (const uint8_t *)&box, (const uint8_t *)&before, sizeof before);
}

/* "gives per number, in the list's order, the state byte and the 8-byte time left" */
static void test_shown(void) {
    write_two_groups();
    list_three(64, 0, 127);
    accept_query("64, 0, 127 at 1650", make_query(3, 1650), 2, 27);
    check_number("state of 64", box.answer[0], SOCKJADE_FROZEN, 1);
    check_number("state of 0", box.answer[SOCKJADE_SHOWN_SIZE], SOCKJADE_COUNTING, 2);
    check_number("state of 127", box.answer[2 * SOCKJADE_SHOWN_SIZE], SOCKJADE_FREE, 0);
    check_hex("64, 0, 127 at 1650", box.answer,
              "01 07 00 00 00 00 00 00 00  02 33 00 00 00 00 00 00 00  00 8E F9 FF FF FF FF FF FF"); /* 1,701 - 1,650 = 51 */
    check_hex("memory after a list", box.memory + LAST_TIME, "72 06 00 00 02 01 01 00");
    list_three(0, 64, 0);
    accept_query("0, 64, 0 at 1700", make_query(3, 1700), 2, 27);
    check_hex("0, 64, 0 at 1700", box.answer,
              "02 01 00 00 00 00 00 00 00  01 07 00 00 00 00 00 00 00  02 01 00 00 00 00 00 00 00");
    accept_query("0, 64, 0 at 1751", make_query(3, 1751), 2, 27);
    check_hex("0, 64, 0 at 1751", box.answer,
              "00 CE FF FF FF FF FF FF FF  01 07 00 00 00 00 00 00 00  00 CE FF FF FF FF FF FF FF");
    accept_query("0 at 2,147,483,647", make_query(1, 2147483647), 1, 9);
    check_hex("0 at 2,147,483,647", box.answer, "00 A6 06 00 80 FF FF FF FF"); /* 1,701 - 2,147,483,647 */
}

/* "Each group's current page is read once"; it "is the number of different groups named" */
static void test_pages(void) {
    write_two_groups();
    list_three(127, 64, 127);
    accept_query("three of the held group", make_query(3, 1300), 1, 27);
    list_three(63, 1, 63);
    accept_query("three of a group on the disk", make_query(3, 1300), 1, 27);
    list_three(0, 0, 0);
    accept_query("one block, as often as it goes", make_query(SOCKJADE_MOST_NUMBERS, 1650), 1, 576);
    for (size_t i = 0; i < 64; i++)
        check_hex("one block, as often as it goes", box.answer + 9 * i, "02 33 00 00 00 00 00 00 00");
    accept_command("sync", &box, make_command(SOCKJADE_SYNC, 0, 1650, 0));
    list_three(64, 1, 64);
    accept_query("no page held", make_query(3, 1650), 2, 27);
    check_hex("no page held", box.answer,
              "01 07 00 00 00 00 00 00 00  00 8E F9 FF FF FF FF FF FF  01 07 00 00 00 00 00 00 00");
}

/* Every entry of a page is frozen, under a lock that is the block's number and so much more. */
static void freeze_page(uint8_t *page, uint32_t group, uint32_t more) {
    for (uint32_t place = 0; place < 64; place++) {
        store_little_endian(page + 8 * place, 64 * group + place + more, 4);
        store_little_endian(page + 8 * place + 4, 0, 4);
    }
}

/* The largest box. Each block is frozen, under a lock that is its number; by group 5's page, which is held, it is 10,000 more. */
static void freeze_largest_box(void) {
    const uint8_t salt[32] = {0};
    uint32_t number = sockjade_format(large_memory, MEMORY, large_disk, PAGES * 33280, PAGES, salt, 32);
    check_number("format the largest box", number, SOCKJADE_ACCEPTED, 0);
    for (uint32_t group = 0; group < PAGES; group++)
        freeze_page(large_disk + (65 * group + 64) * 512, group, 0);
    freeze_page(large_memory + HELD_PAGE, 5, 10000);
    large_memory[COUNTS + 4 * 5] = 1; /* a held group's count is 1 or more */
    large_memory[HELD] = 5;
    large_memory[UPDATES] = 1; /* and so are its updates */
}

/* A list of 64 blocks of the largest box, from this one downwards in equal steps, reads so many pages. */
static void list_downwards(const char *what, uint32_t last, uint32_t step, uint32_t constant, uint32_t pages) {
    static uint8_t answer[576 + ROOM];
    uint8_t expected[9] = {1}, blocks[256];
    memset(answer, 0xAA, sizeof answer);
    for (uint32_t i = 0; i < 64; i++)
        store_little_endian(blocks + 4 * i, last - step * i, 4);
    uint64_t result = sockjade_states(large_memory, MEMORY, large_disk, PAGES * 33280, blocks, 256, 1000, answer, 576);
    check_number(what, sockjade_number(result), SOCKJADE_ACCEPTED, 0);
    check_number(what, sockjade_second(result), constant, pages);
    for (uint32_t i = 0; i < 64; i++) {
        uint32_t block = last - step * i;
        store_little_endian(expected + 1, block / 64 == 5 ? block + 10000 : block, 8);
        check_same(what, answer + 9 * i, expected, 9);
    }
    check_filled("behind the answer of a list", answer + 576, 0xAA, ROOM);
}

/* Blocks 4095, 4031, .. 63 are one of each group; 1023, 1007, .. 15 are four of each of the first sixteen. */
static void test_all_groups(void) {
    freeze_largest_box();
    list_downwards("a list over all groups", 4095, 64, SOCKJADE_MOST_GROUPS, 64);
    list_downwards("a list over sixteen groups", 1023, 16, 16, 16);
}

/* Questions 1, 2 and 4 as for a command. */
static void test_box(void) {
    struct query short_memory, long_memory, short_disk, long_disk;
    write_two_groups();
    list_three(0, 64, 1);
    short_memory = long_memory = short_disk = long_disk = make_query(3, 1300);
    short_memory.memory_len--;
    long_memory.memory_len++;
    short_disk.disk_len--;
    long_disk.disk_len++;
    refuse_query("a list with 807 bytes of memory", short_memory, SOCKJADE_MEMORY_INVALID, 1);
    refuse_query("a list with 809 bytes of memory", long_memory, SOCKJADE_MEMORY_INVALID, 1);
    refuse_query("a list with a disk one byte short", short_disk, SOCKJADE_DISK_SIZE_WRONG, 2);
    refuse_query("a list with a disk one byte long", long_disk, SOCKJADE_DISK_SIZE_WRONG, 2);
    refuse_query("a list at 1299", make_query(3, 1299), SOCKJADE_TIME_OUT_OF_RANGE, 4);
    refuse_query("a list at 2,147,483,648", make_query(3, 2147483648u), SOCKJADE_TIME_OUT_OF_RANGE, 4);
    box.memory[GROUP_NUMBER] = 0;
    refuse_query("a list with a memory of no groups", make_query(3, 1300), SOCKJADE_MEMORY_INVALID, 1);
}

/* "12, the list isn't 1 to 64 numbers" */
static void test_list_size(void) {
    static const size_t wrong[] = {0, 1, 3, 5, 255, 257, 260};
    write_two_groups();
    list_three(0, 64, 1);
    for (size_t i = 0; i < sizeof wrong / sizeof wrong[0]; i++) {
        struct query query = make_query(wrong[i] / 4, 1300);
        query.blocks_len = wrong[i];
        refuse_query("a list of a wrong size", query, SOCKJADE_LIST_SIZE_WRONG, 12);
    }
    refuse_query("one number too many", make_query(SOCKJADE_MOST_NUMBERS + 1, 1300), SOCKJADE_LIST_SIZE_WRONG, 12);
    accept_query("as many numbers as may be", make_query(SOCKJADE_MOST_NUMBERS, 1300), 2, 576);
    accept_query("one number", make_query(1, 1300), 1, 9);
}

static void refuse_numbers(const char *what, uint32_t first, uint32_t second, uint32_t third) {
    list_three(first, second, third);
    refuse_query(what, make_query(3, 1300), SOCKJADE_ADDRESS_OUT_OF_RANGE, 5);
}

/* "One number out of range refuses the list by 5, an answer buffer of another length by 6." */
static void test_numbers_and_answer(void) {
    static const size_t wrong[] = {0, 9, 18, 26, 28, 36, 544};
    write_two_groups();
    refuse_numbers("128 first", 2 * SOCKJADE_BLOCKS_PER_GROUP, 0, 64);
    refuse_numbers("128 in the middle", 0, 2 * SOCKJADE_BLOCKS_PER_GROUP, 64);
    refuse_numbers("128 last", 0, 64, 2 * SOCKJADE_BLOCKS_PER_GROUP);
    refuse_numbers("4,294,967,295", 0, 4294967295u, 64);
    refuse_numbers("16,777,216", 16777216, 0, 64);
    list_three(127, 0, 128);
    accept_query("128 behind the list", make_query(2, 1300), 2, 18);
    list_three(127, 0, 64);
    for (size_t i = 0; i < sizeof wrong / sizeof wrong[0]; i++) {
        struct query query = make_query(3, 1300);
        query.answer_len = wrong[i];
        refuse_query("an answer of another length", query, SOCKJADE_LENGTH_WRONG, 6);
    }
}

/* "12 ..; asked after question 4": where several say no, the first in the order 1, 2, 4, 12, 5, 6 is answered. */
static void test_order(void) {
    struct query query = {.now = 1299, .memory_len = MEMORY - 1, .disk_len = 1, .blocks_len = 13, .answer_len = 1};
    write_two_groups();
    list_three(0, 128, 0);
    refuse_query("all six", query, SOCKJADE_MEMORY_INVALID, 1);
    query.memory_len = MEMORY;
    refuse_query("all from 2 on", query, SOCKJADE_DISK_SIZE_WRONG, 2);
    query.disk_len = 2 * 33280;
    refuse_query("all from 4 on", query, SOCKJADE_TIME_OUT_OF_RANGE, 4);
    query.now = 1300;
    refuse_query("12, 5 and 6", query, SOCKJADE_LIST_SIZE_WRONG, 12);
    query.blocks_len = 12;
    refuse_query("5 and 6", query, SOCKJADE_ADDRESS_OUT_OF_RANGE, 5);
    list_three(0, 127, 0);
    refuse_query("6 alone", query, SOCKJADE_LENGTH_WRONG, 6);
    query.answer_len = 27;
    accept_query("none", query, 2, 27);
}

void test_states(void) {
    test_shown();
    test_pages();
    test_all_groups();
    test_box();
    test_list_size();
    test_numbers_and_answer();
    test_order();
}

/* The migration, after document 02, Q-7: "A separate entry turns a valid 616-byte memory into the 808-byte one (a memory not 616 bytes and
 * valid, or a room not 808 bytes, gets 1), and each later command then answers as it would have before." Old memories are laid out by
 * hand, after document 01: "0..31 salt; 32..95 sixteen 4-byte freshness counts; 96..99 last time; 100 G; 101 held group or 255; 102, 103
 * zero; 104..615 held page", where byte 102 counts updates since Q-4. */
#include <string.h>
#include "box.h"
#include "check.h"
#include "tests.h"

enum { OLD_LAST_TIME = 96, OLD_GROUPS = 100, OLD_HELD = 101, OLD_UPDATES = 102, OLD_ZERO = 103, OLD_PAGE = 104, OLD_MEMORY = 616 };

struct migration {
    size_t old_len, memory_len;
};

static uint8_t old[OLD_MEMORY + ROOM], room[MEMORY + ROOM], old_before[OLD_MEMORY + ROOM];

/* An old memory of so many groups with no page held: salt 00 01 .. 1F, counts of bytes 81 82 .. for the groups that there are, last
 * time 2,023,406,814. Behind it are bytes AA. */
static void make_old(uint8_t groups) {
    memset(old, 0, OLD_MEMORY);
    memset(old + OLD_MEMORY, 0xAA, ROOM);
    for (unsigned i = 0; i < 32 + 4u * groups && i < OLD_LAST_TIME; i++)
        old[i] = (uint8_t)(i < 32 ? i : i - 32 + 0x81);
    store_hex(old + OLD_LAST_TIME, "DE BC 9A 78");
    old[OLD_GROUPS] = groups;
    old[OLD_HELD] = 255;
}

/* Byte i of a held page is 3 × i + 1, of which none is like another beside it. */
static void fill_page(uint8_t *page) {
    for (unsigned i = 0; i < 512; i++)
        page[i] = (uint8_t)(3 * i + 1);
}

/* The same with the page of a group held, after so many updates. */
static void make_old_held(uint8_t groups, uint8_t held, uint8_t updates) {
    make_old(groups);
    old[OLD_HELD] = held;
    old[OLD_UPDATES] = updates;
    fill_page(old + OLD_PAGE);
}

/* The migration gets the number, and the old memory stays. The room is of bytes AA before. */
static void run_migration(const char *what, struct migration m, uint32_t constant, uint32_t expected) {
    memset(room, 0xAA, sizeof room);
    memcpy(old_before, old, sizeof old);
    check_number(what, sockjade_migrate(old, m.old_len, room, m.memory_len), constant, expected);
    check_same(what, old, old_before, sizeof old);
    check_filled("behind the room", room + MEMORY, 0xAA, ROOM);
}

static void accept_migration(const char *what) {
    run_migration(what, (struct migration){SOCKJADE_OLD_MEMORY_SIZE, SOCKJADE_MEMORY_SIZE}, SOCKJADE_ACCEPTED, 0);
}

static void refuse_lengths(const char *what, size_t old_len, size_t memory_len) {
    run_migration(what, (struct migration){old_len, memory_len}, SOCKJADE_MEMORY_INVALID, 1);
    check_filled(what, room, 0xAA, MEMORY);
}

static void refuse_old(const char *what) {
    refuse_lengths(what, OLD_MEMORY, MEMORY);
}

/* All counts, a page held after 42 updates: every byte. */
static void test_held(void) {
    uint8_t page[512];
    fill_page(page);
    make_old_held(16, 15, 42);
    accept_migration("16 groups, group 15's page held");
    check_hex("salt", room, "00 01 02 03 04 05 06 07 08 09 0A 0B 0C 0D 0E 0F 10 11 12 13 14 15 16 17 18 19 1A 1B 1C 1D 1E 1F");
    check_hex("counts of groups 0 to 7", room + COUNTS,
              "81 82 83 84 85 86 87 88 89 8A 8B 8C 8D 8E 8F 90 91 92 93 94 95 96 97 98 99 9A 9B 9C 9D 9E 9F A0");
    check_hex("counts of groups 8 to 15", room + COUNTS + 32,
              "A1 A2 A3 A4 A5 A6 A7 A8 A9 AA AB AC AD AE AF B0 B1 B2 B3 B4 B5 B6 B7 B8 B9 BA BB BC BD BE BF C0");
    check_filled("counts of groups 16 to 63", room + COUNTS + 64, 0, 192);
    check_hex("last time, groups, held group, updates and zero", room + LAST_TIME, "DE BC 9A 78 10 0F 2A 00");
    check_same("held page", room + HELD_PAGE, page, 512);
}

/* Of one group, with no page held: every byte. */
static void test_none_held(void) {
    make_old(1);
    accept_migration("one group, no page held");
    check_hex("salt", room, "00 01 02 03 04 05 06 07 08 09 0A 0B 0C 0D 0E 0F 10 11 12 13 14 15 16 17 18 19 1A 1B 1C 1D 1E 1F");
    check_hex("count of group 0", room + COUNTS, "81 82 83 84");
    check_filled("counts of groups 1 to 63", room + COUNTS + 4, 0, 252);
    check_hex("last time, groups, none held, no updates and zero", room + LAST_TIME, "DE BC 9A 78 01 FF 00 00");
    check_filled("no held page", room + HELD_PAGE, 0, 512);
}

/* What is still valid. */
static void test_limits(void) {
    make_old_held(1, 0, 1);
    store_hex(old + COUNTS, "01 00 00 00");
    accept_migration("a held group's count of 1, and 1 update");
    check_hex("groups, held group, updates and zero", room + GROUP_NUMBER, "01 00 01 00");
    make_old_held(3, 2, SOCKJADE_MOST_UPDATES);
    store_hex(old + COUNTS + 8, "FE FF FF FF");
    accept_migration("a held group's count of 4,294,967,294, and 63 updates");
    check_hex("counts of groups 2 and 3", room + COUNTS + 8, "FE FF FF FF 00 00 00 00");
    check_hex("groups, held group, updates and zero", room + GROUP_NUMBER, "03 02 3F 00");
    make_old(16);
    store_hex(old + COUNTS + 60, "FF FF FF FF");
    store_hex(old + OLD_LAST_TIME, "FF FF FF 7F");
    accept_migration("a count of 4,294,967,295 that is not held, and last time 2,147,483,647");
    check_hex("counts of groups 15 and 16", room + COUNTS + 60, "FF FF FF FF 00 00 00 00");
    check_hex("last time, groups, none held", room + LAST_TIME, "FF FF FF 7F 10 FF 00 00");
}

/* "a memory not 616 bytes .., or a room not 808 bytes, gets 1" */
static void test_lengths(void) {
    static const size_t old_lens[] = {0, 615, 617, 808}, memory_lens[] = {0, 616, 807, 809};
    make_old_held(2, 1, 1);
    for (size_t i = 0; i < 4; i++) {
        refuse_lengths("an old memory of another length", old_lens[i], MEMORY);
        refuse_lengths("a room of another length", OLD_MEMORY, memory_lens[i]);
        refuse_lengths("both", old_lens[i], memory_lens[i]);
    }
    accept_migration("the lengths that they have");
    memcpy(old, room, MEMORY);
    refuse_lengths("a memory that was migrated", MEMORY, MEMORY);
}

/* With no page held, a byte of an old memory is changed. */
static void refuse_byte(const char *what, uint8_t groups, size_t at, uint8_t byte) {
    make_old(groups);
    old[at] = byte;
    refuse_old(what);
}

static void test_not_valid(void) {
    refuse_byte("no groups", 16, OLD_GROUPS, 0);
    refuse_byte("17 groups", 16, OLD_GROUPS, 17);
    refuse_byte("64 groups", 16, OLD_GROUPS, 64);
    refuse_byte("65 groups", 16, OLD_GROUPS, 65);
    refuse_byte("255 groups", 16, OLD_GROUPS, 255);
    refuse_byte("the first count of an unused group", 2, COUNTS + 8, 1);
    refuse_byte("the last count of an unused group", 15, COUNTS + 63, 1);
    refuse_byte("last time 2,147,483,648 and more", 2, OLD_LAST_TIME + 3, 0x80);
    refuse_byte("updates with none held", 2, OLD_UPDATES, 1);
    refuse_byte("byte 103", 2, OLD_ZERO, 1);
    refuse_byte("the first byte of a page with none held", 2, OLD_PAGE, 1);
    refuse_byte("the last byte of a page with none held", 2, OLD_MEMORY - 1, 0x80);
    make_old(2);
    store_hex(old + OLD_LAST_TIME, "00 00 00 80");
    refuse_old("last time 2,147,483,648");
}

/* With a page held, updates and count as given. */
static void refuse_held_page(const char *what, uint8_t held, uint8_t updates, const char *count_1) {
    make_old_held(2, held, updates);
    store_hex(old + COUNTS + 4, count_1);
    refuse_old(what);
}

static void test_held_not_valid(void) {
    refuse_held_page("the held group is 2, of 2", 2, 1, "01 00 00 00");
    refuse_held_page("the held group is 15, of 2", 15, 1, "01 00 00 00");
    refuse_held_page("the held group is 254", 254, 1, "01 00 00 00");
    refuse_held_page("a page held from before updates were counted", 1, 0, "01 00 00 00");
    refuse_held_page("64 updates", 1, SOCKJADE_MOST_UPDATES + 1, "01 00 00 00");
    refuse_held_page("255 updates", 1, 255, "01 00 00 00");
    refuse_held_page("a held group's count of 0", 1, 1, "00 00 00 00");
    refuse_held_page("a held group's count of 4,294,967,295", 1, 1, "FF FF FF FF");
    make_old_held(2, 1, 1);
    old[OLD_ZERO] = 1;
    refuse_old("byte 103 with a page held");
}

void test_migrate(void) {
    test_held();
    test_none_held();
    test_limits();
    test_lengths();
    test_not_valid();
    test_held_not_valid();
    test_migrated();
}

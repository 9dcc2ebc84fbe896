/* Boxes that go on after a migration, after document 02, Q-7: "each later command then answers as it would have before". What the old box
 * left is laid out by hand, and the tags from before are b3sum's, of the messages that stand beside them. */
#include <string.h>
#include "box.h"
#include "check.h"
#include "tests.h"

/* A server's copy of the blank page of a group, and of group 1's page after the write below, each with the tag that the old box gave. */
static const char *const blank_0 = "e80aec63f970867dd207efd1534874777e2316ce0789a69ddf4db71d8ac17d65"; /* group 0, count 0 */
static const char *const blank_1 = "32fa29c67f611257015f70a1bd276ed5a7df5ce86a04ffa2789c9439ac2d6d44"; /* group 1, count 0 */
static const char *const written = "b855e318f2716443a2176973d18e5d5f017c3046a0c78488f313e876a63e087c"; /* group 1, count 1 */

static struct box box;

static void store_page(uint8_t *page, const char *first_entry) {
    for (unsigned entry = 0; entry < 64; entry++)
        store_hex(page + 8 * entry, entry == 0 ? first_entry : "00 00 00 00 01 00 00 00");
}

/* The old memory: salt 00 01 .. 1F, the counts of groups 0 and 1, and bytes 96 to 103. No page is held yet. */
static void store_old(uint8_t memory[616], const char *counts, const char *rest) {
    memset(memory, 0, 616);
    for (unsigned i = 0; i < 32; i++)
        memory[i] = (uint8_t)i;
    store_hex(memory + 32, counts);
    store_hex(memory + 96, rest);
}

static void migrate_to_box(const uint8_t memory[616]) {
    memset(&box, 0x78, sizeof box);
    check_number("migrate", sockjade_migrate(memory, 616, box.memory, 808), SOCKJADE_ACCEPTED, 0);
    store_page(box.disk + PAGE_0, "00 00 00 00 01 00 00 00");
    store_page(box.disk + PAGE_1, "00 00 00 00 01 00 00 00");
}

/* A box of two groups, in which block 64 was written at 1000 under a lock of 500. Group 1's page is held, after so many updates. */
static void migrate_held(const char *rest) {
    uint8_t memory[616];
    store_old(memory, "00 00 00 00 01 00 00 00", rest);
    store_page(memory + 104, "F4 01 00 00 D0 07 00 00");
    migrate_to_box(memory);
    memset(box.disk + 65 * 512, 0x61, 512);
}

/* The next update brings a page, and the tag from before. */
static void bring(const char *first_entry, const char *tag) {
    store_page(box.proof, first_entry);
    store_hex(box.proof + 512, tag);
}

/* One group, freshly formatted. The message of the tag brought: salt, group 0, count 0, the blank page. */
static void test_one_group(void) {
    uint8_t memory[616], tag[32];
    store_old(memory, "00 00 00 00", "E8 03 00 00 01 FF 00 00");
    migrate_to_box(memory);
    bring("00 00 00 00 01 00 00 00", blank_0);
    make_tag(tag, 0, 0, box.proof);
    check_same("the tag from before", box.proof + 512, tag, 32);
    struct command write = make_command(SOCKJADE_WRITE, 0, 1000, 500), read = make_command(SOCKJADE_READ, 0, 1000, 0);
    write.disk_len = read.disk_len = SOCKJADE_GROUP_SIZE;
    memset(box.data, 0x61, 512);
    accept_command("write with the tag from before", &box, write);
    check_hex("entry written", box.answer, "F4 01 00 00 D0 07 00 00");
    make_tag(tag, 0, 1, box.answer);
    check_same("the next tag", box.answer + 512, tag, 32);
    check_hex("count after it", box.memory + COUNTS, "01 00 00 00 00 00 00 00");
    check_hex("memory after it", box.memory + LAST_TIME, "E8 03 00 00 01 00 01 00");
    refuse_command("write with it again", &box, write, SOCKJADE_TAG_WRONG, 7);
    accept_command("read", &box, read);
    check_filled("block read", box.answer, 0x61, 512);
    read.block = 64;
    refuse_command("block 64 of one group", &box, read, SOCKJADE_ADDRESS_OUT_OF_RANGE, 5);
}

/* The server's copy of the held page serves, and the one from before it does not. */
static void test_held_page(void) {
    struct command unfreeze = make_command(SOCKJADE_UNFREEZE, 64, 1200, 0);
    migrate_held("E8 03 00 00 02 01 01 00");
    refuse_command("the clock gone back", &box, make_command(SOCKJADE_READ, 64, 999, 0), SOCKJADE_TIME_OUT_OF_RANGE, 4);
    bring("00 00 00 00 01 00 00 00", blank_1);
    refuse_command("unfreeze with the page from before the write", &box, unfreeze, SOCKJADE_TAG_WRONG, 7);
    bring("F4 01 00 00 D0 07 00 00", written);
    refuse_command("write the frozen block", &box, make_command(SOCKJADE_WRITE, 64, 1001, 0), SOCKJADE_STATE_WRONG, 9);
    accept_command("unfreeze with the page that the write answered", &box, unfreeze);
    check_hex("entry unfrozen", box.answer, "A5 06 00 00 D1 07 00 00"); /* 1,200 + 500 + 1 = 1,701 */
    check_hex("counts after an unfreeze", box.memory + COUNTS, "00 00 00 00 02 00 00 00 00 00 00 00");
    check_hex("memory after an unfreeze", box.memory + LAST_TIME, "B0 04 00 00 02 01 02 00");
    accept_command("read", &box, make_command(SOCKJADE_READ, 64, 1200, 0));
    check_filled("block read", box.answer, 0x61, 512);
}

/* A sync puts the page on the disk, and its tag stays right; a restart loses it, and the tag is wrong. */
static void test_synced_or_lost(void) {
    struct command unfreeze = make_command(SOCKJADE_UNFREEZE, 64, 1200, 0);
    migrate_held("E8 03 00 00 02 01 01 00");
    accept_command("sync", &box, make_command(SOCKJADE_SYNC, 0, 1001, 0));
    check_hex("page synced", box.disk + PAGE_1, "F4 01 00 00 D0 07 00 00 00 00 00 00 01 00 00 00");
    bring("F4 01 00 00 D0 07 00 00", written);
    accept_command("unfreeze after a sync", &box, unfreeze);
    migrate_held("E8 03 00 00 02 01 01 00");
    accept_command("restart", &box, make_command(SOCKJADE_RESTART, 0, 1001, 0));
    check_blank("page after a restart", box.disk + PAGE_1, 64);
    check_hex("counts after a restart", box.memory + COUNTS, "00 00 00 00 02 00 00 00");
    bring("F4 01 00 00 D0 07 00 00", written);
    refuse_command("unfreeze with the lost page", &box, unfreeze, SOCKJADE_TAG_WRONG, 7);
}

/* Sixty-three updates were counted before: with one more the page leaves. */
static void test_leaves_then(void) {
    migrate_held("E8 03 00 00 02 01 3F 00");
    bring("F4 01 00 00 D0 07 00 00", written);
    accept_command("the 64th update", &box, make_command(SOCKJADE_INCREMENT, 64, 1001, 100));
    check_hex("page that left", box.disk + PAGE_1, "58 02 00 00 D0 07 00 00"); /* 600 */
    check_hex("memory after it", box.memory + LAST_TIME, "E9 03 00 00 02 FF 00 00");
    check_filled("no held page", box.memory + HELD_PAGE, 0, 512);
}

void test_migrated(void) {
    test_one_group();
    test_held_page();
    test_synced_or_lost();
    test_leaves_then();
}

/* Pages that leave by themselves, after document 02, Q-4: "Byte 102 of the memory now counts updates to the held page, 1 to 63, and is
 * 0 when none is held; at the 64th update the page goes to the disk in the same command, as by a sync, after any data." Since Q-7 it is
 * byte 294. */
#include <string.h>
#include "check.h"
#include "store.h"
#include "tests.h"

enum { BLOCK_127 = 128 * 512 };

static struct box box;

/* A new box. Block 64 was written at 1000 under a lock of 0, and grew by 1 with each further update; in all, so many. */
static void update_group_1(uint32_t updates) {
    format_box(&box);
    accept_update("write", &box, SOCKJADE_WRITE, 64, 1000, 0);
    for (uint32_t i = 1; i < updates; i++)
        accept_update("increment", &box, SOCKJADE_INCREMENT, 64, 1000, 1);
}

/* No page is held, and it has no updates. */
static void check_none_held(const char *what) {
    check_hex(what, box.memory + LAST_TIME, "E8 03 00 00 02 FF 00 00");
    check_filled(what, box.memory + HELD_PAGE, 0, 512);
}

/* The count of updates along the way. The page on the disk stays as it was. */
static void test_counted(void) {
    update_group_1(1);
    for (uint32_t updates = 1; updates < 63; updates++) {
        check_number("updates to the held page", box.memory[UPDATES], updates, updates);
        accept_update("increment", &box, SOCKJADE_INCREMENT, 64, 1000, 1);
    }
    check_hex("memory after 63 updates", box.memory + LAST_TIME, "E8 03 00 00 02 01 3F 00 3E 00 00 00 D0 07 00 00");
    check_number("the most updates to a held page", box.memory[UPDATES], SOCKJADE_MOST_UPDATES, 63);
    check_blank("disk's page after 63 updates", box.disk + PAGE_1, 64);
}

/* The tag is from b3sum: perl -e 'print pack("C*", 0 .. 31), pack("Q<", 1), pack("L<", 64), pack("L<L<", 63, 2000),
 * pack("L<L<", 0, 1) x 63' | b3sum --no-names */
static void test_leaves(void) {
    update_group_1(SOCKJADE_MOST_UPDATES + 1);
    check_none_held("memory after 64 updates");
    check_hex("counts after 64 updates", box.memory + COUNTS, "00 00 00 00 40 00 00 00");
    check_hex("page that left", box.disk + PAGE_1, "3F 00 00 00 D0 07 00 00");
    check_blank("other entries of the page that left", box.disk + PAGE_1 + 8, 63);
    check_same("page answered with the 64th update", box.answer, box.disk + PAGE_1, 512);
    check_hex("its tag", box.answer + 512, "f0589d116a5b66567cf094a0fc60824dd4dee6e6c7c17332558878ae21a26932");
    accept_update("the next update", &box, SOCKJADE_INCREMENT, 64, 1000, 1);
    check_hex("memory after 65 updates", box.memory + LAST_TIME, "E8 03 00 00 02 01 01 00 40 00 00 00 D0 07 00 00");
    check_hex("disk's page after 65 updates", box.disk + PAGE_1, "3F 00 00 00 D0 07 00 00");
}

/* "after any data": both are on the disk. An unfreeze as the 64th has none. */
static void test_other_kinds(void) {
    update_group_1(SOCKJADE_MOST_UPDATES);
    accept_update("write as the 64th", &box, SOCKJADE_WRITE, 127, 1000, 9);
    check_none_held("memory after a 64th write");
    check_filled("data of a 64th write", box.disk + BLOCK_127, 0x61, 512);
    check_hex("first entry of the page that left", box.disk + PAGE_1, "3E 00 00 00 D0 07 00 00");
    check_hex("last entry of the page that left", box.disk + PAGE_1 + 63 * 8, "09 00 00 00 D0 07 00 00");
    update_group_1(SOCKJADE_MOST_UPDATES);
    accept_update("unfreeze as the 64th", &box, SOCKJADE_UNFREEZE, 64, 1000, 0);
    check_none_held("memory after a 64th unfreeze");
    check_hex("entry unfrozen on the disk", box.disk + PAGE_1, "27 04 00 00 D1 07 00 00"); /* 1,000 + 62 + 1 = 1,063 */
}

/* A restart loses 63 updates, and of 64 none: then its count stays, too. */
static void test_restarted(void) {
    update_group_1(SOCKJADE_MOST_UPDATES);
    accept_command("restart", &box, make_command(SOCKJADE_RESTART, 0, 1000, 0));
    check_none_held("memory after 63 updates and a restart");
    check_blank("page after 63 updates and a restart", box.disk + PAGE_1, 64);
    check_hex("counts after 63 updates and a restart", box.memory + COUNTS, "00 00 00 00 40 00 00 00");
    update_group_1(SOCKJADE_MOST_UPDATES + 1);
    accept_command("restart", &box, make_command(SOCKJADE_RESTART, 0, 1000, 0));
    check_none_held("memory after 64 updates and a restart");
    check_hex("page after 64 updates and a restart", box.disk + PAGE_1, "3F 00 00 00 D0 07 00 00");
    check_hex("counts after 64 updates and a restart", box.memory + COUNTS, "00 00 00 00 40 00 00 00");
}

/* A sync, a restart, a new salt and another group's update let the page go, and its updates are counted from 1 again. */
static void test_counted_anew(void) {
    static const uint32_t kinds[] = {SOCKJADE_SYNC, SOCKJADE_RESTART, SOCKJADE_NEW_SALT};
    for (size_t i = 0; i < sizeof kinds / sizeof kinds[0]; i++) {
        update_group_1(SOCKJADE_MOST_UPDATES);
        accept_command("sync, restart or new salt", &box, make_command(kinds[i], 0, 1000, 0));
        check_none_held("memory after it");
        accept_update("write after it", &box, SOCKJADE_WRITE, 65, 1000, 9);
        check_hex("memory after a write after it", box.memory + GROUP_NUMBER, "02 01 01 00");
    }
    update_group_1(SOCKJADE_MOST_UPDATES);
    accept_update("write in another group", &box, SOCKJADE_WRITE, 0, 1000, 9);
    check_hex("memory after it", box.memory + GROUP_NUMBER, "02 00 01 00");
    accept_update("increment in the first group", &box, SOCKJADE_INCREMENT, 64, 1000, 1);
    check_hex("memory after that", box.memory + GROUP_NUMBER, "02 01 01 00");
}

/* What is refused, or only looks, is no update. */
static void test_not_counted(void) {
    update_group_1(SOCKJADE_MOST_UPDATES);
    refuse_update("write a frozen block", &box, make_command(SOCKJADE_WRITE, 64, 1000, 1), SOCKJADE_STATE_WRONG, 9);
    box.proof[543] ^= 1;
    refuse_command("a wrong tag", &box, make_command(SOCKJADE_WRITE, 65, 1000, 1), SOCKJADE_TAG_WRONG, 7);
    accept_command("read", &box, make_command(SOCKJADE_READ, 64, 1000, 0));
    accept_command("entry", &box, make_command(SOCKJADE_ENTRY, 64, 1000, 0));
    check_hex("memory after what is no update", box.memory + GROUP_NUMBER, "02 01 3F 00 3E 00 00 00 D0 07 00 00");
}

/* With a page held and so many updates, and byte behind it, each call that asks for the memory gets 1; put and flush before they ask
 * for the time, so that it is not their first command which asks. */
static void refuse_updates(const char *what, uint8_t updates, uint8_t zero) {
    uint8_t blocks[4] = {0}, shown[9];
    start_store(500);
    accept_put("part 7", 7, 1000, 0x61, 1);
    store.box.memory[UPDATES] = updates;
    store.box.memory[ZERO] = zero;
    refuse_command(what, &store.box, make_command(SOCKJADE_SYNC, 0, 1000, 0), SOCKJADE_MEMORY_INVALID, 1);
    refuse_put(what, make_store_call(7, 999), SOCKJADE_MEMORY_INVALID, 1);
    refuse_flush(what, make_store_call(0, 999), SOCKJADE_MEMORY_INVALID, 1);
    uint64_t listed = sockjade_states(store.box.memory, MEMORY, store.box.disk, 2 * 33280, blocks, 4, 1000, shown, 9);
    check_number(what, sockjade_number(listed), SOCKJADE_MEMORY_INVALID, 1);
}

/* "Validity in question 1 gains this; boxes are synced before the change": one with a page held has 0 there, and gets 1. */
static void test_validity(void) {
    refuse_updates("a page held from before the change", 0, 0);
    refuse_updates("64 updates", SOCKJADE_MOST_UPDATES + 1, 0);
    refuse_updates("65 updates", 65, 0);
    refuse_updates("129 updates", 129, 0);
    refuse_updates("255 updates", 255, 0);
    refuse_updates("byte 295", 1, 1);
    update_group_1(1);
    box.memory[UPDATES] = SOCKJADE_MOST_UPDATES;
    accept_update("with 63 updates, one more", &box, SOCKJADE_INCREMENT, 64, 1000, 1);
    check_none_held("memory after it");
}

/* Sixty-three versions and the log block are 64 updates: the page leaves with the last one, inside the put. */
static void test_put_leaves(void) {
    start_store(500);
    for (uint32_t put = 1; put < SOCKJADE_LOG_RECORDS; put++)
        accept_put("a put", put, 1000, 0x61, put);
    check_hex("memory after 62 puts", store.box.memory + GROUP_NUMBER, "02 00 3E 00");
    accept_put("the put that fills the log", 63, 1000, 0x61, 63);
    check_hex("memory after it", store.box.memory + GROUP_NUMBER, "02 FF 00 00");
    for (uint32_t block = 0; block < 64; block++)
        check_hex("entry on the disk", store.box.disk + 64 * 512 + 8 * block, "F4 01 00 00 D0 07 00 00");
}

void test_updates(void) {
    test_counted();
    test_leaves();
    test_other_kinds();
    test_restarted();
    test_counted_anew();
    test_not_counted();
    test_validity();
    test_put_leaves();
}

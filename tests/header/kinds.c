/* Each kind, accepted, with the bytes of answer, memory and disk, after document 01's "Commands" and its edge values, and document
 * 02's. The disk's byte offsets are 512 × the physical block: block 64 lies at 65. */
#include <string.h>
#include "box.h"
#include "check.h"
#include "tests.h"

enum { BLOCK_64 = 65 * 512 };

static struct box box;

/* A new box, in which block 64 was written at 1000 under a lock of 500. Group 1's page is held. */
static void write_block_64(void) {
    format_box(&box);
    accept_update("write", &box, SOCKJADE_WRITE, 64, 1000, 500);
}

static void check_tag(const char *what, uint32_t group, uint32_t count) {
    uint8_t tag[32 + ROOM] = {0};
    make_tag(tag, group, count, box.answer);
    check_same(what, box.answer + SOCKJADE_PAGE_SIZE, tag, 32);
}

/* "1 read: the block's 512 bytes." */
static void test_read(void) {
    write_block_64();
    accept_command("read", &box, make_command(SOCKJADE_READ, 64, 1000, 0));
    check_filled("block read", box.answer, 0x61, 512);
    check_filled("behind the block read", box.answer + 512, 0, 32);
    accept_command("read", &box, make_command(SOCKJADE_READ, 63, 1000, 0));
    check_filled("the block before", box.answer, 0x78, 512);
}

static void check_entry(const char *what, uint32_t now, const char *expected, uint32_t constant, uint32_t state) {
    accept_command(what, &box, make_command(SOCKJADE_ENTRY, 64, now, 0));
    check_hex(what, box.answer, expected);
    check_number(what, box.answer[16], constant, state);
    check_filled(what, box.answer + 17, 0, 527);
}

/* "2 entry: its 8 bytes, then the time left as a signed 64-bit number, then the state in one byte" */
static void test_entry(void) {
    write_block_64();
    check_entry("entry, frozen", 1000, "F4 01 00 00 D0 07 00 00 F4 01 00 00 00 00 00 00", SOCKJADE_FROZEN, 1);
    accept_update("unfreeze", &box, SOCKJADE_UNFREEZE, 64, 1200, 0);
    check_entry("entry, counting", 1650, "A5 06 00 00 D1 07 00 00 33 00 00 00 00 00 00 00", SOCKJADE_COUNTING, 2);
    check_entry("entry, the last second", 1700, "A5 06 00 00 D1 07 00 00 01 00 00 00 00 00 00 00", SOCKJADE_COUNTING, 2);
    check_entry("entry, free", 1701, "A5 06 00 00 D1 07 00 00 00 00 00 00 00 00 00 00", SOCKJADE_FREE, 0);
}

/* "Expiry 1700: at 1650, 50 left; .. at 1700, 0 and free; .. at 1750, CE FF FF FF FF FF FF FF." This one is on the disk, from before
 * document 02's Q-2: "Expiries already stored keep their word." */
static void test_stored_expiry(void) {
    format_box(&box);
    store_little_endian(box.disk + PAGE_1, 1700, 4);
    store_little_endian(box.disk + PAGE_1 + 4, 2 * 1000 + 1, 4);
    check_entry("expiry 1700, counting", 1650, "A4 06 00 00 D1 07 00 00 32 00 00 00 00 00 00 00", SOCKJADE_COUNTING, 2);
    accept_update("write another block", &box, SOCKJADE_WRITE, 65, 1650, 500);
    check_entry("expiry 1700, free", 1700, "A4 06 00 00 D1 07 00 00 00 00 00 00 00 00 00 00", SOCKJADE_FREE, 0);
    check_entry("expiry 1700, free for 50 seconds", 1750, "A4 06 00 00 D1 07 00 00 CE FF FF FF FF FF FF FF", SOCKJADE_FREE, 0);
}

/* "3 page: block names a group; its current page and tag." The tag is from b3sum:
 * perl -e 'print pack("C*", 0 .. 31), pack("Q<", 1), pack("L<", 0), pack("L<L<", 0, 1) x 64' | b3sum --no-names */
static void test_page(void) {
    format_box(&box);
    accept_command("page", &box, make_command(SOCKJADE_PAGE, 1, 1000, 0));
    check_blank("page answered", box.answer, 64);
    check_hex("tag answered", box.answer + 512, "32fa29c67f611257015f70a1bd276ed5a7df5ce86a04ffa2789c9439ac2d6d44");
    check_tag("tag of the page answered", 1, 0);
    check_hex("memory after a page", box.memory + LAST_TIME, "E8 03 00 00 02 FF 00 00");
}

/* "4 write: data 512, value = lock. Word = lock, stamp = 2 × now." The tag is from b3sum: perl -e 'print pack("C*", 0 .. 31),
 * pack("Q<", 1), pack("L<", 1), pack("L<L<", 500, 2000), pack("L<L<", 0, 1) x 63' | b3sum --no-names */
static void test_write(void) {
    write_block_64();
    check_hex("entry written", box.answer, "F4 01 00 00 D0 07 00 00");
    check_blank("other entries of a write", box.answer + 8, 63);
    check_hex("tag of a write", box.answer + 512, "b855e318f2716443a2176973d18e5d5f017c3046a0c78488f313e876a63e087c");
    check_hex("counts after a write", box.memory + COUNTS, "00 00 00 00 01 00 00 00");
    check_hex("memory after a write", box.memory + LAST_TIME, "E8 03 00 00 02 01 01 00");
    check_same("held page after a write", box.memory + HELD_PAGE, box.answer, 512);
    check_filled("data after a write", box.disk + BLOCK_64, 0x61, 512);
    check_filled("data behind a write", box.disk + BLOCK_64 + 512, 0x78, 63 * 512);
    check_blank("page of group 0 after a write", box.disk + PAGE_0, 64);
    check_blank("disk's page of group 1 after a write", box.disk + PAGE_1, 64);
}

/* The proof is a page and a tag, of which the header has the sizes apart. */
static void test_proof(void) {
    format_box(&box);
    fetch_page(&box, 1, 1000);
    struct command write = make_command(SOCKJADE_WRITE, 127, 1000, 0);
    write.proof_len = SOCKJADE_PAGE_SIZE + SOCKJADE_TAG_SIZE;
    accept_command("write with a page and a tag", &box, write);
    check_hex("last entry written", box.answer + 63 * 8, "00 00 00 00 D0 07 00 00");
}

/* "If another group is held, its page is first put on the disk." */
static void test_eviction(void) {
    write_block_64();
    accept_update("write in another group", &box, SOCKJADE_WRITE, 0, 1001, 500);
    check_hex("page of group 1 on the disk", box.disk + PAGE_1, "F4 01 00 00 D0 07 00 00");
    check_blank("disk's page of group 0", box.disk + PAGE_0, 64);
    check_hex("counts after two writes", box.memory + COUNTS, "01 00 00 00 01 00 00 00");
    check_hex("memory after two writes", box.memory + LAST_TIME, "E9 03 00 00 02 00 01 00 F4 01 00 00 D2 07 00 00");
}

/* A new box, in which block 64 is written under a lock and at once unfrozen. */
static void check_unfrozen(const char *what, uint32_t now, uint32_t lock, const char *expected) {
    format_box(&box);
    accept_update("write", &box, SOCKJADE_WRITE, 64, now, lock);
    accept_update("unfreeze", &box, SOCKJADE_UNFREEZE, 64, now, 0);
    check_hex(what, box.answer, expected);
}

/* "5 unfreeze: .. f = 1." Its word is by document 02, Q-2: "A lock of 1 or more gets the expiry now + lock + 1; a lock of 0 stays
 * now." */
static void test_unfreeze(void) {
    write_block_64();
    accept_update("unfreeze", &box, SOCKJADE_UNFREEZE, 64, 1200, 0);
    check_hex("entry unfrozen", box.answer, "A5 06 00 00 D1 07 00 00"); /* 1,200 + 500 + 1 = 1,701 */
    check_tag("tag of an unfreeze", 1, 2);
    check_hex("counts after an unfreeze", box.memory + COUNTS, "00 00 00 00 02 00 00 00");
    check_unfrozen("lock 1", 1200, 1, "B2 04 00 00 61 09 00 00"); /* 1,202; 2 × 1,200 + 1 = 2,401 */
    check_unfrozen("the largest unfreeze", 2147483647, 2147483647, "FF FF FF FF FF FF FF FF"); /* both 2 × 2,147,483,647 + 1 */
    check_unfrozen("lock 0", 1200, 0, "B0 04 00 00 61 09 00 00"); /* 1,200 */
    check_entry("lock 0, free at once", 1200, "B0 04 00 00 61 09 00 00 00 00 00 00 00 00 00 00", SOCKJADE_FREE, 0);
}

/* "6 increment: word + value." */
static void test_increment(void) {
    write_block_64();
    accept_update("increment, frozen", &box, SOCKJADE_INCREMENT, 64, 1100, 100);
    check_hex("lock grown", box.answer, "58 02 00 00 D0 07 00 00");
    write_block_64();
    accept_update("unfreeze", &box, SOCKJADE_UNFREEZE, 64, 1200, 0);
    accept_update("increment, counting", &box, SOCKJADE_INCREMENT, 64, 1300, 100);
    check_hex("expiry grown", box.answer, "09 07 00 00 D1 07 00 00"); /* 1,701 + 100 = 1,801 */
    check_tag("tag of an increment", 1, 3);
}

/* "7 sync: the held page, if any, goes to the disk; held becomes 255 and its bytes zero." */
static void test_sync(void) {
    write_block_64();
    accept_command("sync", &box, make_command(SOCKJADE_SYNC, 0, 1001, 0));
    check_filled("answer of a sync", box.answer, 0, 544);
    check_hex("page synced", box.disk + PAGE_1, "F4 01 00 00 D0 07 00 00");
    check_hex("counts after a sync", box.memory + COUNTS, "00 00 00 00 01 00 00 00");
    check_hex("memory after a sync", box.memory + LAST_TIME, "E9 03 00 00 02 FF 00 00");
    check_filled("held page after a sync", box.memory + HELD_PAGE, 0, 512);
}

/* "8 restart ..: the held page is lost, its group's count rises by 1, held becomes 255, its bytes zero" */
static void test_restart(void) {
    write_block_64();
    accept_command("restart", &box, make_command(SOCKJADE_RESTART, 0, 1001, 0));
    check_filled("answer of a restart", box.answer, 0, 544);
    check_blank("disk's page after a restart", box.disk + PAGE_1, 64);
    check_hex("counts after a restart", box.memory + COUNTS, "00 00 00 00 02 00 00 00");
    check_hex("memory after a restart", box.memory + LAST_TIME, "E9 03 00 00 02 FF 00 00");
    check_filled("held page after a restart", box.memory + HELD_PAGE, 0, 512);
}

/* "9 new salt: data 32 ..; sync first, then the data become the salt and all counts 0." */
static void test_new_salt(void) {
    write_block_64();
    memset(box.data, 0x6E, sizeof box.data);
    accept_command("new salt", &box, make_command(SOCKJADE_NEW_SALT, 0, 1001, 0));
    check_filled("answer of a new salt", box.answer, 0, 544);
    check_hex("page synced by a new salt", box.disk + PAGE_1, "F4 01 00 00 D0 07 00 00");
    check_filled("new salt in the memory", box.memory, 0x6E, 32);
    check_filled("counts after a new salt", box.memory + COUNTS, 0, 256);
    check_hex("memory after a new salt", box.memory + LAST_TIME, "E9 03 00 00 02 FF 00 00");
}

/* "10 identify: G, then 64 × G, 4 bytes each." */
static void test_identify(void) {
    format_box(&box);
    accept_command("identify", &box, make_command(SOCKJADE_IDENTIFY, 0, 1000, 0));
    check_hex("answer of identify", box.answer, "02 00 00 00 80 00 00 00");
    check_number("data blocks of two groups", box.answer[4], 2 * SOCKJADE_BLOCKS_PER_GROUP, 128);
    check_filled("behind the answer of identify", box.answer + 8, 0, 536);
}

void test_kinds(void) {
    test_read();
    test_entry();
    test_stored_expiry();
    test_page();
    test_write();
    test_proof();
    test_eviction();
    test_unfreeze();
    test_increment();
    test_sync();
    test_restart();
    test_new_salt();
    test_identify();
}

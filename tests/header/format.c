/* "Formatting takes G and a salt, refuses by questions 1 (G, and 616 bytes of memory to fill), 2 and 6 (32 bytes of salt), stores
 * both, sets every entry to 00 00 00 00 01 00 00 00, held to 255 and the rest of the memory to 0, and touches no data block." The memory
 * is of 808 bytes by document 02, Q-7. */
#include <stdio.h>
#include <stdlib.h>
#include <string.h>
#include "box.h"
#include "check.h"
#include "tests.h"

struct formatting {
    uint32_t groups;
    size_t memory_len, disk_len, salt_len;
};

static uint8_t memory[MEMORY + ROOM], salt[32 + ROOM];

static struct formatting make_formatting(uint32_t groups) {
    return (struct formatting){groups, SOCKJADE_MEMORY_SIZE, (size_t)groups * SOCKJADE_GROUP_SIZE, SOCKJADE_SALT_SIZE};
}

/* A disk of bytes 78, and a memory and a salt to format with. */
static uint8_t *allocate_disk(size_t len) {
    uint8_t *disk = malloc(len + 1);
    if (disk == NULL) {
        perror("header");
        exit(EXIT_FAILURE);
    }
    memset(disk, 0x78, len + 1);
    memset(memory, 0xAA, sizeof memory);
    memset(salt, 0x53, sizeof salt);
    return disk;
}

static uint32_t run_formatting(uint8_t *disk, struct formatting f) {
    return sockjade_format(memory, f.memory_len, disk, f.disk_len, f.groups, salt, f.salt_len);
}

static void refuse_formatting(const char *what, struct formatting f, uint32_t constant, uint32_t expected) {
    uint8_t *disk = allocate_disk(f.disk_len);
    check_number(what, run_formatting(disk, f), constant, expected);
    check_filled(what, memory, 0xAA, sizeof memory);
    check_filled(what, disk, 0x78, f.disk_len);
    free(disk);
}

/* Document 02, Q-7: "G may be 1 to 64." "The page of group g lies at 65 × g + 64" */
static void test_most_groups(void) {
    struct formatting most = make_formatting(SOCKJADE_MOST_GROUPS);
    uint8_t *disk = allocate_disk(65 * 33280);
    uint32_t number = run_formatting(disk, most);
    check_number("format the most groups", number, SOCKJADE_ACCEPTED, 0);
    for (size_t group = 0; number == 0 && group < 64; group++) {
        check_filled("data blocks after formatting", disk + 33280 * group, 0x78, 64 * 512);
        check_blank("page after formatting", disk + (65 * group + 64) * 512, 64);
    }
    check_filled("salt after formatting", memory, 0x53, 32);
    check_filled("counts and last time after formatting", memory + COUNTS, 0, 260);
    check_hex("groups, held group and zeros after formatting", memory + GROUP_NUMBER, "40 FF 00 00");
    check_filled("held page after formatting", memory + HELD_PAGE, 0, 512);
    check_filled("behind the memory", memory + MEMORY, 0xAA, ROOM);
    check_filled("behind the disk", disk + 64 * 33280, 0x78, 33280);
    free(disk);
}

void test_format(void) {
    struct formatting short_memory = make_formatting(1), long_memory = short_memory, short_disk = short_memory;
    struct formatting long_disk = short_memory, short_salt = short_memory, long_salt = short_memory;
    short_memory.memory_len--;
    long_memory.memory_len++;
    short_disk.disk_len--;
    long_disk.disk_len++;
    short_salt.salt_len--;
    long_salt.salt_len++;
    test_most_groups();
    refuse_formatting("format one group more", make_formatting(SOCKJADE_MOST_GROUPS + 1), SOCKJADE_MEMORY_INVALID, 1);
    refuse_formatting("format no group", make_formatting(0), SOCKJADE_MEMORY_INVALID, 1);
    refuse_formatting("format 807 bytes of memory", short_memory, SOCKJADE_MEMORY_INVALID, 1);
    refuse_formatting("format 809 bytes of memory", long_memory, SOCKJADE_MEMORY_INVALID, 1);
    refuse_formatting("format a disk one byte short", short_disk, SOCKJADE_DISK_SIZE_WRONG, 2);
    refuse_formatting("format a disk one byte long", long_disk, SOCKJADE_DISK_SIZE_WRONG, 2);
    refuse_formatting("format with 31 bytes of salt", short_salt, SOCKJADE_LENGTH_WRONG, 6);
    refuse_formatting("format with 33 bytes of salt", long_salt, SOCKJADE_LENGTH_WRONG, 6);
}

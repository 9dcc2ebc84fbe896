/* The office's tool after an intrusion: `recover FILE X FOLDER [NOW]` finds each part of a version store as of the time X in a box's
 * file, and stores its content in a new folder: part-000 to part-255, and parts.txt, a line for each with its block and time of write.
 *
 * FILE is the box's, as examples/service keeps it: the memory, then the disk of 1 to 64 groups. It is only read, so a copy serves, and
 * the box may go on; what the tool asks the controller, it asks on what it has read. The memory of an old box's file is migrated there.
 *
 * X is a time up to which the office trusts what was stored, and at which it had flushed and synced.
 *
 * NOW is the clock by which a block is free or not, and by itself the box's last time, that of the last command in the file: nothing was
 * overwritten since, so that all is found that is still there, however long the file has lain. A later one shows what will be left. */
#define _XOPEN_SOURCE 700
#include <errno.h>
#include <stdio.h>
#include <stdlib.h>
#include <string.h>
#include <sys/stat.h>
#include "sockjade.h"

enum { LAST_TIME = 288, LONGEST_PATH = 4096, LARGEST = SOCKJADE_MEMORY_SIZE + SOCKJADE_MOST_GROUPS * SOCKJADE_GROUP_SIZE };

static uint8_t box[LARGEST + 1]; /* the file; a byte more than the largest box has */
static uint8_t memory[SOCKJADE_MEMORY_SIZE], *disk;
static size_t disk_len;
static uint8_t answer[SOCKJADE_ANSWER_SIZE];

static _Noreturn void fail(const char *what) {
    perror(what);
    exit(EXIT_FAILURE);
}

static _Noreturn void complain(const char *what, const char *trouble) {
    fprintf(stderr, "%s: %s\n", what, trouble);
    exit(EXIT_FAILURE);
}

static uint32_t little_endian(const uint8_t *bytes) {
    return (uint32_t)bytes[0] | (uint32_t)bytes[1] << 8 | (uint32_t)bytes[2] << 16 | (uint32_t)bytes[3] << 24;
}

/* A time in seconds, of digits alone. */
static uint32_t parse_time(const char *word) {
    size_t digits = strspn(word, "0123456789");
    errno = 0;
    unsigned long long time = strtoull(word, NULL, 10);
    if (digits == 0 || word[digits] != '\0' || errno != 0 || time > UINT32_MAX)
        complain(word, "not a time: a number from 0 to 4294967295");
    return (uint32_t)time;
}

/* The number is SOCKJADE_ACCEPTED, or the tool ends. */
static void accept(const char *path, uint32_t number) {
    static const char *const names[] = {[SOCKJADE_MEMORY_INVALID] = "memory invalid", [SOCKJADE_DISK_SIZE_WRONG] = "disk size wrong",
                                        [SOCKJADE_TIME_OUT_OF_RANGE] = "NOW is before the box's last time, or too late"};
    if (number == SOCKJADE_ACCEPTED)
        return;
    const char *name = number < sizeof names / sizeof names[0] && names[number] != NULL ? names[number] : "unexpected";
    fprintf(stderr, "%s: refused: %u %s\n", path, (unsigned)number, name);
    exit(EXIT_FAILURE);
}

/* Whether a file of so many bytes has a memory of this length, and then whole groups. */
static int has_groups(size_t len, size_t memory_len) {
    return len > memory_len && (len - memory_len) % SOCKJADE_GROUP_SIZE == 0;
}

static void load(const char *path) {
    FILE *file = fopen(path, "rb");
    if (file == NULL)
        fail(path);
    size_t len = fread(box, 1, sizeof box, file);
    if (ferror(file) || fclose(file) != 0)
        fail(path);
    int old = has_groups(len, SOCKJADE_OLD_MEMORY_SIZE);
    if (len > LARGEST || !(old || has_groups(len, SOCKJADE_MEMORY_SIZE)))
        complain(path, "not of the size of a box");
    if (old)
        accept(path, sockjade_migrate(box, SOCKJADE_OLD_MEMORY_SIZE, memory, sizeof memory));
    else
        memcpy(memory, box, sizeof memory);
    size_t memory_len = old ? SOCKJADE_OLD_MEMORY_SIZE : SOCKJADE_MEMORY_SIZE;
    disk = box + memory_len;
    disk_len = len - memory_len;
}

/* A command without data and proof, on what was read: its answer is in `answer`. */
static void command(const char *path, uint32_t kind, uint32_t block, uint32_t now) {
    const uint8_t none[1] = {0};
    accept(path, sockjade_command(memory, sizeof memory, disk, disk_len, kind, block, now, 0, none, 0, none, 0, answer,
                                  sizeof answer));
}

/* A new file in the folder: none that is there is written over. */
static FILE *create(char path[LONGEST_PATH], const char *folder, const char *name) {
    int len = snprintf(path, LONGEST_PATH, "%s/%s", folder, name);
    if (len < 0 || len >= LONGEST_PATH)
        complain(folder, "the path is too long");
    FILE *file = fopen(path, "wbx");
    if (file == NULL)
        fail(path);
    return file;
}

static void finish(FILE *file, const char *path) {
    int failed = ferror(file);
    if (fclose(file) != 0 || failed)
        fail(path);
}

/* The part's content, and its line of the list. */
static void store_part(const char *source, const char *folder, FILE *list, unsigned part, uint32_t block, uint32_t now) {
    char path[LONGEST_PATH], name[16];
    snprintf(name, sizeof name, "part-%03u", part);
    FILE *file = create(path, folder, name);
    command(source, SOCKJADE_READ, block, now);
    fwrite(answer, SOCKJADE_BLOCK_SIZE, 1, file);
    finish(file, path);
    command(source, SOCKJADE_ENTRY, block, now);
    fprintf(list, "%u %lu %lu\n", part, (unsigned long)block, (unsigned long)(little_endian(answer + 4) / 2));
}

/* Stores each part that was found, in a folder that is new. Says how many there are. */
static unsigned store_parts(const char *source, const char *folder, const uint8_t *found, uint32_t now) {
    char path[LONGEST_PATH];
    unsigned parts = 0;
    if (mkdir(folder, 0777) != 0)
        fail(folder);
    FILE *list = create(path, folder, "parts.txt");
    fprintf(list, "part block written\n");
    for (unsigned part = 0; part <= SOCKJADE_LAST_PART; part++) {
        uint32_t block = little_endian(found + 4 * part);
        if (block == SOCKJADE_NO_BLOCK)
            continue;
        store_part(source, folder, list, part, block, now);
        parts++;
    }
    finish(list, path);
    return parts;
}

int main(int argc, char **argv) {
    uint8_t found[SOCKJADE_RECOVERED_SIZE];
    if (argc != 4 && argc != 5) {
        fprintf(stderr, "usage: recover FILE X FOLDER [NOW]\n");
        return EXIT_FAILURE;
    }
    const char *source = argv[1], *folder = argv[3];
    uint32_t point = parse_time(argv[2]);
    load(source);
    uint32_t now = argc == 5 ? parse_time(argv[4]) : little_endian(memory + LAST_TIME);
    accept(source, sockjade_recover(memory, sizeof memory, disk, disk_len, point, now, found, sizeof found));
    unsigned parts = store_parts(source, folder, found, now);
    printf("%s: %u parts as of %lu, by the clock at %lu\n", folder, parts, (unsigned long)point, (unsigned long)now);
    if (fflush(stdout) == 0)
        return EXIT_SUCCESS;
    fail("standard output");
}

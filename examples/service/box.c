#define _XOPEN_SOURCE 700
#include <errno.h>
#include <fcntl.h>
#include <libgen.h>
#include <stdio.h>
#include <stdlib.h>
#include <string.h>
#include <sys/random.h>
#include <sys/stat.h>
#include <unistd.h>
#include "box.h"

enum { LONGEST_PATH = 4096 };

static _Noreturn void fail(const char *what) {
    perror(what);
    exit(EXIT_FAILURE);
}

/* ---- The file ---- */

/* The path of the box's file, with a suffix. */
static void suffixed_path(char path[LONGEST_PATH], const struct box *box, const char *suffix) {
    int len = snprintf(path, LONGEST_PATH, "%s%s", box->path, suffix);
    if (len >= 0 && len < LONGEST_PATH)
        return;
    errno = ENAMETOOLONG;
    fail(box->path);
}

/* Forces out the folder's entry of the box's file. */
static void sync_folder(const struct box *box) {
    char path[LONGEST_PATH];
    suffixed_path(path, box, "");
    int folder = open(dirname(path), O_RDONLY | O_DIRECTORY);
    if (folder < 0 || fsync(folder) != 0 || close(folder) != 0)
        fail(box->path);
}

/* Stores the box whole or not at all: in a new file, forced out, then renamed over the old one. The proof's premise is that
 * power fails only between commands, so that the stores of each stand whole; this sees to it. A service that stores in place
 * writes the changed blocks first, forces them out, and then the memory: the other way round, a held page could be gone from the
 * memory and not yet be on the disk, and its locks with it. But no proof covers a command of which only a part is stored. */
static void store(const struct box *box) {
    char path[LONGEST_PATH];
    suffixed_path(path, box, ".new");
    int fd = open(path, O_WRONLY | O_CREAT | O_TRUNC, 0600);
    FILE *file = fd < 0 ? NULL : fdopen(fd, "wb");
    if (file == NULL || fwrite(box->memory, sizeof box->memory, 1, file) != 1 ||
        fwrite(box->disk, sizeof box->disk, 1, file) != 1 || fflush(file) != 0 || fsync(fd) != 0 || fclose(file) != 0 ||
        rename(path, box->path) != 0)
        fail(path);
    sync_folder(box);
}

/* Reads the file whole: a memory of this length, then the disk. */
static void read_file(FILE *file, struct box *box, uint8_t *memory, size_t memory_len) {
    int whole = fread(memory, memory_len, 1, file) == 1 && fread(box->disk, sizeof box->disk, 1, file) == 1 && fgetc(file) == EOF;
    if (ferror(file) || fclose(file) != 0)
        fail(box->path);
    if (whole)
        return;
    fprintf(stderr, "%s: not of the size of a box of %d groups\n", box->path, GROUPS);
    exit(EXIT_FAILURE);
}

/* Loads the box; the memory of an old one is migrated, and answers the migration's number. It is not stored here: the restart that
 * follows stores the box whole, and until then the file is the old one. Nobody else may write the file, which is a premise too: an older
 * one that was put back, or a changed block, is not noticed. Nor is a copy of the old box's file: started again after the new box has run,
 * it would bring old counts back, and pages of that time would match again. */
static uint32_t load(struct box *box) {
    uint8_t old[SOCKJADE_OLD_MEMORY_SIZE];
    struct stat status;
    FILE *file = fopen(box->path, "rb");
    if (file == NULL || fstat(fileno(file), &status) != 0)
        fail(box->path);
    box->old = status.st_size == (off_t)(sizeof old + sizeof box->disk);
    if (!box->old) {
        read_file(file, box, box->memory, sizeof box->memory);
        return SOCKJADE_ACCEPTED;
    }
    read_file(file, box, old, sizeof old);
    return sockjade_migrate(old, sizeof old, box->memory, sizeof box->memory);
}

/* Any trouble but that there is no file ends the service, so that a box is never formatted over. */
int box_exists(const struct box *box) {
    struct stat status;
    if (stat(box->path, &status) == 0)
        return 1;
    if (errno != ENOENT)
        fail(box->path);
    return 0;
}

void lock_box(const struct box *box) {
    char path[LONGEST_PATH];
    suffixed_path(path, box, ".lock");
    int fd = open(path, O_RDWR | O_CREAT, 0600);
    if (fd < 0 || lockf(fd, F_TLOCK, 0) != 0)
        fail(path);
}

/* ---- The controller ---- */

static const uint8_t none[1]; /* no pointer is null, even where the length is 0 */

/* Calls the controller, for this file alone: it takes any kind. The answer is given out once the stores are on the file, and not
 * before: if power failed in between, the count would fall back, and the page given out could match again when it is not the
 * current one. */
static uint32_t call_controller(struct box *box, struct request r, uint8_t answer[SOCKJADE_ANSWER_SIZE]) {
    uint32_t number = sockjade_command(box->memory, sizeof box->memory, box->disk, sizeof box->disk, r.kind, r.block, box->clock,
                                       r.value, r.data_len > 0 ? r.data : none, r.data_len, r.proof_len > 0 ? r.proof : none,
                                       r.proof_len, answer, SOCKJADE_ANSWER_SIZE);
    if (number == SOCKJADE_ACCEPTED)
        store(box);
    return number;
}

struct reply serve_request(struct box *box, struct request request) {
    struct reply reply = {0};
    reply.reserved = request.kind == SOCKJADE_RESTART || request.kind == SOCKJADE_NEW_SALT;
    if (reply.reserved)
        return reply;
    reply.number = call_controller(box, request, reply.answer);
    return reply;
}

/* The server chooses the length of the list, so the answer's is kept within the buffer: a longer list is refused, whatever the answer. */
struct list_reply serve_list(struct box *box, const uint8_t *blocks, size_t blocks_len) {
    struct list_reply reply = {0};
    size_t numbers = blocks_len / SOCKJADE_NUMBER_SIZE;
    size_t shown_len = numbers <= SOCKJADE_MOST_NUMBERS ? numbers * SOCKJADE_SHOWN_SIZE : 0;
    uint64_t result = sockjade_states(box->memory, sizeof box->memory, box->disk, sizeof box->disk, blocks_len > 0 ? blocks : none,
                                      blocks_len, box->clock, reply.shown, shown_len);
    reply.number = sockjade_number(result);
    reply.pages = sockjade_second(result);
    if (reply.number == SOCKJADE_ACCEPTED)
        store(box); /* the last time */
    return reply;
}

/* A command of the box's own. Its answer is zeros. */
static uint32_t give(struct box *box, struct request own) {
    uint8_t answer[SOCKJADE_ANSWER_SIZE] = {0};
    return call_controller(box, own, answer);
}

static void generate(uint8_t salt[SOCKJADE_SALT_SIZE]) {
    if (getentropy(salt, SOCKJADE_SALT_SIZE) != 0)
        fail("getentropy");
}

uint32_t format_box(struct box *box) {
    uint8_t salt[SOCKJADE_SALT_SIZE];
    generate(salt);
    uint32_t number = sockjade_format(box->memory, sizeof box->memory, box->disk, sizeof box->disk, GROUPS, salt, sizeof salt);
    if (number == SOCKJADE_ACCEPTED)
        store(box);
    return number;
}

/* The restart comes at every start, so that a power cut is never taken for an orderly stop. It gives up the held page, as a box
 * must that keeps it where a power cut wipes it; after an orderly stop none is held, and nothing is lost. A service may leave the
 * restart out where its whole memory outlasts the cut, as this one's does, in its file: the box is then as the last accepted
 * command left it, and a lock outlasts the cut from that command on. Here it is given, to play a box whose held page does not. */
uint32_t start_box(struct box *box) {
    uint32_t number = load(box);
    return number == SOCKJADE_ACCEPTED ? give(box, (struct request){.kind = SOCKJADE_RESTART}) : number;
}

uint32_t stop_box(struct box *box) {
    return give(box, (struct request){.kind = SOCKJADE_SYNC});
}

/* The salt is the box's own, and none that was in use before: under such a one pages of that time could match again. */
uint32_t renew_salt(struct box *box) {
    uint8_t salt[SOCKJADE_SALT_SIZE];
    generate(salt);
    return give(box, (struct request){.kind = SOCKJADE_NEW_SALT, .data = salt, .data_len = sizeof salt});
}

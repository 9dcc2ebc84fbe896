/* Plays a box and its server, which are two machines in earnest. It is run twice, as `service FILE`: the first run formats a box,
 * shows what a server can and cannot do, and stops in order; the second starts from the file, that of an old box too, and plays a power
 * cut. */
#include <inttypes.h>
#include <stdio.h>
#include <stdlib.h>
#include <string.h>
#include "box.h"

static void print_line(const struct box *box, const char *what, uint32_t number, const char *detail) {
    static const char *const words[] = {"accepted",          "memory invalid",       "disk size wrong", "kind unknown",
                                        "time out of range", "address out of range", "length wrong",    "tag wrong",
                                        "count exhausted",   "state wrong",          "limit exceeded",  "salt unchanged",
                                        "list size wrong"};
    printf("%4" PRIu32 " %s: %" PRIu32 " %s%s\n", box->clock, what, number, words[number], detail);
}

/* ---- The server's side: it reaches the box by `serve_request` and `serve_list` alone ---- */

struct server {
    uint8_t page[GROUPS][SOCKJADE_PROOF_SIZE]; /* its copy of each group's page, with the tag */
};

static int is_update(uint32_t kind) {
    return kind == SOCKJADE_WRITE || kind == SOCKJADE_UNFREEZE || kind == SOCKJADE_INCREMENT;
}

/* A request as it should be: an update brings a copy of the block's page, and a write its data. */
static struct request make_request(const struct server *copies, uint32_t kind, uint32_t block, uint32_t value,
                                   const uint8_t *data) {
    int update = is_update(kind);
    return (struct request){.kind = kind, .block = block, .value = value,
                            .data = data, .data_len = kind == SOCKJADE_WRITE ? SOCKJADE_BLOCK_SIZE : 0,
                            .proof = copies->page[update ? block / SOCKJADE_BLOCKS_PER_GROUP : 0],
                            .proof_len = update ? SOCKJADE_PROOF_SIZE : 0};
}

/* A state and the 8 bytes of time left, as an entry and a list answer them. */
static void describe_state(char *text, size_t size, uint8_t state, const uint8_t *time_left) {
    static const char *const states[] = {"free", "frozen", "counting"};
    uint64_t left = 0;
    for (int i = 7; i >= 0; i--)
        left = left << 8 | time_left[i];
    snprintf(text, size, ", %s, %" PRId64 " left", states[state], (int64_t)left);
}

/* What an accepted read or entry answers. */
static void describe(char *text, size_t size, uint32_t kind, const uint8_t *answer) {
    if (kind == SOCKJADE_READ)
        snprintf(text, size, ", '%c'", answer[0]);
    if (kind == SOCKJADE_ENTRY)
        describe_state(text, size, answer[16], answer + 8);
}

/* Sends a request and prints what comes back. A page that is answered becomes the server's copy. */
static void send_request(struct server *server, struct box *box, const char *what, struct request request) {
    struct reply reply = serve_request(box, request);
    char detail[64] = "";
    if (reply.reserved) {
        printf("%4" PRIu32 " %s: refused by the box\n", box->clock, what);
        return;
    }
    if (reply.number == SOCKJADE_ACCEPTED) {
        describe(detail, sizeof detail, request.kind, reply.answer);
        if (request.kind == SOCKJADE_PAGE)
            memcpy(server->page[request.block], reply.answer, sizeof reply.answer);
        if (is_update(request.kind))
            memcpy(server->page[request.block / SOCKJADE_BLOCKS_PER_GROUP], reply.answer, sizeof reply.answer);
    }
    print_line(box, what, reply.number, detail);
}

/* The clock moves on to `now`, and the server sends a request; a write fills the block with the letter. */
static void send_at(uint32_t now, struct box *box, struct server *server, const char *what, uint32_t kind, uint32_t block,
                    uint32_t value, char letter) {
    uint8_t data[SOCKJADE_BLOCK_SIZE];
    memset(data, letter, sizeof data);
    box->clock = now;
    send_request(server, box, what, make_request(server, kind, block, value, data));
}

/* Sends a list of blocks, and prints what comes back, a line for each block. */
static void send_list(struct box *box, const char *what, const uint32_t *blocks, size_t numbers) {
    uint8_t list[(SOCKJADE_MOST_NUMBERS + 1) * SOCKJADE_NUMBER_SIZE];
    char detail[64] = "";
    for (size_t i = 0; i < numbers * SOCKJADE_NUMBER_SIZE; i++)
        list[i] = (uint8_t)(blocks[i / SOCKJADE_NUMBER_SIZE] >> 8 * (i % SOCKJADE_NUMBER_SIZE));
    struct list_reply reply = serve_list(box, list, numbers * SOCKJADE_NUMBER_SIZE);
    if (reply.number == SOCKJADE_ACCEPTED)
        snprintf(detail, sizeof detail, ", pages read: %" PRIu32, reply.pages);
    print_line(box, what, reply.number, detail);
    for (size_t i = 0; reply.number == SOCKJADE_ACCEPTED && i < numbers; i++) {
        const uint8_t *shown = reply.shown + i * SOCKJADE_SHOWN_SIZE;
        describe_state(detail, sizeof detail, shown[0], shown + 1);
        printf("     block %" PRIu32 "%s\n", blocks[i], detail);
    }
}

/* ---- What happens ---- */

/* A server that would overwrite a block which it wrote under a lock, while the block's page is held and not on the disk. */
static void attack(struct box *box, struct server *server) {
    uint8_t salt[SOCKJADE_SALT_SIZE] = {0};
    struct request new_salt = {.kind = SOCKJADE_NEW_SALT, .data = salt, .data_len = sizeof salt};
    printf("a server that would undo the lock a second later\n");
    send_at(1001, box, server, "restart", SOCKJADE_RESTART, 0, 0, 0);
    send_request(server, box, "new salt", new_salt);
    send_at(1001, box, server, "entry of block 0", SOCKJADE_ENTRY, 0, 0, 0);
    send_at(1001, box, server, "page of group 0", SOCKJADE_PAGE, 0, 0, 0);
    send_at(1001, box, server, "write block 0", SOCKJADE_WRITE, 0, 500, 'b');
    send_at(1001, box, server, "read block 0", SOCKJADE_READ, 0, 0, 0);
}

static void refusals(struct box *box, struct server *server, const struct server *before) {
    uint8_t data[SOCKJADE_BLOCK_SIZE] = {0}, damaged[SOCKJADE_PROOF_SIZE];
    struct request write = make_request(server, SOCKJADE_WRITE, 1, 500, data), forged = write, beyond = write, cut = write;
    memcpy(damaged, write.proof, sizeof damaged);
    damaged[SOCKJADE_PAGE_SIZE] ^= 1; /* the tag's first byte */
    forged.proof = damaged;
    beyond.block = GROUPS * SOCKJADE_BLOCKS_PER_GROUP;
    cut.data_len = SOCKJADE_BLOCK_SIZE - 1;
    printf("what else is refused\n");
    box->clock = 1100;
    send_request(server, box, "write block 0 with the page from before", make_request(before, SOCKJADE_WRITE, 0, 500, data));
    send_request(server, box, "write block 1 with a damaged tag", forged);
    send_request(server, box, "write block 128", beyond);
    send_request(server, box, "write block 1 with 511 bytes", cut);
    send_at(1100, box, server, "write block 1, lock 2147483648", SOCKJADE_WRITE, 1, 2147483648u, 'b');
    send_at(1100, box, server, "kind 11", SOCKJADE_IDENTIFY + 1, 0, 0, 0);
    send_at(999, box, server, "read block 0, the clock gone back", SOCKJADE_READ, 0, 0, 0);
}

/* The write to block 64 is synced by the box alone, when it stops. */
static void first_run(struct box *box, struct server *server) {
    printf("first run: no file, so a box is formatted\n");
    box->clock = 1000;
    print_line(box, "format, 2 groups", format_box(box), "");
    send_at(1000, box, server, "page of group 0", SOCKJADE_PAGE, 0, 0, 0);
    send_at(1000, box, server, "page of group 1", SOCKJADE_PAGE, 1, 0, 0);
    struct server before = *server;
    send_at(1000, box, server, "write block 0, lock 500", SOCKJADE_WRITE, 0, 500, 'a');
    attack(box, server);
    refusals(box, server, &before);
    printf("what is unfrozen is held for the lock's full length\n");
    send_at(1200, box, server, "unfreeze block 0", SOCKJADE_UNFREEZE, 0, 0, 0);
    send_at(1250, box, server, "unfreeze block 0 again", SOCKJADE_UNFREEZE, 0, 0, 0);
    send_at(1300, box, server, "write block 0, which is counting", SOCKJADE_WRITE, 0, 500, 'b');
    send_at(1300, box, server, "sync", SOCKJADE_SYNC, 0, 0, 0);
    printf("an orderly stop\n");
    send_at(1400, box, server, "write block 64, lock 500", SOCKJADE_WRITE, 64, 500, 'b');
    print_line(box, "sync, by the box", stop_box(box), "");
}

/* A box that the controller refuses is left as it is. The migration of an old one is accepted together with the restart. */
static void start(struct box *box, uint32_t now) {
    box->clock = now;
    uint32_t number = start_box(box);
    if (box->old)
        print_line(box, "migrate an old file, by the box", number, "");
    if (!box->old || number == SOCKJADE_ACCEPTED)
        print_line(box, "restart, by the box", number, "");
    if (number == SOCKJADE_ACCEPTED)
        return;
    fprintf(stderr, "%s: refused by the controller\n", box->path);
    exit(EXIT_FAILURE);
}

/* Group 1's page goes to the disk when group 0's takes its place; group 0's is held, and lost. */
static void power_cut(struct box *box, struct server *server) {
    printf("a power cut: a lock outlasts it if its page is on the disk\n");
    send_at(1550, box, server, "write block 65, lock 500", SOCKJADE_WRITE, 65, 500, 'c');
    send_at(1550, box, server, "write block 1, lock 500", SOCKJADE_WRITE, 1, 500, 'd');
    send_at(1550, box, server, "entry of block 1", SOCKJADE_ENTRY, 1, 0, 0);
    memset(box->memory, 0, sizeof box->memory); /* what the process has is gone; the file is not */
    memset(box->disk, 0, sizeof box->disk);
    start(box, 1600);
    send_at(1600, box, server, "entry of block 65, its page on the disk", SOCKJADE_ENTRY, 65, 0, 0);
    send_at(1600, box, server, "entry of block 1, its page lost", SOCKJADE_ENTRY, 1, 0, 0);
    send_at(1600, box, server, "read block 1", SOCKJADE_READ, 1, 0, 0);
    send_at(1600, box, server, "unfreeze block 1 with the lost page", SOCKJADE_UNFREEZE, 1, 0, 0);
    send_at(1600, box, server, "page of group 0", SOCKJADE_PAGE, 0, 0, 0);
    send_at(1600, box, server, "entry of block 0", SOCKJADE_ENTRY, 0, 0, 0);
}

/* What a status page shows, without a request for each block. One number out of range, or one too many, and the list is refused. */
static void status_page(struct box *box) {
    const uint32_t shown[] = {64, 0, 1, 65, 0}, beyond[] = {0, GROUPS * SOCKJADE_BLOCKS_PER_GROUP};
    const uint32_t too_many[SOCKJADE_MOST_NUMBERS + 1] = {0};
    printf("a status page: many blocks in one go\n");
    send_list(box, "states of 5 blocks", shown, sizeof shown / sizeof shown[0]);
    send_list(box, "states, with block 128", beyond, sizeof beyond / sizeof beyond[0]);
    send_list(box, "states of 65 blocks", too_many, sizeof too_many / sizeof too_many[0]);
    send_list(box, "states of no block", shown, 0);
}

static void second_run(struct box *box, struct server *server) {
    printf("second run: the box is in the file, as an orderly stop left it\n");
    start(box, 1500);
    send_at(1500, box, server, "page of group 0", SOCKJADE_PAGE, 0, 0, 0);
    send_at(1500, box, server, "page of group 1", SOCKJADE_PAGE, 1, 0, 0);
    send_at(1500, box, server, "entry of block 0", SOCKJADE_ENTRY, 0, 0, 0);
    send_at(1500, box, server, "entry of block 64", SOCKJADE_ENTRY, 64, 0, 0);
    status_page(box);
    power_cut(box, server);
    printf("the countdown ends\n");
    send_at(1700, box, server, "entry of block 0", SOCKJADE_ENTRY, 0, 0, 0);
    send_at(1700, box, server, "write block 0", SOCKJADE_WRITE, 0, 1000, 'e');
    send_at(1700, box, server, "read block 0", SOCKJADE_READ, 0, 0, 0);
    send_at(1701, box, server, "entry of block 0", SOCKJADE_ENTRY, 0, 0, 0);
    send_at(1701, box, server, "write block 0, lock 1000", SOCKJADE_WRITE, 0, 1000, 'e');
    send_at(1701, box, server, "read block 0", SOCKJADE_READ, 0, 0, 0);
    printf("a new salt, and an orderly stop\n");
    box->clock = 1800;
    print_line(box, "new salt, by the box", renew_salt(box), "");
    send_at(1800, box, server, "unfreeze block 0 with the page from before", SOCKJADE_UNFREEZE, 0, 0, 0);
    send_at(1800, box, server, "entry of block 0", SOCKJADE_ENTRY, 0, 0, 0);
    print_line(box, "sync, by the box", stop_box(box), "");
}

int main(int argc, char **argv) {
    if (argc != 2) {
        fprintf(stderr, "usage: service FILE\n");
        return EXIT_FAILURE;
    }
    struct box box = {.path = argv[1]};
    struct server server = {0};
    lock_box(&box);
    if (box_exists(&box))
        second_run(&box, &server);
    else
        first_run(&box, &server);
    if (fflush(stdout) == 0 && !ferror(stdout))
        return EXIT_SUCCESS;
    perror("standard output");
    return EXIT_FAILURE;
}

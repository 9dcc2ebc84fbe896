/* The box's side of the service, which is what a service copies: box.h and box.c. The box has memory, disk, clock and generator,
 * and alone calls the controller. Nothing that a server keeps or sends is trusted.
 *
 * A server's request goes through `serve_request`, and a list of blocks through `serve_list`; no other function takes one. Restart
 * and new salt (kinds 8 and 9) are the box's own: `start_box` and `renew_salt` give them, and `serve_request` refuses them before
 * the controller is called. A restart gives up the held page: a server that could send one would undo each lock that is not yet on
 * the disk. */
#ifndef BOX_H
#define BOX_H

#include "sockjade.h"

enum { GROUPS = 2 };

struct box {
    const char *path; /* the file: the memory, then the disk */
    int old;          /* not 0: the file that was loaded is an old box's, from before 64 groups */
    uint32_t clock;   /* the box's own, in seconds; simulated here */
    uint8_t memory[SOCKJADE_MEMORY_SIZE], disk[GROUPS * SOCKJADE_GROUP_SIZE];
};

/* What a server sends. The time is not in it: a server that set the time could end every countdown. */
struct request {
    uint32_t kind, block, value;
    const uint8_t *data, *proof;
    size_t data_len, proof_len;
};

/* What goes back to the server. */
struct reply {
    int reserved;    /* not 0: the kind is the box's own, and the controller was not called; the rest is 0 */
    uint32_t number; /* the controller's */
    uint8_t answer[SOCKJADE_ANSWER_SIZE];
};

/* What goes back for a list of blocks. */
struct list_reply {
    uint32_t number, pages; /* the controller's, and the pages that it read */
    uint8_t shown[SOCKJADE_MOST_NUMBERS * SOCKJADE_SHOWN_SIZE];
};

/* A server's request, at the box's time. */
struct reply serve_request(struct box *box, struct request request);

/* The states of the blocks in a server's list, at the box's time. */
struct list_reply serve_list(struct box *box, const uint8_t *blocks, size_t blocks_len);

/* What the box does by itself; each answers the controller's number. */

/* Formats a box that has no file. */
uint32_t format_box(struct box *box);

/* Loads the box and restarts it. The memory of an old box is migrated before, and both are stored at once: the file is then a new box's.
 * Where the number is not SOCKJADE_ACCEPTED, the box serves nothing, and the file is left as it is. */
uint32_t start_box(struct box *box);

/* An orderly stop: a sync, so that the next start loses nothing. A service calls it when it is told to end. Of an old box whose library
 * did not yet count the updates to a held page, the last stop has to be orderly: a migration refuses a page held from then. */
uint32_t stop_box(struct box *box);

/* A new salt from the box's generator. Pages given out under the old one match no more. */
uint32_t renew_salt(struct box *box);

/* One service at a time: of two, each would undo the other's stores. Held until the process ends. */
void lock_box(const struct box *box);

/* Whether the box has a file. */
int box_exists(const struct box *box);

#endif

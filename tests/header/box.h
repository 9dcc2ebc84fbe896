/* A box of two groups, and commands to it. The buffers have more room than document 01's sizes, so that a wrong constant of the
 * header shows in what the archive answers, and in nothing else. */
#ifndef BOX_H
#define BOX_H

#include "sockjade.h"

enum { ROOM = 1024, TEST_GROUPS = 2 };

/* The memory's bytes, after document 02, Q-7: "it is 808 bytes: counts 32..287, last time 288, G 292, held 293, update count 294, zero
 * 295, page 296..807". */
enum { COUNTS = 32, LAST_TIME = 288, GROUP_NUMBER = 292, HELD = 293, UPDATES = 294, ZERO = 295, HELD_PAGE = 296, MEMORY = 808 };

/* Where the two pages lie on the disk, in bytes: the physical blocks 64 and 129. */
enum { PAGE_0 = 64 * 512, PAGE_1 = 129 * 512 };

struct box {
    uint8_t memory[MEMORY + ROOM], disk[TEST_GROUPS * 33280 + ROOM];
    uint8_t data[512 + ROOM];   /* of a write or a new salt; or a list of blocks */
    uint8_t proof[544 + ROOM];  /* of an update: a page and its tag */
    uint8_t answer[544 + ROOM];
};

struct command {
    uint32_t kind, block, now, value;
    size_t memory_len, disk_len, data_len, proof_len, answer_len;
};

/* Formats the box, its data blocks of bytes 78 and its salt 00 01 .. 1F. */
void format_box(struct box *box);

/* A command with the lengths that its kind has. */
struct command make_command(uint32_t kind, uint32_t block, uint32_t now, uint32_t value);

/* Runs the command: it is accepted. The answer is of bytes AA before. */
void accept_command(const char *what, struct box *box, struct command command);

/* Runs the command: it is refused with the number, and no byte is changed. */
void refuse_command(const char *what, struct box *box, struct command command, uint32_t constant, uint32_t expected);

/* Gets the page of the group, for the next update to bring. */
void fetch_page(struct box *box, uint32_t group, uint32_t now);

/* Gets the page of the block's group, and then runs the update: it is accepted. Data are bytes 61. */
void accept_update(const char *what, struct box *box, uint32_t kind, uint32_t block, uint32_t now, uint32_t value);

/* The same, refused. */
void refuse_update(const char *what, struct box *box, struct command command, uint32_t constant, uint32_t expected);

/* Stores the number in as many bytes. */
void store_little_endian(uint8_t *out, uint32_t number, unsigned size);

/* Stores the bytes that are written in hexadecimal, as many as are written. */
void store_hex(uint8_t *out, const char *bytes);

/* The tag of a page: of salt, group in 8 bytes, count in 4 bytes, page. The salt is the box's first. */
void make_tag(uint8_t *tag, uint32_t group, uint32_t count, const uint8_t *page);

/* The bytes are entries 00 00 00 00 01 00 00 00. */
void check_blank(const char *what, const uint8_t *found, unsigned entries);

#endif

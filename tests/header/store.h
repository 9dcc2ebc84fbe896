/* A version store on a box of two groups, and calls to it. */
#ifndef STORE_H
#define STORE_H

#include "box.h"

struct store {
    struct box box; /* a version is in its data */
    uint8_t state[1536 + ROOM];
};

struct store_call {
    uint32_t part, now;
    size_t state_len, memory_len, disk_len, data_len;
};

extern struct store store;

/* A new box with a store on it, of this lock. The state is of bytes AA before. */
void start_store(uint32_t lock);

/* A put or a flush with the lengths that the buffers have. */
struct store_call make_store_call(uint32_t part, uint32_t now);

/* Puts a version of so many bytes, all the same: it is accepted, and its block is this. */
void accept_put(const char *what, uint32_t part, uint32_t now, uint8_t byte, uint32_t block);

/* The put is refused with the number, and no byte is changed. */
void refuse_put(const char *what, struct store_call call, uint32_t constant, uint32_t expected);

void accept_flush(const char *what, uint32_t now);

/* The flush gets the number, and no byte is changed. */
void refuse_flush(const char *what, struct store_call call, uint32_t constant, uint32_t expected);

/* A start gets the number, and no byte is changed. */
void refuse_start(const char *what, size_t state_len, uint32_t lock, uint32_t constant, uint32_t expected);

/* The part's newest version is in this block. */
void check_block(const char *what, uint32_t part, uint32_t block);

/* The part's block is refused with the number. */
void refuse_block(const char *what, size_t state_len, uint32_t part, uint32_t constant, uint32_t expected);

/* The box's answer becomes the block, by kind 1. */
void read_block(uint32_t block, uint32_t now);

#endif

/* Sockjade: a timelock controller for a depot's download box.
 *
 * Every function answers a number: SOCKJADE_ACCEPTED, or the number of the first question that said no. Where it is not
 * SOCKJADE_ACCEPTED, no byte of any buffer is changed. A function with a result of 32 bits answers that number alone; one with a
 * result of 64 bits, as sockjade_states, answers a second one with it, and sockjade_number and sockjade_second take the two apart.
 * A call may be made with any numbers and with buffers of any length.
 *
 * What the caller sees to, which no proof covers: each pointer is valid for the length beside it and not null, even where the
 * length is 0; the buffers of one call do not overlap; and two calls with the same memory or disk do not run at once. There is
 * no state outside the buffers.
 *
 * What a service sees to, on which the promise hangs:
 * - `now` is the box's own clock, never a time that a server sends.
 * - Restart and new salt, kinds 8 and 9, are given by the box alone. A server's request for one is refused before the controller
 *   is called: a restart gives up the held page, and with it each lock that is not yet on the disk.
 * - A new salt is from the box's own generator, and no salt comes twice.
 * - Memory and disk as an accepted command or list leaves them, and a version store's state with them, are stored, whole, before its
 *   answer leaves the box.
 * - Nobody else writes them.
 * Then a lock holds through everything that a server sends from the moment that the write is accepted, and it outlasts a restart
 * once its page is on the disk: by a sync, by a new salt, because another group's page took its place, or by itself, with the
 * 64th update to it since it came in. So a power cut between two commands loses at most the last SOCKJADE_MOST_UPDATES updates of
 * one group. examples/service/ is a model.
 *
 * The memory's bytes: 0 salt; 32 a freshness count of 4 bytes for each of 64 groups; 288 last time; 292 groups; 293 the held group, or
 * 255 for none; 294 the updates to the held page, 1 to SOCKJADE_MOST_UPDATES, or 0 for none; 295 zero; 296 the held page.
 *
 * A box from before 64 groups (document 02, Q-7) has an old memory, with counts for 16 groups alone: 96 last time; 100 groups, 1 to 16;
 * 101 the held group; 102 the updates; 103 zero; 104 the held page; SOCKJADE_OLD_MEMORY_SIZE bytes. Its disk is as it was.
 *
 * An operator's step: an old memory is migrated once, by sockjade_migrate, before the first command of this library. The new memory and
 * the disk are stored, whole, and the old memory is not used again. Were it started again after the new one has run, old counts would
 * be back, and old tags would be right again.
 *
 * Another, of boxes that are older still: an old memory from before byte 102 counted (document 02, Q-4) has 0 there, and with a page held
 * the migration refuses it by SOCKJADE_MEMORY_INVALID. Such a box is first synced, by SOCKJADE_SYNC, by its old service; with no page held
 * it is migrated as it is.
 */
#ifndef SOCKJADE_H
#define SOCKJADE_H

#include <stddef.h>
#include <stdint.h>

#ifdef __cplusplus
extern "C" {
#endif

/* The numbers answered. */
enum {
    SOCKJADE_ACCEPTED = 0,
    SOCKJADE_MEMORY_INVALID = 1,       /* the memory is not 808 bytes, or not valid; a version store's state is not 1,536 bytes, or not
                                        * valid; when formatting, the groups are not 1 to 64; of a migration, the old memory is not
                                        * 616 bytes, or not valid, or the new one's buffer is not 808 bytes */
    SOCKJADE_DISK_SIZE_WRONG = 2,      /* the disk is not groups * 33,280 bytes */
    SOCKJADE_KIND_UNKNOWN = 3,         /* the kind is not 1 to 10 */
    SOCKJADE_TIME_OUT_OF_RANGE = 4,    /* now is before the last time, or above 2,147,483,647 */
    SOCKJADE_ADDRESS_OUT_OF_RANGE = 5, /* no such data block, alone or in a list; for a page, no such group */
    SOCKJADE_LENGTH_WRONG = 6,         /* data, proof or answer is not of the kind's or the list's length; when formatting, the salt; of a
                                        * recovery, the result */
    SOCKJADE_TAG_WRONG = 7,            /* the tag is not that of the page brought, under the present salt and count */
    SOCKJADE_COUNT_EXHAUSTED = 8,      /* the group's count is exhausted, until a new salt */
    SOCKJADE_STATE_WRONG = 9,          /* write: not free; unfreeze: not frozen; increment: free */
    SOCKJADE_LIMIT_EXCEEDED = 10,      /* a lock above 2,147,483,647, an expiry above 4,294,967,295; at a version store's start, lock 0 */
    SOCKJADE_SALT_UNCHANGED = 11,      /* the new salt is the present one */
    SOCKJADE_LIST_SIZE_WRONG = 12,     /* the list is not 1 to 64 numbers of 4 bytes each; asked after 4 */
    SOCKJADE_PART_OUT_OF_RANGE = 13,   /* the part is above 255; asked first */
    SOCKJADE_TOO_FEW_FREE = 14         /* fewer than two blocks are free besides the version store's reserve; asked after 4 */
};

/* Kinds of commands, with what each takes beside block and now, and what its answer has before the zeros. */
enum {
    SOCKJADE_READ = 1,      /* answer: the block */
    SOCKJADE_ENTRY = 2,     /* answer: entry (word, stamp), time left (signed, 8 bytes from byte 8 on), state (byte 16) */
    SOCKJADE_PAGE = 3,      /* block names a group; answer: its page, and the tag */
    SOCKJADE_WRITE = 4,     /* value: the lock in seconds; data: the block; proof: page and tag; answer: the new page and tag */
    SOCKJADE_UNFREEZE = 5,  /* proof: page and tag; answer: the new page and tag. The expiry is now + lock + 1; of lock 0, now */
    SOCKJADE_INCREMENT = 6, /* value: seconds to add; proof: page and tag; answer: the new page and tag */
    SOCKJADE_SYNC = 7,      /* the held page goes to the disk; answer: zeros */
    SOCKJADE_RESTART = 8,   /* by the box alone, after a power cut: the held page is lost, with its updates; answer: zeros */
    SOCKJADE_NEW_SALT = 9,  /* by the box alone; data: the salt, from its own generator; answer: zeros */
    SOCKJADE_IDENTIFY = 10  /* answer: groups, data blocks (4 bytes each) */
};

/* States in the answer of SOCKJADE_ENTRY, and of sockjade_states. A block is counting before its expiry, and free from it on. */
enum {
    SOCKJADE_FREE = 0,
    SOCKJADE_FROZEN = 1,
    SOCKJADE_COUNTING = 2
};

/* Sizes in bytes, and how many there are of something. Numbers of several bytes are little-endian. */
enum {
    SOCKJADE_MEMORY_SIZE = 808,
    SOCKJADE_OLD_MEMORY_SIZE = 616,    /* of a box from before 64 groups */
    SOCKJADE_GROUP_SIZE = 33280,       /* on the disk, for each group */
    SOCKJADE_BLOCK_SIZE = 512,
    SOCKJADE_PAGE_SIZE = 512,
    SOCKJADE_TAG_SIZE = 32,
    SOCKJADE_PROOF_SIZE = 544,         /* a page, then its tag */
    SOCKJADE_ANSWER_SIZE = 544,
    SOCKJADE_SALT_SIZE = 32,
    SOCKJADE_DIGEST_SIZE = 32,
    SOCKJADE_LONGEST_INPUT = 65536,    /* of a digest */
    SOCKJADE_NUMBER_SIZE = 4,          /* of a block number in a list */
    SOCKJADE_SHOWN_SIZE = 9,           /* answered for each number of a list: state, time left (signed, 8 bytes) */
    SOCKJADE_MOST_NUMBERS = 64,        /* in a list */
    SOCKJADE_MOST_UPDATES = 63,        /* to a held page: with one more it goes to the disk by itself */
    SOCKJADE_MOST_GROUPS = 64,
    SOCKJADE_BLOCKS_PER_GROUP = 64,
    SOCKJADE_VERSIONS_SIZE = 1536,     /* of a version store's state */
    SOCKJADE_LAST_PART = 255,          /* parts are numbered from 0 */
    SOCKJADE_LOG_RECORDS = 63,         /* in a log block: part and block, 4 bytes each; then the number of the next log block, 8 bytes */
    SOCKJADE_RECOVERED_SIZE = 1024     /* of a recovery's result: a block number of 4 bytes for each part */
};

/* The block of a part that has no version, or for which a recovery finds none. */
#define SOCKJADE_NO_BLOCK 4294967295u

/* The two numbers of a result of 64 bits: the number answered, in the low half, and the second one, in the high half, which is 0
 * where the first is not SOCKJADE_ACCEPTED. */
static inline uint32_t sockjade_number(uint64_t result) {
    return (uint32_t)result;
}

static inline uint32_t sockjade_second(uint64_t result) {
    return (uint32_t)(result >> 32);
}

/* One command, on the box's memory and disk. For kinds without data or proof the length is 0. `answer_len` is
 * SOCKJADE_ANSWER_SIZE for every kind. An accepted command sets the box's last time to `now`. */
uint32_t sockjade_command(uint8_t *memory, size_t memory_len, uint8_t *disk, size_t disk_len, uint32_t kind, uint32_t block,
                          uint32_t now, uint32_t value, const uint8_t *data, size_t data_len, const uint8_t *proof,
                          size_t proof_len, uint8_t *answer, size_t answer_len);

/* The states of the blocks in a list, at `now`. `blocks` is 1 to SOCKJADE_MOST_NUMBERS block numbers of SOCKJADE_NUMBER_SIZE bytes,
 * in any order; one may come again. The answer has SOCKJADE_SHOWN_SIZE bytes for each, in the list's order: the state, then the
 * time left, as SOCKJADE_ENTRY has them. An accepted list sets the box's last time to `now`, and the answer; nothing else changes.
 * The number is SOCKJADE_ACCEPTED, or 1, 2, 4, 12, 5 or 6, asked in this order; the second is the number of pages read, one for
 * each group named. */
uint64_t sockjade_states(uint8_t *memory, size_t memory_len, const uint8_t *disk, size_t disk_len, const uint8_t *blocks,
                         size_t blocks_len, uint32_t now, uint8_t *answer, size_t answer_len);

/* The version store. An office stores the parts of a file, one block each, and replaces them later. The store finds a free block for
 * each version, writes it under one lock, unfreezes the version that is replaced, and keeps a log of all versions on the disk. It
 * alters the box by commands alone. Its state is SOCKJADE_VERSIONS_SIZE bytes, which the caller hands on from call to call and stores
 * with memory and disk; what is in it is the store's own. Where nobody else writes, unfreezes, increments or restarts, the newest
 * version of each part reads back, by SOCKJADE_READ of its block, as it was put.
 *
 * A log block has SOCKJADE_LOG_RECORDS records of part and block in the order of their puts, those not used of bytes FF, and then the
 * number of the next log block, which is the reserve: no version goes there. The first log block is block 0. */

/* Starts a version store: fills its state. Every version and log block will be written under a lock of `lock` seconds. Answers
 * SOCKJADE_ACCEPTED; 1 where the state is not SOCKJADE_VERSIONS_SIZE bytes; or 10 where the lock is 0 or above 2,147,483,647. */
uint32_t sockjade_versions_start(uint8_t *state, size_t state_len, uint32_t lock);

/* Puts a version of a part, SOCKJADE_BLOCK_SIZE bytes of data: writes it to the next free block after the one last taken, going round;
 * unfreezes the version that it replaces, if the part has one; and adds a record. With the last record of a log block, that is
 * written to the reserve, and the next free block becomes the reserve. The number is SOCKJADE_ACCEPTED; or 13, 1, 2, 4 or 14, asked in
 * this order; or the first one by which a command of the put would be refused: 5, 6, 8, 9 or 10. The second is the version's block. */
uint64_t sockjade_versions_put(uint8_t *state, size_t state_len, uint8_t *memory, size_t memory_len, uint8_t *disk, size_t disk_len,
                               uint32_t part, uint32_t now, const uint8_t *data, size_t data_len);

/* Writes a log block of the records that there are, as a put does with the last one. Where there are none it answers SOCKJADE_ACCEPTED
 * and changes nothing, whatever memory, disk and now are. Else it answers SOCKJADE_ACCEPTED; or 1, 2, 4 or 14, asked in this order; or
 * the number by which the write would be refused: 5, 8 or 9. */
uint32_t sockjade_versions_flush(uint8_t *state, size_t state_len, uint8_t *memory, size_t memory_len, uint8_t *disk, size_t disk_len,
                                 uint32_t now);

/* The block of a part's newest version. The number is SOCKJADE_ACCEPTED, or 13 or 1, asked in this order; the second is the block, or
 * SOCKJADE_NO_BLOCK where the part has no version. */
uint64_t sockjade_versions_block(const uint8_t *state, size_t state_len, uint32_t part);

/* Recovers the block of each part as of the time `point` from the log on the disk, without the version store's state: after an intrusion,
 * say. The result is SOCKJADE_RECOVERED_SIZE bytes, a block number for each part, or SOCKJADE_NO_BLOCK. The walk over the log begins at
 * block 0 and follows the log blocks' pointers, up to a block that is free at `now`, out of range, written after `point`, written before
 * the block that points to it, or walked already. For each part the last record on this way counts whose block is in range, not free at
 * `now` and not written after `point`. Memory and disk are only read, and the last time stays. Answers SOCKJADE_ACCEPTED, or 1, 2, 4 or 6,
 * asked in this order.
 *
 * Where a store, started once, alone used the box from its formatting to `point` with no restart, had flushed all records and synced at
 * `point`, and every later command is timed after `point`: at each time before `point` plus the store's lock the result is what
 * sockjade_versions_block answered at `point`, whatever the later commands were, and each block named reads as it was put. */
uint32_t sockjade_recover(const uint8_t *memory, size_t memory_len, const uint8_t *disk, size_t disk_len, uint32_t point, uint32_t now,
                          uint8_t *result, size_t result_len);

/* Formats a box of `groups` groups: fills the memory, and makes every data block free by storing each group's blank page.
 * It touches no data block. Answers SOCKJADE_ACCEPTED, or 1, 2 or 6. */
uint32_t sockjade_format(uint8_t *memory, size_t memory_len, uint8_t *disk, size_t disk_len, uint32_t groups,
                         const uint8_t *salt, size_t salt_len);

/* Migrates the memory of an old box, of 1 to 16 groups: fills `memory` with the memory that goes on in its place. It has every field of the
 * old one, a held page and its updates too, and counts of 0 for the groups that an old box cannot have. The old memory and the disk stay
 * as they are, and so does a version store's state. Each later command then answers as it would have before: tags that were right are
 * right, and a lock lasts as long. Answers SOCKJADE_ACCEPTED; or 1 where the old memory is not SOCKJADE_OLD_MEMORY_SIZE bytes or not valid
 * as an old box's, or `memory` is not SOCKJADE_MEMORY_SIZE bytes. */
uint32_t sockjade_migrate(const uint8_t *old, size_t old_len, uint8_t *memory, size_t memory_len);

/* The BLAKE3 digest of the input. Answers SOCKJADE_ACCEPTED with the digest in out, or 6 where the input is longer than
 * SOCKJADE_LONGEST_INPUT or out_len is not SOCKJADE_DIGEST_SIZE. */
uint32_t sockjade_digest(const uint8_t *input, size_t input_len, uint8_t *out, size_t out_len);

#ifdef __cplusplus
}
#endif

#endif

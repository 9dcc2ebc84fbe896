/* The functions, with their arguments in the papers' order. They are declared a second time, so that a header which has them with
 * other types, or in another order that the types show, does not compile. */
#include "sockjade.h"

/* "A command has kind, block, now and value (32 bits each), data, proof .. and a 544-byte answer buffer" */
uint32_t sockjade_command(uint8_t *memory, size_t memory_len, uint8_t *disk, size_t disk_len, uint32_t kind, uint32_t block,
                          uint32_t now, uint32_t value, const uint8_t *data, size_t data_len, const uint8_t *proof,
                          size_t proof_len, uint8_t *answer, size_t answer_len);

/* Document 02, Q-1: "takes 1 to 64 block numbers .., now and an answer buffer"; "gives .."; "The number of pages read is reported" */
uint64_t sockjade_states(uint8_t *memory, size_t memory_len, const uint8_t *disk, size_t disk_len, const uint8_t *blocks,
                         size_t blocks_len, uint32_t now, uint8_t *answer, size_t answer_len);

/* Document 02, Q-3: "with a lock R, named once at its start" */
uint32_t sockjade_versions_start(uint8_t *state, size_t state_len, uint32_t lock);

/* "Offices store a file's part under a part number"; "Each put answers its block" */
uint64_t sockjade_versions_put(uint8_t *state, size_t state_len, uint8_t *memory, size_t memory_len, uint8_t *disk, size_t disk_len,
                               uint32_t part, uint32_t now, const uint8_t *data, size_t data_len);

/* "stored .. on demand" */
uint32_t sockjade_versions_flush(uint8_t *state, size_t state_len, uint8_t *memory, size_t memory_len, uint8_t *disk, size_t disk_len,
                                 uint32_t now);

/* "the newest version of every part reads back, at the block answered" */
uint64_t sockjade_versions_block(const uint8_t *state, size_t state_len, uint32_t part);

/* Document 02, Q-6: "the office names a time X"; "The result is 256 block numbers of 4 bytes"; "only the result is altered" */
uint32_t sockjade_recover(const uint8_t *memory, size_t memory_len, const uint8_t *disk, size_t disk_len, uint32_t point, uint32_t now,
                          uint8_t *result, size_t result_len);

/* "Formatting takes G and a salt" */
uint32_t sockjade_format(uint8_t *memory, size_t memory_len, uint8_t *disk, size_t disk_len, uint32_t groups,
                         const uint8_t *salt, size_t salt_len);

/* Document 02, Q-7: "A separate entry turns a valid 616-byte memory into the 808-byte one"; of the old one no byte is altered */
uint32_t sockjade_migrate(const uint8_t *old, size_t old_len, uint8_t *memory, size_t memory_len);

/* "The digest itself takes 0 to 65,536 bytes and fills 32" */
uint32_t sockjade_digest(const uint8_t *input, size_t input_len, uint8_t *out, size_t out_len);

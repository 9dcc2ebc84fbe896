/* Comparisons. One that fails is printed and counted, and the test goes on. */
#ifndef CHECK_H
#define CHECK_H

#include <stddef.h>
#include <stdint.h>

/* What the archive answered is the header's constant, and the papers' number. */
void check_number(const char *what, uint32_t answered, uint32_t constant, uint32_t expected);

/* The bytes are those written in hexadecimal, as many as are written. */
void check_hex(const char *what, const uint8_t *found, const char *expected);

/* The bytes are all the same. */
void check_filled(const char *what, const uint8_t *found, uint8_t expected, size_t len);

/* Two buffers are the same. */
void check_same(const char *what, const uint8_t *found, const uint8_t *expected, size_t len);

/* How many comparisons were made, and how many failed. */
unsigned checks_made(void);
unsigned checks_failed(void);

#endif

#include "check.h"
#include <stdio.h>
#include <string.h>

static unsigned made, failed;

unsigned checks_made(void) {
    return made;
}

unsigned checks_failed(void) {
    return failed;
}

static void fail_at(const char *what, size_t at, unsigned found, unsigned expected) {
    failed++;
    printf("header: %s: byte %zu is %02X, not %02X\n", what, at, found, expected);
}

void check_number(const char *what, uint32_t answered, uint32_t constant, uint32_t expected) {
    made++;
    if (answered == constant && answered == expected)
        return;
    failed++;
    printf("header: %s: the archive answers %lu, the header has %lu, the papers have %lu\n", what, (unsigned long)answered,
           (unsigned long)constant, (unsigned long)expected);
}

void check_hex(const char *what, const uint8_t *found, const char *expected) {
    unsigned byte = 0;
    int used = 0;
    made++;
    for (size_t i = 0; sscanf(expected, " %2x%n", &byte, &used) == 1; i++, expected += used) {
        if (found[i] == byte)
            continue;
        fail_at(what, i, found[i], byte);
        return;
    }
}

void check_filled(const char *what, const uint8_t *found, uint8_t expected, size_t len) {
    made++;
    for (size_t i = 0; i < len; i++) {
        if (found[i] == expected)
            continue;
        fail_at(what, i, found[i], expected);
        return;
    }
}

void check_same(const char *what, const uint8_t *found, const uint8_t *expected, size_t len) {
    made++;
    if (memcmp(found, expected, len) == 0)
        return;
    failed++;
    printf("header: %s: two buffers differ\n", what);
}

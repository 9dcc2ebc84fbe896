/* Sees that include/sockjade.h says what the archive does: every constant stands in a call or is compared with what one answers,
 * and every answer is compared with the papers' numbers and bytes, which stand here as literals; quotations are document 01's, where
 * nothing else is said. .ci/header runs it, sees that no constant of the header is left out, and that it fails for wrong headers. A
 * new function gets a file here, and its declaration in prototypes.c. */
#include <stdio.h>
#include "check.h"
#include "tests.h"

int main(void) {
    test_digest();
    test_format();
    test_kinds();
    test_updates();
    test_numbers();
    test_states();
    test_versions();
    test_recovery();
    test_groups();
    test_migrate();
    printf("header: %u comparisons, %u failed\n", checks_made(), checks_failed());
    return checks_failed() > 0;
}

/* What main.c runs, each in the file of its name. */
#ifndef TESTS_H
#define TESTS_H

void test_digest(void);
void test_format(void);
void test_kinds(void);
void test_updates(void);
void test_numbers(void);
void test_states(void);
void test_versions(void);
void test_recovery(void);
void test_groups(void);
void test_migrate(void);

/* Of test_migrate, in migrated.c. */
void test_migrated(void);

/* Of test_versions, in versions_refused.c. */
void test_put_refused(void);
void test_state_refused(void);
void test_flush_refused(void);
void test_commands_refused(void);

#endif

/* A power cut at a store: linked into the service with -Wl,--wrap=rename, it ends the process at the rename number CUT, with status 9;
 * with DONE 0 before the rename is done, with DONE 1 after it. */
#include <unistd.h>

int __real_rename(const char *from, const char *to);
int __wrap_rename(const char *from, const char *to);

int __wrap_rename(const char *from, const char *to) {
    static int renames;
    int cut = ++renames == CUT;
    if (cut && !DONE)
        _exit(9);
    int status = __real_rename(from, to);
    if (cut)
        _exit(9);
    return status;
}

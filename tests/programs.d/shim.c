/* The C library's read and write as they may be, by the words in the variable SHIM, put before it by LD_PRELOAD:
   short         a call moves three bytes at most
   interrupted   every call but each third is interrupted before it moves a byte (EINTR)
   later         each call would block twice (EAGAIN) before it moves bytes
   never_read    no read moves a byte (EAGAIN); never_write, zero_write: no write to standard output does (EAGAIN; the
                 answer 0) */
#define _GNU_SOURCE
#include <dlfcn.h>
#include <errno.h>
#include <stdlib.h>
#include <string.h>
#include <unistd.h>

static int has(const char *word)
{
    const char *mode = getenv("SHIM");

    return mode != NULL && strstr(mode, word) != NULL;
}

static int refused(unsigned *calls)
{
    *calls += 1;
    if (has("interrupted") && *calls % 3 != 0) {
        errno = EINTR;
        return 1;
    }
    if (has("later") && *calls % 3 != 0) {
        errno = EAGAIN;
        return 1;
    }
    return 0;
}

ssize_t read(int fd, void *buffer, size_t count)
{
    static ssize_t (*next)(int, void *, size_t);
    static unsigned calls;

    if (next == NULL)
        *(void **)&next = dlsym(RTLD_NEXT, "read");
    if (refused(&calls))
        return -1;
    if (has("never_read")) {
        errno = EAGAIN;
        return -1;
    }
    return next(fd, buffer, has("short") && count > 3 ? 3 : count);
}

ssize_t write(int fd, const void *buffer, size_t count)
{
    static ssize_t (*next)(int, const void *, size_t);
    static unsigned calls;

    if (next == NULL)
        *(void **)&next = dlsym(RTLD_NEXT, "write");
    if (refused(&calls))
        return -1;
    if (fd == STDOUT_FILENO && has("never_write")) {
        errno = EAGAIN;
        return -1;
    }
    if (fd == STDOUT_FILENO && has("zero_write"))
        return 0;
    return next(fd, buffer, has("short") && count > 3 ? 3 : count);
}

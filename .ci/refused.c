/* Loaded before the C library by .ci/refusals and .ci/growths. It refuses the growth or the read whose number the
   environment names, counted from 1, and each write to standard output from that number on, or that write alone; or each
   growth after the first line of standard output; or it lets each read and write move one byte alone. Growths are
   counted while the number of these lines is odd, if the environment says so. To the file that REFUSED names it adds a
   byte for each refusal. */
#define _GNU_SOURCE
#include <dlfcn.h>
#include <errno.h>
#include <fcntl.h>
#include <stdatomic.h>
#include <stdlib.h>
#include <string.h>
#include <sys/syscall.h>
#include <unistd.h>

static atomic_long grown, reads, writes;
static long no_growth, no_read, no_write, no_one_write, none_behind, between_lines, is_short;
static atomic_long lines;
static char room[4096];
static atomic_size_t used;

static long number(const char *name) {
    const char *text = getenv(name);
    return text ? atol(text) : 0;
}

__attribute__((constructor)) static void begin(void) {
    no_growth = number("REFUSE_GROWTH");
    no_read = number("REFUSE_READ");
    no_write = number("REFUSE_WRITE");
    no_one_write = number("REFUSE_ONE_WRITE");
    none_behind = number("REFUSE_BEHIND");
    between_lines = number("REFUSE_BETWEEN");
    is_short = number("SHORT_IO");
}

static int told(void) {
    const char *name = getenv("REFUSED");
    int file = name ? open(name, O_WRONLY | O_APPEND) : -1;
    if (file >= 0) {
        syscall(SYS_write, file, "x", 1);
        close(file);
    }
    return 1;
}

static int refused(atomic_long *count, long which) {
    return which && atomic_fetch_add(count, 1) + 1 == which && told();
}

static int refused_growth(void) {
    long written = atomic_load(&lines);
    if (between_lines && written % 2 == 0)
        return 0;
    return (none_behind && written && told()) || refused(&grown, no_growth);
}

static int refused_from(atomic_long *count, long which) {
    return which && atomic_fetch_add(count, 1) + 1 >= which && told();
}

static void *next(const char *name) { return dlsym(RTLD_NEXT, name); }

void *malloc(size_t size) {
    static void *(*real)(size_t);
    if (!real)
        real = next("malloc");
    if (refused_growth()) {
        errno = ENOMEM;
        return NULL;
    }
    return real(size);
}

void *realloc(void *old, size_t size) {
    static void *(*real)(void *, size_t);
    if (!real)
        real = next("realloc");
    if (refused_growth()) {
        errno = ENOMEM;
        return NULL;
    }
    return real(old, size);
}

void *calloc(size_t count, size_t size) {
    static void *(*real)(size_t, size_t);
    static atomic_int asking;
    if (!real) {
        /* dlsym itself may ask for memory */
        if (atomic_exchange(&asking, 1)) {
            size_t at = atomic_fetch_add(&used, (count * size + 15) & ~(size_t)15);
            return at + count * size <= sizeof room ? room + at : NULL;
        }
        real = next("calloc");
    }
    if (refused_growth()) {
        errno = ENOMEM;
        return NULL;
    }
    return real(count, size);
}

ssize_t read(int file, void *bytes, size_t size) {
    if (refused(&reads, no_read)) {
        errno = EIO;
        return -1;
    }
    return syscall(SYS_read, file, bytes, is_short && size ? 1 : size);
}

static ssize_t written(int file, const void *bytes, size_t size) {
    if (file == STDOUT_FILENO && (refused_from(&writes, no_write) || refused(&writes, no_one_write))) {
        errno = EIO;
        return -1;
    }
    ssize_t count = syscall(SYS_write, file, bytes, is_short && size ? 1 : size);
    for (ssize_t at = 0; file == STDOUT_FILENO && at < count; at++)
        if (((const char *)bytes)[at] == '\n')
            atomic_fetch_add(&lines, 1);
    return count;
}

ssize_t write(int file, const void *bytes, size_t size) { return written(file, bytes, size); }

ssize_t __write(int file, const void *bytes, size_t size) { return written(file, bytes, size); }

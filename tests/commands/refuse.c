// Refuses or fails one thing that the program asks of the system, where it is loaded into the program by LD_PRELOAD.
//
// REFUSE names it: alloc N (the Nth growth of memory is refused), read N or read-again N (the Nth read fails,
// or is interrupted), write N, write-again N or write-none N (the Nth write to standard output fails, is
// interrupted, or takes nothing), room N (standard output takes so many bytes in all), bytes 1 (each write takes one
// byte, each read gives one). The file REFUSE_MARK is made where something was refused or failed.

#define _GNU_SOURCE
#include <errno.h>
#include <fcntl.h>
#include <stdio.h>
#include <stdlib.h>
#include <string.h>
#include <sys/syscall.h>
#include <unistd.h>

extern void *__libc_malloc(size_t);
extern void *__libc_calloc(size_t, size_t);
extern void *__libc_realloc(void *, size_t);
extern void *__libc_memalign(size_t, size_t);

static char what[16];
static long at, seen;

__attribute__((constructor)) static void begin(void) {
    const char *asked = getenv("REFUSE");
    if (asked && sscanf(asked, "%15s %ld", what, &at) != 2) {
        abort();
    }
}

static void mark(void) {
    const char *path = getenv("REFUSE_MARK");
    if (path) {
        syscall(SYS_close, syscall(SYS_openat, AT_FDCWD, path, O_CREAT | O_WRONLY, 0644));
    }
}

static int is_it(const char *name) {
    if (strcmp(what, name) || ++seen != at) {
        return 0;
    }
    mark();
    return 1;
}

static int is_refused(void) {
    if (!is_it("alloc")) {
        return 0;
    }
    errno = ENOMEM;
    return 1;
}

void *malloc(size_t size) { return is_refused() ? NULL : __libc_malloc(size); }

void *calloc(size_t count, size_t size) { return is_refused() ? NULL : __libc_calloc(count, size); }

void *realloc(void *old, size_t size) { return is_refused() ? NULL : __libc_realloc(old, size); }

void *memalign(size_t align, size_t size) { return is_refused() ? NULL : __libc_memalign(align, size); }

void *aligned_alloc(size_t align, size_t size) { return memalign(align, size); }

int posix_memalign(void **out, size_t align, size_t size) {
    void *block = memalign(align, size);
    if (!block) {
        return ENOMEM;
    }
    *out = block;
    return 0;
}

static ssize_t fails(int number) {
    errno = number;
    return -1;
}

ssize_t read(int fd, void *buffer, size_t size) {
    if (is_it("read")) {
        return fails(EIO);
    }
    if (is_it("read-again")) {
        return fails(EINTR);
    }
    if (!strcmp(what, "bytes") && size > 1) {
        size = 1;
    }
    return syscall(SYS_read, fd, buffer, size);
}

ssize_t write(int fd, const void *buffer, size_t size) {
    if (fd != 1) {
        return syscall(SYS_write, fd, buffer, size);
    }
    if (is_it("write")) {
        return fails(EIO);
    }
    if (is_it("write-again")) {
        return fails(EINTR);
    }
    if (is_it("write-none")) {
        return 0;
    }
    if (!strcmp(what, "bytes") && size > 1) {
        size = 1;
    }
    if (!strcmp(what, "room")) {
        if (seen == at && size > 0) {
            mark();
            return fails(EIO);
        }
        if ((long)size > at - seen) {
            size = at - seen;
        }
        seen += size;
    }
    return syscall(SYS_write, fd, buffer, size);
}

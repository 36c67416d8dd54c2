/* sweep/memory.py and smoke/memory.py preload this. The allocation with the number FAIL_ALLOC,
   counted from 1, fails, and so do the ones after it: as many in all as FAIL_ALLOC_TIMES, or it
   alone. When the first one fails, the file FAIL_ALLOC_REPORT is created. At the end the number of
   allocations, 0 if FAIL_ALLOC is not set, is written to the file FAIL_ALLOC_COUNT. The program
   calls only `malloc` and `realloc`; the other functions are here in case that changes. */
#include <errno.h>
#include <fcntl.h>
#include <stddef.h>
#include <stdio.h>
#include <stdlib.h>
#include <sys/syscall.h>
#include <unistd.h>

extern char **environ;
extern void *__libc_malloc(size_t);
extern void *__libc_calloc(size_t, size_t);
extern void *__libc_realloc(void *, size_t);
extern void *__libc_memalign(size_t, size_t);

static long count;
static long first;
static long times;

/* Writes a text to the file that a variable names. This makes system calls itself, since `open` may
   belong to another preloaded library. */
static void write_to(const char *variable, const char *text, size_t length) {
    const char *name = getenv(variable);
    long file = name ? syscall(SYS_openat, AT_FDCWD, name, O_CREAT | O_WRONLY, 0600) : -1;
    if (file >= 0) {
        syscall(SYS_write, file, text, length);
        syscall(SYS_close, file);
    }
}

__attribute__((destructor)) static void write_count(void) {
    char text[24];
    int length = snprintf(text, sizeof text, "%ld\n", count);
    write_to("FAIL_ALLOC_COUNT", text, (size_t)length);
}

static int fails(void) {
    if (!first) {
        const char *number = environ ? getenv("FAIL_ALLOC") : NULL;
        if (!number) {
            return 0;
        }
        const char *many = getenv("FAIL_ALLOC_TIMES");
        first = atol(number);
        times = many ? atol(many) : 1;
    }
    count++;
    if (count == first) {
        write_to("FAIL_ALLOC_REPORT", "", 0);
    }
    if (count >= first && count - first < times) {
        errno = ENOMEM;
        return 1;
    }
    return 0;
}

void *malloc(size_t size) {
    return fails() ? NULL : __libc_malloc(size);
}

void *calloc(size_t number, size_t size) {
    return fails() ? NULL : __libc_calloc(number, size);
}

void *realloc(void *old, size_t size) {
    return fails() ? NULL : __libc_realloc(old, size);
}

void *aligned_alloc(size_t alignment, size_t size) {
    return fails() ? NULL : __libc_memalign(alignment, size);
}

int posix_memalign(void **made, size_t alignment, size_t size) {
    if (fails()) {
        return ENOMEM;
    }
    void *memory = __libc_memalign(alignment, size);
    if (!memory) {
        return ENOMEM;
    }
    *made = memory;
    return 0;
}

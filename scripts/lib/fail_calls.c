/* sweep/calls.py preloads this. Among the calls of the kind FAIL_CALL, the one with the number
   FAIL_AT, counted from 1, fails with the error FAIL_ERRNO, or transfers at most FAIL_MOST bytes if
   that is set. If FAIL_AT is 0, every call does so. The kinds are `open`, `read`, `statx`, `close`,
   `getentropy`, `chdir`, `getcwd`, and `output` and `error`, which are the calls of `write` to the two
   outputs.

   When a call fails for the first time, a line is written to the file FAIL_REPORT: the number of calls
   of `open` so far, and the descriptor from which `read` was to read, or the path that `statx` was to
   look up. Every function makes its system call directly. */
#define _GNU_SOURCE
#include <errno.h>
#include <fcntl.h>
#include <limits.h>
#include <stdio.h>
#include <stdlib.h>
#include <string.h>
#include <sys/stat.h>
#include <sys/syscall.h>
#include <unistd.h>

static long calls;
static long opened;

static void report(const char *name) {
    char line[PATH_MAX + 32];
    int length = snprintf(line, sizeof line, "%ld %s\n", opened, name);
    long file = syscall(SYS_openat, AT_FDCWD, getenv("FAIL_REPORT"), O_CREAT | O_WRONLY, 0600);
    syscall(SYS_write, file, line, length);
    syscall(SYS_close, file);
}

/* Whether this call, which is of the kind, is to fail. */
static int is_chosen(const char *kind, const char *name) {
    const char *wanted = getenv("FAIL_CALL");
    if (!wanted || strcmp(wanted, kind) != 0) {
        return 0;
    }
    calls++;
    long number = atol(getenv("FAIL_AT"));
    if (number != 0 && number != calls) {
        return 0;
    }
    if (number == calls || calls == 1) {
        report(name);
    }
    return 1;
}

/* Whether this call fails with an error; then `errno` is set. */
static int fails(const char *kind, const char *name) {
    if (getenv("FAIL_MOST") || !is_chosen(kind, name)) {
        return 0;
    }
    errno = atoi(getenv("FAIL_ERRNO"));
    return 1;
}

/* How many bytes this call transfers. */
static size_t limited(const char *kind, size_t size) {
    const char *text = getenv("FAIL_MOST");
    if (!text || !is_chosen(kind, "")) {
        return size;
    }
    size_t most = strtoul(text, NULL, 10);
    return size < most ? size : most;
}

int open(const char *path, int flags, ...) {
    opened++;
    return fails("open", "") ? -1 : syscall(SYS_openat, AT_FDCWD, path, flags, 0);
}

ssize_t read(int file, void *bytes, size_t size) {
    char name[16];
    snprintf(name, sizeof name, "%d", file);
    return fails("read", name) ? -1 : syscall(SYS_read, file, bytes, limited("read", size));
}

ssize_t write(int file, const void *bytes, size_t size) {
    const char *kind = file == STDERR_FILENO ? "error" : "output";
    if (fails(kind, "")) {
        return -1;
    }
    size_t most = limited(kind, size);
    return most == 0 ? 0 : syscall(SYS_write, file, bytes, most);
}

int statx(int file, const char *path, int flags, unsigned mask, struct statx *found) {
    return fails("statx", path) ? -1 : syscall(SYS_statx, file, path, flags, mask, found);
}

int close(int file) {
    int result = syscall(SYS_close, file);
    return fails("close", "") ? -1 : result;
}

int chdir(const char *path) {
    return fails("chdir", "") ? -1 : syscall(SYS_chdir, path);
}

/* The program supplies a buffer. */
char *getcwd(char *bytes, size_t size) {
    return fails("getcwd", "") || syscall(SYS_getcwd, bytes, size) < 0 ? NULL : bytes;
}

int getentropy(void *bytes, size_t size) {
    if (fails("getentropy", "")) {
        return -1;
    }
    return syscall(SYS_getrandom, bytes, size, 0) == (long)size ? 0 : -1;
}

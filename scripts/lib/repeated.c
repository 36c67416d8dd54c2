/* A library to preload: it makes the run of a program again and again (`Repeated` in lib/programs.py).
   Before `main` the process waits for requests, and makes each run in a child. So a run costs no new
   program, whose start takes longer than a run on a small project.

   The variable REPEATED has two descriptors: from one it reads requests, to the other it writes the
   status of each run, as `waitpid` gives it. A request is its length in bytes, and so many bytes: the
   variables of that run, `NAME=VALUE`, each ended by a zero byte. Other preloaded libraries count calls
   and allocations. So this allocates nothing, and makes its system calls itself. */
#include <stdlib.h>
#include <string.h>
#include <sys/syscall.h>
#include <sys/wait.h>
#include <unistd.h>

enum { MOST_BYTES = 4096, MOST_VARIABLES = 4096 };

extern char **environ;

static char request[MOST_BYTES];
static char *variables[MOST_VARIABLES + 1];

/* Reads so many bytes. At the end of the requests the process ends. */
static void take(int file, void *bytes, size_t size) {
    for (size_t done = 0; done < size;) {
        long count = syscall(SYS_read, file, (char *)bytes + done, size - done);
        if (count <= 0) {
            _exit(count < 0);
        }
        done += (size_t)count;
    }
}

/* Puts the variables of a request in front of the others, where they are found first. */
static void set_variables(size_t size) {
    size_t count = 0;
    for (size_t at = 0; at < size && count < MOST_VARIABLES; at += strlen(request + at) + 1) {
        variables[count++] = request + at;
    }
    for (char **variable = environ; *variable && count < MOST_VARIABLES; variable++) {
        variables[count++] = *variable;
    }
    variables[count] = NULL;
    environ = variables;
}

__attribute__((constructor)) static void serve(void) {
    char *files = getenv("REPEATED");
    if (!files) {
        return;
    }
    int from = (int)strtol(files, &files, 10), to = (int)strtol(files, NULL, 10);
    for (;;) {
        unsigned size;
        int status = 0;
        take(from, &size, sizeof size);
        if (size >= sizeof request) {
            _exit(2);
        }
        take(from, request, size);
        pid_t child = fork();
        if (child == 0) {
            syscall(SYS_close, from);
            syscall(SYS_close, to);
            set_variables(size);
            return;
        }
        if (child < 0 || waitpid(child, &status, 0) < 0) {
            _exit(3);
        }
        syscall(SYS_write, to, &status, sizeof status);
    }
}

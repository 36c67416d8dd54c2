/*
 * Writes why a target needs a file: a shortest chain of inputs from the target to the file. With a deps
 * log, compiler-discovered files are inputs too.
 *
 *     why TARGET FILE
 *
 * build.ninja, all files that it includes and .ninja_deps are read in the working directory. The chain has
 * a line for each file. The status is 0 if a chain exists, 1 if not or after a fault, and 2 on a usage
 * error.
 */
#define _DEFAULT_SOURCE
#include <ninja_explain_files.h>

#include <stdio.h>
#include <unistd.h>

enum { MOST_STEPS = 1024, MOST_BYTES = 4096 };

static const char *const kinds[] = { "explicit", "implicit", "order-only", "validation" };

/* Writes the path of a file, cut off if it is very long. */
static void write_path(nx_session *session, size_t file)
{
    char path[MOST_BYTES];
    size_t length = 0;
    if (nx_path(session, file, path, sizeof path, &length) == NX_DONE)
        fwrite(path, 1, length, stdout);
    else
        printf("file %zu", file);
}

static int32_t write_chain(nx_session *session, size_t target, size_t file)
{
    static nx_step steps[MOST_STEPS];
    size_t count = 0;
    int32_t status = nx_path_between(session, target, file, 0, steps, MOST_STEPS, &count);
    if (status != NX_DONE)
        return status;
    write_path(session, target);
    putchar('\n');
    for (size_t at = 0; at < count && at < MOST_STEPS; at++) {
        printf("  ");
        write_path(session, steps[at].file);
        printf(" (%s)\n", kinds[steps[at].kind]);
    }
    return NX_DONE;
}

/* How many edges a target needs. */
static int32_t write_count(nx_session *session, size_t target)
{
    size_t count = 0, edge;
    int32_t status = nx_needed(session, &target, 1);
    if (status != NX_DONE)
        return status;
    while (nx_found(session, count, &edge) == NX_DONE)
        count++;
    printf("of %zu needed edges\n", count);
    return NX_DONE;
}

static int32_t explain(nx_session *session, char **words, struct nx_files *files)
{
    size_t target, file;
    int32_t status = nx_files_load(session, "build.ninja", 1, files);
    if (status == NX_DONE)
        status = nx_files_join_deps(session, ".ninja_deps", files);
    if (status == NX_DONE || status == NX_NOTHING)
        status = nx_pick_target(session, words[1], strlen(words[1]), &target);
    if (status == NX_DONE)
        status = nx_pick_target(session, words[2], strlen(words[2]), &file);
    if (status == NX_DONE)
        status = write_chain(session, target, file);
    return status == NX_DONE ? write_count(session, target) : status;
}

/* Reports what went wrong. */
static void tell(nx_session *session, int32_t status, const struct nx_files *files)
{
    char line[MOST_BYTES];
    size_t length = 0;
    if (files->failed)
        fprintf(stderr, "why: '%s' %s\n", files->failed, nx_files_text(status));
    else if (status == NX_FAULT && nx_fault_line(session, line, sizeof line, &length) == NX_DONE)
        fprintf(stderr, "%.*s\n", (int)length, line);
    else if (status != NX_NOTHING)
        fprintf(stderr, "why: status %d of the library\n", (int)status);
}

int main(int count, char **words)
{
    nx_session session = NX_SESSION_CLOSED;
    struct nx_files files = NX_FILES_IN("");
    uint64_t key;
    if (count != 3) {
        fputs("usage: why TARGET FILE\n", stderr);
        return 2;
    }
    if (getentropy(&key, sizeof key) != 0) {
        perror("why");
        return 1;
    }
    int32_t status = nx_open(&session, key);
    if (status == NX_DONE)
        status = explain(&session, words, &files);
    if (status != NX_DONE)
        tell(&session, status, &files);
    nx_files_clear(&files);
    nx_close(&session);
    return status == NX_DONE ? 0 : 1;
}

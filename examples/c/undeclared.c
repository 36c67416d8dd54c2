/*
 * Writes which edges use files without declaring them, by the deps log of a build: for each file that
 * another edge makes and for which the edge may not wait, a line with the first output of the edge and
 * the file. `ninja -t missingdeps` looks for the same.
 *
 *     undeclared
 *
 * build.ninja, all files that it includes and .ninja_deps are read in the working directory. The status is
 * 3 if any such file is found, 0 if not, and 1 after a fault.
 */
#define _DEFAULT_SOURCE
#include <ninja_explain_files.h>

#include <stdio.h>
#include <unistd.h>

enum { MOST_INPUTS = 4096, MOST_BYTES = 4096, FOUND = 3 };

/* Writes the path of a file, cut off if it is very long. */
static void write_path(nx_session *session, size_t file)
{
    char path[MOST_BYTES];
    size_t length = 0;
    if (nx_path(session, file, path, sizeof path, &length) == NX_DONE)
        fwrite(path, 1, length, stdout);
    else
        printf("file %zu", file);
}

/* Writes the undeclared inputs, as many as fit, and returns how many exist. */
static int32_t write_undeclared(nx_session *session, struct nx_files *files, size_t *count)
{
    static nx_edge_input inputs[MOST_INPUTS];
    int32_t status =
        nx_files_undeclared(session, ".ninja_deps", inputs, MOST_INPUTS, count, files);
    if (status != NX_DONE)
        return status;
    for (size_t at = 0; at < *count && at < MOST_INPUTS; at++) {
        size_t output;
        if (nx_output(session, inputs[at].edge, 0, &output) == NX_DONE)
            write_path(session, output);
        fputs(" uses ", stdout);
        write_path(session, inputs[at].file);
        putchar('\n');
    }
    if (*count > MOST_INPUTS)
        printf("and %zu more\n", *count - MOST_INPUTS);
    return NX_DONE;
}

/* Reports what went wrong. */
static void tell(nx_session *session, int32_t status, const struct nx_files *files)
{
    char line[MOST_BYTES];
    size_t length = 0;
    if (files->failed)
        fprintf(stderr, "undeclared: '%s' %s\n", files->failed, nx_files_text(status));
    else if (status == NX_FAULT && nx_fault_line(session, line, sizeof line, &length) == NX_DONE)
        fprintf(stderr, "%.*s\n", (int)length, line);
    else if (status == NX_NOTHING)
        fputs("undeclared: there is no .ninja_deps\n", stderr);
    else if (status == NX_BAD_LOG)
        fputs("undeclared: .ninja_deps is not a deps log of version 4\n", stderr);
    else
        fprintf(stderr, "undeclared: status %d of the library\n", (int)status);
}

int main(void)
{
    nx_session session = NX_SESSION_CLOSED;
    struct nx_files files = NX_FILES_IN("");
    size_t count = 0;
    uint64_t key;
    if (getentropy(&key, sizeof key) != 0) {
        perror("undeclared");
        return 1;
    }
    int32_t status = nx_open(&session, key);
    if (status == NX_DONE)
        status = nx_files_load(&session, "build.ninja", 1, &files);
    if (status == NX_DONE)
        status = write_undeclared(&session, &files, &count);
    if (status != NX_DONE)
        tell(&session, status, &files);
    nx_files_clear(&files);
    nx_close(&session);
    return status != NX_DONE ? 1 : count > 0 ? FOUND : 0;
}

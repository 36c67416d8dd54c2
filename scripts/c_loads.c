/*
 * Counts loads: c_loads FOLDER JOINS loads build.ninja of a directory by ninja_explain_files.h, and prints
 * how many loads that took, how many files it supplied, and how it ended. The status is 0 if the
 * directory was loaded.
 */
#define _POSIX_C_SOURCE 200809L
#include <ninja_explain.h>

#include <stdio.h>

static size_t loads, supplied;

static int32_t counted_load(nx_session *session, const void *path, size_t length, uint32_t joins)
{
    loads++;
    return nx_load(session, path, length, joins);
}

static int32_t counted_add_file(nx_session *session, const void *path, size_t path_length,
                                const void *bytes, size_t length)
{
    supplied++;
    return nx_add_file(session, path, path_length, bytes, length);
}

#define nx_load counted_load
#define nx_add_file counted_add_file
#include <ninja_explain_files.h>

int main(int count, char **words)
{
    nx_session session = NX_SESSION_CLOSED;
    struct nx_files files = NX_FILES_IN(NULL);
    int32_t status;
    if (count != 3)
        return 2;
    files.folder = words[1];
    status = nx_open(&session, 1);
    if (status == NX_DONE)
        status = nx_files_load(&session, "build.ninja", words[2][0] == '1', &files);
    printf("%zu loads of %zu files: ", loads, supplied);
    if (files.failed)
        printf("%s %s\n", files.failed, nx_files_text(status));
    else
        printf("status %d\n", (int)status);
    nx_files_clear(&files);
    nx_close(&session);
    return status == NX_DONE ? 0 : 1;
}

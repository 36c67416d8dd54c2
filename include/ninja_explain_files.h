/*
 * Supplies the library with the files of a manifest from a directory, and loads, joins or runs.
 * Header-only, for POSIX systems; include it first, or define _POSIX_C_SOURCE as 200809L before other headers.
 *
 *     #include <ninja_explain_files.h>
 *     #include <stdio.h>
 *
 *     int main(void)
 *     {
 *         nx_session session = NX_SESSION_CLOSED;
 *         struct nx_files files = NX_FILES_IN("out");
 *         size_t edges = 0;
 *         int32_t status = nx_open(&session, 0x9e3779b97f4a7c15u);
 *         if (status == NX_DONE)
 *             status = nx_files_load(&session, "build.ninja", 0, &files);
 *         if (status == NX_DONE && nx_edge_count(&session, &edges) == NX_DONE)
 *             printf("%zu edges\n", edges);
 *         else if (files.failed)
 *             printf("%s: %s\n", files.failed, nx_files_text(status));
 *         nx_files_clear(&files);
 *         nx_close(&session);
 *         return status == NX_DONE ? 0 : 1;
 *     }
 *
 * Only regular files of at most 1 GiB are read, and only below the directory: a path that is absolute
 * or has a component `..` is refused, unless `allow_outside` is 1, so that an untrusted manifest cannot
 * name a file elsewhere. Symbolic links are followed, wherever they lead.
 */
#ifndef NINJA_EXPLAIN_FILES_H
#define NINJA_EXPLAIN_FILES_H

#ifndef _POSIX_C_SOURCE
#define _POSIX_C_SOURCE 200809L
#endif

#include <errno.h>
#include <fcntl.h>
#include <ninja_explain.h>
#include <stdlib.h>
#include <string.h>
#include <sys/stat.h>
#include <sys/types.h>
#include <unistd.h>

/* The statuses of the calls below, beside those of the library. */
enum nx_files_status {
    /* A file cannot be read; errno says why. */
    NX_FILES_UNREADABLE = -1,
    /* A path leads out of the directory. */
    NX_FILES_OUTSIDE = -2,
    /* A file is not regular, or is larger than 1 GiB. */
    NX_FILES_UNFIT = -3,
    /* Files were still wanted after NX_FILES_MOST_LOADS loads, each of which named new ones. */
    NX_FILES_ENDLESS = -4
};

/* The size of the largest file that is read, and how many times a manifest is loaded at most. */
#define NX_FILES_LARGEST ((size_t)1 << 30)
#define NX_FILES_MOST_LOADS 1000

/* Where files are read, and the path of the one that failed. */
struct nx_files {
    /* The directory of the manifest; empty for the working directory. */
    const char *folder;
    /* Whether paths may lead out of the directory, 1 or 0. */
    int allow_outside;
    /* After one of `enum nx_files_status` the path that failed, else NULL. nx_files_clear frees it. */
    char *failed;
};

#define NX_FILES_IN(folder) { (folder), 0, NULL }

/* Frees the memory of the files. */
static inline void nx_files_clear(struct nx_files *files)
{
    free(files->failed);
    files->failed = NULL;
}

/* The meaning of one of `enum nx_files_status`. */
static inline const char *nx_files_text(int32_t status)
{
    switch (status) {
    case NX_FILES_UNREADABLE:
        return "cannot be read";
    case NX_FILES_OUTSIDE:
        return "leads out of the folder";
    case NX_FILES_UNFIT:
        return "is not a regular file of at most 1 GiB";
    case NX_FILES_ENDLESS:
        return "is wanted after too many loads";
    default:
        return "is not read";
    }
}

/* Whether a path is absolute or has a component `..`. */
static inline int nx_files_leads_out(const char *path)
{
    const char *part = path;
    if (*path == '/')
        return 1;
    while (part) {
        const char *end = strchr(part, '/');
        size_t length = end ? (size_t)(end - part) : strlen(part);
        if (length == 2 && part[0] == '.' && part[1] == '.')
            return 1;
        part = end ? end + 1 : NULL;
    }
    return 0;
}

/* Opens the file at a path of the directory. Returns a descriptor, or -1 with errno. */
static inline int nx_files_open(const struct nx_files *files, const char *path)
{
    /* (opening a pipe would wait for a writer) */
    const int flags = O_RDONLY | O_CLOEXEC | O_NONBLOCK | O_NOCTTY;
    int folder = AT_FDCWD, descriptor, problem;
    if (files->folder && *files->folder)
        folder = open(files->folder, O_RDONLY | O_DIRECTORY | O_CLOEXEC);
    if (folder == -1)
        return -1;
    do
        descriptor = openat(folder, path, flags);
    while (descriptor == -1 && errno == EINTR);
    problem = errno;
    if (folder != AT_FDCWD)
        close(folder);
    errno = problem;
    return descriptor;
}

/* Reads a file to its end into memory that the caller frees, for which a size is guessed. */
static inline int32_t nx_files_read(int descriptor, size_t guess, char **bytes, size_t *length)
{
    size_t size = 0;
    *bytes = NULL;
    *length = 0;
    for (;;) {
        ssize_t count;
        if (*length == size) {
            char *more;
            size = size ? 2 * size : guess + 1;
            more = (char *)realloc(*bytes, size);
            if (!more)
                return NX_OUT_OF_MEMORY;
            *bytes = more;
        }
        count = read(descriptor, *bytes + *length, size - *length);
        if (count < 0 && errno == EINTR)
            continue;
        if (count < 0)
            return NX_FILES_UNREADABLE;
        if (count == 0)
            return NX_DONE;
        *length += (size_t)count;
        if (*length > NX_FILES_LARGEST)
            return NX_FILES_UNFIT;
    }
}

/* Reads the file of an open descriptor into memory that the caller frees, if it may be read. */
static inline int32_t nx_files_read_open(int descriptor, char **bytes, size_t *length)
{
    struct stat found;
    if (fstat(descriptor, &found) != 0)
        return NX_FILES_UNREADABLE;
    if (!S_ISREG(found.st_mode) || found.st_size > (off_t)NX_FILES_LARGEST)
        return NX_FILES_UNFIT;
    return nx_files_read(descriptor, (size_t)found.st_size, bytes, length);
}

/* Reads the file at a path into memory that the caller frees. NX_NOTHING without such a file. */
static inline int32_t nx_files_content(const struct nx_files *files, const char *path, char **bytes,
                                       size_t *length)
{
    int32_t status;
    int descriptor, problem;
    *bytes = NULL;
    *length = 0;
    if (!files->allow_outside && nx_files_leads_out(path))
        return NX_FILES_OUTSIDE;
    descriptor = nx_files_open(files, path);
    if (descriptor == -1 && errno == ENOENT)
        return NX_NOTHING;
    if (descriptor == -1)
        return NX_FILES_UNREADABLE;
    status = nx_files_read_open(descriptor, bytes, length);
    problem = errno;
    close(descriptor);
    errno = problem;
    return status;
}

/* Supplies the file at a path, or records that it is absent. */
static inline int32_t nx_files_supply(nx_session *session, const struct nx_files *files,
                                      const char *path)
{
    char *bytes;
    size_t length;
    int32_t status = nx_files_content(files, path, &bytes, &length);
    if (status == NX_NOTHING)
        return nx_add_absent(session, path, strlen(path));
    if (status == NX_DONE)
        status = nx_add_file(session, path, strlen(path), bytes, length);
    free(bytes);
    return status;
}

/* When the file at a path was last changed, in nanoseconds since 1970, as Ninja counts them. */
static inline uint64_t nx_files_changed(const struct nx_files *files, const char *path)
{
    struct stat found;
    int folder = AT_FDCWD, problem = 0;
    if (files->folder && *files->folder)
        folder = open(files->folder, O_RDONLY | O_DIRECTORY | O_CLOEXEC);
    if (folder == -1)
        return NX_TIME_UNKNOWN;
    if (fstatat(folder, path, &found, 0) != 0)
        problem = errno;
    if (folder != AT_FDCWD)
        close(folder);
    if (problem)
        return problem == ENOENT || problem == ENOTDIR ? NX_TIME_ABSENT : NX_TIME_UNKNOWN;
    /* (all of the first second is one nanosecond, and an earlier time does not count) */
    if (found.st_mtim.tv_sec <= 0)
        return found.st_mtim.tv_sec == 0;
    return (uint64_t)found.st_mtim.tv_sec * 1000000000u + (uint64_t)found.st_mtim.tv_nsec;
}

/* The path of a file, in memory that the caller frees. */
static inline int32_t nx_files_path(nx_session *session, size_t file, char **path)
{
    size_t needed = 0;
    int32_t status = nx_path(session, file, NULL, 0, &needed);
    *path = NULL;
    if (status != NX_DONE && status != NX_SHORT)
        return status;
    *path = (char *)malloc(needed + 1);
    if (!*path)
        return NX_OUT_OF_MEMORY;
    (*path)[needed] = 0;
    status = nx_path(session, file, *path, needed, &needed);
    if (status != NX_DONE) {
        free(*path);
        *path = NULL;
    }
    return status;
}

/* The path at an index among the wanted files, in memory that the caller frees. */
static inline int32_t nx_files_wanted(nx_session *session, size_t index, char **path)
{
    size_t needed = 0;
    int32_t status = nx_wanted(session, index, NULL, 0, &needed);
    *path = NULL;
    if (status != NX_DONE && status != NX_SHORT)
        return status;
    *path = (char *)malloc(needed + 1);
    if (!*path)
        return NX_OUT_OF_MEMORY;
    (*path)[needed] = 0;
    return nx_wanted(session, index, *path, needed, &needed);
}

/* Supplies all files that the last load, run or nx_join_discovered wanted. */
static inline int32_t nx_files_supply_wanted(nx_session *session, struct nx_files *files)
{
    size_t index;
    for (index = 0;; index++) {
        char *path;
        int32_t status = nx_files_wanted(session, index, &path);
        if (status == NX_DONE)
            status = nx_files_supply(session, files, path);
        if (status < 0) {
            nx_files_clear(files);
            files->failed = path;
            return status;
        }
        free(path);
        if (status != NX_DONE)
            return status == NX_NOTHING ? NX_DONE : status;
    }
}

/* After a call: supplies what it wanted, and returns 1 if the call is to be repeated, else 0. */
static inline int nx_files_again(nx_session *session, struct nx_files *files, int *turn,
                                 int32_t *status)
{
    if (*status != NX_WANTED)
        return 0;
    if (++*turn == NX_FILES_MOST_LOADS) {
        nx_files_clear(files);
        nx_files_wanted(session, 0, &files->failed);
        *status = NX_FILES_ENDLESS;
        return 0;
    }
    *status = nx_files_supply_wanted(session, files);
    return *status == NX_DONE;
}

/* As nx_load, with the files that it wants. Returns its status or one of `enum nx_files_status`. */
static inline int32_t nx_files_load(nx_session *session, const char *main, uint32_t joins_dyndeps,
                                    struct nx_files *files)
{
    int turn = 0;
    int32_t status;
    do
        status = nx_load(session, main, strlen(main), joins_dyndeps);
    while (nx_files_again(session, files, &turn, &status));
    return status;
}

/* Reads the deps log at a path of the directory into memory that the caller frees. NX_NOTHING without a log. */
static inline int32_t nx_files_deps_log(const char *path, char **bytes, size_t *length,
                                        struct nx_files *files)
{
    int32_t status = nx_files_content(files, path, bytes, length);
    if (status < 0) {
        nx_files_clear(files);
        files->failed = (char *)malloc(strlen(path) + 1);
        if (files->failed)
            strcpy(files->failed, path);
    }
    return status;
}

/*
 * As nx_join_deps, with the deps log at a path of the directory, such as ".ninja_deps". Returns its status
 * or one of `enum nx_files_status`; NX_NOTHING if the file does not exist.
 */
static inline int32_t nx_files_join_deps(nx_session *session, const char *path, struct nx_files *files)
{
    char *bytes;
    size_t length;
    int32_t status = nx_files_deps_log(path, &bytes, &length, files);
    if (status == NX_DONE)
        status = nx_join_deps(session, bytes, length);
    free(bytes);
    return status;
}

/*
 * When the first output of an edge was last changed, for nx_join_discovered: NX_TIME_ABSENT if it does
 * not exist, and NX_TIME_UNKNOWN if it cannot be looked up or is not in the directory.
 */
static inline int32_t nx_files_time(nx_session *session, const struct nx_files *files, size_t edge,
                                    uint64_t *time)
{
    size_t file = 0;
    char *path;
    int32_t status = nx_output(session, edge, 0, &file);
    *time = NX_TIME_UNKNOWN;
    if (status == NX_DONE)
        status = nx_files_path(session, file, &path);
    if (status != NX_DONE)
        return status;
    if (files->allow_outside || !nx_files_leads_out(path))
        *time = nx_files_changed(files, path);
    free(path);
    return NX_DONE;
}

/* The times of all edges, in memory that the caller frees. */
static inline int32_t nx_files_times(nx_session *session, const struct nx_files *files,
                                     uint64_t **times, size_t *count)
{
    size_t edge;
    int32_t status = nx_edge_count(session, count);
    *times = NULL;
    if (status != NX_DONE)
        return status;
    *times = (uint64_t *)malloc((*count + 1) * sizeof **times);
    if (!*times)
        return NX_OUT_OF_MEMORY;
    for (edge = 0; status == NX_DONE && edge < *count; edge++)
        status = nx_files_time(session, files, edge, *times + edge);
    return status;
}

/*
 * As nx_join_discovered, with the deps log at a path of the directory, the depfiles that it wants and the
 * times of outputs. A missing log counts as one without records. Returns its status or one of
 * `enum nx_files_status`.
 */
static inline int32_t nx_files_join_discovered(nx_session *session, const char *path,
                                               struct nx_files *files)
{
    char *bytes;
    uint64_t *times = NULL;
    size_t length, count = 0;
    int turn = 0;
    int32_t status = nx_files_deps_log(path, &bytes, &length, files);
    if (status == NX_DONE || status == NX_NOTHING)
        status = nx_files_times(session, files, &times, &count);
    if (status == NX_DONE) {
        do
            status = nx_join_discovered(session, bytes, length, times, count);
        while (nx_files_again(session, files, &turn, &status));
    }
    free(times);
    free(bytes);
    return status;
}

/*
 * As nx_undeclared, with a deps log as in nx_files_join_deps. Returns its status or one of
 * `enum nx_files_status`; NX_NOTHING if the log does not exist.
 */
static inline int32_t nx_files_undeclared(nx_session *session, const char *path, nx_edge_input *inputs,
                                          size_t room, size_t *count, struct nx_files *files)
{
    char *bytes;
    size_t length;
    int32_t status = nx_files_deps_log(path, &bytes, &length, files);
    if (status == NX_DONE)
        status = nx_undeclared(session, bytes, length, inputs, room, count);
    free(bytes);
    return status;
}

/* As nx_run, with the files that it wants. Returns its status or one of `enum nx_files_status`. */
static inline int32_t nx_files_run(nx_session *session, const void *words, size_t words_length,
                                   int32_t *exit_status, struct nx_files *files)
{
    int turn = 0;
    int32_t status;
    do
        status = nx_run(session, words, words_length, exit_status);
    while (nx_files_again(session, files, &turn, &status));
    return status;
}

#endif

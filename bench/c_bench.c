/* c_bench.py links this with the library for C:

       c_bench load|calls|run [FILE..]

   It loads build.ninja from the files that are named, which it reads from the disk; with `run` it
   runs `-t commands` on them instead, and copies the output. With `calls` it then makes calls for
   all edges and files, and prints a line for each kind: its name, how many calls were made, or how
   many items came of nx_inputs, and the nanoseconds for each, the least of five rounds. */
#define _POSIX_C_SOURCE 200809L
#include <ninja_explain.h>
#include <stdio.h>
#include <stdlib.h>
#include <string.h>
#include <time.h>

enum { ROUNDS = 5, SIZE = 1 << 20, MANY = 256 };

static nx_session session = NX_SESSION_CLOSED;
static size_t edge_count, file_count;
static uint8_t *paths;
static size_t *ends;
static uint8_t buffer[SIZE];

static void check(int32_t status)
{
    if (status != NX_DONE) {
        fprintf(stderr, "status %d\n", (int)status);
        exit(1);
    }
}

static void hand_in(const char *path)
{
    FILE *file = fopen(path, "rb");
    if (!file || fseek(file, 0, SEEK_END) != 0)
        exit(1);
    size_t length = (size_t)ftell(file);
    uint8_t *bytes = malloc(length + 1);
    rewind(file);
    if (!bytes || fread(bytes, 1, length, file) != length)
        exit(1);
    fclose(file);
    check(nx_add_file(&session, (const uint8_t *)path, strlen(path), bytes, length));
    free(bytes);
}

/* Keeps the paths of all files, one after the other. */
static void keep_paths(void)
{
    size_t length = 0, needed;
    ends = malloc((file_count + 1) * sizeof *ends);
    ends[0] = 0;
    for (size_t file = 0; file < file_count; file++) {
        check(nx_path(&session, file, buffer, SIZE, &needed));
        paths = realloc(paths, length + needed + 1);
        memcpy(paths + length, buffer, needed);
        ends[file + 1] = length += needed;
    }
}

/* ---- each kind of calls, for all edges or all files: how many were made ---- */

static size_t all_paths(void)
{
    size_t needed;
    for (size_t file = 0; file < file_count; file++)
        check(nx_path(&session, file, buffer, SIZE, &needed));
    return file_count;
}

static size_t all_names(void)
{
    size_t found;
    for (size_t file = 0; file < file_count; file++)
        check(nx_file_named(&session, paths + ends[file], ends[file + 1] - ends[file], &found));
    return file_count;
}

static size_t all_makers(void)
{
    size_t edge;
    for (size_t file = 0; file < file_count; file++)
        nx_maker(&session, file, &edge);
    return file_count;
}

static size_t all_inputs(void)
{
    size_t file, count = 0;
    int32_t kind;
    for (size_t edge = 0; edge < edge_count; edge++) {
        for (size_t index = 0; nx_input(&session, edge, index, &file, &kind) == NX_DONE; index++)
            count++;
    }
    return count + edge_count;
}

/* The same, many at a time. */
static size_t all_inputs_in_bulk(void)
{
    static size_t files[MANY];
    static int32_t kinds[MANY];
    size_t count, all = 0;
    for (size_t edge = 0; edge < edge_count; edge++) {
        for (size_t from = count = 0; from == 0 || from < count; from += MANY)
            check(nx_inputs(&session, edge, from, files, MANY, kinds, MANY, &count));
        all += count;
    }
    return all;
}

static size_t all_commands(void)
{
    size_t needed;
    for (size_t edge = 0; edge < edge_count; edge++)
        check(nx_command(&session, edge, buffer, SIZE, &needed));
    return edge_count;
}

/* A page with all edges that the defaults need. */
static size_t one_page(void)
{
    size_t count = 0, file, *targets = malloc(file_count * sizeof *targets);
    for (; count < file_count && nx_default(&session, count, &file) == NX_DONE; count++)
        targets[count] = file;
    check(nx_page(&session, targets, count, NULL, 0, SIZE_MAX));
    free(targets);
    return 1;
}

static size_t all_affected(void)
{
    size_t file = file_count / 2;
    check(nx_affected(&session, &file, 1));
    return 1;
}

/* What the first root needs. */
static size_t all_needed(void)
{
    size_t file;
    check(nx_root(&session, 0, &file));
    check(nx_needed(&session, &file, 1));
    return 1;
}

static void measure(const char *name, size_t (*calls)(void))
{
    double least = 0;
    size_t count = 0;
    for (int round = 0; round < ROUNDS; round++) {
        struct timespec start, end;
        clock_gettime(CLOCK_MONOTONIC, &start);
        count = calls();
        clock_gettime(CLOCK_MONOTONIC, &end);
        double taken = 1e9 * (double)(end.tv_sec - start.tv_sec) + (double)(end.tv_nsec - start.tv_nsec);
        least = round == 0 || taken < least ? taken : least;
    }
    printf("%s %zu %.0f\n", name, count, least / (double)count);
}

/* A whole run, and a copy of its output. */
static void run_commands(void)
{
    static const uint8_t words[] = "-t\0commands";
    int32_t exit_status;
    size_t length;
    check(nx_run(&session, words, sizeof words, &exit_status));
    if (exit_status != 0 || nx_run_output(&session, NULL, 0, &length) != NX_SHORT)
        exit(1);
    uint8_t *output = malloc(length);
    check(nx_run_output(&session, output, length, &length));
    free(output);
}

int main(int count, char **words)
{
    const char *what = count > 1 ? words[1] : "load";
    check(nx_open(&session, 7));
    for (int at = 2; at < count; at++)
        hand_in(words[at]);
    if (strcmp(what, "run") == 0)
        run_commands();
    else
        check(nx_load(&session, (const uint8_t *)"build.ninja", 11, 0));
    if (strcmp(what, "calls") == 0) {
        check(nx_edge_count(&session, &edge_count));
        check(nx_file_count(&session, &file_count));
        keep_paths();
        measure("nx_path", all_paths);
        measure("nx_file_named", all_names);
        measure("nx_maker", all_makers);
        measure("nx_input", all_inputs);
        measure("nx_inputs", all_inputs_in_bulk);
        measure("nx_command", all_commands);
        measure("nx_page", one_page);
        measure("nx_affected", all_affected);
        measure("nx_needed", all_needed);
    }
    check(nx_close(&session));
    return 0;
}

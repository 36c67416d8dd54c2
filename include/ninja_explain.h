/*
 * ninja-explain as a library: reads build.ninja and every file that it includes, and returns the
 * graph of build statements, without building anything.
 *
 *     #include <ninja_explain.h>
 *     #include <stdio.h>
 *
 *     int main(void)
 *     {
 *         static const char text[] = "rule cc\n command = cc -c $in -o $out\nbuild a.o: cc a.c\n";
 *         nx_session session = NX_SESSION_CLOSED;
 *         char command[256];
 *         size_t length = 0;
 *         int32_t status = nx_open(&session, 0x9e3779b97f4a7c15u);
 *         if (status == NX_DONE)
 *             status = nx_add_file(&session, "build.ninja", 11, text, sizeof text - 1);
 *         if (status == NX_DONE)
 *             status = nx_load(&session, "build.ninja", 11, 0);
 *         if (status == NX_DONE)
 *             status = nx_command(&session, 0, command, sizeof command, &length);
 *         if (status == NX_DONE)
 *             printf("%.*s\n", (int)length, command);
 *         nx_close(&session);
 *         return status == NX_DONE ? 0 : 1;
 *     }
 *
 * Every call returns a status, one of `enum nx_status`. Texts are bytes with a length; they need not
 * be UTF-8 and have no zero byte at their end. A call that returns a text copies it into the buffer
 * of the caller and stores its length in `needed`; if the buffer is too small the status is
 * NX_SHORT, the length is stored all the same, and the buffer is unchanged. Unless the status is
 * NX_DONE, the numbers that a call stores are unspecified. No result points into the session. Edges
 * (one for each build statement) and files have numbers from 0, in reading order. Lists are read by
 * index, until the status is NX_NOTHING.
 *
 * nx_outputs, nx_inputs and nx_users return many items of a list in one call: those from an index
 * on, as many as fit into the caller's array; the rest of the array is unchanged. `count` is the
 * length of the whole list, wherever the call begins, and the status is NX_DONE past its end too.
 * With a null pointer and a room of 0, a call returns the count alone.
 *
 * The results of the library are proved for all inputs from C, as long as C keeps its side, which a
 * proof cannot check:
 *  - every pointer points to memory that may be read, and written where the call writes, for the
 *    length beside it. A null pointer may go with the length 0;
 *  - memory that a call writes does not overlap other memory that the same call reads or writes;
 *  - a session is only changed by these calls, and was set to NX_SESSION_CLOSED before the first;
 *    a copy of an open session is not used as another one;
 *  - at most one call at a time uses a session. Calls for different sessions may run at the same
 *    time, in different threads, and a session may be passed to another thread between calls;
 *  - a thread that makes calls has enough stack. 256 KB are enough: files that include one another
 *    to the greatest depth need less than 90 KB, as measured;
 *  - no call is made from a signal handler, or in the forked child of a process with threads.
 */
#ifndef NINJA_EXPLAIN_H
#define NINJA_EXPLAIN_H

#include <stddef.h>
#include <stdint.h>

#ifdef __cplusplus
extern "C" {
#endif

/* The version of the interface that this header declares; nx_version returns that of the library. */
#define NX_VERSION_MAJOR 1
#define NX_VERSION_MINOR 2

/* The statuses of calls. Their numbers never change; later versions may add some. */
enum nx_status {
    /* It succeeded. */
    NX_DONE = 0,
    /* Nothing to return: past the end of a list, a source that no edge makes, no such path. */
    NX_NOTHING = 1,
    /* The buffer is too small. */
    NX_SHORT = 2,
    /* There is a fault; the nx_fault_ calls describe it. */
    NX_FAULT = 3,
    /* Files that were not supplied are wanted; nx_wanted returns their paths. */
    NX_WANTED = 4,
    /* No graph is loaded. */
    NX_NOT_LOADED = 5,
    /* No edge or file has this number. */
    NX_BAD_NUMBER = 6,
    /* The text is not a mark, or it leads to no edge. */
    NX_BAD_MARK = 7,
    /* The path of the main file or of a file with a time, or the arguments of a run, are not UTF-8. */
    NX_NOT_UTF8 = 8,
    /* The session is not open. */
    NX_NOT_OPEN = 9,
    /* An allocation failed, and nothing else happened, except as nx_load, nx_join_deps,
       nx_join_discovered and nx_run say below. The session can be used and closed as before. */
    NX_OUT_OF_MEMORY = 10,
    /* The bytes are not a deps log of version 4, or for nx_stale not a build log that it reads. */
    NX_BAD_LOG = 11
};

/* The kinds of faults, for nx_fault_kind. Their numbers never change; later versions may add some. */
enum nx_fault {
    /* a NUL byte, or a carriage return that no line feed follows */
    NX_FAULT_BAD_BYTE = 1,
    /* a tab as the first byte after the spaces at the start of a line */
    NX_FAULT_TAB = 2,
    /* a `$` that begins no escape and no reference */
    NX_FAULT_BAD_ESCAPE = 3,
    /* something else in the place of a required unit */
    NX_FAULT_EXPECTED = 4,
    /* an indented line that belongs to no block */
    NX_FAULT_UNEXPECTED_INDENT = 5,
    /* a rule without `command` */
    NX_FAULT_MISSING_COMMAND = 6,
    /* a rule with only one of `rspfile` and `rspfile_content` */
    NX_FAULT_RSP_PAIR = 7,
    /* a key that its block may not have */
    NX_FAULT_UNKNOWN_KEY = 8,
    /* a pool without `depth` */
    NX_FAULT_MISSING_DEPTH = 9,
    /* a dyndep file that does not begin with its version */
    NX_FAULT_DYNDEP_VERSION = 10,
    /* a statement of a dyndep file that is not a dyndep statement */
    NX_FAULT_DYNDEP_SHAPE = 11,
    /* an empty path */
    NX_FAULT_EMPTY_PATH = 12,
    /* the depth of a pool is not a number, or is too great */
    NX_FAULT_BAD_DEPTH = 13,
    /* a second rule of the same name in a scope */
    NX_FAULT_DUPLICATE_RULE = 14,
    /* a second pool of the same name */
    NX_FAULT_DUPLICATE_POOL = 15,
    /* `ninja_required_version` is newer than 1.12 */
    NX_FAULT_VERSION_TOO_NEW = 16,
    /* there is no file at the path */
    NX_FAULT_MISSING = 17,
    /* the path of an included file is not UTF-8 */
    NX_FAULT_PATH_NOT_TEXT = 18,
    /* more than 32 files would be open at once */
    NX_FAULT_TOO_DEEP = 19,
    /* more than 65,536 files would be opened */
    NX_FAULT_TOO_MANY_OPENINGS = 20,
    /* the file cannot be read; does not occur for supplied files */
    NX_FAULT_IO = 21,
    /* no scope declares the rule */
    NX_FAULT_UNKNOWN_RULE = 22,
    /* two build statements make the same file */
    NX_FAULT_TWO_MAKERS = 23,
    /* no build statement names the path */
    NX_FAULT_UNKNOWN_TARGET = 24,
    /* a variable of a rule refers to itself */
    NX_FAULT_RULE_VARIABLE_CYCLE = 25,
    /* no statement declares the pool */
    NX_FAULT_UNKNOWN_POOL = 26,
    /* a dyndep file is not an input of its build statement */
    NX_FAULT_DYNDEP_NOT_INPUT = 27,
    /* a dyndep file does not mention its build statement */
    NX_FAULT_DYNDEP_NO_STATEMENT = 28,
    /* a dyndep file mentions a build statement twice */
    NX_FAULT_DYNDEP_TWICE = 29,
    /* a dyndep file mentions a path that is not an output of any build statement bound to it */
    NX_FAULT_DYNDEP_EXTRA = 30,
    /* a path is needed to make itself */
    NX_FAULT_CYCLE = 31,
    /* no build statement has the file before `^` as an input */
    NX_FAULT_NO_OUT_EDGE = 32,
    /* a text that JSON cannot contain */
    NX_FAULT_TEXT_NOT_UTF8 = 33,
    /* an allocation failed */
    NX_FAULT_OUT_OF_MEMORY = 34
};

/* The kinds of inputs, for nx_input, nx_inputs and the steps of nx_path_between. */
enum nx_kind {
    NX_EXPLICIT = 0,
    NX_IMPLICIT = 1,
    NX_ORDER_ONLY = 2,
    /* A validation in place of an input, in a step. */
    NX_VALIDATION = 3
};

/* A step of a chain: from an edge to one of its inputs, a file, with the kind of that input. */
typedef struct nx_step {
    size_t edge;
    size_t file;
    int32_t kind;
} nx_step;

/* An input of an edge. */
typedef struct nx_edge_input {
    size_t edge;
    size_t file;
} nx_edge_input;

/* Why an edge is stale, for nx_stale_edge. Their numbers never change; later versions may add some. */
enum nx_stale_reason {
    /* Its discovered inputs are unknown; this reason is about no file. */
    NX_STALE_UNKNOWN_INPUTS = 0,
    /* An input is stale: a source that does not exist, or an output of a stale edge. */
    NX_STALE_INPUT = 1,
    /* An output does not exist. */
    NX_STALE_MISSING_OUTPUT = 2,
    /* An output is older than the newest input. */
    NX_STALE_OLDER_OUTPUT = 3,
    /* The log has this output from another command. */
    NX_STALE_OTHER_COMMAND = 4,
    /* The time that the log has for this output is before the newest input. */
    NX_STALE_EARLIER_BUILD = 5,
    /* The log does not have this output. */
    NX_STALE_NOT_LOGGED = 6
};

/* A session: all that one graph needs. It owns its memory, which nx_close frees. */
typedef struct nx_session {
    void *kept;
} nx_session;

/* The value of a session before its first call. */
#define NX_SESSION_CLOSED { 0 }

/* Times for nx_join_discovered and nx_stale: of a missing file, and an unknown time. */
#define NX_TIME_ABSENT UINT64_C(0)
#define NX_TIME_UNKNOWN UINT64_MAX

/* ---- the version ---- */

/*
 * The version of the interface. A program also works with a greater minor number than that for which
 * it was written; with another major number it may not. NX_DONE.
 */
int32_t nx_version(size_t *major, size_t *minor);

/* ---- sessions and files ---- */

/*
 * Opens a session that keeps nothing yet. Its earlier contents are freed. The key seeds the name
 * hash: a number that nobody can guess, so that untrusted files cannot choose names that slow a load
 * down.
 * NX_DONE, or NX_OUT_OF_MEMORY, which leaves the session unchanged.
 */
int32_t nx_open(nx_session *session, uint64_t key);

/* Closes a session and frees all that it keeps. Closing a closed session has no effect. NX_DONE. */
int32_t nx_close(nx_session *session);

/*
 * Supplies the bytes of the file at a path: as the main file is named in nx_load, and as other
 * files are named in `include`, `subninja`, `dyndep` and `depfile`. The bytes are copied, and replace
 * those supplied for the path before. A loaded graph stays the same.
 * NX_DONE or NX_OUT_OF_MEMORY.
 */
int32_t nx_add_file(nx_session *session, const void *path, size_t path_length,
                    const void *bytes, size_t length);

/* Records that no file exists at a path. NX_DONE or NX_OUT_OF_MEMORY. */
int32_t nx_add_absent(nx_session *session, const void *path, size_t path_length);

/*
 * Loads the main file at a path and all files that it includes, from the supplied files; any other
 * file counts as empty, and is wanted. If `joins_dyndeps` is not 0, the dyndep files to which edges
 * are bound are joined too, and a failed join is a failed load. Dyndep files that were not supplied
 * are wanted all at once, as soon as no other file is wanted. An earlier graph is freed, and so are
 * the lists of nx_affected and nx_page, whatever the status is.
 * NX_DONE; NX_FAULT, with the first fault; NX_WANTED if files are wanted: supply them, or record that
 * they are absent, and load again; NX_NOT_UTF8; NX_OUT_OF_MEMORY. Only after NX_DONE is there a graph,
 * only after NX_FAULT a fault, and only after NX_WANTED are files wanted.
 */
int32_t nx_load(nx_session *session, const void *main, size_t main_length,
                uint32_t joins_dyndeps);

/*
 * The path at an index among the files that the last load, run or nx_join_discovered wanted and that
 * were not supplied, in the order in which that call reached them: dyndep files of a load in the order
 * of the first edges bound to them, and depfiles in the order of the edges. Once these files are
 * supplied, more may be wanted. The list stays the same until the next such call, so files can be
 * supplied while the list is read.
 * NX_DONE, NX_NOTHING past the end, NX_SHORT.
 */
int32_t nx_wanted(nx_session *session, size_t index, void *buffer, size_t size, size_t *needed);

/*
 * Joins a deps log to the graph: the bytes of `.ninja_deps`, which Ninja writes to the build
 * directory. Each file that it names for the first output of an edge whose value of `deps` is not
 * empty becomes an implicit input of the edge, after the others, unless the edge already has it as an
 * explicit or implicit input. Paths that no edge named become files, after the others. A truncated
 * log counts as far as it goes. Lists stay the same, and joining the same log again changes nothing.
 * NX_DONE; NX_BAD_LOG, which leaves the graph unchanged; NX_FAULT for a dependency cycle, which a
 * log that is older than the manifest can make; NX_OUT_OF_MEMORY. After the last two there is no
 * graph.
 */
int32_t nx_join_deps(nx_session *session, const void *log, size_t log_length);

/*
 * Joins the inputs that builds discovered to the graph, as Ninja loads them before a build: those of
 * an edge with a value of `deps` come from a deps log, and those of another edge with a value of
 * `depfile` from that file, one of the supplied files. They become implicit inputs as in nx_join_deps.
 * `log` has the bytes of `.ninja_deps`, or none for a log without records. `times` has for each edge
 * when its first output was last changed, in nanoseconds since 1970, or NX_TIME_ABSENT or
 * NX_TIME_UNKNOWN: a record that is older than its output does not count. The time of an output whose
 * path is not UTF-8 is never known. Where no record counts, or the depfile is absent, empty or faulty,
 * the inputs are unknown, which nx_is_unknown reports.
 * NX_DONE; NX_WANTED for depfiles that were not supplied: supply them, or record that they are absent,
 * and call again; NX_BAD_LOG; NX_BAD_NUMBER if `time_count` is not the number of edges; NX_FAULT for a
 * dependency cycle; NX_OUT_OF_MEMORY. After the last two there is no graph. After NX_WANTED the graph
 * is unchanged. NX_BAD_LOG and NX_BAD_NUMBER change nothing, not even what nx_wanted returns.
 */
int32_t nx_join_discovered(nx_session *session, const void *log, size_t log_length,
                           const uint64_t *times, size_t time_count);

/*
 * The number of bytes that were read of the deps log joined last, and whether that is the whole log:
 * 1 or 0. Reading ends before the first record that is cut off or wrong, as in Ninja.
 * NX_DONE, or NX_NOTHING if no log was joined.
 */
int32_t nx_log_read(nx_session *session, size_t *size, int32_t *is_whole);

/* ---- the last fault: of a load, of a join, or of nx_pick_target ---- */

/* The kind of the fault, one of `enum nx_fault`. NX_DONE, or NX_NOTHING without a fault. */
int32_t nx_fault_kind(nx_session *session, int32_t *kind);

/*
 * The line and the column of the fault, from 1; columns count bytes.
 * NX_DONE, or NX_NOTHING without a fault or a place of it.
 */
int32_t nx_fault_place(nx_session *session, size_t *line, size_t *column);

/*
 * The file of the fault, by the name under which it was opened.
 * NX_DONE, NX_NOTHING without a fault or a place of it, NX_SHORT.
 */
int32_t nx_fault_file(nx_session *session, void *buffer, size_t size, size_t *needed);

/*
 * The line that reports the fault: FILE:LINE:COLUMN: TEXT, or TEXT if the fault has no place.
 * NX_DONE, NX_NOTHING without a fault, NX_SHORT, NX_OUT_OF_MEMORY.
 */
int32_t nx_fault_line(nx_session *session, void *buffer, size_t size, size_t *needed);

/* ---- counts ---- */

/* The number of edges, one for each build statement. */
int32_t nx_edge_count(nx_session *session, size_t *count);

/* The number of files: of the distinct paths that edges name. */
int32_t nx_file_count(nx_session *session, size_t *count);

/* The number of rules in the scope of the main file, `phony` among them. */
int32_t nx_rule_count(nx_session *session, size_t *count);

/*
 * The name of the rule at an index among the rules of that scope, in byte order.
 * NX_DONE, NX_NOTHING past the end, NX_SHORT.
 */
int32_t nx_rule_name_at(nx_session *session, size_t index, void *buffer, size_t size,
                        size_t *needed);

/* ---- files ---- */

/* The path of a file. NX_DONE, NX_BAD_NUMBER, NX_SHORT. */
int32_t nx_path(nx_session *session, size_t file, void *buffer, size_t size, size_t *needed);

/* The file at a path, which is taken verbatim: not cleaned. NX_DONE or NX_NOTHING. */
int32_t nx_file_named(nx_session *session, const void *path, size_t path_length, size_t *file);

/*
 * The file that an argument of the command line denotes: the path is cleaned first, and `FILE^`
 * denotes the first output of the first edge that has FILE as an input.
 * NX_DONE; NX_FAULT if no file matches, which is then the last fault; NX_OUT_OF_MEMORY.
 */
int32_t nx_pick_target(nx_session *session, const void *word, size_t word_length, size_t *file);

/* The edge that makes a file. NX_DONE, NX_NOTHING for a source, NX_BAD_NUMBER. */
int32_t nx_maker(nx_session *session, size_t file, size_t *edge);

/*
 * The edge at an index among those that have a file as an input, by number, without duplicates.
 * NX_DONE, NX_NOTHING past the end, NX_BAD_NUMBER.
 */
int32_t nx_user(nx_session *session, size_t file, size_t index, size_t *edge);

/* The same for the edges that name a file as a validation. */
int32_t nx_validation_user(nx_session *session, size_t file, size_t index, size_t *edge);

/*
 * The edges that nx_user returns for a file, from an index on: as many as fit.
 * NX_DONE or NX_BAD_NUMBER.
 */
int32_t nx_users(nx_session *session, size_t file, size_t from, size_t *edges, size_t room,
                 size_t *count);

/* ---- the manifest ---- */

/*
 * The path at an index among the files that the load opened: that of the main file, and another for
 * each `include` and `subninja` statement, even if it opens a file again.
 * NX_DONE, NX_NOTHING past the end, NX_SHORT.
 */
int32_t nx_opened(nx_session *session, size_t index, void *buffer, size_t size, size_t *needed);

/*
 * For each of the given files, whether the manifest depends on it, 1 or 0: whether the load opened it,
 * or it is an input of an edge that makes an opened file or has a value of `generator`, or of an edge
 * that such an edge needs through any chain of inputs. A change of the file may change everything.
 * Stores as many flags as fit; the rest of the array is unchanged.
 * NX_DONE, NX_BAD_NUMBER, NX_OUT_OF_MEMORY.
 */
int32_t nx_made_from(nx_session *session, const size_t *files, size_t file_count, int32_t *flags,
                     size_t room);

/* ---- edges ---- */

/* The output of an edge at an index. NX_DONE, NX_NOTHING past the end, NX_BAD_NUMBER. */
int32_t nx_output(nx_session *session, size_t edge, size_t index, size_t *file);

/* The outputs of an edge, from an index on: as many as fit. NX_DONE or NX_BAD_NUMBER. */
int32_t nx_outputs(nx_session *session, size_t edge, size_t from, size_t *files, size_t room,
                   size_t *count);

/*
 * The input of an edge at an index, and its kind, one of `enum nx_kind`: first the explicit inputs,
 * then the implicit and then the order-only ones. NX_DONE, NX_NOTHING past the end, NX_BAD_NUMBER.
 */
int32_t nx_input(nx_session *session, size_t edge, size_t index, size_t *file, int32_t *kind);

/*
 * The inputs of an edge and their kinds, as nx_input returns them, from an index on: as many of
 * each as fit. NX_DONE or NX_BAD_NUMBER.
 */
int32_t nx_inputs(nx_session *session, size_t edge, size_t from, size_t *files, size_t room,
                  int32_t *kinds, size_t kind_room, size_t *count);

/* The validation of an edge at an index. NX_DONE, NX_NOTHING past the end, NX_BAD_NUMBER. */
int32_t nx_validation(nx_session *session, size_t edge, size_t index, size_t *file);

/* The number of explicit outputs of an edge, which come first. NX_DONE or NX_BAD_NUMBER. */
int32_t nx_explicit_outputs(nx_session *session, size_t edge, size_t *count);

/* The number of explicit inputs of an edge, which come first. NX_DONE or NX_BAD_NUMBER. */
int32_t nx_explicit_inputs(nx_session *session, size_t edge, size_t *count);

/* Whether the rule of an edge is `phony`: 1 or 0. NX_DONE or NX_BAD_NUMBER. */
int32_t nx_is_phony(nx_session *session, size_t edge, int32_t *phony);

/*
 * Whether the discovered inputs of an edge are unknown, by nx_join_discovered: 1 or 0. If so, Ninja
 * runs the edge again. NX_DONE, NX_BAD_NUMBER, or NX_NOTHING before that call.
 */
int32_t nx_is_unknown(nx_session *session, size_t edge, int32_t *unknown);

/* The name of the rule of an edge. NX_DONE, NX_BAD_NUMBER, NX_SHORT. */
int32_t nx_rule_name(nx_session *session, size_t edge, void *buffer, size_t size,
                     size_t *needed);

/* The line and the column of the build statement of an edge, from 1. NX_DONE or NX_BAD_NUMBER. */
int32_t nx_edge_place(nx_session *session, size_t edge, size_t *line, size_t *column);

/*
 * The file of the build statement of an edge, by the name under which it was opened.
 * NX_DONE, NX_BAD_NUMBER, NX_SHORT.
 */
int32_t nx_edge_file(nx_session *session, size_t edge, void *buffer, size_t size,
                     size_t *needed);

/*
 * The command of an edge, as it is passed to a shell. Phony edges are never run; their command is
 * what their block binds to `command`, usually empty.
 * NX_DONE, NX_BAD_NUMBER, NX_SHORT, NX_OUT_OF_MEMORY.
 */
int32_t nx_command(nx_session *session, size_t edge, void *buffer, size_t size, size_t *needed);

/*
 * The value of a variable for an edge: `description`, `depfile`, `rspfile` or any other name; empty
 * if it is bound nowhere. `restat` is `1` if a dyndep file that was joined binds it for the edge.
 * NX_DONE, NX_BAD_NUMBER, NX_SHORT, NX_OUT_OF_MEMORY.
 */
int32_t nx_variable(nx_session *session, size_t edge, const void *name, size_t name_length,
                    void *buffer, size_t size, size_t *needed);

/* ---- lists ---- */

/*
 * The file at an index among the defaults: those of the `default` lines or, without such a line, the
 * roots. NX_DONE, or NX_NOTHING past the end.
 */
int32_t nx_default(nx_session *session, size_t index, size_t *file);

/* The file at an index among the roots: outputs that no edge has as an input. The same. */
int32_t nx_root(nx_session *session, size_t index, size_t *file);

/*
 * Lists the edges that a change of the files affects: the edges that need any of the files through
 * any chain of inputs, phony edges included, without duplicates, by number. nx_found returns them.
 * NX_DONE, NX_BAD_NUMBER, NX_OUT_OF_MEMORY.
 */
int32_t nx_affected(nx_session *session, const size_t *files, size_t file_count);

/*
 * Lists the edges to build again after a change of the files, phony edges included, without
 * duplicates, by number. Such an edge has unknown discovered inputs, or has one of the files as an
 * output or as an explicit or implicit input, or has as an explicit or implicit input an output of
 * another edge to build again. nx_found returns them. Call nx_join_discovered first: before it, no
 * edge counts as unknown, and discovered inputs are missing.
 * NX_DONE, NX_BAD_NUMBER, NX_OUT_OF_MEMORY.
 */
int32_t nx_dirtied(nx_session *session, const size_t *files, size_t file_count);

/*
 * Lists the edges that the files need through any chain of inputs, phony edges included, without
 * duplicates, nearest first: the edges that make the files, then the edges that make their inputs,
 * and so on. nx_found returns them.
 * NX_DONE, NX_BAD_NUMBER, NX_OUT_OF_MEMORY.
 */
int32_t nx_needed(nx_session *session, const size_t *files, size_t file_count);

/*
 * Lists the edges with commands that the targets need through any chain of inputs, without
 * duplicates, each after all edges that make its inputs: a page of at most `take` edges after a mark.
 * The mark of the first page is the empty text. nx_found returns the edges, and nx_page_mark the mark
 * for the next page. A mark fits the same graph and targets, also in another session or process.
 * NX_DONE, NX_BAD_NUMBER, NX_BAD_MARK, NX_OUT_OF_MEMORY.
 */
int32_t nx_page(nx_session *session, const size_t *targets, size_t target_count,
                const void *mark, size_t mark_length, size_t take);

/* The edge at an index of the last list of edges. NX_DONE, or NX_NOTHING past the end. */
int32_t nx_found(nx_session *session, size_t index, size_t *edge);

/* The mark at which the last page ends. NX_DONE, NX_NOTHING if no edge is left, NX_SHORT. */
int32_t nx_page_mark(nx_session *session, void *buffer, size_t size, size_t *needed);

/* ---- chains ---- */

/*
 * A shortest chain of inputs by which one file needs another. Its first step is from the edge that
 * makes `from`, its last step to `to`, and each step from the edge that makes the file of the step
 * before it. Of several shortest chains, it is the first when inputs are tried in their order.
 * Validations count as inputs too, after those of their edge, if `with_validations` is not 0. Stores
 * as many steps as fit; the rest of the array is unchanged. `count` is the number of steps of the
 * chain.
 * NX_DONE, NX_NOTHING without a chain, and from a file to itself, NX_BAD_NUMBER, NX_OUT_OF_MEMORY.
 */
int32_t nx_path_between(nx_session *session, size_t from, size_t to, uint32_t with_validations,
                        nx_step *steps, size_t room, size_t *count);

/* ---- undeclared inputs ---- */

/*
 * The inputs that edges use without declaring them, by the bytes of a deps log as nx_join_deps takes
 * them. The log names a file for the first output of an edge whose value of `deps` is not empty,
 * another edge makes that file, and no chain of inputs leads from the edge to that maker. So the edge
 * may run before the file is made. The inputs come by edge and then in the order of the log, without
 * duplicates. An edge for which the log names `build.ninja`, by that very path, is left out: such a
 * record only makes the edge run again after the manifest is regenerated. Nothing is joined: call it
 * before nx_join_deps, which makes logged files inputs. Stores as many inputs as fit, and in `count`
 * how many exist; the rest of the array is unchanged. Each call reads the log again.
 * NX_DONE, NX_BAD_LOG, NX_OUT_OF_MEMORY.
 */
int32_t nx_undeclared(nx_session *session, const void *log, size_t log_length, nx_edge_input *inputs,
                      size_t room, size_t *count);

/* ---- stale edges ---- */

/*
 * Lists the edges that Ninja would run for the targets now: the stale edges among those with commands
 * that the targets need, in the order of nx_page. nx_stale_edge returns them with their reasons.
 * `log` has the bytes of a build log of version 5, 6 or 7, as `.ninja_log` has them; no bytes stand
 * for a log without lines. `times` has for each file of the graph, by its number, when it was last
 * changed, in nanoseconds since 1970, and NX_TIME_ABSENT for a file that does not exist; `time_count`
 * is the number of files. NX_TIME_UNKNOWN counts as the latest time, so find out the time, or leave
 * the question.
 * An edge is stale if its discovered inputs are unknown, if one of its explicit or implicit inputs is
 * stale, or if one of its outputs does not exist, is older than the newest of these inputs, or is not
 * in the log as the result of the same command with these inputs. `restat` and `generator` count as
 * for Ninja. Call nx_join_discovered first: before it, no edge counts as unknown, and discovered
 * inputs are missing. Validations count only if they are targets themselves. After any other status
 * than NX_DONE the list is unchanged; a load empties it.
 * NX_DONE, NX_BAD_NUMBER for an unknown target or another number of times, NX_BAD_LOG, NX_NOT_UTF8 if
 * the path of a file is not UTF-8, NX_OUT_OF_MEMORY.
 */
int32_t nx_stale(nx_session *session, const void *log, size_t log_length, const uint64_t *times,
                 size_t time_count, const size_t *targets, size_t target_count);

/*
 * The edge at an index of the list of nx_stale, and its first reason, one of `enum nx_stale_reason`.
 * The reason is about a file: for NX_STALE_INPUT the input of the edge at the index `place`, as
 * nx_input returns it; for another reason its output at that index. NX_STALE_UNKNOWN_INPUTS is about
 * no file, and `place` is 0. NX_DONE, or NX_NOTHING past the end.
 */
int32_t nx_stale_edge(nx_session *session, size_t index, size_t *edge, int32_t *reason, size_t *place);

/* ---- whole runs ---- */

/*
 * Runs the program with the arguments in a text, over the supplied files. The arguments come without
 * the program's own name, and each ends before a zero byte or at the end of the text:
 * "-t\0commands\0all", with or without a zero byte at the end. The session keeps the program's output
 * until the next run; nx_run_output and nx_run_errors return it. The exit status is the program's:
 * 0 on success, 1 after a fault, 2 for arguments that are not a valid request, 3 if --take stopped
 * the run, which then names the mark for --resume. The graph and the lists stay the same.
 * NX_DONE, with the exit status; NX_WANTED as for nx_load: supply the files, or record that they
 * are absent, and run again; NX_NOT_UTF8; NX_OUT_OF_MEMORY. After all but NX_DONE both outputs are
 * empty, and files are wanted only after NX_WANTED. An allocation that fails while the program runs
 * may also end as a fault of the run.
 */
int32_t nx_run(nx_session *session, const void *words, size_t words_length, int32_t *exit);

/* The standard output of the last run. NX_DONE or NX_SHORT. */
int32_t nx_run_output(nx_session *session, void *buffer, size_t size, size_t *needed);

/* The standard error of the last run. NX_DONE or NX_SHORT. */
int32_t nx_run_errors(nx_session *session, void *buffer, size_t size, size_t *needed);

#ifdef __cplusplus
}
#endif

#endif

/* fuzz_c.py compiles this with libFuzzer and the library for C, in which it has renamed `malloc`,
   `realloc` and `free`, so that they are those of c_calls.c. The checks are those of c_calls.c and
   a few more; an input says on which files, and in which order the calls are made.

   An input is text. Its first lines are calls, each a letter and what the call takes: `doings` has
   them. A line that begins with %% names a file, build.ninja if it has no name; the bytes up to the
   next such line are its content:

       l0
       q
       %%
       include a
       %%a
       build x: phony

   Texts are supplied where memory ends behind them. Memory of the library has signs around each
   block, is overwritten when it is freed, and is refused beyond a limit. libFuzzer sees no code of
   the library, so what the calls return counts as coverage. If anything is wrong it is printed, and
   the process aborts. With PLANTED it expects what is not so. */
#define _DEFAULT_SOURCE
#include <ctype.h>
#include <ninja_explain.h>
#include <stdint.h>
#include <stdio.h>
#include <stdlib.h>
#include <string.h>
#include <sys/mman.h>
#include <unistd.h>

/* ---- what counts as coverage ---- */

enum { MOST_CALLS = 64, STATUSES = 16, VALUES = 256 };
enum subject { FAULT_KIND, FAULT_TEXT, RUN_TEXT, SIZE, EDGE, SUBJECTS };

/* libFuzzer takes each byte that is set here for something new. Nothing else reads them, so the
   compiler would leave them out if they were not volatile. */
__attribute__((section("__libfuzzer_extra_counters"))) static volatile uint8_t
    seen[MOST_CALLS * STATUSES + SUBJECTS * VALUES];
static size_t made[MOST_CALLS];
/* The kinds of faults that came. */
static uint8_t has_come[VALUES];

/* Counts a call by its number. */
static int32_t counted(size_t call, int32_t status)
{
    made[call]++;
    seen[call * STATUSES + (uint32_t)status % STATUSES] = 1;
    return status;
}

static void note(enum subject subject, size_t value)
{
    seen[MOST_CALLS * STATUSES + subject * VALUES + value % VALUES] = 1;
}

/* fuzz_c.py writes this: for each call of the header a macro that counts it, and the names. */
#include "counted.h"

#define main c_calls_main
#include "c_calls.c"
#undef main

_Static_assert(sizeof call_names / sizeof *call_names <= MOST_CALLS, "there are more calls");

/* Prints how many times each call was made, and which faults came. */
__attribute__((destructor)) static void tell(void)
{
    printf("calls:");
    for (size_t call = 0; call < sizeof call_names / sizeof *call_names; call++)
        printf(" %s=%zu", call_names[call], made[call]);
    printf("\nfaults:");
    for (int kind = 0; kind < VALUES; kind++) {
        if (has_come[kind])
            printf(" %d", kind);
    }
    printf("\n");
}

/* ---- memory of the library ---- */

enum { MOST_MEMORY = 2 << 20, TAIL = 16, FREED = 0xdd };

/* What stands before each block. */
struct head {
    size_t size;
    uint64_t sign;
};

static const uint64_t SIGN = 0x9e3779b97f4a7c15u;
static size_t held;

/* The head of a block, whose signs have to be unchanged. */
static struct head *head_of(void *block)
{
    struct head *head = (struct head *)block - 1;
    const uint8_t *tail = (const uint8_t *)block + head->size;
    int is_whole = head->sign == SIGN;
    for (size_t at = 0; is_whole && at < TAIL; at++)
        is_whole = tail[at] == FILL;
    if (!is_whole) {
        wrong("free", "no block, or one that was written around, of size", (long long)head->size);
        fflush(stdout);
        abort();
    }
    return head;
}

/* Beyond the limit it is as if an allocation was refused. */
void *__real_malloc(size_t size)
{
    if (size > MOST_MEMORY - held) {
        refused_at = refused_at ? refused_at : SIZE_MAX;
        return NULL;
    }
    struct head *head = malloc(sizeof *head + size + TAIL);
    if (!head)
        abort();
    *head = (struct head){ size, SIGN };
    memset(head + 1, FILL, size + TAIL);
    held += size;
    return head + 1;
}

void __real_free(void *block)
{
    if (!block)
        return;
    struct head *head = head_of(block);
    held -= head->size;
    memset(block, FREED, head->size);
    head->sign = 0;
    /* So that the compiler leaves these writes in. */
    __asm__ volatile("" : : "r"(head) : "memory");
    free(head);
}

/* A block of the library moves each time; the buffer of the checks has no limit. */
void *__real_realloc(void *old, size_t size)
{
    if (old == given)
        return realloc(old, size);
    void *block = __real_malloc(size);
    if (block && old) {
        size_t before = head_of(old)->size;
        memcpy(block, old, before < size ? before : size);
        __real_free(old);
    }
    return block;
}

/* ---- texts that are supplied ---- */

enum { ROOM = 1 << 16, MOST_SECTIONS = 12 };
/* Where copies go: two for each file, and those for what a call takes. */
enum { MAIN_NAME = 2 * MOST_SECTIONS, ARGUMENT, TARGETS, FENCES };

static uint8_t *fences[FENCES];

static void make_fences(void)
{
    size_t page = (size_t)sysconf(_SC_PAGESIZE);
    for (size_t at = 0; at < FENCES; at++) {
        int how = MAP_PRIVATE | MAP_ANONYMOUS;
        uint8_t *start = mmap(NULL, ROOM + page, PROT_READ | PROT_WRITE, how, -1, 0);
        if (start == MAP_FAILED || mprotect(start + ROOM, page, PROT_NONE) != 0)
            abort();
        fences[at] = start + ROOM;
    }
}

/* A copy of at most ROOM bytes, where no memory follows. */
static struct text fenced(size_t fence, const void *bytes, size_t length)
{
    struct text copy = { fences[fence] - length, length };
    if (length > 0)
        memcpy(fences[fence] - length, bytes, length);
    return copy;
}

/* Takes a line off the front, which may be the last one. */
static struct text taken_line(struct text *rest)
{
    const uint8_t *end = rest->length > 0 ? memchr(rest->bytes, '\n', rest->length) : NULL;
    struct text line = { rest->bytes, end ? (size_t)(end - rest->bytes) : rest->length };
    size_t taken = line.length + (end != NULL);
    *rest = (struct text){ rest->bytes + taken, rest->length - taken };
    return line;
}

/* Takes decimal digits off the front, and a space after them. Without any it is 0. */
static size_t taken_number(struct text *rest)
{
    size_t number = 0, at = 0;
    for (; at < rest->length && isdigit(rest->bytes[at]); at++)
        number = number * 10 + (size_t)(rest->bytes[at] - '0');
    at += at < rest->length && rest->bytes[at] == ' ';
    *rest = (struct text){ rest->bytes + at, rest->length - at };
    return number;
}

/* Where the next line begins that names a file, or the end. */
static size_t next_section(struct text input, size_t from)
{
    for (size_t at = from; at + 1 < input.length; at++) {
        int is_start = at == 0 || input.bytes[at - 1] == '\n';
        if (is_start && input.bytes[at] == '%' && input.bytes[at + 1] == '%')
            return at;
    }
    return input.length;
}

static void read_section(struct text section)
{
    struct text name = taken_line(&section);
    if (name.length == 0)
        name = (struct text)WORDS("build.ninja");
    files[project_files].path = fenced(2 * project_files, name.bytes, name.length);
    files[project_files].content = fenced(2 * project_files + 1, section.bytes, section.length);
    project_files++;
}

/* Reads the files of an input. Returns the lines before them. */
static struct text read_input(struct text input)
{
    size_t start = next_section(input, 0);
    struct text lines = { input.bytes, start };
    for (project_files = 0; start < input.length && project_files < MOST_SECTIONS;) {
        size_t end = next_section(input, start + 2);
        size_t length = end - start - 2 - (end < input.length);
        read_section((struct text){ input.bytes + start + 2, length });
        start = end;
    }
    return lines;
}

/* How many bytes the character in front has, or 0 if it is not UTF-8. */
static size_t character_length(struct text text)
{
    static const uint32_t least[] = { 0, 0, 0x80, 0x800, 0x10000 };
    uint8_t first = text.bytes[0];
    if (first < 0x80)
        return 1;
    size_t length = first >> 5 == 6 ? 2 : first >> 4 == 14 ? 3 : first >> 3 == 30 ? 4 : 0;
    if (length == 0 || length > text.length)
        return 0;
    uint32_t code = first & (0x7fu >> length);
    for (size_t at = 1; at < length; at++) {
        if (text.bytes[at] >> 6 != 2)
            return 0;
        code = code << 6 | (text.bytes[at] & 0x3fu);
    }
    int is_surrogate = code >> 11 == 0xd800 >> 11;
    return code < least[length] || code > 0x10ffff || is_surrogate ? 0 : length;
}

static int is_utf8(struct text text)
{
    while (text.length > 0) {
        size_t length = character_length(text);
        if (length == 0)
            return 0;
        text = (struct text){ text.bytes + length, text.length - length };
    }
    return 1;
}

/* ---- numbers and targets ---- */

enum { MOST_TARGETS = ROOM / sizeof(size_t) };

static size_t targets[MOST_TARGETS], target_count;

/* A number that an edge has, or one of those that none has; and the same of a file. */
static size_t taken_edge(struct text *rest)
{
    return number_at(taken_number(rest) % numbers_of(edge_count), edge_count);
}

static size_t taken_file(struct text *rest)
{
    return number_at(taken_number(rest) % numbers_of(file_count), file_count);
}

static void add_target(size_t file)
{
    if (target_count < MOST_TARGETS)
        targets[target_count++] = file;
}

static const size_t *handed_targets(void)
{
    return (const size_t *)fenced(TARGETS, targets, target_count * sizeof *targets).bytes;
}

/* Drops the targets that the graph does not have. */
static void keep_known_targets(void)
{
    size_t kept = 0;
    for (size_t at = 0; at < target_count; at++) {
        if (targets[at] < file_count)
            targets[kept++] = targets[at];
    }
    target_count = kept;
}

/* Makes the defaults the targets. Returns whether all of them fit. */
static int take_defaults(void)
{
    size_t file = 0;
    unsigned each = OF(DONE) | OF(NOTHING);
    target_count = 0;
    while (IF_LOADED(each, nx_default(&session, target_count, &file)) == NX_DONE) {
        expect(file < file_count, "nx_default", "file", (long long)file);
        if (target_count == MOST_TARGETS)
            return 0;
        targets[target_count++] = file;
    }
    return 1;
}

/* A flag for each of so many numbers. */
static uint8_t *flags(size_t count)
{
    uint8_t *all = calloc(count + 1, 1);
    if (!all)
        abort();
    return all;
}

/* ---- what is noted ---- */

static size_t digits_of(size_t number)
{
    size_t digits = 0;
    for (; number > 0; number /= 2)
        digits++;
    return digits;
}

/* A hash of the line of a fault, without the place, what is quoted and numbers. */
static size_t shape_of(const uint8_t *bytes, size_t length)
{
    size_t hash = 0, at = 0;
    int is_quoted = 0;
    while (at + 1 < length && !(bytes[at] == ':' && bytes[at + 1] == ' '))
        at++;
    for (at = at + 1 < length ? at : 0; at < length; at++) {
        is_quoted ^= bytes[at] == '\'';
        if (!is_quoted && !isdigit(bytes[at]))
            hash = (hash ^ bytes[at]) * 0x100000001b3u;
    }
    return hash >> 32;
}

static void note_fault(void)
{
    int32_t kind = 0;
    if (nx_fault_kind(&session, &kind) != NX_DONE)
        return;
    note(FAULT_KIND, (size_t)kind);
    has_come[(uint32_t)kind % VALUES] = 1;
    unsigned given_line = OF(DONE) | OF(NOTHING) | OF(OUT_OF_MEMORY);
    if (TEXT(if_open, give_fault_line, 0, given_line) == NX_DONE)
        note(FAULT_TEXT, shape_of(given, given_length));
#ifdef PLANTED
    size_t line = 0, column = 0;
    if (nx_fault_place(&session, &line, &column) == NX_DONE)
        expect(column < 50, "nx_fault_place", "planted, column", (long long)column);
#endif
}

static void note_size(size_t what, size_t size)
{
    note(SIZE, what * 32 + digits_of(size));
}

/* ---- edges and files ---- */

/* Checks that the files which an edge names are there, and notes what it has. */
static void try_numbers(size_t edge)
{
    unsigned each = if_known(edge, edge_count, OF(DONE) | OF(NOTHING));
    size_t file = 0, has = 0, explicit = 0, at = 0;
    int32_t kind = 0;
    for (; IF_LOADED(each, nx_output(&session, edge, at, &file)) == NX_DONE; at++)
        expect(file < file_count, "nx_output", "file", (long long)file);
    nx_explicit_outputs(&session, edge, &explicit);
    has |= (size_t)(at > 1) | (size_t)(at > explicit) << 1;
    for (at = 0; IF_LOADED(each, nx_input(&session, edge, at, &file, &kind)) == NX_DONE; at++) {
        expect(file < file_count, "nx_input", "file", (long long)file);
        has |= (size_t)4 << kind;
    }
    for (at = 0; IF_LOADED(each, nx_validation(&session, edge, at, &file)) == NX_DONE; at++) {
        expect(file < file_count, "nx_validation", "file", (long long)file);
        has |= 32;
    }
    note(EDGE, has);
}

static void count_all(void)
{
    size_t rules = 0;
    edge_count = file_count = 0;
    IF_LOADED(OF(DONE), nx_edge_count(&session, &edge_count));
    IF_LOADED(OF(DONE), nx_file_count(&session, &file_count));
    IF_LOADED(OF(DONE), nx_rule_count(&session, &rules));
    note_size(0, edge_count);
    note_size(1, file_count);
    note_size(2, rules);
    for (size_t edge = 0; edge < edge_count && edge < MOST_ITEMS; edge++)
        try_numbers(edge);
}

/* ---- laws ---- */

#define IF_MEMORY (OF(DONE) | OF(OUT_OF_MEMORY))

/* Lists all edges with commands that the targets need. Returns how many, or 0. */
static size_t list_needed(void)
{
    const size_t *handed = handed_targets();
    if (IF_LOADED(IF_MEMORY, nx_page(&session, handed, target_count, NULL, 0, SIZE_MAX)) != NX_DONE)
        return 0;
    return take_found(0);
}

/* Whether the maker of each input is phony or was listed. */
static int has_its_inputs(size_t edge, const uint8_t *is_listed)
{
    size_t file = 0, maker = 0;
    int32_t kind = 0, phony = 0;
    for (size_t at = 0; nx_input(&session, edge, at, &file, &kind) == NX_DONE; at++) {
        if (nx_maker(&session, file, &maker) != NX_DONE)
            continue;
        nx_is_phony(&session, maker, &phony);
        if (!phony && !is_listed[maker])
            return 0;
    }
    return 1;
}

/* The edges that the targets need are listed once, without phony ones, and after those that make
   their inputs. In pages they are the same. */
static void try_needed(size_t take)
{
    keep_known_targets();
    size_t count = list_needed();
    uint8_t *is_listed = flags(edge_count);
    for (size_t at = 0; at < count && listed[at] < edge_count; at++) {
        size_t edge = listed[at];
        int32_t phony = 1;
        nx_is_phony(&session, edge, &phony);
        expect(!phony, "nx_page", "phony edge", (long long)edge);
        expect(!is_listed[edge], "nx_page", "twice the edge", (long long)edge);
        expect(has_its_inputs(edge, is_listed), "nx_page", "too early the edge", (long long)edge);
        is_listed[edge] = 1;
    }
    free(is_listed);
    note_size(3, count);
    try_pages(handed_targets(), target_count, take);
}

/* Whether an edge has one of these files as an input, or what one of these edges makes. */
static int needs_one(size_t edge, const uint8_t *is_file, const uint8_t *is_edge)
{
    size_t file = 0, maker = 0;
    int32_t kind = 0;
    for (size_t at = 0; nx_input(&session, edge, at, &file, &kind) == NX_DONE; at++) {
        if (is_file[file] || (nx_maker(&session, file, &maker) == NX_DONE && is_edge[maker]))
            return 1;
    }
    return 0;
}

/* The edges that a change of the targets affects are those that need one of them, or an output of
   such an edge. */
static void try_affected(void)
{
    keep_known_targets();
    if (IF_LOADED(IF_MEMORY, nx_affected(&session, handed_targets(), target_count)) != NX_DONE)
        return;
    size_t count = take_found(0);
    uint8_t *is_file = flags(file_count), *is_edge = flags(edge_count);
    for (size_t at = 0; at < target_count; at++)
        is_file[targets[at]] = 1;
    for (size_t at = 0; at < count && listed[at] < edge_count; at++)
        is_edge[listed[at]] = 1;
    for (size_t edge = 0; edge < edge_count; edge++)
        expect(needs_one(edge, is_file, is_edge) == is_edge[edge], "nx_affected", "edge",
               (long long)edge);
    free(is_file);
    free(is_edge);
    note_size(4, count);
}

/* Whether an output has, from a byte on, the command of each listed edge as a line, and no more. */
static int has_commands(struct text output, size_t count)
{
    for (size_t at = 0; at < count; at++) {
        if (TEXT(if_loaded, nx_command, listed[at], IF_MEMORY) != NX_DONE)
            return refused_at != 0;
        if (given_length >= output.length || output.bytes[given_length] != '\n' ||
            memcmp(output.bytes, given, given_length) != 0)
            return 0;
        size_t taken = given_length + 1;
        output = (struct text){ output.bytes + taken, output.length - taken };
    }
    return output.length == 0;
}

/* A run writes the commands of the edges that the defaults of the loaded graph need. */
static void try_same_commands(int joins)
{
    static const struct text plain = WORDS("-t\0commands");
    static const struct text joined = WORDS("--dyndep\0-t\0commands");
    struct text words = joins ? joined : plain;
    int32_t exit_status = UNTOUCHED;
    if (IF_LOADED(IF_MEMORY, nx_run(&session, words.bytes, words.length, &exit_status)) != NX_DONE)
        return;
    TEXT(if_open, give_output, 0, OF(DONE));
    size_t length = given_length;
    uint8_t *copy = flags(length);
    memcpy(copy, given, length);
    int is_whole = take_defaults();
    size_t count = list_needed();
    if (refused_at == 0 && is_whole) {
        expect(exit_status == 0, "nx_run", "exit", exit_status);
        int is_same = has_commands((struct text){ copy, length }, count);
        expect(is_same, "nx_run", "other commands than of these edges", (long long)count);
    }
    free(copy);
}

/* ---- calls ---- */

/* Whether files are wanted. */
static int wants;

static void open_session(struct text argument)
{
    if (ALWAYS(IF_MEMORY, nx_open(&session, taken_number(&argument))) == NX_DONE) {
        state = OPEN;
        wants = 0;
    }
}

static void close_session(struct text argument)
{
    (void)argument;
    ALWAYS(OF(DONE), nx_close(&session));
    state = CLOSED;
    wants = 0;
    expect(blocks == 0 && held == 0, "nx_close", "blocks left", (long long)blocks);
}

/* Takes the name of the main file, with a zero byte at its end. */
static struct text taken_main(struct text rest)
{
    if (rest.length == 0)
        rest = (struct text)WORDS("build.ninja");
    uint8_t *name = fences[MAIN_NAME] - rest.length - 1;
    memcpy(name, rest.bytes, rest.length);
    name[rest.length] = 0;
    return (struct text){ name, strlen((const char *)name) };
}

/* Loads once, or until nothing more is wanted. A limit that was reached does not count any more. */
static void load_by(int32_t loading(const char *main, uint32_t joins), struct text argument)
{
    uint32_t joins = (uint32_t)taken_number(&argument);
    struct text name = taken_main(argument);
    refused_at = refused_at == SIZE_MAX ? 0 : refused_at;
    if (is_utf8(name)) {
        int32_t status = loading((const char *)name.bytes, joins);
        int is_main = name.length == 11 && memcmp(name.bytes, "build.ninja", 11) == 0;
        wants = status == NX_WANTED;
        count_all();
        if (status == NX_DONE && is_main)
            try_same_commands(joins != 0);
    } else {
        unsigned loaded = OF(NOT_UTF8) | OF(OUT_OF_MEMORY);
        try_wanted(IF_OPEN(loaded, nx_load(&session, name.bytes, name.length, joins)));
        state = state == CLOSED ? CLOSED : OPEN;
        wants = 0;
        count_all();
    }
    note_fault();
}

static void load_all(struct text argument)
{
    load_by(load, argument);
}

static void load_some(struct text argument)
{
    load_by(load_once, argument);
}

static void hand_in_wanted(struct text argument)
{
    (void)argument;
    if (wants)
        hand_in_all();
}

static void ask_wanted(struct text argument)
{
    TEXT(if_open, nx_wanted, taken_number(&argument), OF(DONE) | OF(NOTHING));
}

/* Supplies the content of one file by the name of another. */
static void add_file(struct text argument)
{
    if (project_files == 0)
        return;
    struct text path = files[taken_number(&argument) % project_files].path;
    struct text content = files[taken_number(&argument) % project_files].content;
    IF_OPEN(ADDED, nx_add_file(&session, path.bytes, path.length, content.bytes, content.length));
}

static void add_absent(struct text argument)
{
    IF_OPEN(ADDED, nx_add_absent(&session, argument.bytes, argument.length));
}

/* Takes the content of a file as a deps log, which may be cut off at a number. */
static void take_log(struct text argument)
{
    struct text log = files[taken_number(&argument) % project_files].content;
    size_t most = taken_number(&argument);
    made_length = log.length < sizeof made_log ? log.length : sizeof made_log;
    made_length = most > 0 && most < made_length ? most : made_length;
    if (made_length > 0)
        memcpy(made_log, log.bytes, made_length);
}

/* Joins such a log, or the logs that c_calls.c makes. */
static void join_file(struct text argument)
{
    if (argument.length == 0 || project_files == 0) {
        try_logs();
    } else {
        take_log(argument);
        join(OF(DONE) | OF(BAD_LOG) | OF(FAULT) | OF(OUT_OF_MEMORY));
    }
    count_all();
}

/* Joins what builds discovered, by such a log, or as c_calls.c does. */
static void discover_file(struct text argument)
{
    if (edge_count >= MOST_MANY)
        return;
    wants = 0;
    if (argument.length == 0 || project_files == 0) {
        try_discovered();
        try_made_from();
    } else {
        take_log(argument);
        for (size_t edge = 0; edge < edge_count; edge++)
            times[edge] = edge % 3 == 2 ? NX_TIME_UNKNOWN : edge % 3;
        discover(OF(DONE) | OF(BAD_LOG) | OF(FAULT) | OF(OUT_OF_MEMORY));
    }
    count_all();
}

static void pick(struct text argument)
{
    size_t file = 0;
    unsigned picked = OF(DONE) | OF(FAULT) | OF(OUT_OF_MEMORY);
    int32_t status =
        IF_LOADED(picked, nx_pick_target(&session, argument.bytes, argument.length, &file));
    if (status == NX_FAULT) {
        try_fault(1);
        note_fault();
    }
    if (status != NX_DONE)
        return;
    expect(file < file_count, "nx_pick_target", "file", (long long)file);
    add_target(file);
}

static void name_file(struct text argument)
{
    size_t file = 0;
    unsigned named = OF(DONE) | OF(NOTHING);
    if (IF_LOADED(named, nx_file_named(&session, argument.bytes, argument.length, &file)) !=
        NX_DONE)
        return;
    TEXT(if_loaded, nx_path, file, OF(DONE));
    int is_same = given_length == argument.length && !memcmp(given, argument.bytes, given_length);
    expect(is_same, "nx_file_named", "another path has file", (long long)file);
    add_target(file);
}

static void ask_edge(struct text argument)
{
    size_t edge = taken_edge(&argument);
    try_edge(edge);
    try_numbers(edge);
}

static void ask_file(struct text argument)
{
    try_file(taken_file(&argument));
}

static void ask_variable(struct text argument)
{
    size_t edge = taken_edge(&argument);
    unsigned valued = OF(DONE) | OF(OUT_OF_MEMORY);
    variable = argument;
    if (TEXT(if_loaded, give_variable, edge, if_known(edge, edge_count, valued)) == NX_DONE)
        note_size(5, given_length);
    variable = (struct text)WORDS("description");
}

static void take_target(struct text argument)
{
    add_target(taken_file(&argument));
}

static void take_default_targets(struct text argument)
{
    (void)argument;
    take_defaults();
}

static void drop_targets(struct text argument)
{
    (void)argument;
    target_count = 0;
}

/* A page with any mark, of targets that may be unknown. */
static void ask_page(struct text argument)
{
    const size_t *handed = handed_targets();
    size_t take = taken_number(&argument), unknown = 0;
    for (size_t at = 0; at < target_count; at++)
        unknown += targets[at] >= file_count;
    unsigned listing = OF(OUT_OF_MEMORY) | (unknown ? OF(BAD_NUMBER) : OF(DONE) | OF(BAD_MARK));
    int32_t status = IF_LOADED(listing, nx_page(&session, handed, target_count, argument.bytes,
                                                argument.length, take));
    if (status != NX_DONE)
        return;
    expect(take_found(0) <= take, "nx_page", "more edges than", (long long)take);
    if (TEXT(if_open, give_mark, 0, OF(DONE) | OF(NOTHING)) == NX_DONE)
        note_size(6, given_length);
}

static void ask_pages(struct text argument)
{
    if (state == LOADED)
        try_needed(1 + taken_number(&argument) % 9);
}

static void ask_affected(struct text argument)
{
    (void)argument;
    try_affected();
}

static void ask_found(struct text argument)
{
    size_t edge = 0;
    unsigned each = OF(DONE) | OF(NOTHING);
    if (IF_OPEN(each, nx_found(&session, taken_number(&argument), &edge)) == NX_DONE)
        expect(edge < edge_count, "nx_found", "edge", (long long)edge);
    TEXT(if_open, give_mark, 0, each);
}

/* Runs once, or until nothing more is wanted. The graph is unchanged. */
static void run_by(int32_t running(struct text words, unsigned statuses), struct text words)
{
    size_t edges = 0;
    int32_t status = running(words, is_utf8(words) ? RAN : OF(NOT_UTF8) | OF(OUT_OF_MEMORY));
    wants = status == NX_WANTED;
    if (IF_LOADED(OF(DONE), nx_edge_count(&session, &edges)) == NX_DONE)
        expect(edges == edge_count, "nx_run", "edges", (long long)edges);
    TEXT(if_open, give_output, 0, OF(DONE));
    note_size(7, status == NX_DONE ? given_length : 0);
    TEXT(if_open, give_errors, 0, OF(DONE));
    if (status == NX_DONE)
        note(RUN_TEXT, shape_of(given, given_length));
}

static void run_all(struct text argument)
{
    run_by(run, argument);
}

static void run_some(struct text argument)
{
    run_by(run_once, argument);
}

static void ask_fault(struct text argument)
{
    (void)argument;
    try_fault(0);
}

static void ask_everything(struct text argument)
{
    (void)argument;
    ask_all();
}

static void ask_version(struct text argument)
{
    (void)argument;
    size_t major = 0, minor = 0;
    ALWAYS(OF(DONE), nx_version(&major, &minor));
    expect(major == NX_VERSION_MAJOR, "nx_version", "major", (long long)major);
    expect(minor == NX_VERSION_MINOR, "nx_version", "minor", (long long)minor);
}

/* Refuses an allocation, and with an odd second number all after it; 0 refuses none. */
static void refuse(struct text argument)
{
    asked = 0;
    refused_at = taken_number(&argument);
    refuses_all_after = taken_number(&argument) % 2;
}

/* ---- texts with any size ---- */

static const struct {
    const char *name;
    giving *call;
} texts[] = {
    { "nx_rule_name", nx_rule_name },
    { "nx_edge_file", nx_edge_file },
    { "nx_command", nx_command },
    { "nx_variable", give_variable },
    { "nx_path", nx_path },
    { "nx_wanted", nx_wanted },
    { "nx_fault_file", give_fault_file },
    { "nx_fault_line", give_fault_line },
    { "nx_page_mark", give_mark },
    { "nx_run_output", give_output },
    { "nx_run_errors", give_errors },
};

/* A text is the same in each buffer that is large enough. */
static void ask_sized(struct text argument)
{
    size_t at = taken_number(&argument) % (sizeof texts / sizeof *texts), needed = 0;
    size_t number = taken_edge(&argument);
    int32_t status = texts[at].call(&session, number, NULL, 0, &needed);
    if (status != NX_DONE && status != NX_SHORT)
        return;
    given_length = needed;
    given = __real_realloc(given, needed + GUARD);
    if (!given)
        abort();
    uint8_t *first = flags(needed);
    size_t size = taken_number(&argument) % (needed + GUARD);
    unsigned failing = OF(OUT_OF_MEMORY), any = size < needed ? OF(SHORT) : OF(DONE);
    status = ask_text(texts[at].name, texts[at].call, number, needed, OF(DONE) | failing);
    memcpy(first, given, needed);
    if (status == NX_DONE &&
        ask_text(texts[at].name, texts[at].call, number, size, any | failing) == NX_DONE)
        expect(memcmp(first, given, needed) == 0, texts[at].name, "another text in a buffer of",
               (long long)size);
    free(first);
}

/* ---- inputs ---- */

enum { MOST_LINES = 48 };

static const struct {
    char letter;
    void (*does)(struct text argument);
} doings[] = {
    { 'o', open_session },
    { 'c', close_session },
    { 'l', load_all },
    { 'L', load_some },
    { 'h', hand_in_wanted },
    { 'w', ask_wanted },
    { 'a', add_file },
    { 'x', add_absent },
    { 'j', join_file },
    { 'D', discover_file },
    { 'p', pick },
    { 'n', name_file },
    { 'e', ask_edge },
    { 'f', ask_file },
    { 'v', ask_variable },
    { 't', take_target },
    { 'd', take_default_targets },
    { '0', drop_targets },
    { 'g', ask_page },
    { 'G', ask_pages },
    { 'A', ask_affected },
    { 'm', ask_found },
    { 'r', run_all },
    { 'R', run_some },
    { 'k', ask_fault },
    { 'q', ask_everything },
    { 'i', ask_version },
    { 'z', refuse },
    { 's', ask_sized },
};

/* Does what a line says. A letter that means nothing stands for another. */
static void do_line(struct text line)
{
    size_t count = sizeof doings / sizeof *doings, at = 0;
    if (line.length == 0)
        return;
    while (at < count && doings[at].letter != (char)line.bytes[0])
        at++;
    doings[at < count ? at : line.bytes[0] % count].does(
        fenced(ARGUMENT, line.bytes + 1, line.length - 1));
}

int LLVMFuzzerInitialize(int *count, char ***words)
{
    (void)count;
    (void)words;
    make_fences();
    given = malloc(GUARD);
    return given ? 0 : 1;
}

int LLVMFuzzerTestOneInput(const uint8_t *bytes, size_t size)
{
    if (size >= ROOM)
        return 0;
    struct text lines = read_input((struct text){ bytes, size });
    project_number++;
    edge_count = file_count = target_count = refused_at = 0;
    variable = (struct text)WORDS("description");
    open_session((struct text){ NULL, 0 });
    for (size_t count = 0; lines.length > 0 && count < MOST_LINES; count++)
        do_line(taken_line(&lines));
    refused_at = 0;
    close_session((struct text){ NULL, 0 });
    if (wrongs > 0) {
        fflush(stdout);
        abort();
    }
    return 0;
}

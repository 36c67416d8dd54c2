/* c_test.py links this with the library for C, and with --wrap for `malloc`, `realloc` and `free`:

       c_calls cases|refused < PROJECTS

   For each project it makes every call of ninja_explain.h on a session that is closed, open,
   loaded, loaded again, opened again and closed twice: with numbers that no edge or file has,
   buffers that are too small, null pointers of length 0, and invalid arguments and marks. A call
   that returns many items has to return the same items as one at a time. What files need, chains of
   inputs, undeclared inputs, dirty edges and files on which the manifest depends have to be those
   that searches of its own find, and stale edges those with commands where no file exists.
   Each status has to be one that the header names for the call and the state of the session, a
   buffer may only be written where a text goes, and after the last close no block of memory may be
   left. With `refused` it does so again and again, and refuses one allocation after the other,
   alone and with all after it: a call that allocates may then return NX_OUT_OF_MEMORY too.

   A project is the number of its files, and for each the length of its path, the path, the length
   of its content and the content; numbers have four bytes, the least significant first. Prints how
   much was tried, and what is wrong. */
#include <ninja_explain.h>
#include <stdio.h>
#include <stdlib.h>
#include <string.h>

enum {
    MOST_ITEMS = 24,
    MOST_FILES = 4096,
    MOST_MANY = 4096,
    MOST_LISTED = 1 << 20,
    MOST_ROUNDS = 100,
    MOST_WRONG = 40
};
enum { GUARD = 9, FILL = 0xa5 };

/* ---- memory of the library, which may be refused ---- */

void *__real_malloc(size_t size);
void *__real_realloc(void *old, size_t size);
void __real_free(void *block);

static size_t asked, refused_at, blocks;
static int refuses_all_after;

static int is_refused(void)
{
    asked++;
    return refused_at != 0 && (asked == refused_at || (refuses_all_after && asked > refused_at));
}

void *__wrap_malloc(size_t size)
{
    void *block = is_refused() ? NULL : __real_malloc(size);
    blocks += block != NULL;
    return block;
}

void *__wrap_realloc(void *old, size_t size)
{
    void *block = is_refused() ? NULL : __real_realloc(old, size);
    blocks += !old && block;
    return block;
}

void __wrap_free(void *block)
{
    blocks -= block != NULL;
    __real_free(block);
}

/* ---- what is expected ---- */

#define OF(status) (1u << NX_##status)

/* A text that a call takes. */
struct text {
    const uint8_t *bytes;
    size_t length;
};

struct file {
    struct text path;
    struct text content;
};

static enum { CLOSED, OPEN, LOADED } state;
static nx_session session;
static size_t project_number, calls, wrongs;

static void wrong(const char *call, const char *what, long long value)
{
    if (wrongs++ < MOST_WRONG)
        printf("project %zu, allocation %zu: %s: %s %lld\n", project_number, refused_at, call, what,
               value);
}

static void expect(int is_right, const char *call, const char *what, long long value)
{
    if (!is_right)
        wrong(call, what, value);
}

/* Whether a status is one of those. What allocates may run out of memory if that is refused. */
static int32_t among(const char *call, int32_t status, unsigned statuses)
{
    if (refused_at == 0)
        statuses &= ~OF(OUT_OF_MEMORY);
    calls++;
    expect(status >= 0 && status < 32 && (1u << status & statuses), call, "status", status);
    return status;
}

/* The statuses of a call that needs an open session, and of one that needs a graph. */
static unsigned if_open(unsigned statuses)
{
    return state == CLOSED ? OF(NOT_OPEN) : statuses;
}

static unsigned if_loaded(unsigned statuses)
{
    return if_open(state == OPEN ? OF(NOT_LOADED) : statuses);
}

#define ALWAYS(statuses, call) among(#call, call, statuses)
#define IF_OPEN(statuses, call) among(#call, call, if_open(statuses))
#define IF_LOADED(statuses, call) among(#call, call, if_loaded(statuses))

/* ---- strings that are given ---- */

typedef int32_t giving(nx_session *, size_t number, void *buffer, size_t size, size_t *needed);

static struct text variable;

static int32_t give_fault_file(nx_session *of, size_t number, void *buffer, size_t size,
                               size_t *needed)
{
    (void)number;
    return nx_fault_file(of, buffer, size, needed);
}

static int32_t give_fault_line(nx_session *of, size_t number, void *buffer, size_t size,
                               size_t *needed)
{
    (void)number;
    return nx_fault_line(of, buffer, size, needed);
}

static int32_t give_mark(nx_session *of, size_t number, void *buffer, size_t size,
                         size_t *needed)
{
    (void)number;
    return nx_page_mark(of, buffer, size, needed);
}

static int32_t give_output(nx_session *of, size_t number, void *buffer, size_t size,
                           size_t *needed)
{
    (void)number;
    return nx_run_output(of, buffer, size, needed);
}

static int32_t give_errors(nx_session *of, size_t number, void *buffer, size_t size,
                           size_t *needed)
{
    (void)number;
    return nx_run_errors(of, buffer, size, needed);
}

static int32_t give_variable(nx_session *of, size_t number, void *buffer, size_t size,
                             size_t *needed)
{
    return nx_variable(of, number, variable.bytes, variable.length, buffer, size, needed);
}

static uint8_t *given;
static size_t given_length;

/* Asks for a text with a buffer of this size, which has more behind it. */
static int32_t ask_text(const char *name, giving *call, size_t number, size_t size,
                        unsigned statuses)
{
    size_t needed = SIZE_MAX, from = 0;
    memset(given, FILL, given_length + GUARD);
    int32_t status = among(name, call(&session, number, given, size, &needed), statuses);
    if (status == NX_OUT_OF_MEMORY)
        return status;
    expect(needed == given_length, name, "length", (long long)needed);
    if (status == NX_DONE)
        from = needed;
    for (size_t at = from; at < given_length + GUARD; at++)
        expect(given[at] == FILL, name, "wrote to byte", (long long)at);
    return status;
}

/* Asks for a text with no buffer, and with buffers that are just too small and large enough. If it
   is given, it is in `given`. */
static int32_t try_text(const char *name, giving *call, size_t number, unsigned statuses)
{
    size_t needed = 0;
    unsigned with_short = statuses & OF(DONE) ? statuses | OF(SHORT) : statuses;
    int32_t status = among(name, call(&session, number, NULL, 0, &needed), with_short);
    if (status != NX_SHORT && status != NX_DONE)
        return status;
    expect((status == NX_DONE) == (needed == 0), name, "no buffer, and length", (long long)needed);
    given_length = needed;
    given = __real_realloc(given, needed + GUARD);
    if (!given)
        abort();
    unsigned failing = statuses & OF(OUT_OF_MEMORY);
    if (needed > 0)
        ask_text(name, call, number, needed - 1, OF(SHORT) | failing);
    ask_text(name, call, number, needed + 1, OF(DONE) | failing);
    return ask_text(name, call, number, needed, OF(DONE) | failing);
}

#define TEXT(needs, call, number, statuses) try_text(#call, call, number, needs(statuses))

/* ---- the fault ---- */

static void try_fault(int there_is_one)
{
    int32_t kind = 0;
    size_t line = 0, column = 0;
    unsigned either = there_is_one ? OF(DONE) : OF(DONE) | OF(NOTHING);
    if (IF_OPEN(either, nx_fault_kind(&session, &kind)) == NX_DONE)
        expect(kind >= NX_FAULT_BAD_BYTE && kind < NX_FAULT_OUT_OF_MEMORY, "nx_fault_kind", "kind",
               kind);
    TEXT(if_open, give_fault_line, 0, either | OF(OUT_OF_MEMORY));
    int32_t file = TEXT(if_open, give_fault_file, 0, OF(DONE) | OF(NOTHING));
    int32_t place = IF_OPEN(OF(DONE) | OF(NOTHING), nx_fault_place(&session, &line, &column));
    expect(file == place, "nx_fault_file", "status", file);
    expect(place != NX_DONE || (line > 0 && column > 0), "nx_fault_place", "line", (long long)line);
}

/* ---- numbers ---- */

/* Some of the numbers below a count, and then numbers that nothing has. */
static size_t number_at(size_t index, size_t count)
{
    static const size_t unknown[] = {
        0, 1, (size_t)1 << 31, (size_t)1 << 32, SIZE_MAX / 2, SIZE_MAX
    };
    size_t known = count < MOST_ITEMS ? count : MOST_ITEMS;
    if (index < known)
        return index < MOST_ITEMS / 2 ? index : count - known + index;
    size_t more = unknown[index - known];
    return more < 2 ? count + more : more;
}

static size_t numbers_of(size_t count)
{
    return 6 + (count < MOST_ITEMS ? count : MOST_ITEMS);
}

/* The statuses of a call that takes a number. */
static unsigned if_known(size_t number, size_t count, unsigned statuses)
{
    return number < count ? statuses : OF(BAD_NUMBER);
}

/* ---- lists that are given many items at a time ---- */

typedef int32_t listing(nx_session *, size_t number, size_t from, size_t *items, size_t room,
                        size_t *count);

/* What was given one at a time, and what is written at once. */
static size_t single[MOST_MANY], many[MOST_MANY + 1 + GUARD];
static int32_t single_kinds[MOST_MANY], many_kinds[MOST_MANY + 1 + GUARD];
enum { NO_KIND = -1 };
#define NO_ITEM (SIZE_MAX - 1)

/* How many items are to be written of a list of a length. */
static size_t fitting(size_t length, size_t from, size_t room)
{
    size_t left = from < length ? length - from : 0;
    return left < room ? left : room;
}

/* Returns the inputs of an edge as files. A separate array takes their kinds, which are checked. */
static int32_t give_inputs(nx_session *of, size_t edge, size_t from, size_t *files, size_t room,
                           size_t *count)
{
    size_t kind_room = room / 2 + 1;
    for (size_t at = 0; at < kind_room + GUARD; at++)
        many_kinds[at] = NO_KIND;
    int32_t status = nx_inputs(of, edge, from, files, room, many_kinds, kind_room, count);
    size_t written = status == NX_DONE ? fitting(*count, from, kind_room) : 0;
    for (size_t at = 0; at < kind_room + GUARD; at++)
        expect(many_kinds[at] == (at < written ? single_kinds[from + at] : NO_KIND), "nx_inputs",
               "kind at", (long long)at);
    return status;
}

static void ask_many(const char *name, listing *call, size_t number, size_t from, size_t room,
                     size_t length, unsigned statuses)
{
    size_t count = SIZE_MAX;
    for (size_t at = 0; at < room + GUARD; at++)
        many[at] = NO_ITEM;
    size_t *items = room > 0 ? many : NULL;
    int32_t status = among(name, call(&session, number, from, items, room, &count), statuses);
    size_t written = status == NX_DONE ? fitting(length, from, room) : 0;
    expect(status != NX_DONE || count == length, name, "count", (long long)count);
    for (size_t at = 0; at < room + GUARD; at++)
        expect(many[at] == (at < written ? single[from + at] : NO_ITEM), name, "item at",
               (long long)at);
}

/* Asks for parts of a list, which has to be the one in `single`. */
static void try_many(const char *name, listing *call, size_t number, size_t length,
                     unsigned statuses)
{
    const size_t froms[] = { 0, length / 2, length, SIZE_MAX }, rooms[] = { 0, 1, length + 1 };
    if (length > MOST_MANY)
        return;
    for (size_t from = 0; from < sizeof froms / sizeof *froms; from++) {
        for (size_t room = 0; room < sizeof rooms / sizeof *rooms; room++)
            ask_many(name, call, number, froms[from], rooms[room], length, statuses);
    }
}

#define MANY(call, number, length, statuses) \
    try_many(#call, call, number, length, if_loaded(statuses))

/* ---- edges and files ---- */

/* How many edges and files there are, and the length of the main file's path. */
static size_t edge_count, file_count, main_length;

/* Whether an edge is among those that use a file. */
static int is_user(size_t file, size_t edge)
{
    size_t user = 0;
    for (size_t index = 0; nx_user(&session, file, index, &user) == NX_DONE; index++) {
        if (user == edge)
            return 1;
    }
    return 0;
}

static void try_outputs(size_t edge)
{
    unsigned each = if_known(edge, edge_count, OF(DONE) | OF(NOTHING));
    size_t index = 0, file = 0, maker = 0, count = 0;
    for (; IF_LOADED(each, nx_output(&session, edge, index, &file)) == NX_DONE; index++) {
        nx_maker(&session, file, &maker);
        expect(maker == edge, "nx_maker", "edge", (long long)maker);
        single[index % MOST_MANY] = file;
    }
    each = if_known(edge, edge_count, OF(DONE));
    MANY(nx_outputs, edge, index, each);
    if (IF_LOADED(each, nx_explicit_outputs(&session, edge, &count)) == NX_DONE)
        expect(count <= index, "nx_explicit_outputs", "count", (long long)count);
    each = if_known(edge, edge_count, OF(NOTHING));
    IF_LOADED(each, nx_output(&session, edge, SIZE_MAX, &file));
}

static void try_inputs(size_t edge)
{
    unsigned each = if_known(edge, edge_count, OF(DONE) | OF(NOTHING));
    size_t file = 0, plain = 0, count = 0, length = 0;
    int32_t kind = 0, before = NX_EXPLICIT;
    for (; IF_LOADED(each, nx_input(&session, edge, length, &file, &kind)) == NX_DONE; length++) {
        expect(before <= kind && kind <= NX_ORDER_ONLY, "nx_input", "kind", kind);
        expect(length >= MOST_ITEMS || is_user(file, edge), "nx_user", "no edge", (long long)edge);
        before = kind;
        plain += kind == NX_EXPLICIT;
        single[length % MOST_MANY] = file;
        single_kinds[length % MOST_MANY] = kind;
    }
    for (size_t index = 0; IF_LOADED(each, nx_validation(&session, edge, index, &file)) == NX_DONE;
         index++)
        expect(file < file_count, "nx_validation", "file", (long long)file);
    each = if_known(edge, edge_count, OF(DONE));
    MANY(give_inputs, edge, length, each);
    if (IF_LOADED(each, nx_inputs(&session, edge, 0, NULL, 0, NULL, 0, &count)) == NX_DONE)
        expect(count == length, "nx_inputs", "count", (long long)count);
    if (IF_LOADED(each, nx_explicit_inputs(&session, edge, &count)) == NX_DONE)
        expect(count == plain, "nx_explicit_inputs", "count", (long long)count);
    each = if_known(edge, edge_count, OF(NOTHING));
    IF_LOADED(each, nx_input(&session, edge, SIZE_MAX, &file, &kind));
    IF_LOADED(each, nx_validation(&session, edge, SIZE_MAX, &file));
}

static void try_edge(size_t edge)
{
    static const struct text names[] = {
        { NULL, 0 },
        { (const uint8_t *)"in", 2 },
        { (const uint8_t *)"description", 11 },
        { (const uint8_t *)"a\0\xff", 3 },
    };
    unsigned done = if_known(edge, edge_count, OF(DONE));
    size_t line = 0, column = 0;
    int32_t phony = -1, unknown = -1;
    unsigned either = if_known(edge, edge_count, OF(DONE) | OF(NOTHING));
    if (IF_LOADED(done, nx_is_phony(&session, edge, &phony)) == NX_DONE)
        expect(phony == 0 || phony == 1, "nx_is_phony", "value", phony);
    if (IF_LOADED(either, nx_is_unknown(&session, edge, &unknown)) == NX_DONE)
        expect(unknown == 0 || unknown == 1, "nx_is_unknown", "value", unknown);
    if (IF_LOADED(done, nx_edge_place(&session, edge, &line, &column)) == NX_DONE)
        expect(line > 0 && column > 0, "nx_edge_place", "line", (long long)line);
    TEXT(if_loaded, nx_rule_name, edge, done);
    TEXT(if_loaded, nx_edge_file, edge, done);
    TEXT(if_loaded, nx_command, edge, done | (done & OF(DONE) ? OF(OUT_OF_MEMORY) : 0));
    for (size_t at = 0; at < sizeof names / sizeof *names; at++) {
        variable = names[at];
        TEXT(if_loaded, give_variable, edge, done | (done & OF(DONE) ? OF(OUT_OF_MEMORY) : 0));
    }
    try_outputs(edge);
    try_inputs(edge);
}

static void try_users(size_t file)
{
    unsigned each = if_known(file, file_count, OF(DONE) | OF(NOTHING));
    size_t edge = 0, next = 0, length = 0;
    for (; IF_LOADED(each, nx_user(&session, file, length, &edge)) == NX_DONE; length++) {
        expect(next <= edge && edge < edge_count, "nx_user", "edge", (long long)edge);
        next = edge + 1;
        single[length % MOST_MANY] = edge;
    }
    MANY(nx_users, file, length, if_known(file, file_count, OF(DONE)));
    next = 0;
    for (size_t index = 0;
         IF_LOADED(each, nx_validation_user(&session, file, index, &edge)) == NX_DONE; index++) {
        expect(next <= edge && edge < edge_count, "nx_validation_user", "edge", (long long)edge);
        next = edge + 1;
    }
    IF_LOADED(if_known(file, file_count, OF(NOTHING)), nx_user(&session, file, SIZE_MAX, &edge));
}

static void try_file(size_t file)
{
    size_t edge = 0, same = 0;
    IF_LOADED(if_known(file, file_count, OF(DONE) | OF(NOTHING)), nx_maker(&session, file, &edge));
    if (TEXT(if_loaded, nx_path, file, if_known(file, file_count, OF(DONE))) == NX_DONE) {
        IF_LOADED(OF(DONE), nx_file_named(&session, given, given_length, &same));
        expect(same == file, "nx_file_named", "file", (long long)same);
        unsigned picked = OF(DONE) | OF(FAULT) | OF(OUT_OF_MEMORY);
        IF_LOADED(picked, nx_pick_target(&session, given, given_length, &same));
        given[given_length] = '^';
        if (IF_LOADED(picked, nx_pick_target(&session, given, given_length + 1, &same)) == NX_FAULT)
            try_fault(1);
    }
    try_users(file);
}

/* ---- lists ---- */

static size_t listed[MOST_LISTED];

/* Takes what was listed to the list, behind those that are in it. */
static size_t take_found(size_t count)
{
    size_t edge = 0;
    for (size_t index = 0;
         IF_OPEN(OF(DONE) | OF(NOTHING), nx_found(&session, index, &edge)) == NX_DONE; index++) {
        expect(edge < edge_count, "nx_found", "edge", (long long)edge);
        if (count < MOST_LISTED)
            listed[count++] = edge;
    }
    return count;
}

/* Walks in pages of a size. All of them are to be what one page without a limit is. */
static void try_pages(const size_t *targets, size_t target_count, size_t take)
{
    unsigned page = OF(DONE) | OF(OUT_OF_MEMORY);
    if (IF_LOADED(page, nx_page(&session, targets, target_count, NULL, 0, SIZE_MAX)) != NX_DONE)
        return;
    size_t whole = take_found(0), count = whole;
    TEXT(if_open, give_mark, 0, OF(NOTHING));
    int32_t status = IF_LOADED(page, nx_page(&session, targets, target_count, NULL, 0, take));
    while (status == NX_DONE) {
        size_t before = count;
        count = take_found(count);
        expect(count - before <= take, "nx_page", "more edges than", (long long)take);
        if (TEXT(if_open, give_mark, 0, OF(DONE) | OF(NOTHING)) != NX_DONE)
            break;
        expect(count - before == take, "nx_page", "fewer edges than", (long long)take);
        status =
            IF_LOADED(page, nx_page(&session, targets, target_count, given, given_length, take));
    }
    if (status != NX_DONE || whole > MOST_LISTED / 2)
        return;
    int is_same = count == 2 * whole && memcmp(listed, listed + whole, whole * sizeof *listed) == 0;
    expect(is_same, "nx_page", "other edges in pages of", (long long)take);
}

static void try_marks(const size_t *targets, size_t target_count)
{
    static char deep[2002];
    const char *marks[] = { "x",
                            "start",
                            "0",
                            "0.0",
                            "0.1.0",
                            "0.",
                            ".0",
                            "00",
                            "0..0",
                            "v0.0",
                            "9.9",
                            "\xff",
                            "1.0",
                            "99999999999999999999",
                            "18446744073709551615.0",
                            " 0",
                            deep };
    for (size_t at = 0; at + 1 < sizeof deep; at++)
        deep[at] = "0."[at % 2];
    deep[2001] = 0;
    for (size_t at = 0; at < sizeof marks / sizeof *marks; at++) {
        const uint8_t *mark = (const uint8_t *)marks[at];
        unsigned read = OF(DONE) | OF(BAD_MARK) | OF(OUT_OF_MEMORY);
        IF_LOADED(read, nx_page(&session, targets, target_count, mark, strlen(marks[at]), 3));
    }
    IF_LOADED(OF(BAD_MARK) | OF(OUT_OF_MEMORY),
              nx_page(&session, targets, target_count, (const uint8_t *)"\0", 1, 3));
}

static void try_lists(void)
{
    size_t targets[MOST_ITEMS], count = 0, file = 0;
    unsigned each = OF(DONE) | OF(NOTHING);
    while (count < MOST_ITEMS && IF_LOADED(each, nx_default(&session, count, &file)) == NX_DONE)
        targets[count++] = file;
    for (size_t index = 0; IF_LOADED(each, nx_root(&session, index, &file)) == NX_DONE; index++)
        expect(file < file_count, "nx_root", "file", (long long)file);
    for (size_t index = 0; TEXT(if_loaded, nx_opened, index, each) == NX_DONE; index++)
        expect(index > 0 || given_length == main_length, "nx_opened", "length", (long long)given_length);
    TEXT(if_loaded, nx_opened, SIZE_MAX, OF(NOTHING));
    IF_LOADED(OF(NOTHING), nx_default(&session, SIZE_MAX, &file));
    IF_LOADED(OF(NOTHING), nx_root(&session, SIZE_MAX, &file));
    IF_LOADED(OF(DONE) | OF(OUT_OF_MEMORY), nx_page(&session, targets, count, NULL, 0, 0));
    for (size_t take = 1; take < 4; take++)
        try_pages(targets, count, take);
    try_marks(targets, count);
    IF_LOADED(OF(DONE) | OF(OUT_OF_MEMORY), nx_affected(&session, targets, count));
    IF_LOADED(OF(DONE) | OF(OUT_OF_MEMORY), nx_affected(&session, NULL, 0));
    IF_LOADED(OF(DONE) | OF(OUT_OF_MEMORY), nx_page(&session, NULL, 0, NULL, 0, SIZE_MAX));
    for (size_t at = 0; at < numbers_of(file_count); at++) {
        size_t number = number_at(at, file_count), edge, last = 0;
        unsigned known = if_known(number, file_count, OF(DONE)) | OF(OUT_OF_MEMORY);
        if (IF_LOADED(known, nx_affected(&session, &number, 1)) != NX_DONE)
            continue;
        for (size_t index = 0; nx_found(&session, index, &edge) == NX_DONE; index++) {
            expect(last <= edge && edge < edge_count, "nx_affected", "edge", (long long)edge);
            last = edge + 1;
        }
        IF_LOADED(known, nx_page(&session, &number, 1, NULL, 0, 5));
        IF_LOADED(known, nx_dirtied(&session, &number, 1));
    }
    IF_LOADED(OF(DONE) | OF(OUT_OF_MEMORY), nx_dirtied(&session, NULL, 0));
}

/* ---- what files need ---- */

#define FAR SIZE_MAX

/* For each edge how many steps it is from the maker of a file, by a search of our own; FAR if the file
   does not need it. Returns how many edges it needs, or FAR if there is too much to look at. */
static size_t distance[MOST_MANY], queue[MOST_MANY];

static size_t measure(size_t file, int with_validations)
{
    size_t found = 0, edge, input;
    int32_t kind;
    if (edge_count > MOST_MANY)
        return FAR;
    for (edge = 0; edge < edge_count; edge++)
        distance[edge] = FAR;
    if (nx_maker(&session, file, &edge) != NX_DONE)
        return 0;
    distance[edge] = 0;
    queue[found++] = edge;
    for (size_t place = 0; place < found; place++) {
        size_t from = queue[place];
        for (size_t index = 0; nx_input(&session, from, index, &input, &kind) == NX_DONE; index++) {
            if (nx_maker(&session, input, &edge) == NX_DONE && distance[edge] == FAR) {
                distance[edge] = distance[from] + 1;
                queue[found++] = edge;
            }
        }
        for (size_t index = 0; with_validations && nx_validation(&session, from, index, &input) == NX_DONE;
             index++) {
            if (nx_maker(&session, input, &edge) == NX_DONE && distance[edge] == FAR) {
                distance[edge] = distance[from] + 1;
                queue[found++] = edge;
            }
        }
    }
    return found;
}

/* Whether an edge has a file as an input of this kind. */
static int is_input(size_t edge, size_t file, int32_t kind)
{
    size_t input;
    int32_t of = NX_VALIDATION;
    for (size_t index = 0; kind != NX_VALIDATION; index++) {
        if (nx_input(&session, edge, index, &input, &of) != NX_DONE)
            return 0;
        if (input == file && of == kind)
            return 1;
    }
    for (size_t index = 0; nx_validation(&session, edge, index, &input) == NX_DONE; index++) {
        if (input == file)
            return 1;
    }
    return 0;
}

/* How many steps a shortest chain has from the measured file to another; FAR without a chain. */
static size_t steps_to(size_t found, size_t file, int with_validations)
{
    for (size_t place = 0; place < found; place++) {
        size_t edge = queue[place];
        int32_t last = with_validations ? NX_VALIDATION : NX_ORDER_ONLY;
        for (int32_t kind = NX_EXPLICIT; kind <= last; kind++) {
            if (is_input(edge, file, kind))
                return distance[edge] + 1;
        }
    }
    return FAR;
}

/* Lists what a file needs: all edges of the search without duplicates, none before a nearer edge. */
static void try_nearest(size_t file)
{
    unsigned known = if_known(file, file_count, OF(DONE)) | OF(OUT_OF_MEMORY);
    size_t edge, last = 0, count = 0;
    if (IF_LOADED(known, nx_needed(&session, &file, 1)) != NX_DONE)
        return;
    size_t found = measure(file, 0);
    if (found == FAR)
        return;
    for (; nx_found(&session, count, &edge) == NX_DONE; count++) {
        int is_there = edge < edge_count && distance[edge] != FAR && distance[edge] >= last;
        expect(is_there, "nx_needed", "edge", (long long)edge);
        if (!is_there)
            return;
        last = distance[edge];
        distance[edge] = FAR;
    }
    expect(count == found, "nx_needed", "edges", (long long)count);
}

static nx_step steps[MOST_MANY + GUARD];
static const nx_step no_step = { NO_ITEM, NO_ITEM, NO_KIND };

/* Asks for a chain with room for some steps. The rest of the array is unchanged. */
static int32_t ask_path(size_t from, size_t to, uint32_t with_validations, size_t room, size_t *count,
                        unsigned statuses)
{
    for (size_t at = 0; at < room + GUARD; at++)
        steps[at] = no_step;
    int32_t status = IF_LOADED(statuses, nx_path_between(&session, from, to, with_validations,
                                                         room > 0 ? steps : NULL, room, count));
    size_t written = status == NX_DONE ? fitting(*count, 0, room) : 0;
    for (size_t at = 0; at < room + GUARD; at++) {
        int is_kept = steps[at].edge == NO_ITEM && steps[at].kind == NO_KIND;
        expect(is_kept == (at >= written), "nx_path_between", "step at", (long long)at);
    }
    return status;
}

/* Each step has to be an input of its edge, and to begin where the step before it ends. */
static void expect_chain(size_t from, size_t to, size_t count)
{
    size_t file = from, edge;
    for (size_t at = 0; at < count; at++) {
        int follows = nx_maker(&session, file, &edge) == NX_DONE && edge == steps[at].edge;
        int is_there = is_input(steps[at].edge, steps[at].file, steps[at].kind);
        expect(follows && is_there, "nx_path_between", "no step at", (long long)at);
        file = steps[at].file;
    }
    expect(file == to, "nx_path_between", "ends at", (long long)file);
}

static void try_path(size_t from, size_t to, uint32_t with_validations)
{
    size_t count = 0, same = 0;
    unsigned known = from < file_count && to < file_count;
    unsigned statuses = known ? OF(DONE) | OF(NOTHING) | OF(OUT_OF_MEMORY) : OF(BAD_NUMBER);
    int32_t status = ask_path(from, to, with_validations, 0, &count, statuses);
    if (!known || (status != NX_DONE && status != NX_NOTHING))
        return;
    size_t found = measure(from, (int)with_validations);
    if (found == FAR)
        return;
    size_t wanted = from == to ? FAR : steps_to(found, to, (int)with_validations);
    expect(status == (wanted == FAR ? NX_NOTHING : NX_DONE), "nx_path_between", "status", status);
    if (status != NX_DONE)
        return;
    expect(count == wanted, "nx_path_between", "steps", (long long)count);
    if (ask_path(from, to, with_validations, count, &same, OF(DONE) | OF(OUT_OF_MEMORY)) != NX_DONE)
        return;
    expect(same == count, "nx_path_between", "steps then", (long long)same);
    expect_chain(from, to, count);
    ask_path(from, to, with_validations, 1, &same, OF(DONE) | OF(OUT_OF_MEMORY));
}

/* (few, where an allocation is refused: each one is, in turn) */
static void try_needs(void)
{
    size_t numbers = numbers_of(file_count), most = refused_at == 0 ? numbers : 2;
    IF_LOADED(OF(DONE) | OF(OUT_OF_MEMORY), nx_needed(&session, NULL, 0));
    for (size_t at = 0; at < most; at++) {
        size_t from = number_at(at, file_count);
        try_nearest(from);
        for (size_t other = at % 3; other < numbers; other += 3) {
            size_t to = number_at(other, file_count);
            try_path(from, to, other % 2);
        }
    }
}

static void try_words(void)
{
    const char *words[] = { "",     "^",    "a^^", "..",  ".",  "/",         "./a",
                            "a/..", "\xff", "-",   "a b", "//", "../../../x" };
    size_t file = 0;
    for (size_t at = 0; at < sizeof words / sizeof *words; at++) {
        const uint8_t *word = (const uint8_t *)words[at];
        size_t length = strlen(words[at]);
        unsigned picked = OF(DONE) | OF(FAULT) | OF(OUT_OF_MEMORY);
        if (IF_LOADED(picked, nx_pick_target(&session, word, length, &file)) == NX_FAULT)
            try_fault(1);
        IF_LOADED(OF(DONE) | OF(NOTHING), nx_file_named(&session, word, length, &file));
    }
    IF_LOADED(OF(FAULT) | OF(OUT_OF_MEMORY), nx_pick_target(&session, NULL, 0, &file));
    IF_LOADED(OF(DONE) | OF(NOTHING), nx_file_named(&session, NULL, 0, &file));
}

/* Asks for the names of all rules. */
static void try_rules(void)
{
    size_t count = 0, index = 0;
    IF_LOADED(OF(DONE), nx_rule_count(&session, &count));
    while (TEXT(if_loaded, nx_rule_name_at, index, OF(DONE) | OF(NOTHING)) == NX_DONE)
        index++;
    expect(index == count, "nx_rule_name_at", "names", (long long)index);
    TEXT(if_loaded, nx_rule_name_at, SIZE_MAX, OF(NOTHING));
}

/* Makes every call that asks. */
static void ask_all(void)
{
    size_t edge = 0;
    int32_t is_whole = 0;
    edge_count = file_count = 0;
    IF_LOADED(OF(DONE), nx_edge_count(&session, &edge_count));
    IF_LOADED(OF(DONE), nx_file_count(&session, &file_count));
    try_rules();
    for (size_t at = 0; at < numbers_of(edge_count); at++)
        try_edge(number_at(at, edge_count));
    for (size_t at = 0; at < numbers_of(file_count); at++)
        try_file(number_at(at, file_count));
    try_fault(0);
    try_lists();
    try_needs();
    try_words();
    IF_OPEN(OF(NOTHING), nx_found(&session, SIZE_MAX, &edge));
    IF_LOADED(OF(DONE) | OF(NOTHING), nx_log_read(&session, &edge, &is_whole));
    TEXT(if_open, nx_wanted, SIZE_MAX, OF(NOTHING));
    TEXT(if_open, give_mark, 0, OF(DONE) | OF(NOTHING));
}

/* ---- sessions ---- */

static struct file files[MOST_FILES];
static size_t project_files;

#define ADDED (OF(DONE) | OF(OUT_OF_MEMORY))

/* Supplies the file that is wanted. Returns whether that could be done. */
static int hand_in(void)
{
    for (size_t at = 0; at < project_files; at++) {
        struct file *file = &files[at];
        if (file->path.length == given_length && memcmp(file->path.bytes, given, given_length) == 0)
            return IF_OPEN(ADDED, nx_add_file(&session, given, given_length, file->content.bytes,
                                              file->content.length)) == NX_DONE;
    }
    return IF_OPEN(ADDED, nx_add_absent(&session, given, given_length)) == NX_DONE;
}

/* Supplies all files that are wanted. Returns whether that could be done. */
static int hand_in_all(void)
{
    size_t index = 0;
    while (TEXT(if_open, nx_wanted, index, OF(DONE) | OF(NOTHING)) == NX_DONE) {
        if (!hand_in())
            return 0;
        index++;
    }
    expect(index > 0, "nx_wanted", "paths", 0);
    return 1;
}

/* Files are wanted only after that status. */
static void try_wanted(int32_t status)
{
    if (status != NX_WANTED)
        TEXT(if_open, nx_wanted, 0, OF(NOTHING));
}

static int32_t load_once(const char *main, uint32_t joins)
{
    unsigned loaded = OF(DONE) | OF(FAULT) | OF(WANTED) | OF(OUT_OF_MEMORY);
    const uint8_t *path = (const uint8_t *)main;
    main_length = main ? strlen(main) : 0;
    int32_t status = IF_OPEN(loaded, nx_load(&session, path, main_length, joins));
    if (state != CLOSED)
        state = status == NX_DONE ? LOADED : OPEN;
    try_wanted(status);
    if (status == NX_FAULT)
        try_fault(1);
    return status;
}

/* Loads until nothing more is wanted. */
static int32_t load(const char *main, uint32_t joins)
{
    int32_t status = NX_WANTED;
    for (size_t round = 0; status == NX_WANTED && round < MOST_ROUNDS; round++) {
        status = load_once(main, joins);
        if (status == NX_WANTED && !hand_in_all())
            return NX_OUT_OF_MEMORY;
    }
    expect(status != NX_WANTED, "nx_load", "wants more after rounds", MOST_ROUNDS);
    return status;
}

/* ---- deps logs ---- */

enum { MOST_NAME = 1 << 10 };

/* A deps log that is made, record by record. */
static uint8_t made_log[1 << 16];
static size_t made_length;

static void put_word(uint32_t word)
{
    for (int at = 0; at < 4; at++)
        made_log[made_length++] = (uint8_t)(word >> 8 * at);
}

static void begin_log(uint32_t version)
{
    static const char opening[] = "# ninjadeps\n";
    memcpy(made_log, opening, sizeof opening - 1);
    made_length = sizeof opening - 1;
    put_word(version);
}

static void put_path(struct text path, uint32_t number)
{
    size_t padded = (path.length + 3) / 4 * 4;
    put_word((uint32_t)padded + 4);
    memset(made_log + made_length, 0, padded);
    memcpy(made_log + made_length, path.bytes, path.length);
    made_length += padded;
    put_word(~number);
}

/* The path with the given number depends on the path with another number, since a time. */
static void put_dependency(uint32_t output, uint32_t input)
{
    put_word(4 * 4 | (uint32_t)1 << 31);
    put_word(output);
    put_word(1);
    put_word(0);
    put_word(input);
}

/* An edge with a value of `deps`, if any; its first output is then in `given`. */
static int find_with_deps(size_t *edge)
{
    variable = (struct text){ (const uint8_t *)"deps", 4 };
    for (*edge = 0; *edge < edge_count; ++*edge) {
        size_t length = 0, file;
        int32_t status = give_variable(&session, *edge, NULL, 0, &length);
        if (status == NX_SHORT && nx_output(&session, *edge, 0, &file) == NX_DONE &&
            nx_path(&session, file, NULL, 0, &length) == NX_SHORT && length < sizeof made_log / 2)
            return TEXT(if_loaded, nx_path, file, OF(DONE)) == NX_DONE;
    }
    return 0;
}

static nx_edge_input undeclared[MOST_MANY + GUARD];
static const nx_edge_input no_input = { NO_ITEM, NO_ITEM };

/* Asks for the inputs that the log has and no edge declares, with room for some. The rest of the
   array is unchanged. */
static int32_t ask_undeclared(size_t room, size_t *count, unsigned statuses)
{
    for (size_t at = 0; at < room + GUARD; at++)
        undeclared[at] = no_input;
    int32_t status = IF_LOADED(statuses, nx_undeclared(&session, made_log, made_length,
                                                       room > 0 ? undeclared : NULL, room, count));
    size_t written = status == NX_DONE ? fitting(*count, 0, room) : 0;
    for (size_t at = 0; at < room + GUARD; at++) {
        int is_kept = undeclared[at].edge == NO_ITEM && undeclared[at].file == NO_ITEM;
        expect(is_kept == (at >= written), "nx_undeclared", "input at", (long long)at);
    }
    return status;
}

/* Lists the undeclared inputs. Each has to be made by another edge than its own, which has no such
   input. Returns how many exist, or 0 if they do not fit. */
static size_t list_undeclared(unsigned statuses)
{
    size_t count = 0, same = 0, maker = 0;
    unsigned either = OF(DONE) | OF(OUT_OF_MEMORY);
    if (ask_undeclared(0, &count, statuses) != NX_DONE || count > MOST_MANY)
        return 0;
    if (ask_undeclared(1, &same, either) != NX_DONE || ask_undeclared(count, &same, either) != NX_DONE)
        return 0;
    expect(same == count, "nx_undeclared", "inputs then", (long long)same);
    for (size_t at = 0; at < count; at++) {
        size_t edge = undeclared[at].edge, file = undeclared[at].file;
        int is_made = nx_maker(&session, file, &maker) == NX_DONE && maker != edge;
        int is_after = at == 0 || undeclared[at - 1].edge <= edge;
        expect(is_made && is_after && edge < edge_count, "nx_undeclared", "input at", (long long)at);
        for (int32_t kind = NX_EXPLICIT; kind <= NX_ORDER_ONLY; kind++)
            expect(!is_input(edge, file, kind), "nx_undeclared", "declared at", (long long)at);
    }
    return count;
}

/* Joins the log. What it has and no edge declares is an input then. */
static int32_t join(unsigned statuses)
{
    unsigned asked = (statuses & OF(FAULT) ? statuses | OF(DONE) : statuses) & ~OF(FAULT);
    size_t count = list_undeclared(asked);
    int32_t status = IF_LOADED(statuses, nx_join_deps(&session, made_log, made_length));
    if (state == LOADED && (status == NX_FAULT || status == NX_OUT_OF_MEMORY))
        state = OPEN;
    if (status == NX_FAULT)
        try_fault(1);
    for (size_t at = 0; status == NX_DONE && at < count; at++)
        expect(is_input(undeclared[at].edge, undeclared[at].file, NX_IMPLICIT), "nx_undeclared",
               "no input after joining, at", (long long)at);
    if (status == NX_DONE)
        expect(list_undeclared(OF(DONE) | OF(OUT_OF_MEMORY)) == 0, "nx_undeclared", "after joining",
               (long long)count);
    return status;
}

/* Makes a log that names some files for the first output of an edge, one of them twice. Puts those of
   them into `many` that the edge does not declare, by a search of our own, and returns how many they
   are; FAR if that cannot be known. */
static size_t name_files(size_t edge)
{
    size_t output, maker, needed, numbers = 0, count = 0;
    int is_left_out = 0;
    if (nx_output(&session, edge, 0, &output) != NX_DONE || measure(output, 0) == FAR)
        return FAR;
    begin_log(4);
    if (TEXT(if_loaded, nx_path, output, OF(DONE)) != NX_DONE || given_length > MOST_NAME)
        return FAR;
    put_path((struct text){ given, given_length }, 0);
    for (size_t at = 0; at < numbers_of(file_count); at++) {
        size_t file = number_at(at, file_count);
        if (nx_path(&session, file, NULL, 0, &needed) != NX_SHORT || needed > MOST_NAME)
            continue;
        if (file != output && TEXT(if_loaded, nx_path, file, OF(DONE)) == NX_DONE) {
            put_path((struct text){ given, given_length }, (uint32_t)numbers + 1);
            numbers++;
            is_left_out |= given_length == 11 && memcmp(given, "build.ninja", 11) == 0;
            if (nx_maker(&session, file, &maker) == NX_DONE && distance[maker] == FAR)
                many[count++] = file;
        }
    }
    if (numbers == 0)
        return FAR;
    put_word((uint32_t)(4 * (numbers + 4)) | (uint32_t)1 << 31);
    for (size_t word = 0; word < 3; word++)
        put_word(word == 1);
    for (size_t at = 0; at <= numbers; at++)
        put_word((uint32_t)(at % numbers) + 1);
    return is_left_out ? 0 : count;
}

/* Asks by a log that names files for an edge with `deps`. */
static void try_named(size_t edge)
{
    size_t wanted = name_files(edge), count = 0;
    if (wanted == FAR || ask_undeclared(wanted + 1, &count, OF(DONE) | OF(OUT_OF_MEMORY)) != NX_DONE)
        return;
    expect(count == wanted, "nx_undeclared", "inputs", (long long)count);
    for (size_t at = 0; at < wanted && at < count; at++) {
        int is_same = undeclared[at].edge == edge && undeclared[at].file == many[at];
        expect(is_same, "nx_undeclared", "another input at", (long long)at);
    }
}

/* Joins logs that mean nothing, and one that names a header for an edge with `deps`. */
static void try_logs(void)
{
    static const struct text header = { (const uint8_t *)"./new//header.h", 15 };
    static const char clean[] = "new/header.h";
    size_t edge = 0, file = 0, before = 0, after = 0;
    unsigned joined = OF(DONE) | OF(OUT_OF_MEMORY);
    unsigned bad = OF(BAD_LOG) | OF(OUT_OF_MEMORY);
    IF_LOADED(bad, nx_undeclared(&session, NULL, 0, NULL, 0, &edge));
    IF_LOADED(bad, nx_join_deps(&session, NULL, 0));
    if (state == LOADED && nx_edge_count(&session, &edge) == NX_NOT_LOADED)
        state = OPEN;
    begin_log(3);
    join(bad);
    begin_log(4);
    join(joined);
    if (state != LOADED || !find_with_deps(&edge))
        return;
    try_named(edge);
    if (!find_with_deps(&edge))
        return;
    begin_log(4);
    nx_inputs(&session, edge, 0, NULL, 0, NULL, 0, &before);
    put_path((struct text){ given, given_length }, 0);
    put_path(header, 1);
    put_dependency(0, 1);
    put_word(1 << 20);
    for (int again = 0; again < 2; again++) {
        if (join(joined) != NX_DONE)
            return;
        nx_inputs(&session, edge, 0, NULL, 0, NULL, 0, &after);
        expect(after == before + 1, "nx_join_deps", "inputs", (long long)after);
        IF_LOADED(OF(DONE), nx_file_named(&session, clean, sizeof clean - 1, &file));
        expect(is_input(edge, file, NX_IMPLICIT), "nx_join_deps", "no input", (long long)file);
    }
    /* (in place of the record that is cut off) */
    made_length -= 4;
    put_dependency(0, 0);
    join(OF(FAULT) | OF(OUT_OF_MEMORY));
}

/* ---- what builds discovered ---- */

static uint64_t times[MOST_MANY];

/* Joins by the log and the times, and supplies the depfiles that are wanted, all at once. */
static int32_t discover(unsigned statuses)
{
    int32_t status = NX_WANTED;
    for (int round = 0; round < 2 && status == NX_WANTED; round++) {
        unsigned wanted = round == 0 && statuses & OF(DONE) ? OF(WANTED) : 0;
        status = IF_LOADED(statuses | wanted, nx_join_discovered(&session, made_log, made_length, times,
                                                                 edge_count));
        if (status == NX_DONE || status == NX_FAULT || status == NX_OUT_OF_MEMORY)
            try_wanted(status);
        if (status == NX_WANTED && !hand_in_all())
            return NX_OUT_OF_MEMORY;
    }
    if (state == LOADED && (status == NX_FAULT || status == NX_OUT_OF_MEMORY))
        state = OPEN;
    if (status == NX_FAULT)
        try_fault(1);
    return status;
}

/* The log that was joined was read up to a byte. */
static void try_read(size_t wanted, int32_t all)
{
    size_t size = SIZE_MAX;
    int32_t is_whole = -1;
    if (IF_LOADED(OF(DONE), nx_log_read(&session, &size, &is_whole)) == NX_DONE) {
        expect(size == wanted, "nx_log_read", "size", (long long)size);
        expect(is_whole == all, "nx_log_read", "whole", is_whole);
    }
}

/* Whether a variable of an edge has a value; -1 if that cannot be known. */
static int has_value(size_t edge, const char *name)
{
    size_t length = 0;
    variable = (struct text){ (const uint8_t *)name, strlen(name) };
    int32_t status = give_variable(&session, edge, NULL, 0, &length);
    return status == NX_SHORT ? 1 : status == NX_DONE ? 0 : -1;
}

static uint8_t is_dirty[MOST_MANY];

/* Whether an edge has a file, or an output of a dirty edge, as an input that counts, or makes the file. */
static int takes_dirty(size_t edge, size_t file)
{
    size_t other, maker;
    int32_t kind;
    for (size_t index = 0; nx_output(&session, edge, index, &other) == NX_DONE; index++) {
        if (other == file)
            return 1;
    }
    for (size_t index = 0; nx_input(&session, edge, index, &other, &kind) == NX_DONE; index++) {
        int is_made = nx_maker(&session, other, &maker) == NX_DONE && is_dirty[maker];
        if (kind != NX_ORDER_ONLY && (other == file || is_made))
            return 1;
    }
    return 0;
}

/* Lists the edges that a file makes dirty, or none, which have to be those that a search of our own
   finds. */
static void try_dirtied(size_t file)
{
    unsigned known = file == NO_ITEM ? OF(DONE) : if_known(file, file_count, OF(DONE));
    size_t edge = 0, next = 0;
    int32_t unknown = 0;
    int32_t status = IF_LOADED(known | OF(OUT_OF_MEMORY), nx_dirtied(&session, &file, file != NO_ITEM));
    if (status != NX_DONE)
        return;
    for (edge = 0; edge < edge_count; edge++)
        is_dirty[edge] = nx_is_unknown(&session, edge, &unknown) == NX_DONE && unknown;
    for (int more = 1; more;) {
        more = 0;
        for (edge = 0; edge < edge_count; edge++) {
            if (!is_dirty[edge] && takes_dirty(edge, file))
                is_dirty[edge] = more = 1;
        }
    }
    for (size_t index = 0; nx_found(&session, index, &edge) == NX_DONE; index++, next = edge + 1) {
        for (; next < edge; next++)
            expect(!is_dirty[next], "nx_dirtied", "left out", (long long)next);
        expect(next == edge && is_dirty[edge], "nx_dirtied", "edge", (long long)edge);
    }
    for (; next < edge_count; next++)
        expect(!is_dirty[next], "nx_dirtied", "left out", (long long)next);
}

/* Joins by a log without records: an edge with a value of `deps` is unknown, and one with neither that
   nor a depfile is known. */
static void try_no_records(void)
{
    for (size_t edge = 0; edge < edge_count; edge++)
        times[edge] = edge % 2 ? NX_TIME_ABSENT : NX_TIME_UNKNOWN;
    if (discover(OF(DONE) | OF(FAULT) | OF(OUT_OF_MEMORY)) != NX_DONE)
        return;
    try_read(made_length, 1);
    IF_LOADED(OF(DONE), nx_file_count(&session, &file_count));
    for (size_t edge = 0; edge < edge_count; edge++) {
        int32_t unknown = -1;
        int deps = has_value(edge, "deps"), depfile = has_value(edge, "depfile");
        IF_LOADED(OF(DONE), nx_is_unknown(&session, edge, &unknown));
        if (deps == 1 || (deps == 0 && depfile == 0))
            expect(unknown == deps, "nx_is_unknown", "without records", (long long)edge);
    }
    try_dirtied(NO_ITEM);
    for (size_t at = 0; at < numbers_of(file_count); at++)
        try_dirtied(number_at(at, file_count));
}

/* Joins by a record of one nanosecond after 1970 for the first output of an edge, which was changed at a
   time. The record counts or not, and it is followed by a part of another one. */
static void try_record(uint64_t time, int counts)
{
    static const struct text header = { (const uint8_t *)"new/header.h", 12 };
    size_t edge = 0, file = 0;
    int32_t unknown = -1;
    if (load("build.ninja", 0) != NX_DONE || !find_with_deps(&edge))
        return;
    /* (the time at a path that is not UTF-8 is not known) */
    for (size_t at = 0; at < given_length; at++) {
        if (given[at] >= 128)
            return;
    }
    begin_log(4);
    put_path((struct text){ given, given_length }, 0);
    put_path(header, 1);
    put_dependency(0, 1);
    put_word(1 << 20);
    for (size_t other = 0; other < edge_count; other++)
        times[other] = NX_TIME_ABSENT;
    times[edge] = time;
    if (discover(OF(DONE) | OF(FAULT) | OF(OUT_OF_MEMORY)) != NX_DONE)
        return;
    try_read(made_length - 4, 0);
    IF_LOADED(OF(DONE), nx_is_unknown(&session, edge, &unknown));
    expect(unknown == !counts, "nx_is_unknown", "by a record, at", (long long)time);
    int32_t status = nx_file_named(&session, header.bytes, header.length, &file);
    expect((status == NX_DONE && is_input(edge, file, NX_IMPLICIT)) == counts, "nx_join_discovered",
           "the input of a record, at", (long long)time);
    if (!counts)
        return;
    IF_LOADED(OF(DONE), nx_file_count(&session, &file_count));
    try_dirtied(file);
    made_length -= 4;
    put_dependency(0, 0);
    discover(OF(FAULT) | OF(OUT_OF_MEMORY));
}

static void try_discovered(void)
{
    unsigned bad = OF(BAD_LOG) | OF(OUT_OF_MEMORY);
    made_length = 0;
    if (edge_count >= MOST_MANY)
        return;
    IF_LOADED(OF(BAD_NUMBER), nx_join_discovered(&session, NULL, 0, times, edge_count + 1));
    begin_log(3);
    discover(bad);
    made_length = 0;
    try_no_records();
    begin_log(4);
    try_no_records();
    try_record(1, 1);
    try_record(2, 0);
    try_record(NX_TIME_ABSENT, 1);
    try_record(NX_TIME_UNKNOWN, 0);
}

/* ---- the manifest ---- */

static uint8_t feeds[MOST_MANY];
static size_t opened[MOST_ITEMS];

/* The files that were opened, of those that edges name; FAR if that cannot be known. */
static size_t find_opened(void)
{
    size_t count = 0;
    for (size_t index = 0; TEXT(if_loaded, nx_opened, index, OF(DONE) | OF(NOTHING)) == NX_DONE; index++) {
        size_t file = 0;
        int32_t status = nx_pick_target(&session, given, given_length, &file);
        if (count == MOST_ITEMS || status == NX_OUT_OF_MEMORY || given[given_length - 1] == '^')
            return FAR;
        if (status == NX_DONE)
            opened[count++] = file;
    }
    return count;
}

/* Finds the edges that make the manifest, and those that they need. Returns whether that was possible. */
static int find_feeding(size_t count)
{
    size_t edge, input, maker;
    int32_t kind;
    for (edge = 0; edge < edge_count; edge++) {
        int has = has_value(edge, "generator");
        if (has < 0)
            return 0;
        feeds[edge] = (uint8_t)has;
    }
    for (size_t at = 0; at < count; at++) {
        if (nx_maker(&session, opened[at], &maker) == NX_DONE)
            feeds[maker] = 1;
    }
    for (int more = 1; more;) {
        more = 0;
        for (edge = 0; edge < edge_count; edge++) {
            for (size_t index = 0; feeds[edge] && nx_input(&session, edge, index, &input, &kind) == NX_DONE;
                 index++) {
                if (nx_maker(&session, input, &maker) == NX_DONE && !feeds[maker])
                    feeds[maker] = more = 1;
            }
        }
    }
    return 1;
}

/* Whether the manifest is made from a file, by a search of our own. */
static int32_t is_made_from(size_t file, size_t count)
{
    size_t edge;
    for (size_t at = 0; at < count; at++) {
        if (opened[at] == file)
            return 1;
    }
    for (size_t index = 0; nx_user(&session, file, index, &edge) == NX_DONE; index++) {
        if (feeds[edge])
            return 1;
    }
    return 0;
}

/* Asks of which files the manifest is made, with room for too few flags and for too many. */
static void try_made_from(void)
{
    size_t numbers[MOST_ITEMS], known = 0, unknown = 0;
    unsigned made = OF(DONE) | OF(OUT_OF_MEMORY);
    edge_count = file_count = 0;
    IF_LOADED(OF(DONE), nx_edge_count(&session, &edge_count));
    IF_LOADED(OF(DONE), nx_file_count(&session, &file_count));
    unknown = file_count;
    for (size_t at = 0; known < MOST_ITEMS && at < numbers_of(file_count); at++) {
        if (number_at(at, file_count) < file_count)
            numbers[known++] = number_at(at, file_count);
    }
    TEXT(if_loaded, nx_opened, SIZE_MAX, OF(NOTHING));
    IF_LOADED(made, nx_made_from(&session, NULL, 0, NULL, 0));
    IF_LOADED(OF(BAD_NUMBER) | OF(OUT_OF_MEMORY), nx_made_from(&session, &unknown, 1, many_kinds, 1));
    size_t count = edge_count < MOST_MANY && state == LOADED ? find_opened() : FAR;
    if (count == FAR || !find_feeding(count))
        return;
    for (size_t room = 0; room <= known + 1; room += known / 2 + 1) {
        for (size_t at = 0; at < room + GUARD; at++)
            many_kinds[at] = NO_KIND;
        int32_t status = IF_LOADED(made, nx_made_from(&session, numbers, known, many_kinds, room));
        for (size_t at = 0; at < room + GUARD; at++) {
            int is_written = status == NX_DONE && at < known && at < room;
            expect(many_kinds[at] == (is_written ? is_made_from(numbers[at], count) : NO_KIND),
                   "nx_made_from", "file", (long long)at);
        }
    }
}

/* ---- stale edges ---- */

static uint64_t file_times[MOST_MANY];

/* The statuses with which stale edges are listed. */
static unsigned if_utf8(void)
{
    unsigned listed = OF(DONE) | OF(OUT_OF_MEMORY);
    for (size_t file = 0; file < file_count; file++) {
        TEXT(if_loaded, nx_path, file, OF(DONE));
        for (size_t at = 0; at < given_length; at++) {
            if (given[at] >= 128)
                return listed | OF(NOT_UTF8);
        }
    }
    return listed;
}

/* Checks that a reason is about a file of its edge, for which it may hold. */
static void try_reason(size_t edge, int32_t reason, size_t place)
{
    size_t file = 0, maker = 0;
    int32_t kind = -1, unknown = 0;
    if (reason == NX_STALE_UNKNOWN_INPUTS) {
        int32_t status = nx_is_unknown(&session, edge, &unknown);
        expect(status == NX_DONE && unknown && place == 0, "nx_stale_edge", "known", (long long)edge);
    } else if (reason == NX_STALE_INPUT) {
        int32_t status = nx_input(&session, edge, place, &file, &kind);
        expect(status == NX_DONE && kind != NX_ORDER_ONLY, "nx_stale_edge", "no input", (long long)place);
        expect(nx_maker(&session, file, &maker) == NX_DONE || file_times[file] == 0, "nx_stale_edge",
               "a source that exists", (long long)file);
    } else {
        int32_t status = nx_output(&session, edge, place, &file);
        int is_missing = reason == NX_STALE_MISSING_OUTPUT;
        expect(reason > NX_STALE_INPUT && reason <= NX_STALE_NOT_LOGGED, "nx_stale_edge", "reason", reason);
        expect(status == NX_DONE && is_missing == (file_times[file] == 0), "nx_stale_edge", "output",
               (long long)place);
    }
}

/* Lists the stale edges by a log without lines, where all files have one time. They have to be those of a
   page, except that edges with a value of `generator` may be left out if files exist. */
static void list_stale(const size_t *targets, size_t count, uint64_t time)
{
    size_t edge, stale, place, listed = 0;
    int32_t reason = -1;
    for (size_t file = 0; file < file_count; file++)
        file_times[file] = time;
    int32_t status = IF_LOADED(if_utf8(), nx_stale(&session, NULL, 0, file_times, file_count, targets, count));
    if (status != NX_DONE || nx_page(&session, targets, count, NULL, 0, SIZE_MAX) != NX_DONE)
        return;
    for (size_t index = 0; nx_found(&session, index, &edge) == NX_DONE; index++) {
        status = IF_OPEN(OF(DONE) | OF(NOTHING), nx_stale_edge(&session, listed, &stale, &reason, &place));
        if (status == NX_DONE && stale == edge) {
            try_reason(edge, reason, place);
            listed++;
        } else {
            expect(time != 0 && has_value(edge, "generator"), "nx_stale", "left out", (long long)edge);
        }
    }
    IF_OPEN(OF(NOTHING), nx_stale_edge(&session, listed, &stale, &reason, &place));
    IF_OPEN(OF(NOTHING), nx_stale_edge(&session, SIZE_MAX, &stale, &reason, &place));
}

static void try_stale(void)
{
    static const char old[] = "# ninja log v4\n";
    size_t targets[MOST_ITEMS], count = 0, file = 0, edge = 0, place = 0;
    unsigned bad = OF(BAD_NUMBER) | OF(OUT_OF_MEMORY);
    int32_t reason = 0;
    file_count = 0;
    IF_LOADED(OF(DONE), nx_file_count(&session, &file_count));
    IF_OPEN(OF(NOTHING), nx_stale_edge(&session, SIZE_MAX, &edge, &reason, &place));
    if (file_count >= MOST_MANY)
        return;
    while (count < MOST_ITEMS && nx_default(&session, count, &file) == NX_DONE)
        targets[count++] = file;
    IF_LOADED(bad, nx_stale(&session, NULL, 0, file_times, file_count + 1, targets, count));
    IF_LOADED(bad, nx_stale(&session, NULL, 0, file_times, file_count, &file_count, 1));
    IF_LOADED(OF(BAD_LOG) | OF(OUT_OF_MEMORY),
              nx_stale(&session, old, sizeof old - 1, file_times, file_count, targets, count));
    list_stale(targets, count, NX_TIME_ABSENT);
    list_stale(targets, count, 1);
}

/* ---- whole runs ---- */

#define WORDS(text) { (const uint8_t *)(text), sizeof(text) - 1 }
#define RAN (OF(DONE) | OF(WANTED) | OF(OUT_OF_MEMORY))
enum { UNTOUCHED = 77, MOST_EXIT = 3 };

/* Runs once. After all but NX_DONE both outputs are empty, and the exit status is not given. */
static int32_t run_once(struct text words, unsigned statuses)
{
    int32_t exit_status = UNTOUCHED;
    int32_t status = IF_OPEN(statuses, nx_run(&session, words.bytes, words.length, &exit_status));
    int is_given = exit_status >= 0 && exit_status <= MOST_EXIT;
    expect(status == NX_DONE ? is_given : exit_status == UNTOUCHED, "nx_run", "exit", exit_status);
    TEXT(if_open, give_output, 0, OF(DONE));
    expect(status == NX_DONE || state == CLOSED || given_length == 0, "nx_run_output", "length",
           (long long)given_length);
    TEXT(if_open, give_errors, 0, OF(DONE));
    expect(status == NX_DONE || state == CLOSED || given_length == 0, "nx_run_errors", "length",
           (long long)given_length);
    try_wanted(status);
    return status;
}

/* Runs until nothing more is wanted. */
static int32_t run(struct text words, unsigned statuses)
{
    int32_t status = NX_WANTED;
    for (size_t round = 0; status == NX_WANTED && round < MOST_ROUNDS; round++) {
        status = run_once(words, statuses);
        if (status == NX_WANTED && !hand_in_all())
            return NX_OUT_OF_MEMORY;
    }
    expect(status != NX_WANTED, "nx_run", "wants more after rounds", MOST_ROUNDS);
    return status;
}

static void try_runs(void)
{
    static const struct text requests[] = {
        WORDS("-t\0commands"),
        WORDS("-t\0commands\0--take\0" "1\0"),
        WORDS("--dyndep\0-t\0compdb\0"),
        WORDS("-t\0targets\0all"),
        WORDS("-t\0query\0nothing"),
        WORDS("-f\0nothing\0-t\0rules"),
        WORDS("\0"),
        WORDS("\0\0-t"),
        WORDS("--nothing"),
        { NULL, 0 },
    };
    for (size_t at = 0; at < sizeof requests / sizeof *requests; at++)
        run(requests[at], RAN);
    struct text not_utf8 = WORDS("-t\0\xff");
    run_once(not_utf8, OF(NOT_UTF8));
}

/* ---- lives ---- */

/* The life of a session. */
static void live(void)
{
    static const uint8_t not_utf8[] = "\xff";
    state = CLOSED;
    IF_OPEN(0, nx_add_file(&session, NULL, 0, NULL, 0));
    IF_OPEN(0, nx_add_absent(&session, NULL, 0));
    load_once("build.ninja", 0);
    try_logs();
    try_discovered();
    try_made_from();
    try_stale();
    try_runs();
    ask_all();
    ALWAYS(OF(DONE), nx_close(&session));
    if (ALWAYS(OF(DONE) | OF(OUT_OF_MEMORY), nx_open(&session, 7)) == NX_DONE)
        state = OPEN;
    ask_all();
    run_once((struct text){ NULL, 0 }, OF(WANTED) | OF(OUT_OF_MEMORY));
    IF_OPEN(ADDED, nx_add_absent(&session, NULL, 0));
    load_once(NULL, 0);
    IF_OPEN(ADDED, nx_add_file(&session, NULL, 0, NULL, 0));
    load_once("", 1);
    ask_all();
    for (uint32_t joins = 0; joins < 3; joins++) {
        int32_t status = load("build.ninja", joins);
        ask_all();
        int32_t again = load("build.ninja", joins);
        int is_same = again == status || status == NX_OUT_OF_MEMORY || again == NX_OUT_OF_MEMORY;
        expect(is_same, "nx_load", "another status", again);
        try_runs();
        ask_all();
        try_logs();
        ask_all();
    }
    load("build.ninja", 1);
    ask_all();
    try_made_from();
    try_stale();
    try_discovered();
    try_made_from();
    try_stale();
    ask_all();
    IF_OPEN(OF(NOT_UTF8), nx_load(&session, not_utf8, 1, 0));
    if (state != CLOSED)
        state = OPEN;
    ask_all();
    load("build.ninja", 0);
    if (ALWAYS(OF(DONE) | OF(OUT_OF_MEMORY), nx_open(&session, 8)) == NX_DONE)
        state = OPEN;
    ask_all();
    load("build.ninja", 0);
    ALWAYS(OF(DONE), nx_close(&session));
    state = CLOSED;
    expect(blocks == 0, "nx_close", "blocks left", (long long)blocks);
    ALWAYS(OF(DONE), nx_close(&session));
    ask_all();
}

/* The life of a session that is asked once, while memory is refused. */
static void live_briefly(void)
{
    state = CLOSED;
    if (ALWAYS(OF(DONE) | OF(OUT_OF_MEMORY), nx_open(&session, 7)) == NX_DONE)
        state = OPEN;
    load("build.ninja", 1);
    ask_all();
    try_stale();
    run((struct text)WORDS("--dyndep\0-t\0commands"), RAN);
    try_logs();
    load("build.ninja", 1);
    ALWAYS(OF(DONE), nx_close(&session));
    state = CLOSED;
    expect(blocks == 0, "nx_close", "blocks left", (long long)blocks);
}

/* Refuses each allocation in turn. Returns how many. */
static size_t live_refused(void)
{
    size_t refused = 0;
    for (refuses_all_after = 0; refuses_all_after < 2; refuses_all_after++) {
        refused_at = 0;
        do {
            refused_at++;
            asked = 0;
            live_briefly();
        } while (asked >= refused_at);
        refused += refused_at - 1;
    }
    refused_at = 0;
    return refused;
}

/* ---- projects ---- */

static int read_number(size_t *number)
{
    uint8_t bytes[4];
    if (fread(bytes, 1, 4, stdin) != 4)
        return 0;
    *number = bytes[0] | (size_t)bytes[1] << 8 | (size_t)bytes[2] << 16 | (size_t)bytes[3] << 24;
    return 1;
}

/* Text in a block of its own, so that a read beyond its end is found. */
static struct text read_text(void)
{
    struct text text = { NULL, 0 };
    uint8_t *bytes = NULL;
    if (!read_number(&text.length))
        abort();
    if (text.length > 0 && !(bytes = __real_malloc(text.length)))
        abort();
    if (fread(bytes, 1, text.length, stdin) != text.length)
        abort();
    text.bytes = bytes;
    return text;
}

static int read_project(void)
{
    for (size_t at = 0; at < project_files; at++) {
        __real_free((void *)files[at].path.bytes);
        __real_free((void *)files[at].content.bytes);
    }
    if (!read_number(&project_files) || project_files > MOST_FILES) {
        project_files = 0;
        return 0;
    }
    for (size_t at = 0; at < project_files; at++) {
        files[at].path = read_text();
        files[at].content = read_text();
    }
    return 1;
}

int main(int count, char **words)
{
    int refuses = count == 2 && strcmp(words[1], "refused") == 0;
    size_t refused = 0;
    for (; read_project(); project_number++) {
        if (refuses)
            refused += live_refused();
        else
            live();
    }
    __real_free(given);
    printf("%zu projects, %zu calls, %zu allocations refused\n", project_number, calls, refused);
    return wrongs != 0;
}

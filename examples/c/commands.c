/*
 * Writes the commands of targets, as `ninja-explain -t commands` does:
 *
 *     commands [-f FILE] [--take N] [--resume MARK] [TARGET..]
 *
 * FILE, by default build.ninja, and all files that it includes are read from the disk. After N
 * commands it stops; if any are left, it writes the mark for --resume to standard error. The status
 * is 0 at the end, 1 after a fault, 2 on a usage error, 3 if it stopped before the end, and 4 if
 * standard output failed.
 */
#define _DEFAULT_SOURCE
#include <ninja_explain_files.h>

#include <ctype.h>
#include <getopt.h>
#include <stdio.h>

enum ending { DONE, FAULT, USAGE, STOPPED, OUTPUT_FAILED };

/* Bytes with room for more. A zero byte follows what a call returns. */
struct text {
    char *bytes;
    size_t length;
    size_t size;
};

struct files {
    size_t *numbers;
    size_t count;
    size_t size;
};

struct request {
    const char *main;
    const char *mark;
    size_t take;
    char **words;
    size_t word_count;
};

/* Makes room for a number of bytes. Returns whether memory sufficed. */
static int reserve(struct text *text, size_t needed)
{
    if (needed <= text->size)
        return 1;
    char *bytes = needed <= SIZE_MAX / 2 ? realloc(text->bytes, 2 * needed) : NULL;
    if (!bytes)
        return 0;
    text->bytes = bytes;
    text->size = 2 * needed;
    return 1;
}

/* ---- calls that return a text ---- */

typedef int32_t giving(nx_session *, size_t number, void *buffer, size_t size, size_t *needed);

static int32_t give_mark(nx_session *session, size_t number, void *buffer, size_t size,
                         size_t *needed)
{
    (void)number;
    return nx_page_mark(session, buffer, size, needed);
}

static int32_t give_fault(nx_session *session, size_t number, void *buffer, size_t size,
                          size_t *needed)
{
    (void)number;
    return nx_fault_line(session, buffer, size, needed);
}

/* Gets the text that a call returns, in a buffer that grows. */
static int32_t get(giving *call, nx_session *session, size_t number, struct text *text)
{
    int32_t status;
    size_t needed = 0;
    do {
        if (!reserve(text, needed + 1))
            return NX_OUT_OF_MEMORY;
        status = call(session, number, text->bytes, text->size - 1, &needed);
    } while (status == NX_SHORT);
    text->length = status == NX_DONE ? needed : 0;
    text->bytes[text->length] = 0;
    return status;
}

/* ---- files ---- */

/* Loads the main file and all that it includes, wherever that is, and reports a file that fails. */
static int32_t load(nx_session *session, const char *main)
{
    struct nx_files files = NX_FILES_IN("");
    files.allow_outside = 1;
    int32_t status = nx_files_load(session, main, 0, &files);
    if (files.failed)
        fprintf(stderr, "commands: '%s' %s\n", files.failed, nx_files_text(status));
    nx_files_clear(&files);
    return status;
}

/* ---- targets and commands ---- */

/* Adds a file. Returns whether memory sufficed. */
static int push(struct files *files, size_t file)
{
    if (files->count == files->size) {
        size_t size = 2 * files->size + 8;
        size_t *numbers = realloc(files->numbers, size * sizeof *numbers);
        if (!numbers)
            return 0;
        files->numbers = numbers;
        files->size = size;
    }
    files->numbers[files->count++] = file;
    return 1;
}

/* The target at an index: that of an argument or, without arguments, one of the defaults. */
static int32_t pick_target(nx_session *session, const struct request *request, size_t index,
                           size_t *file)
{
    if (request->word_count == 0)
        return nx_default(session, index, file);
    if (index == request->word_count)
        return NX_NOTHING;
    const char *word = request->words[index];
    return nx_pick_target(session, word, strlen(word), file);
}

static int32_t pick_targets(nx_session *session, const struct request *request,
                            struct files *targets)
{
    int32_t status;
    size_t file;
    while ((status = pick_target(session, request, targets->count, &file)) == NX_DONE) {
        if (!push(targets, file))
            return NX_OUT_OF_MEMORY;
    }
    return status == NX_NOTHING ? NX_DONE : status;
}

/* Writes the commands of the edges that were listed. */
static int32_t write_listed(nx_session *session)
{
    struct text command = { 0 };
    int32_t status;
    size_t edge;
    for (size_t index = 0; (status = nx_found(session, index, &edge)) == NX_DONE; index++) {
        if ((status = get(nx_command, session, edge, &command)) != NX_DONE)
            break;
        fwrite(command.bytes, 1, command.length, stdout);
        putchar('\n');
    }
    free(command.bytes);
    return status == NX_NOTHING ? NX_DONE : status;
}

static int32_t write_commands(nx_session *session, const struct request *request)
{
    struct files targets = { 0 };
    int32_t status = load(session, request->main);
    if (status == NX_DONE)
        status = pick_targets(session, request, &targets);
    if (status == NX_DONE)
        status = nx_page(session, targets.numbers, targets.count, request->mark,
                         strlen(request->mark), request->take);
    if (status == NX_DONE)
        status = write_listed(session);
    free(targets.numbers);
    return status;
}

/* ---- the ending ---- */

/* Writes the mark, or what went wrong. */
static enum ending end(nx_session *session, int32_t status)
{
    struct text text = { 0 };
    enum ending ending = FAULT;
    if (fflush(stdout) != 0 || ferror(stdout)) {
        ending = OUTPUT_FAILED;
    } else if (status == NX_DONE && get(give_mark, session, 0, &text) == NX_NOTHING) {
        ending = DONE;
    } else if (status == NX_DONE) {
        fprintf(stderr, "mark %s\n", text.bytes);
        ending = STOPPED;
    } else if (status == NX_FAULT && get(give_fault, session, 0, &text) == NX_DONE) {
        fwrite(text.bytes, 1, text.length, stderr);
        putc('\n', stderr);
    } else if (status == NX_BAD_MARK) {
        fputs("commands: bad mark\n", stderr);
    } else if (status >= 0) {
        fprintf(stderr, "commands: status %d of the library\n", (int)status);
    }
    free(text.bytes);
    return ending;
}

/* Reads the arguments. Returns whether they are a request. */
static int read_words(int count, char **words, struct request *request)
{
    static const struct option options[] = {
        { "take", required_argument, NULL, 't' },
        { "resume", required_argument, NULL, 'r' },
        { 0 },
    };
    char *rest = "";
    int option;
    while ((option = getopt_long(count, words, "f:", options, NULL)) != -1) {
        if (option == 'f')
            request->main = optarg;
        else if (option == 't' && isdigit((unsigned char)*optarg))
            request->take = strtoull(optarg, &rest, 10);
        else if (option == 'r')
            request->mark = optarg;
        else
            return 0;
    }
    request->words = words + optind;
    request->word_count = (size_t)(count - optind);
    return *rest == 0;
}

int main(int count, char **words)
{
    struct request request = { .main = "build.ninja", .mark = "", .take = SIZE_MAX };
    nx_session session = NX_SESSION_CLOSED;
    uint64_t key;
    if (!read_words(count, words, &request)) {
        fputs("usage: commands [-f FILE] [--take N] [--resume MARK] [TARGET..]\n", stderr);
        return USAGE;
    }
    if (getentropy(&key, sizeof key) != 0) {
        perror("commands");
        return FAULT;
    }
    int32_t status = nx_open(&session, key);
    if (status == NX_DONE)
        status = write_commands(&session, &request);
    enum ending ending = end(&session, status);
    nx_close(&session);
    return (int)ending;
}

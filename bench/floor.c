// The least that a reader of manifests can take: `floor LIST` reads whole the files whose paths are in
// the file LIST, a line each, and finds the line feeds of each by memchr. Writes how many bytes and
// line feeds there are.
#include <fcntl.h>
#include <stdio.h>
#include <stdlib.h>
#include <string.h>
#include <sys/stat.h>
#include <unistd.h>

static void fail(const char *path) {
    perror(path);
    exit(1);
}

// Reads a file into memory of its own, which stays, as that of a graph does.
static char *read_whole(const char *path, size_t *length) {
    struct stat about;
    int file = open(path, O_RDONLY);
    if (file < 0 || fstat(file, &about) != 0) fail(path);
    *length = (size_t)about.st_size;
    char *bytes = malloc(*length + 1);
    if (bytes == NULL) fail(path);
    for (size_t have = 0; have < *length;) {
        ssize_t got = read(file, bytes + have, *length - have);
        if (got <= 0) fail(path);
        have += (size_t)got;
    }
    close(file);
    return bytes;
}

static size_t line_feeds(const char *bytes, size_t length) {
    size_t count = 0;
    const char *end = bytes + length;
    for (const char *at = bytes; (at = memchr(at, '\n', (size_t)(end - at))) != NULL; at++) count++;
    return count;
}

int main(int count, char **words) {
    char path[4096];
    size_t bytes = 0, lines = 0;
    FILE *list = fopen(count == 2 ? words[1] : "", "r");
    if (list == NULL) fail("LIST");
    while (fgets(path, sizeof path, list) != NULL) {
        size_t length;
        path[strcspn(path, "\n")] = '\0';
        const char *text = read_whole(path, &length);
        bytes += length;
        lines += line_feeds(text, length);
    }
    printf("%zu bytes, %zu lines\n", bytes, lines);
    return 0;
}

/* Tells the attributes of the paths on standard input, each with a NUL after it, as `git check-attr -z --stdin --all` does: by the
 * .gitattributes files of the work tree at the current directory, whose directories may have names of any bytes.
 * usage: worktree <PATHS
 */
#define _POSIX_C_SOURCE 200809L
#include "yektrod.h"
#include <fcntl.h>
#include <stdio.h>
#include <stdlib.h>
#include <string.h>
#include <sys/stat.h>
#include <unistd.h>

#define DEEPEST 64

/* Longer lines and larger files are skipped, as by git. */
enum { MAX_LINE = 2047, MAX_FILE = 100 * 1024 * 1024 - 1 };

/* The directories of the last path, from the top down: the lengths of their paths, and whether a list was added for each. */
static size_t lengths[DEEPEST];
static bool has_list[DEEPEST];
static size_t depth;
static char last[4096];
static yektrod y;

static void *want(void *block) {
    if (block) return block;
    fputs("worktree: it cannot go on\n", stderr);
    exit(1);
}

static void done(int32_t status) {
    want(status == YEKTROD_DONE ? &y : 0);
}

/* The contents of a file, or NULL. As for git, a link is no attributes file. Neither is a pipe, which could block the read. */
static char *contents(const char *name, size_t *length) {
    int file = open(name, O_RDONLY | O_NOFOLLOW | O_NONBLOCK);
    struct stat found;
    char *text = NULL;
    *length = 0;
    if (file < 0) return NULL;
    if (!fstat(file, &found) && S_ISREG(found.st_mode) && found.st_size <= MAX_FILE) {
        size_t size = (size_t)found.st_size;
        text = want(malloc(size + 1));
        for (ssize_t got; *length < size && (got = read(file, text + *length, size - *length)) != 0; *length += (size_t)got)
            want(got > 0 ? text : NULL);
    }
    close(file);
    return text;
}

/* Keeps what git reads of each line, and returns the length of the text. A NUL ends its line, and a CR before LF is no part of it.
 * A line that is too long is emptied: others keep their numbers. */
static size_t kept(char *text, size_t length) {
    char *to = text, *end = text + length;
    for (char *line = text, *feed; line < end; line = feed + 1) {
        if (!(feed = memchr(line, '\n', (size_t)(end - line)))) feed = end;
        bool has_cr = feed < end && feed > line && feed[-1] == '\r';
        size_t bytes = strnlen(line, (size_t)(feed - line) - has_cr);
        if (bytes <= MAX_LINE) to = (char *)memmove(to, line, bytes) + bytes;
        if (feed < end) *to++ = '\n';
    }
    return (size_t)(to - text);
}

/* Adds the list of a directory, if it has one. Only that of the top may define macros. */
static bool add(const char *path, size_t length) {
    char name[sizeof last + 16];
    size_t size, index, dropped;
    snprintf(name, sizeof name, "%.*s%s.gitattributes", (int)length, path, length ? "/" : "");
    char *text = contents(name, &size);
    if (!text) return false;
    yektrod_place place = {{(const uint8_t *)path, length}, {(const uint8_t *)name, strlen(name)}};
    done(yektrod_add_in(&y, (const uint8_t *)text, kept(text, size), &place, length == 0, &index, &dropped));
    free(text);
    return true;
}

/* Removes the lists of directories that don't have the path, and adds those of its own. */
static void enter(const char *path) {
    while (depth && lengths[depth - 1] && (memcmp(path, last, lengths[depth - 1]) || path[lengths[depth - 1]] != '/'))
        if (has_list[--depth]) done(yektrod_pop(&y));
    size_t at = depth ? lengths[depth - 1] + (lengths[depth - 1] != 0) : 0;
    if (!depth) {
        has_list[depth] = add(path, 0);
        lengths[depth++] = 0;
    }
    for (const char *end; (end = strchr(path + at, '/')) != 0; at = (size_t)(end - path) + 1) {
        lengths[depth] = (size_t)(end - path);
        has_list[depth] = add(path, lengths[depth]);
        want(++depth < DEEPEST ? &y : 0);
    }
    strcpy(last, path);
}

/* Tells all attributes of a path that are specified. Rooms that are too small grow. */
static void tell(const char *path) {
    static const char *const states[] = {"unspecified", "set", "unset"};
    static yektrod_row *rows;
    static uint8_t *text;
    static yektrod_needed room = {1, 1};
    yektrod_question question = {{(const uint8_t *)path, strlen(path)}, false, 0};
    yektrod_needed needed = room;
    int32_t status;
    do {
        if (!rows || needed.rows > room.rows) rows = want(realloc(rows, sizeof *rows * needed.rows));
        if (!text || needed.text > room.text) text = want(realloc(text, needed.text));
        if (needed.rows > room.rows) room.rows = needed.rows;
        if (needed.text > room.text) room.text = needed.text;
        status = yektrod_ask_into(&y, &question, rows, room.rows, text, room.text, &needed);
    } while (status == YEKTROD_BUFFER_TOO_SMALL);
    done(status);
    for (const yektrod_row *row = rows; row < rows + needed.rows; row++) {
        printf("%s%c%.*s%c", path, 0, (int)row->name_length, (const char *)text + row->at, 0);
        if (row->state == YEKTROD_HAS_VALUE) fwrite(text + row->at + row->name_length, 1, row->value_length, stdout);
        else printf("%s", states[row->state]);
        putchar(0);
    }
}

int main(void) {
    static char path[sizeof last];
    size_t length = 0;
    done(yektrod_open(&y));
    for (int byte; (byte = getchar()) != EOF;) {
        want(length < sizeof path ? &y : 0);
        path[length++] = (char)byte;
        if (byte) continue;
        enter(path);
        tell(path);
        length = 0;
    }
    yektrod_close(&y);
    return 0;
}

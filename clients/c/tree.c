/* Prints the attributes of each path of a commit, as `git check-attr --cached -z` does over an index of it: path, NUL, name,
 * NUL, value, NUL. It is run in a repository, bare or not: tree COMMIT [NAME..]. Without names it prints all that are specified.
 * What decides, in ascending precedence: the attributes files of the commit, that of a directory before those below it, and then
 * info/attributes. Macros may be defined at the top and in info/attributes alone. The files of the system and of the user are
 * left out, so that all machines answer alike: they would be added before all others, in the way of info/attributes. */
#define _POSIX_C_SOURCE 200809L
#include <stdio.h>
#include <stdlib.h>
#include <string.h>
#include <unistd.h>
#include "yektrod.h"

/* Longer lines and larger files are left out, as by git. Memory has limits too: an engine takes up to some 220 bytes for a byte
 * of a hostile file. Who can't spare 22 GB lowers MAX_FILE, and has a limit for all files of a commit together. */
enum { MAX_LINE = 2047, MAX_FILE = 100 * 1024 * 1024 - 1 };

static void check(bool holds, const char *what) {
    if (!holds) { fprintf(stderr, "tree: %s\n", what); exit(1); }
}

static void *resized(void *block, size_t size) {
    check((block = realloc(block, size)), "out of memory");
    return block;
}

static char *output_of(const char *command, size_t *length) {
    FILE *in = popen(command, "r");
    size_t room = 1 << 16;
    char *text = resized(NULL, room);
    for (*length = 0; in && (*length += fread(text + *length, 1, room - *length, in)) == room;) text = resized(text, room *= 2);
    check(in && !ferror(in) && !pclose(in), "git failed");
    text[*length] = '\0';
    return text;
}

/* Adds an attributes file. As for git, a NUL ends its line. A line that is too long is emptied: others keep their numbers. */
static void add(yektrod *y, const char *path, size_t directory, char *text, size_t length) {
    char *to = text, *end = text + length;
    for (char *line = text, *feed; line < end; line = feed + 1) {
        if (!(feed = memchr(line, '\n', end - line))) feed = end;
        size_t bytes = strnlen(line, feed - line);
        if (bytes <= MAX_LINE) to = (char *)memmove(to, line, bytes) + bytes;
        if (feed < end) *to++ = '\n';
    }
    yektrod_place place = {{(uint8_t *)path, directory}, {(uint8_t *)path, strlen(path)}};
    size_t list, dropped;
    check(!yektrod_add_in(y, (uint8_t *)text, to - text, &place, !directory, &list, &dropped), "a file cannot be added");
}

static int by_length(const void *one, const void *other) {
    size_t a = strlen(*(const char *const *)one), b = strlen(*(const char *const *)other);
    return (a > b) - (a < b);
}

/* Adds the attributes files of entries `100644 blob OBJECT`, a tab, PATH, NUL of `git ls-tree`. Links and submodules are none.
 * Shorter paths come first, and so that of a directory before those below it. */
static void add_all(yektrod *y, const char *entry, const char *end) {
    const char **files = NULL;
    char *text = NULL;
    size_t count = 0, size;
    FILE *wanted = tmpfile(), *objects;
    for (; entry < end; entry += strlen(entry) + 1) {
        const char *path = strchr(entry, '\t') + 1, *slash = strrchr(path, '/');
        if (strncmp(entry, "100", 3) || strcmp(slash ? slash + 1 : path, ".gitattributes")) continue;
        files = resized(files, (count + 1) * sizeof *files);
        files[count++] = entry;
    }
    if (count) qsort(files, count, sizeof *files, by_length);
    for (size_t i = 0; wanted && i < count; i++) fprintf(wanted, "%.*s\n", (int)strcspn(files[i] + 12, "\t"), files[i] + 12);
    check(wanted && !fflush(wanted) && !lseek(fileno(wanted), 0, SEEK_SET) && !dup2(fileno(wanted), 0), "git cannot be asked");
    objects = popen("git cat-file --batch", "r");
    for (size_t i = 0; i < count; i++) {
        const char *path = strchr(files[i], '\t') + 1, *slash = strrchr(path, '/');
        check(objects && fscanf(objects, "%*s blob %zu", &size) == 1 && getc(objects) == '\n', "an attributes file is missing");
        size_t kept = size <= MAX_FILE ? size : 0;
        text = resized(text, kept + 1);
        check(fread(text, 1, kept, objects) == kept, "git failed");
        text[kept] = '\0';
        while (kept++ <= size) getc(objects); /* what is left out, and an LF */
        add(y, path, slash ? slash - path : 0, text, strlen(text)); /* git reads these up to the first NUL alone */
    }
    check(objects && !pclose(objects) && !fclose(wanted), "git failed");
    free(files), free(text);
}

static void ask(yektrod *y, const char *path) {
    static const char *const states[] = {"unspecified", "set", "unset", ""}; /* before a value, nothing */
    static yektrod_row *rows;
    static char *text;
    static yektrod_needed room, needed = {16, 1024};
    const yektrod_question question = {{(uint8_t *)path, strlen(path)}, false, 0};
    for (int32_t status = YEKTROD_BUFFER_TOO_SMALL; status;) {
        check(status == YEKTROD_BUFFER_TOO_SMALL, "out of memory");
        if (needed.rows > room.rows) rows = resized(rows, (room.rows = needed.rows) * sizeof *rows);
        if (needed.text > room.text) text = resized(text, room.text = needed.text);
        status = yektrod_ask_into(y, &question, rows, room.rows, (uint8_t *)text, room.text, &needed);
    }
    for (const yektrod_row *row = rows; row < rows + needed.rows; row++) {
        const char *name = text + row->at, *value = name + row->name_length;
        fwrite(path, 1, question.path.length + 1, stdout);
        fwrite(name, 1, row->name_length, stdout), putchar('\0');
        fwrite(value, 1, row->value_length, stdout), fputs(states[row->state], stdout), putchar('\0');
    }
}

int main(int count, char **arguments) {
    yektrod y = {0};
    size_t length, info_length;
    check(count > 1 && !setenv("COMMIT", arguments[1], 1), "usage: tree COMMIT [NAME..]");
    char *entries = output_of("git ls-tree -r -z --full-tree --end-of-options \"$COMMIT\"", &length);
    char *info = output_of("f=$(git rev-parse --git-path info/attributes); [ ! -e \"$f\" ] || cat <\"$f\"", &info_length);
    yektrod_bytes *names = resized(NULL, (size_t)count * sizeof *names);
    for (int i = 2; i < count; i++) names[i - 2] = (yektrod_bytes){(uint8_t *)arguments[i], strlen(arguments[i])};
    check(!yektrod_open(&y) && !yektrod_select(&y, names, (size_t)count - 2), "a name is not UTF-8, or there is no memory");
    add_all(&y, entries, entries + length);
    if (info_length <= MAX_FILE) add(&y, "info/attributes", 0, info, info_length);
    for (char *entry = entries; entry < entries + length; entry += strlen(entry) + 1) ask(&y, strchr(entry, '\t') + 1);
    check(!fflush(stdout), "the answers cannot be written");
    yektrod_close(&y), free(names), free(info), free(entries);
}

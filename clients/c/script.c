/* Plays a script (docs/SCRIPT.md) by the calls of the library, and writes what the program writes for it: to compare the two.
 * usage: script <SCRIPT
 */
#include "yektrod.h"
#include <stdio.h>
#include <stdlib.h>
#include <string.h>

/* A script, and how much of it was read. */
typedef struct {
    const uint8_t *bytes;
    size_t length, at;
} script;

/* A path that is asked for, and the form of its answers. */
typedef struct {
    const uint8_t *path;
    size_t length;
    char form;
} question;

static void fail(const char *what) {
    fprintf(stderr, "script: %s\n", what);
    exit(1);
}

static void want(int32_t status, const char *what) {
    if (status != YEKTROD_DONE) fail(what);
}

static void put(const void *bytes, size_t length) {
    fwrite(bytes, 1, length, stdout);
}

static void put_text(const char *text) {
    put(text, strlen(text));
}

/* The next word of a header; its end is a space or a line feed, which is taken too. */
static const char *word(script *s) {
    static char buffer[16];
    size_t length = 0;
    while (s->at < s->length && s->bytes[s->at] != ' ' && s->bytes[s->at] != '\n') {
        if (length + 1 == sizeof buffer) fail("a word is too long");
        buffer[length++] = (char)s->bytes[s->at++];
    }
    s->at++;
    buffer[length] = 0;
    return buffer;
}

static const uint8_t *take(script *s, size_t length) {
    if (s->length - s->at < length) fail("the script ends too early");
    const uint8_t *at = s->bytes + s->at;
    s->at += length;
    return at;
}

static void add(yektrod *y, script *s) {
    static const char *const reasons[] = {"", "macro-name", "negative", "attribute-name", "reserved"};
    bool allow_macros = !strcmp(word(s), "m");
    size_t source_length = strtoul(word(s), 0, 10);
    const char *root_word = word(s);
    bool has_root = strcmp(root_word, "-");
    size_t root_length = has_root ? strtoul(root_word, 0, 10) : 0;
    size_t length = strtoul(word(s), 0, 10);
    const uint8_t *source = take(s, source_length);
    const uint8_t *root = take(s, root_length);
    const uint8_t *bytes = take(s, length);
    size_t dropped;
    want(yektrod_add(y, bytes, length, source, source_length, root, root_length, has_root, allow_macros, &dropped), "add");
    for (size_t i = 0; i < dropped; i++) {
        yektrod_dropped_line line;
        want(yektrod_dropped(y, i, &line), "dropped");
        put_text("dropped: ");
        put(source, source_length);
        printf(":%zu: %s\n", line.line, reasons[line.reason]);
    }
    take(s, 1);
}

static void select_names(yektrod *y, script *s) {
    size_t count = strtoul(word(s), 0, 10);
    yektrod_bytes *names = malloc((count + 1) * sizeof *names);
    if (!names) fail("no memory");
    for (size_t i = 0; i < count; i++) {
        const uint8_t *end = memchr(s->bytes + s->at, '\n', s->length - s->at);
        if (!end) fail("the script ends in a name");
        names[i].at = s->bytes + s->at;
        names[i].length = (size_t)(end - names[i].at);
        s->at += names[i].length + 1;
    }
    want(yektrod_select(y, names, count), "select");
    free(names);
}

/* Writes a text of a row, and returns where the next one begins. */
static const uint8_t *put_part(const uint8_t *at, size_t length) {
    put(at, length);
    return at + length;
}

static void put_answer(const yektrod_row *row, const uint8_t *text, const question *q) {
    static const char *const states[] = {"unspecified", "set", "unset"};
    const char *separator = q->form == 'z' ? "\0" : ": ";
    size_t separator_length = q->form == 'z' ? 1 : 2;
    put(q->path, q->length);
    put(separator, separator_length);
    const uint8_t *at = put_part(text + row->at, row->name_length);
    put(separator, separator_length);
    if (row->state == YEKTROD_HAS_VALUE) put(at, row->value_length);
    else put_text(states[row->state]);
    at += row->value_length;
    if (q->form == 'o' && !(row->flags & YEKTROD_HAS_SOURCE)) put_text("\t-\t-\t-");
    else if (q->form == 'o') {
        put_text("\t");
        at = put_part(at, row->source_length);
        printf(":%zu\t", row->line);
        at = put_part(at, row->pattern_length);
        put_text("\t");
        if (row->flags & YEKTROD_HAS_CAUSE) put(at, row->cause_length);
        else put_text("-");
    }
    put(q->form == 'z' ? "\0" : "\n", 1);
}

/* The rows of the last question, and their texts. */
static yektrod_row *rows;
static uint8_t *text;

/* Asks, into buffers that are made anew when they are too small, and returns the number of rows. */
static size_t ask_into(yektrod *y, const yektrod_question *asked) {
    static yektrod_needed room;
    yektrod_needed needed;
    if (!rows && !((rows = malloc(sizeof *rows)) && (text = malloc(1)))) fail("no memory");
    int32_t status = yektrod_ask_into(y, asked, rows, room.rows, text, room.text, &needed);
    if (status == YEKTROD_BUFFER_TOO_SMALL) {
        room = needed;
        free(rows);
        free(text);
        if (!(rows = malloc((room.rows + 1) * sizeof *rows)) || !(text = malloc(room.text + 1))) fail("no memory");
        status = yektrod_ask_into(y, asked, rows, room.rows, text, room.text, &needed);
    }
    want(status, "ask");
    return needed.rows;
}

static void ask(yektrod *y, script *s) {
    question q;
    q.form = *word(s);
    bool fold = *word(s) == 'i';
    char kind = *word(s);
    q.length = strtoul(word(s), 0, 10);
    q.path = take(s, q.length);
    yektrod_question asked = {{q.path, q.length}, fold, kind == 'd' ? 1 : kind == 'f' ? 0 : -1};
    size_t count = ask_into(y, &asked);
    for (size_t i = 0; i < count; i++) put_answer(rows + i, text, &q);
    take(s, 1);
}

static void play(yektrod *y, script *s) {
    while (s->at < s->length) {
        const char *record = word(s);
        if (!strcmp(record, "add")) add(y, s);
        else if (!strcmp(record, "names")) select_names(y, s);
        else if (!strcmp(record, "ask")) ask(y, s);
        else if (!strcmp(record, "pop")) {
            int32_t status = yektrod_pop(y);
            if (status != YEKTROD_DONE && status != YEKTROD_NO_LIST) fail("pop");
        } else fail("no such record");
    }
}

int main(void) {
    size_t room = 1 << 16, length = 0, read;
    uint8_t *bytes = malloc(room);
    while (bytes && (read = fread(bytes + length, 1, room - length, stdin)) > 0) {
        length += read;
        if (length == room) {
            uint8_t *more = realloc(bytes, room *= 2);
            if (!more) free(bytes);
            bytes = more;
        }
    }
    if (!bytes) fail("no memory");
    yektrod y = {0};
    script s = {bytes, length, 0};
    want(yektrod_open(&y), "open");
    play(&y, &s);
    yektrod_close(&y);
    free(rows);
    free(text);
    free(bytes);
    return 0;
}

/* The records of a script, and the answers in form `o` (docs/SCRIPT.md), written to bytes that grow. */
#ifndef RECORDS_H
#define RECORDS_H

#include "yektrod.h"
#include <stdarg.h>
#include <stdio.h>
#include <stdlib.h>
#include <string.h>

static inline yektrod_bytes text_at(const char *text) {
    return (yektrod_bytes){(const uint8_t *)text, strlen(text)};
}

static inline bool equal(yektrod_bytes a, yektrod_bytes b) {
    return a.length == b.length && !memcmp(a.at, b.at, a.length);
}

/* Bytes that grow. */
typedef struct {
    uint8_t *at;
    size_t length, room;
} buffer;

static inline yektrod_bytes all(const buffer *b) {
    return (yektrod_bytes){b->at ? b->at : (const uint8_t *)"", b->length};
}

static inline void put(buffer *b, yektrod_bytes bytes) {
    if (b->length + bytes.length > b->room) b->at = realloc(b->at, b->room = 2 * (b->length + bytes.length));
    if (!b->at && bytes.length) abort();
    if (bytes.length) memcpy(b->at + b->length, bytes.at, bytes.length);
    b->length += bytes.length;
}

static inline void print(buffer *b, const char *format, ...) {
    char text[96];
    va_list values;
    va_start(values, format);
    int length = vsnprintf(text, sizeof text, format, values);
    va_end(values);
    if (length < 0 || (size_t)length >= sizeof text) abort();
    put(b, (yektrod_bytes){(uint8_t *)text, (size_t)length});
}

static inline void put_add(buffer *b, bool macros, yektrod_bytes source, const yektrod_bytes *root, yektrod_bytes contents) {
    print(b, "add %c %zu ", macros ? 'm' : '-', source.length);
    if (root) print(b, "%zu %zu\n", root->length, contents.length);
    else print(b, "- %zu\n", contents.length);
    put(b, source);
    if (root) put(b, *root);
    put(b, contents);
    print(b, "\n");
}

static inline void put_names(buffer *b, const yektrod_bytes *names, size_t count) {
    print(b, "names %zu\n", count);
    for (size_t i = 0; i < count; i++) {
        put(b, names[i]);
        print(b, "\n");
    }
}

static inline void put_ask(buffer *b, const yektrod_question *q) {
    print(b, "ask o %c %c %zu\n", q->fold ? 'i' : 's', q->is_dir < 0 ? 'u' : q->is_dir ? 'd' : 'f', q->path.length);
    put(b, q->path);
    print(b, "\n");
}

/* An answer with its five texts. One that is missing has no address. */
static inline void put_answer(buffer *b, yektrod_bytes path, int32_t state, size_t line, const yektrod_bytes *texts) {
    static const char *const states[] = {"unspecified", "set", "unset"};
    put(b, path);
    print(b, ": ");
    put(b, texts[YEKTROD_NAME]);
    print(b, ": ");
    put(b, state == YEKTROD_HAS_VALUE ? texts[YEKTROD_VALUE] : text_at(states[state]));
    print(b, "\t");
    put(b, texts[YEKTROD_SOURCE].at ? texts[YEKTROD_SOURCE] : text_at("-"));
    if (texts[YEKTROD_SOURCE].at) print(b, ":%zu", line);
    print(b, "\t");
    put(b, texts[YEKTROD_PATTERN].at ? texts[YEKTROD_PATTERN] : text_at("-"));
    print(b, "\t");
    put(b, texts[YEKTROD_CAUSE].at ? texts[YEKTROD_CAUSE] : text_at("-"));
    print(b, "\n");
}

static inline void put_dropped(buffer *b, yektrod_bytes source, const yektrod_dropped_line *line) {
    static const char *const reasons[] = {"", "macro-name", "negative", "attribute-name", "reserved"};
    print(b, "dropped: ");
    put(b, source);
    print(b, ":%zu: %s\n", line->line, reasons[line->reason]);
}

#endif

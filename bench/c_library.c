/* Plays calls of the library for C: c_library CALLS COUNT FILE [NAME..] <PATHS
   FILE is that of the top directory, and COUNT of the paths are asked for. CALLS says what a path costs:
     ask      yektrod_ask alone
     states   and yektrod_answer for each answer
     texts    and yektrod_text for each text of each answer
     rows     yektrod_ask and yektrod_answers
     into     yektrod_ask_into, which tells all texts
     equal    all of these, and they have to tell the same
     add      no path: the file is added by yektrod_add COUNT times, and popped
     add_in   the same by yektrod_add_in
   It prints how many answers are specified. */
#include "yektrod.h"
#include <stdio.h>
#include <stdlib.h>
#include <string.h>

#define MOST 1024

static yektrod y;
static yektrod_row rows[MOST];
static uint8_t text[1 << 20], part[1 << 16];
static const yektrod_place top = {{(const uint8_t *)"", 0}, {(const uint8_t *)".gitattributes", 14}};

static void want(bool fact, const char *what) {
    if (fact) return;
    fprintf(stderr, "c_library: %s\n", what);
    exit(1);
}

static size_t ask(yektrod_bytes path) {
    size_t answers;
    want(yektrod_ask(&y, path.at, path.length, false, 0, &answers) == YEKTROD_DONE, "ask");
    return answers;
}

/* The answers by yektrod_answer, each with as many of its five texts. */
static size_t answers_of(yektrod_bytes path, int32_t texts) {
    size_t answers = ask(path), found = 0, needed;
    for (size_t i = 0; i < answers; i++) {
        yektrod_answer_t answer = {0};
        want(yektrod_answer(&y, i, &answer) == YEKTROD_DONE, "answer");
        found += answer.state != YEKTROD_UNSPECIFIED;
        for (int32_t which = 0; which < texts; which++) {
            int32_t status = yektrod_text(&y, i, which, part, sizeof part, &needed);
            want(status == YEKTROD_DONE || status == YEKTROD_NOT_FOUND, "text");
        }
    }
    return found;
}

static size_t specified(size_t count) {
    size_t found = 0;
    for (size_t i = 0; i < count; i++) found += rows[i].state != YEKTROD_UNSPECIFIED;
    return found;
}

static size_t rows_of(yektrod_bytes path) {
    size_t answers = ask(path), written;
    want(yektrod_answers(&y, 0, rows, MOST, &written) == YEKTROD_DONE && written == answers, "answers");
    return specified(written);
}

static size_t into(yektrod_bytes path, size_t *count) {
    yektrod_question question = {path, false, 0};
    yektrod_needed needed;
    want(yektrod_ask_into(&y, &question, rows, MOST, text, sizeof text, &needed) == YEKTROD_DONE, "ask_into");
    *count = needed.rows;
    return specified(needed.rows);
}

/* yektrod_ask_into tells what yektrod_answer and yektrod_text tell of the answers that it leaves. */
static size_t equal(yektrod_bytes path) {
    size_t count, needed, found = into(path, &count);
    for (size_t i = 0; i < count; i++) {
        const yektrod_row *row = &rows[i];
        const size_t lengths[] = {row->name_length, row->value_length, row->source_length, row->pattern_length,
                                  row->cause_length};
        yektrod_answer_t answer = {0};
        want(yektrod_answer(&y, i, &answer) == YEKTROD_DONE && answer.state == row->state && answer.line == row->line, "a row");
        want(row->flags == (answer.is_macro ? YEKTROD_IS_MACRO : 0u) + (answer.has_source ? YEKTROD_HAS_SOURCE : 0u) +
             (answer.has_cause ? YEKTROD_HAS_CAUSE : 0u), "flags");
        const uint8_t *at = text + row->at;
        for (int32_t which = 0; which < 5; at += lengths[which++]) {
            int32_t status = yektrod_text(&y, i, which, part, sizeof part, &needed);
            want(status == YEKTROD_DONE || (status == YEKTROD_NOT_FOUND && !lengths[which]), "a text is missing");
            want(status != YEKTROD_DONE || (needed == lengths[which] && !memcmp(at, part, needed)), "a text");
        }
    }
    want(answers_of(path, 0) == found && rows_of(path) == found, "a count");
    return found;
}

static size_t one(const char *calls, yektrod_bytes path) {
    size_t count;
    switch (*calls) {
    case 'a': return ask(path);
    case 's': return answers_of(path, 0);
    case 't': return answers_of(path, 5);
    case 'r': return rows_of(path);
    case 'i': return into(path, &count);
    default: return equal(path);
    }
}

static int32_t add(yektrod_bytes file) {
    size_t dropped;
    return yektrod_add(&y, file.at, file.length, top.source.at, top.source.length, file.at, 0, true, true, &dropped);
}

static void additions(bool in, size_t count, yektrod_bytes file) {
    size_t list, dropped;
    while (count--) {
        int32_t status = in ? yektrod_add_in(&y, file.at, file.length, &top, true, &list, &dropped) : add(file);
        want(status == YEKTROD_DONE && yektrod_pop(&y) == YEKTROD_DONE, "an addition");
    }
}

int main(int argc, char **words) {
    static uint8_t bytes[1 << 24];
    static yektrod_bytes names[64], paths[1 << 17];
    static char line[1 << 12];
    size_t count = argc > 2 ? strtoul(words[2], 0, 10) : 0, found = 0, read = 0;
    FILE *file = argc > 3 && argc < 68 ? fopen(words[3], "rb") : 0;
    want(file != 0, "usage: c_library CALLS COUNT FILE [NAME..] <PATHS");
    yektrod_bytes contents = {bytes, fread(bytes, 1, sizeof bytes, file)};
    for (int i = 4; i < argc; i++) names[i - 4] = (yektrod_bytes){(const uint8_t *)words[i], strlen(words[i])};
    for (; read < 1 << 17 && fgets(line, sizeof line, stdin); read++)
        paths[read] = (yektrod_bytes){(uint8_t *)strdup(line), strcspn(line, "\n")};
    want(yektrod_open(&y) == YEKTROD_DONE, "open");
    if (!strncmp(words[1], "add", 3)) additions(!strcmp(words[1], "add_in"), count, contents), count = 0;
    want(add(contents) == YEKTROD_DONE && yektrod_select(&y, names, (size_t)argc - 4) == YEKTROD_DONE, "a list and a selection");
    for (size_t i = 0; i < count && read; i++) found += one(words[1], paths[i % read]);
    yektrod_close(&y);
    printf("%zu\n", found);
    return fclose(file);
}

/* Each status, where a caller is to get it, and what is left after it. */
#include "yektrod.h"
#include <stdio.h>
#include <string.h>

#define BYTES(text) (const uint8_t *)(text), sizeof(text) - 1
#define CHECK(fact)                                                          \
    do {                                                                     \
        if (!(fact)) {                                                       \
            fprintf(stderr, "statuses: line %d: not %s\n", __LINE__, #fact); \
            return 1;                                                        \
        }                                                                    \
    } while (0)

static yektrod y;
static yektrod_answer_t answer;
static yektrod_dropped_line line;
static size_t count = 77, needed = 77;
static uint8_t to[32];

static int32_t ask(const char *path) {
    return yektrod_ask(&y, (const uint8_t *)path, strlen(path), false, 0, &count);
}

static bool has_text(size_t i, int32_t which, const char *text) {
    memset(to, 7, sizeof to);
    return yektrod_text(&y, i, which, to, sizeof to, &needed) == YEKTROD_DONE && needed == strlen(text) && !memcmp(to, text, needed) &&
           to[needed] == 7;
}

static bool is_zero(const yektrod_row *row) {
    return !row->state && !row->flags && !row->line && !row->list && !row->name && !row->cause && !row->at && !row->name_length &&
           !row->value_length && !row->source_length && !row->pattern_length && !row->cause_length;
}

/* The texts of a row lie there, with a `|` after each. */
static bool has_texts(const yektrod_row *row, const uint8_t *text, const char *wanted) {
    const size_t lengths[] = {row->name_length, row->value_length, row->source_length, row->pattern_length, row->cause_length};
    const uint8_t *at = text + row->at;
    for (int i = 0; i < 5; i++) {
        if (strncmp((const char *)at, wanted, lengths[i]) || wanted[lengths[i]] != '|') return false;
        at += lengths[i];
        wanted += lengths[i] + 1;
    }
    return !*wanted;
}

static int32_t add_in(const char *directory, const char *source, const char *bytes, size_t *list) {
    const yektrod_place place = {{(const uint8_t *)directory, strlen(directory)}, {(const uint8_t *)source, strlen(source)}};
    return yektrod_add_in(&y, (const uint8_t *)bytes, strlen(bytes), &place, true, list, &count);
}

static int closed(void) {
    const yektrod_question question = {{BYTES("a")}, false, 0};
    yektrod_row row = {.line = 77};
    yektrod_needed most = {77, 77};
    size_t list = 77;
    CHECK(add_in("/", "a", "* a", &list) == YEKTROD_CLOSED && list == 77 && count == 77);
    CHECK(yektrod_ask_into(&y, &question, &row, 1, to, sizeof to, &most) == YEKTROD_CLOSED && most.rows == 77 && row.line == 77);
    CHECK(yektrod_answers(&y, 0, &row, 1, &count) == YEKTROD_CLOSED && yektrod_names(&y, &count) == YEKTROD_CLOSED && count == 77);
    CHECK(yektrod_found(&y, 0, &row, to, sizeof to, &needed) == YEKTROD_CLOSED && row.line == 77);
    CHECK(yektrod_name(&y, 0, to, sizeof to, &needed) == YEKTROD_CLOSED && needed == 77);
    CHECK(yektrod_pop(&y) == YEKTROD_CLOSED && ask("a") == YEKTROD_CLOSED && count == 77);
    CHECK(yektrod_add(&y, BYTES("* a"), BYTES("\377"), BYTES(""), true, true, &count) == YEKTROD_CLOSED && count == 77);
    CHECK(yektrod_select(&y, &(yektrod_bytes){BYTES("a")}, 1) == YEKTROD_CLOSED);
    CHECK(yektrod_answer(&y, 0, &answer) == YEKTROD_CLOSED && yektrod_dropped(&y, 0, &line) == YEKTROD_CLOSED);
    CHECK(yektrod_text(&y, 0, YEKTROD_NAME, to, sizeof to, &needed) == YEKTROD_CLOSED && needed == 77);
    yektrod_close(&y);
    return 0;
}

/* The built-in list defines `binary`. */
static int built_in(void) {
    CHECK(yektrod_open(&y) == YEKTROD_DONE && yektrod_open(&y) == YEKTROD_CLOSED);
    CHECK(yektrod_answer(&y, 0, &answer) == YEKTROD_NOT_FOUND && yektrod_dropped(&y, 0, &line) == YEKTROD_NOT_FOUND);
    CHECK(ask("a") == YEKTROD_DONE && count == 0);
    CHECK(yektrod_add(&y, BYTES("* binary\n"), BYTES(".gitattributes"), BYTES(""), true, true, &count) == YEKTROD_DONE && count == 0);
    CHECK(yektrod_answer(&y, 0, &answer) == YEKTROD_NOT_FOUND);
    CHECK(ask("a") == YEKTROD_DONE && count == 4);
    CHECK(has_text(0, YEKTROD_NAME, "binary") && yektrod_answer(&y, 0, &answer) == YEKTROD_DONE);
    CHECK(answer.state == YEKTROD_SET && answer.is_macro && answer.has_source && !answer.has_cause && answer.line == 1);
    CHECK(yektrod_text(&y, 0, YEKTROD_VALUE, to, sizeof to, &needed) == YEKTROD_NOT_FOUND);
    CHECK(yektrod_text(&y, 0, YEKTROD_CAUSE, to, sizeof to, &needed) == YEKTROD_NOT_FOUND);
    CHECK(has_text(1, YEKTROD_NAME, "diff") && has_text(1, YEKTROD_CAUSE, "binary") && has_text(1, YEKTROD_PATTERN, "*"));
    CHECK(yektrod_answer(&y, 1, &answer) == YEKTROD_DONE && answer.state == YEKTROD_UNSET && !answer.is_macro && answer.has_cause);
    CHECK(yektrod_answer(&y, 4, &answer) == YEKTROD_NOT_FOUND && answer.has_cause);
    CHECK(yektrod_text(&y, 1, 5, to, sizeof to, &needed) == YEKTROD_NOT_FOUND);
    CHECK(yektrod_text(&y, 1, -1, to, sizeof to, &needed) == YEKTROD_NOT_FOUND);
    CHECK(yektrod_text(&y, 4, YEKTROD_NAME, to, sizeof to, &needed) == YEKTROD_NOT_FOUND);
    return 0;
}

static int lists(void) {
    CHECK(yektrod_add(&y, BYTES("!x a\n* -b=c =\n* builtin_a\n[attr]- c\n*.s text=a\n"), BYTES("sub/.gitattributes"), BYTES("\377"), false,
                      false, &count) == YEKTROD_DONE && count == 4);
    CHECK(yektrod_dropped(&y, 0, &line) == YEKTROD_DONE && line.line == 1 && line.reason == YEKTROD_NEGATIVE_PATTERN);
    CHECK(yektrod_dropped(&y, 1, &line) == YEKTROD_DONE && line.line == 2 && line.reason == YEKTROD_ATTRIBUTE_NAME);
    CHECK(yektrod_dropped(&y, 2, &line) == YEKTROD_DONE && line.line == 3 && line.reason == YEKTROD_RESERVED);
    CHECK(yektrod_dropped(&y, 3, &line) == YEKTROD_DONE && line.line == 4 && line.reason == YEKTROD_MACRO_NAME);
    CHECK(yektrod_dropped(&y, 4, &line) == YEKTROD_NOT_FOUND && line.line == 4);
    count = 77;
    CHECK(yektrod_add(&y, BYTES("* x"), BYTES("\377"), BYTES(""), true, true, &count) == YEKTROD_INVALID && count == 77);
    CHECK(yektrod_add(&y, BYTES("* x"), BYTES("x"), BYTES("\377"), true, true, &count) == YEKTROD_INVALID && count == 77);
    CHECK(yektrod_dropped(&y, 3, &line) == YEKTROD_DONE);
    return 0;
}

static int questions(void) {
    const yektrod_bytes names[] = {{BYTES("text")}, {BYTES("no name!")}, {BYTES("text")}, {BYTES("\377")}};
    CHECK(yektrod_select(&y, names, 4) == YEKTROD_INVALID && yektrod_select(&y, names, 3) == YEKTROD_DONE);
    CHECK(ask("S.S") == YEKTROD_DONE && count == 3);
    CHECK(yektrod_answer(&y, 0, &answer) == YEKTROD_DONE && answer.state == YEKTROD_UNSET);
    CHECK(yektrod_ask(&y, BYTES("S.S"), true, -1, &count) == YEKTROD_DONE && count == 3);
    CHECK(yektrod_answer(&y, 2, &answer) == YEKTROD_DONE && answer.state == YEKTROD_HAS_VALUE && answer.line == 5);
    CHECK(has_text(2, YEKTROD_VALUE, "a") && has_text(2, YEKTROD_SOURCE, "sub/.gitattributes") && has_text(2, YEKTROD_PATTERN, "*.s"));
    CHECK(yektrod_answer(&y, 1, &answer) == YEKTROD_DONE && answer.state == YEKTROD_UNSPECIFIED && !answer.has_source && answer.line == 0);
    CHECK(has_text(1, YEKTROD_NAME, "invalid") && yektrod_text(&y, 1, YEKTROD_SOURCE, to, sizeof to, &needed) == YEKTROD_NOT_FOUND);
    CHECK(yektrod_text(&y, 1, YEKTROD_PATTERN, to, sizeof to, &needed) == YEKTROD_NOT_FOUND);
    memset(to, 7, sizeof to);
    CHECK(yektrod_text(&y, 0, YEKTROD_NAME, to, 3, &needed) == YEKTROD_BUFFER_TOO_SMALL && needed == 4 && to[0] == 7);
    CHECK(yektrod_text(&y, 0, YEKTROD_NAME, to, 0, &needed) == YEKTROD_BUFFER_TOO_SMALL && needed == 4);
    CHECK(yektrod_text(&y, 0, YEKTROD_NAME, to, 4, &needed) == YEKTROD_DONE && needed == 4 && !memcmp(to, "text\7", 5));
    CHECK(yektrod_ask(&y, BYTES("a"), false, 2, &count) == YEKTROD_INVALID);
    CHECK(yektrod_ask(&y, BYTES("a"), false, -2, &count) == YEKTROD_INVALID);
    CHECK(yektrod_answer(&y, 2, &answer) == YEKTROD_DONE);
    CHECK(yektrod_select(&y, names, 0) == YEKTROD_DONE && yektrod_answer(&y, 0, &answer) == YEKTROD_NOT_FOUND);
    CHECK(ask("a.s") == YEKTROD_DONE && count == 4);
    return 0;
}

/* The file of `lists`, that of `built_in`, and the built-in list. */
static int pops(void) {
    CHECK(yektrod_pop(&y) == YEKTROD_DONE && yektrod_answer(&y, 0, &answer) == YEKTROD_NOT_FOUND);
    CHECK(ask("a.s") == YEKTROD_DONE && count == 4 && has_text(3, YEKTROD_NAME, "text") && has_text(3, YEKTROD_CAUSE, "binary"));
    CHECK(yektrod_pop(&y) == YEKTROD_DONE && yektrod_pop(&y) == YEKTROD_DONE);
    CHECK(ask("a.s") == YEKTROD_DONE && count == 0 && yektrod_pop(&y) == YEKTROD_NO_LIST);
    yektrod_close(&y);
    return 0;
}

/* Lists below directories of any bytes, with sources of any bytes. */
static int directories(void) {
    static const char *const bad[] = {"/", "/a", "a/", "a//b", ".", "..", "a/.", "../a", "a/./b", "a/../b"};
    static const char *const good[] = {"", "a", "...", ".a/..b", "\xe9/f"};
    size_t list = 77;
    count = 77;
    for (size_t i = 0; i < sizeof bad / sizeof *bad; i++) {
        CHECK(add_in(bad[i], "s", "* a", &list) == YEKTROD_INVALID && list == 77 && count == 77);
    }
    for (size_t i = 0; i < sizeof good / sizeof *good; i++) {
        CHECK(add_in(good[i], "s\xff", "* a\n!b c\n", &list) == YEKTROD_DONE && list == i + 1 && count == 1);
    }
    CHECK(yektrod_ask(&y, BYTES("\xe9/f/x"), false, 0, &count) == YEKTROD_DONE && count == 1 && has_text(0, YEKTROD_SOURCE, "s\xff"));
    CHECK(yektrod_pop(&y) == YEKTROD_DONE && add_in("\xe9", "t", "x -a\n*.c binary\n", &list) == YEKTROD_DONE && list == 5);
    return 0;
}

static int rows(void) {
    const yektrod_question question = {{BYTES("\xe9/x.c")}, false, 0};
    yektrod_row all[5];
    yektrod_needed most;
    uint8_t text[64];
    memset(all, 7, sizeof all);
    CHECK(yektrod_ask_into(&y, &question, all, 5, text, sizeof text, &most) == YEKTROD_DONE && most.rows == 5);
    CHECK(all[0].state == YEKTROD_SET && all[0].flags == (YEKTROD_IS_MACRO | YEKTROD_HAS_SOURCE) && all[0].line == 2 && all[0].list == 5);
    CHECK(all[0].name == 0 && all[0].cause == YEKTROD_NONE && all[0].at == 0 && has_texts(all, text, "binary||t|*.c||"));
    CHECK(all[1].state == YEKTROD_UNSET && all[1].flags == (YEKTROD_HAS_SOURCE | YEKTROD_HAS_CAUSE) && all[1].cause == 0);
    CHECK(all[1].at == 10 && has_texts(all + 1, text, "diff||t|*.c|binary|") && has_texts(all + 4, text, "a||s\xff|*||"));
    CHECK(all[4].list == 1 && all[4].name == 4 && all[4].at + 4 == most.text && all[4].line == 1);
    for (size_t room = 0; room < 5; room++) {
        memset(all, 7, sizeof all);
        CHECK(yektrod_ask_into(&y, &question, all, room, text, sizeof text, &most) == YEKTROD_BUFFER_TOO_SMALL && most.rows == 5);
        CHECK((room == 0 || is_zero(all)) && !is_zero(all + room));
    }
    CHECK(yektrod_ask_into(&y, &question, all, 5, text, most.text - 1, &most) == YEKTROD_BUFFER_TOO_SMALL && is_zero(all + 4));
    CHECK(yektrod_ask_into(&y, &question, all, 5, text, most.text, &most) == YEKTROD_DONE && has_texts(all + 1, text, "diff||t|*.c|binary|"));
    CHECK(yektrod_answers(&y, 1, all, 2, &count) == YEKTROD_DONE && count == 2 && all[0].name == 1 && all[0].at == 0);
    CHECK(yektrod_answers(&y, 3, all, 5, &count) == YEKTROD_DONE && count == 2 && all[1].name == 4);
    CHECK(yektrod_answers(&y, 6, all, 5, &count) == YEKTROD_DONE && count == 0);
    CHECK(yektrod_ask_into(&y, &(yektrod_question){{BYTES("a")}, false, 2}, all, 5, text, 64, &most) == YEKTROD_INVALID && most.rows == 5);
    return 0;
}

static int numbers(void) {
    const yektrod_bytes names[] = {{BYTES("diff")}, {BYTES("no name!")}, {BYTES("z")}};
    yektrod_row row;
    yektrod_needed most;
    uint8_t text[64];
    size_t list;
    CHECK(add_in("", "u", "* !z\n", &list) == YEKTROD_DONE && yektrod_names(&y, &count) == YEKTROD_DONE && count == 6);
    CHECK(yektrod_name(&y, 4, to, sizeof to, &needed) == YEKTROD_DONE && needed == 1 && to[0] == 'a');
    CHECK(yektrod_name(&y, 0, to, 5, &needed) == YEKTROD_BUFFER_TOO_SMALL && needed == 6 && to[0] == 'a');
    CHECK(yektrod_name(&y, 6, to, sizeof to, &needed) == YEKTROD_NOT_FOUND && needed == 6);
    CHECK(yektrod_found(&y, 0, &row, text, sizeof text, &needed) == YEKTROD_NOT_FOUND);
    CHECK(ask("\xe9/x.c") == YEKTROD_DONE && yektrod_found(&y, 5, &row, text, sizeof text, &needed) == YEKTROD_DONE);
    CHECK(row.state == YEKTROD_UNSPECIFIED && row.list == list && row.name == 5 && needed == 3 && has_texts(&row, text, "z||u|*||"));
    CHECK(yektrod_select(&y, names, 3) == YEKTROD_DONE && yektrod_found(&y, 0, &row, text, sizeof text, &needed) == YEKTROD_NOT_FOUND);
    CHECK(yektrod_ask_into(&y, &(yektrod_question){{BYTES("\xe9/x.c")}, false, 0}, &row, 1, text, 64, &most) == YEKTROD_BUFFER_TOO_SMALL);
    CHECK(most.rows == 3 && yektrod_answers(&y, 1, &row, 1, &count) == YEKTROD_DONE && row.name == YEKTROD_NONE);
    CHECK(row.list == YEKTROD_NONE && row.flags == 0 && row.name_length == 7 && row.pattern_length == 0);
    CHECK(yektrod_found(&y, 0, &row, text, sizeof text, &needed) == YEKTROD_DONE && has_texts(&row, text, "binary||t|*.c||"));
    CHECK(yektrod_found(&y, 0, &row, text, needed - 1, &needed) == YEKTROD_BUFFER_TOO_SMALL && needed == 10 && is_zero(&row));
    CHECK(yektrod_found(&y, 6, &row, text, sizeof text, &needed) == YEKTROD_NOT_FOUND && is_zero(&row));
    yektrod_close(&y);
    return 0;
}

#define SCRIPT "add - 1 - 4\nf* a\n\nask l s u 1\nx\n"

/* Plays a script into the first bytes of a room that is full of sevens. */
static int32_t run(const char *script, size_t room, size_t *malformed) {
    memset(to, 7, sizeof to);
    needed = *malformed = 77;
    return yektrod_run((const uint8_t *)script, strlen(script), to, room, &needed, malformed);
}

static int scripts(void) {
    size_t malformed;
    CHECK(run("", 0, &malformed) == YEKTROD_DONE && needed == 0 && malformed == 77);
    CHECK(run(SCRIPT, 32, &malformed) == YEKTROD_DONE && needed == 10 && malformed == 77 && !memcmp(to, "x: a: set\n\7", 11));
    CHECK(run(SCRIPT, 10, &malformed) == YEKTROD_DONE && needed == 10 && !memcmp(to, "x: a: set\n\7", 11));
    CHECK(run(SCRIPT, 9, &malformed) == YEKTROD_BUFFER_TOO_SMALL && needed == 10 && malformed == 77 && !memcmp(to, "x: a: set\7", 10));
    CHECK(run(SCRIPT, 0, &malformed) == YEKTROD_BUFFER_TOO_SMALL && needed == 10 && to[0] == 7);
    CHECK(run(SCRIPT "pop\nask l s u 1\nx", 32, &malformed) == YEKTROD_MALFORMED && needed == 10 && malformed == 4);
    CHECK(!memcmp(to, "x: a: set\n\7", 11));
    CHECK(run(SCRIPT "ask", 3, &malformed) == YEKTROD_MALFORMED && needed == 10 && malformed == 3 && !memcmp(to, "x: \7", 4));
    CHECK(run("names 01\na\n", 0, &malformed) == YEKTROD_MALFORMED && needed == 0 && malformed == 1);
    return 0;
}

int main(void) {
    if (closed() || built_in() || lists() || questions() || pops() || scripts()) return 1;
    if (yektrod_version() != YEKTROD_VERSION || yektrod_open(&y) || directories() || rows() || numbers()) return 1;
    count = needed = 77;
    if (closed() || yektrod_open(&y) != YEKTROD_DONE) return 1;
    yektrod_close(&y);
    puts("statuses: ok");
    return 0;
}

/* Each request for memory is refused in turn: the call returns 1, and all that it could have changed is as it was. Linked with
   -Wl,--wrap=malloc,--wrap=realloc. */
#include "yektrod.h"
#include <stdio.h>
#include <string.h>

#define BYTES(text) (const uint8_t *)(text), sizeof(text) - 1
#define MOST 400

/* How many requests are answered before one is refused; below 0: all are answered. */
static long left = -1;
void *__real_malloc(size_t size);
void *__real_realloc(void *block, size_t size);

void *__wrap_malloc(size_t size) {
    return left >= 0 && left-- == 0 ? 0 : __real_malloc(size);
}

void *__wrap_realloc(void *block, size_t size) {
    return left >= 0 && left-- == 0 ? 0 : __real_realloc(block, size);
}

static yektrod y;
static size_t count;
static long refusals;

static int32_t add_below(void) {
    const yektrod_place place = {{BYTES("src")}, {BYTES("a\377")}};
    size_t list;
    return yektrod_add_in(&y, BYTES("file.c m -text\n* =\n"), &place, true, &list, &count);
}

static int32_t add(void) {
    return yektrod_add(&y, BYTES("[attr]m a -b c=d\n*.c m text\n\"/src/\\052.h\" eol=lf\n* =\n"), BYTES("src/.gitattributes"), BYTES(""), true,
                       true, &count);
}

static int32_t select_names(void) {
    const yektrod_bytes names[] = {{BYTES("text")}, {BYTES("b")}, {BYTES("m")}, {BYTES("no such name")}, {BYTES("c")}};
    return yektrod_select(&y, names, 5);
}

static int32_t ask(void) {
    return yektrod_ask(&y, BYTES("src/file.c"), false, 0, &count);
}

/* Asks for rows and texts too. They take no memory of their own. */
static int32_t ask_into(void) {
    const yektrod_question question = {{BYTES("src/file.c")}, false, 0};
    yektrod_row rows[5];
    uint8_t text[256];
    yektrod_needed needed;
    int32_t status = yektrod_ask_into(&y, &question, rows, 5, text, sizeof text, &needed);
    return status ? status : needed.rows == 5 && rows[4].at < needed.text ? YEKTROD_DONE : -1;
}

/* All that the engine answers for a path, as one text. */
static const char *answers(void) {
    static char text[2048];
    size_t at = 0, needed;
    for (size_t i = 0; i < count; i++) {
        for (int32_t which = YEKTROD_NAME; which <= YEKTROD_CAUSE; which++) {
            long before = left;
            left = -1;
            int32_t status = yektrod_text(&y, i, which, (uint8_t *)text + at, sizeof text - at - 1, &needed);
            left = before;
            if (status == YEKTROD_DONE) at += needed;
            text[at++] = '|';
        }
    }
    text[at] = 0;
    return text;
}

/* Calls until a call is not refused, and says whether what a refused call returned and left is right. */
static bool again(int32_t (*call)(void)) {
    int32_t status = call();
    if (status == YEKTROD_NO_MEMORY) {
        refusals++;
        status = call();
    }
    return status == YEKTROD_DONE;
}

static int32_t open_one(void) {
    return yektrod_open(&y);
}

static int one(long nth, char *wanted) {
    yektrod_answer_t answer = {0};
    uint8_t to[64] = {0};
    size_t needed;
    y = (yektrod){0};
    left = nth;
    if (!again(open_one) || !again(add_below) || count != 1 || !again(add) || count != 1 || !again(select_names)) return 1;
    int32_t status = ask();
    if (status == YEKTROD_NO_MEMORY) {
        refusals++;
        if (yektrod_answer(&y, 0, &answer) != YEKTROD_NOT_FOUND) return 2;
        status = ask();
    }
    if (status != YEKTROD_DONE || count != 5) return 3;
    if (!again(ask_into)) return 4;
    if (yektrod_text(&y, 0, YEKTROD_PATTERN, to, sizeof to, &needed) || needed != 3 || memcmp(to, "*.c", 4)) return 5;
    bool was_refused = left < 0;
    if (!*wanted) strcpy(wanted, answers());
    else if (strcmp(wanted, answers())) return 6;
    /* A refused addition and a refused selection leave the answers. */
    int32_t (*const calls[])(void) = {add, add_below, select_names};
    for (size_t i = 0; i < 3; i++) {
        left = 0;
        size_t before = count;
        if (calls[i]() != YEKTROD_NO_MEMORY || count != before || strcmp(wanted, answers())) return 7;
    }
    left = -1;
    yektrod_close(&y);
    return was_refused ? 0 : -1;
}

#define SCRIPT "add m 1 - 23\nf[attr]m -a b=c\n* =\n* m\n\nask l s f 1\nx\n"
#define RUN_TEXT "dropped: f:2: attribute-name\nx: m: set\nx: a: unset\nx: b: c\n"

static int run_one(long nth) {
    uint8_t out[128], before[128];
    size_t written = 77, malformed = 77;
    memset(out, 7, sizeof out);
    memset(before, 7, sizeof before);
    left = nth;
    int32_t status = yektrod_run(BYTES(SCRIPT), out, sizeof out, &written, &malformed);
    bool was_refused = left < 0;
    left = -1;
    if (status == YEKTROD_NO_MEMORY) {
        refusals++;
        if (written != 77 || memcmp(out, before, sizeof out)) return 8;
    } else if (status != YEKTROD_DONE || written != sizeof RUN_TEXT - 1 || memcmp(out, RUN_TEXT "\7", written + 1)) return 9;
    return malformed != 77 ? 10 : was_refused ? 0 : -1;
}

/* Refuses each request of a run in turn. */
static int run_all(void) {
    for (long nth = 0; nth < MOST; nth++) {
        int status = run_one(nth);
        if (status > 0) return fprintf(stderr, "refused: request %ld of a run: %d\n", nth, status), 1;
        if (status < 0) return printf("refused: %ld requests of a run, each refused once\n", nth), 0;
    }
    return 1;
}

int main(void) {
    static char wanted[2048];
    if (run_one(MOST) != -1 || run_all()) return fputs("refused: a run\n", stderr), 1;
    int status = one(MOST, wanted);
    if (status != -1) return fprintf(stderr, "refused: without a refusal: %d\n", status), 1;
    for (long nth = 0; nth < MOST; nth++) {
        status = one(nth, wanted);
        if (status > 0) return fprintf(stderr, "refused: request %ld: %d\n", nth, status), 1;
        if (status < 0) {
            printf("refused: %ld requests, each refused once; %ld calls returned 1, and the others did without: ok\n", nth, refusals);
            return refusals == 0;
        }
    }
    return 1;
}

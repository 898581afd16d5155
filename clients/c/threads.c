/* Engines and threads: each of eight threads plays calls over an engine of its own, all at once, and then one more engine goes
 * round them, a few calls at a time, behind a lock. With an argument it goes round by pipes: the calls come in the same order,
 * but no lock says so, and helgrind has to report it.
 * usage: threads [pipes]
 */
#include "yektrod.h"
#include <pthread.h>
#include <stdio.h>
#include <string.h>
#include <unistd.h>

#define THREADS 8
#define TURNS 560 /* each of the seven parts of a round ten times on each thread */
#define BYTES(text) (const uint8_t *)(text), strlen(text)

/* The engine that goes round, and whose turn it is: behind the lock. */
static yektrod shared;
static size_t turn;
static pthread_mutex_t lock = PTHREAD_MUTEX_INITIALIZER;
static pthread_cond_t passed = PTHREAD_COND_INITIALIZER;
static bool by_pipes;
static int pipes[THREADS][2];

static bool add(yektrod *y, const char *text, const char *source) {
    size_t dropped;
    return yektrod_add(y, BYTES(text), BYTES(source), BYTES(""), true, true, &dropped) == YEKTROD_DONE && dropped == 0;
}

static bool ask(yektrod *y, const char *path, size_t wanted) {
    size_t answers;
    return yektrod_ask(y, BYTES(path), false, 0, &answers) == YEKTROD_DONE && answers == wanted;
}

static bool has(yektrod *y, size_t i, int32_t which, const char *text) {
    uint8_t to[32] = {0};
    size_t needed;
    return yektrod_text(y, i, which, to, sizeof to, &needed) == YEKTROD_DONE && needed == strlen(text) &&
           !memcmp(to, text, needed);
}

/* Asks by one call, and says whether the answer with an index is decided by a list. */
static bool ask_into(yektrod *y, const char *path, size_t i, size_t list) {
    yektrod_question question = {{BYTES(path)}, false, 0};
    yektrod_row rows[8];
    uint8_t text[256];
    yektrod_needed needed;
    return yektrod_ask_into(y, &question, rows, 8, text, sizeof text, &needed) == YEKTROD_DONE && i < needed.rows &&
           rows[i].list == list;
}

/* A part of a round, from opening the engine to closing it: whether each call gives what it should. */
static bool play(yektrod *y, size_t round, size_t part) {
    const yektrod_bytes names[] = {{BYTES("owner")}, {BYTES("eol")}, {BYTES("owner")}};
    const yektrod_place place = {{BYTES("a")}, {BYTES("a/.gitattributes")}};
    yektrod_dropped_line line;
    size_t list, dropped;
    char text[64];
    switch (part) {
    case 0:
        snprintf(text, sizeof text, "[attr]mine owner=r%zu -eol\n* mine\n", round);
        return yektrod_open(y) == YEKTROD_DONE && add(y, text, ".gitattributes");
    case 1:
        snprintf(text, sizeof text, "r%zu", round);
        return ask(y, "a/b.c", 3) && has(y, 1, YEKTROD_VALUE, text) && has(y, 1, YEKTROD_CAUSE, "mine");
    case 2:
        return yektrod_add_in(y, BYTES("*.c binary owner\n!x y\n"), &place, false, &list, &dropped) == YEKTROD_DONE &&
               list == 2 && dropped == 1 && yektrod_dropped(y, 0, &line) == YEKTROD_DONE && line.line == 2;
    case 3:
        return ask_into(y, "a/b.c", 5, 2) && has(y, 5, YEKTROD_PATTERN, "*.c") && has(y, 6, YEKTROD_SOURCE, ".gitattributes");
    case 4:
        return yektrod_select(y, names, 3) == YEKTROD_DONE && ask(y, "a/b.c", 3) && has(y, 2, YEKTROD_SOURCE, "a/.gitattributes");
    case 5:
        return yektrod_pop(y) == YEKTROD_DONE && ask(y, "a/b.c", 3) && has(y, 2, YEKTROD_CAUSE, "mine");
    default:
        yektrod_close(y);
        return yektrod_pop(y) == YEKTROD_CLOSED;
    }
}

static bool wait_for(size_t mine) {
    char byte;
    if (by_pipes) return read(pipes[mine % THREADS][0], &byte, 1) == 1;
    pthread_mutex_lock(&lock);
    while (turn != mine) pthread_cond_wait(&passed, &lock);
    return true;
}

static bool pass(size_t mine) {
    if (by_pipes) return write(pipes[(mine + 1) % THREADS][1], "", 1) == 1;
    turn = mine + 1;
    pthread_cond_broadcast(&passed);
    return !pthread_mutex_unlock(&lock);
}

/* A thread with its number, and whether all calls gave what they should. */
typedef struct {
    pthread_t id;
    size_t number;
    bool is_right;
} worker;

static void *work(void *of) {
    worker *w = of;
    yektrod own = {0};
    w->is_right = true;
    for (size_t i = 0; i < TURNS; i++) w->is_right &= play(&own, i / 7, i % 7);
    for (size_t mine = w->number; mine < TURNS; mine += THREADS) {
        w->is_right &= wait_for(mine);
        w->is_right &= play(&shared, mine / 7, mine % 7);
        w->is_right &= pass(mine);
    }
    return 0;
}

int main(int count, char **words) {
    worker workers[THREADS];
    by_pipes = count == 2 && !strcmp(words[1], "pipes");
    bool is_right = by_pipes == (count == 2);
    for (size_t i = 0; i < THREADS; i++) is_right &= !pipe(pipes[i]);
    if (by_pipes) is_right &= write(pipes[0][1], "", 1) == 1;
    for (size_t i = 0; i < THREADS; i++) {
        workers[i].number = i;
        if (pthread_create(&workers[i].id, 0, work, &workers[i])) return fputs("threads: there is no thread\n", stderr), 1;
    }
    for (size_t i = 0; i < THREADS; i++) is_right &= !pthread_join(workers[i].id, 0) && workers[i].is_right;
    if (!is_right || shared.live) return fputs("threads: a call gave something else\n", stderr), 1;
    printf("threads: an engine for each of %d threads, and one that went round them: ok\n", THREADS);
    return 0;
}

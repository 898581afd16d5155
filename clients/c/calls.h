/* The calls of the library, and the statuses of each but for want of memory. CALL(name, ..) calls yektrod_name, and counts what
 * it returns. */
#ifndef CALLS_H
#define CALLS_H

#include "yektrod.h"
#include <stdio.h>
#include <stdlib.h>

enum { D = 1 << YEKTROD_DONE, C = 1 << YEKTROD_CLOSED, N = 1 << YEKTROD_NOT_FOUND, I = 1 << YEKTROD_INVALID,
       L = 1 << YEKTROD_NO_LIST, S = 1 << YEKTROD_BUFFER_TOO_SMALL, M = 1 << YEKTROD_MALFORMED };
#define CALLS(X) X(open, D | C) X(add, D | C | I) X(add_in, D | C | I) X(dropped, D | C | N) X(pop, D | C | L)     \
    X(select, D | C | I) X(ask, D | C | I) X(ask_into, D | C | I | S) X(answers, D | C) X(answer, D | C | N)       \
    X(text, D | C | N | S) X(found, D | C | N | S) X(names, D | C) X(name, D | C | N | S) X(run, D | S | M)
#define ID(name, statuses) CALL_##name,
#define ROW(name, statuses) {#name, statuses},
#define CALL(name, ...) note(CALL_##name, yektrod_##name(__VA_ARGS__))

enum { CALLS(ID) CALL_COUNT };
static const struct { const char *name; unsigned statuses; } calls[] = {CALLS(ROW)};
static unsigned long seen[CALL_COUNT][8];

static inline int32_t note(int call, int32_t status) {
    if (status < 0 || status > 7 || !(calls[call].statuses & 1u << status)) {
        fprintf(stderr, "yektrod_%s returned %d\n", calls[call].name, status);
        exit(1);
    }
    seen[call][status]++;
    return status;
}

/* Whether each call has returned each of its statuses. */
static inline bool are_all_seen(void) {
    bool are_seen = true;
    for (int call = 0; call < CALL_COUNT; call++)
        for (int32_t status = 0; status < 8; status++)
            if ((calls[call].statuses & 1u << status) && !seen[call][status]) {
                fprintf(stderr, "yektrod_%s never returned %d\n", calls[call].name, status);
                are_seen = false;
            }
    return are_seen;
}

#endif

/* Makes each call on threads with a stack of 16 KB, 20 KB and so on, and prints the least that is enough. It fails if 32 KB are
 * too little, which docs/C.md names. A stack that is too small ends its process, so each has one of its own.
 */
#define _DEFAULT_SOURCE
#include "yektrod.h"
#include <pthread.h>
#include <stdio.h>
#include <string.h>
#include <sys/mman.h>
#include <sys/wait.h>
#include <unistd.h>

#define BYTES(text) (const uint8_t *)(text), sizeof(text) - 1

enum { KB = 1024, PROMISED = 32, LINES = 600 };

/* What the thread needs beside its calls is here, and not on its stack. */
static uint8_t file[64 * KB], script[96 * KB], out[96 * KB], to[KB];
static size_t file_length, script_length, written, malformed, dropped, answers, needed;
static yektrod y;
static yektrod_answer_t answer;
static yektrod_dropped_line line;
static const yektrod_bytes names[] = {{BYTES("m")}, {BYTES("eol")}, {BYTES("no name!")}, {BYTES("a7")}};

/* A file with a line of each kind many times, and a script over it. */
static void fill(void) {
    size_t n = 0;
    n += (size_t)sprintf((char *)file, "[attr]m n a1=x -b\n[attr]n binary !c m\n!x y\n* =\n");
    for (int i = 0; i < LINES; i++) {
        n += (size_t)sprintf((char *)file + n, "*.e%d a%d\n/d/**/x%d?[!a-c[:digit:]]*b* m -a%d\n", i, i, i, i);
        n += (size_t)sprintf((char *)file + n, "\"q\\t\\%03o%d\" eol=v%d\n**/f%d* !m n\n", 64 + i % 64, i, i, i % 9);
    }
    file_length = n;
    n = (size_t)sprintf((char *)script, "add m 14 0 %zu\n.gitattributes", file_length);
    memcpy(script + n, file, file_length);
    n += file_length;
    n += (size_t)sprintf((char *)script + n, "\nask l i f 9\nd/e/x7zzb\nnames 2\nm\na7\nask z s d 4\nf8.c\n");
    n += (size_t)sprintf((char *)script + n, "ask o s u 4\nx.e7\npop\nbad");
    script_length = n;
}

static bool uses_engine(void) {
    bool done = yektrod_open(&y) == YEKTROD_DONE;
    done &= yektrod_add(&y, file, file_length, BYTES("d/.gitattributes"), BYTES(""), true, true, &dropped) == YEKTROD_DONE;
    done &= yektrod_add(&y, file, file_length, BYTES("info/attributes"), BYTES(""), false, true, &dropped) == YEKTROD_DONE;
    done &= dropped == 2 && yektrod_dropped(&y, 1, &line) == YEKTROD_DONE;
    done &= yektrod_ask(&y, BYTES("d/d/e/x7zzb"), true, -1, &answers) == YEKTROD_DONE;
    done &= yektrod_select(&y, names, 4) == YEKTROD_DONE;
    done &= yektrod_ask(&y, BYTES("d/e/f8/x.e7"), false, 0, &answers) == YEKTROD_DONE && answers == 4;
    for (size_t i = 0; done && i < answers; i++) {
        done = yektrod_answer(&y, i, &answer) == YEKTROD_DONE;
        for (int32_t which = YEKTROD_NAME; which <= YEKTROD_CAUSE; which++) {
            int32_t status = yektrod_text(&y, i, which, to, sizeof to, &needed);
            done &= status == YEKTROD_DONE || status == YEKTROD_MISSING;
        }
    }
    done &= yektrod_pop(&y) == YEKTROD_DONE;
    yektrod_close(&y);
    return done;
}

static void *calls(void *result) {
    bool done = uses_engine();
    done &= yektrod_run(script, script_length, out, sizeof out, &written, &malformed) == YEKTROD_MALFORMED;
    *(bool *)result = done && written > 0 && malformed == 7;
    return NULL;
}

/* Whether a thread with so large a stack makes all calls. Below the stack is a page that can't be touched. */
static bool suffices(size_t size) {
    pid_t child = fork();
    if (child == 0) {
        size_t page = (size_t)sysconf(_SC_PAGESIZE);
        uint8_t *stack = mmap(NULL, page + size, PROT_READ | PROT_WRITE, MAP_PRIVATE | MAP_ANONYMOUS, -1, 0);
        pthread_attr_t attributes;
        pthread_t thread;
        bool done = false;
        if (stack == MAP_FAILED || mprotect(stack, page, PROT_NONE) || pthread_attr_init(&attributes) ||
            pthread_attr_setstack(&attributes, stack + page, size) || pthread_create(&thread, &attributes, calls, &done) ||
            pthread_join(thread, NULL))
            _exit(2);
        _exit(done ? 0 : 3);
    }
    int status = 1;
    return child > 0 && waitpid(child, &status, 0) == child && status == 0;
}

int main(void) {
    fill();
    size_t least = 0;
    for (size_t kb = 16; kb <= 64; kb += 4) {
        bool done = suffices(kb * KB);
        if (done && !least) least = kb;
        if (!done && kb >= PROMISED) return fprintf(stderr, "stack: %zu KB of stack are too little\n", kb), 1;
    }
    printf("stack: %zu KB of stack are enough, and %d are promised\n", least, PROMISED);
    return 0;
}

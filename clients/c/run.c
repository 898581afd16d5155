/* Plays a script (docs/SCRIPT.md) by one call, and writes what the program writes for it. The status is 2 if a record is malformed.
 * usage: run <SCRIPT
 */
#include "yektrod.h"
#include <stdio.h>
#include <stdlib.h>

static uint8_t *grown(uint8_t *block, size_t size) {
    block = realloc(block, size + 1);
    if (!block) exit(1);
    return block;
}

int main(void) {
    uint8_t *script = NULL, *out = grown(NULL, 0);
    size_t length = 0, got, written, malformed = 0;
    do {
        script = grown(script, length + 65536);
        got = fread(script + length, 1, 65536, stdin);
        length += got;
    } while (got);
    *out = 0;
    /* The first call says how much room is needed. */
    int32_t status = yektrod_run(script, length, out, 0, &written, &malformed);
    if (status != YEKTROD_NO_MEMORY && written) {
        size_t room = written;
        free(out);
        out = calloc(room, 1);
        if (!out) return 1;
        status = yektrod_run(script, length, out, room, &written, &malformed);
    }
    if (status == YEKTROD_NO_MEMORY) return fputs("run: out of memory\n", stderr), 1;
    fwrite(out, 1, written, stdout);
    if (status == YEKTROD_MALFORMED) fprintf(stderr, "run: malformed record %zu\n", malformed);
    free(out);
    free(script);
    return status == YEKTROD_MALFORMED ? 2 : status;
}

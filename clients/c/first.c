/* Looks two attributes of a path up. */
#include <stdio.h>
#include <string.h>
#include "yektrod.h"

#define BYTES(text) (const uint8_t *)(text), strlen(text)

int main(void) {
    static const char *const states[] = {"unspecified", "set", "unset"};
    const yektrod_bytes names[] = {{BYTES("text")}, {BYTES("eol")}};
    const yektrod_place place = {{BYTES("")}, {BYTES(".gitattributes")}};
    const yektrod_question question = {{BYTES("script.sh")}, false, 0};
    yektrod y = {0};
    yektrod_row rows[2];
    uint8_t text[256];
    yektrod_needed needed;
    size_t list, dropped;
    if (yektrod_open(&y) || yektrod_add_in(&y, BYTES("*.sh text eol=lf\n"), &place, true, &list, &dropped) ||
        yektrod_select(&y, names, 2) || yektrod_ask_into(&y, &question, rows, 2, text, sizeof text, &needed))
        return 1;
    for (size_t i = 0; i < needed.rows; i++) {
        const char *name = (char *)text + rows[i].at, *value = name + rows[i].name_length;
        printf("%.*s: ", (int)rows[i].name_length, name);
        if (rows[i].state == YEKTROD_HAS_VALUE) printf("%.*s\n", (int)rows[i].value_length, value);
        else puts(states[rows[i].state]);
    }
    yektrod_close(&y);
    return 0;
}

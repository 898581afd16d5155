// Refuses one request for memory of the program that it is loaded into: the one whose number, counted from 1, stands in
// REFUSED_REQUEST. It then makes the file REFUSED_MARK.
#include <errno.h>
#include <fcntl.h>
#include <stdlib.h>
#include <unistd.h>

extern void *__libc_malloc(size_t size);
extern void *__libc_realloc(void *old, size_t size);

static unsigned long requests;

static int is_refused(void) {
    const char *number = getenv("REFUSED_REQUEST");
    const char *mark = getenv("REFUSED_MARK");
    if (!number || !mark || ++requests != strtoul(number, 0, 10)) {
        return 0;
    }
    close(open(mark, O_CREAT | O_WRONLY, 0600));
    errno = ENOMEM;
    return 1;
}

void *malloc(size_t size) {
    return is_refused() ? 0 : __libc_malloc(size);
}

void *realloc(void *old, size_t size) {
    return is_refused() ? 0 : __libc_realloc(old, size);
}

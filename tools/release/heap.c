/* The three functions through which the library takes memory, for targets for which the kit has none. An allocation of no bytes is one of its
   alignment, so that it has an address of its own; a refused one has the address of a byte that is never used. */
#include <stddef.h>
#include <stdint.h>
#include <stdlib.h>

typedef struct {
    uint64_t is_there;
    void *at;
} tried;

static char nothing;

static tried told(void *at) { return (tried){at != NULL, at != NULL ? at : &nothing}; }

tried rattle_alloc(size_t length, size_t alignment) { return told(malloc(length ? length : alignment)); }

tried rattle_realloc(void *at, size_t old_length, size_t length, size_t alignment) {
    (void)old_length;
    return told(realloc(at, length ? length : alignment));
}

void rattle_dealloc(void *at) { free(at); }

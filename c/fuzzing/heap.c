/* The heap of the library under test, in the place of the kit's: it counts what is out, fills what it gives, and refuses the request of a
 * number. The three names, and the two words of an answer, are those that the library calls. */
#include "fuzzing.h"
#include <malloc.h>
#include <stdlib.h>
#include <string.h>

typedef struct {
    size_t ok;
    void *block; /* never null, though it points nowhere where there was no memory */
} tried;

struct heap heap = {0, 0, 0, -1, false};

static tried answer(void *block) {
    return (tried){block != 0, block ? block : (void *)&heap};
}

static bool is_refused(void) {
    bool refused = heap.requests++ == heap.refuse;
    heap.refused |= refused;
    return refused;
}

tried rattle_alloc(size_t size, size_t align) {
    void *block;
    if (is_refused()) return answer(0);
    block = malloc(size ? size : align);
    if (!block) return answer(0);
    heap.blocks++, heap.bytes += malloc_usable_size(block);
    /* (under a sanitizer the fill would hide that a byte wasn't written) */
    if (!SANITIZED) memset(block, 0xCD, size);
    return answer(block);
}

tried rattle_realloc(void *old, size_t old_size, size_t size, size_t align) {
    size_t had = malloc_usable_size(old);
    void *block;
    (void)old_size;
    if (is_refused()) return answer(0);
    block = realloc(old, size ? size : align);
    if (block) heap.bytes += malloc_usable_size(block) - had;
    return answer(block);
}

void rattle_dealloc(void *block, size_t size, size_t align) {
    (void)size, (void)align;
    heap.blocks--, heap.bytes -= malloc_usable_size(block);
    free(block);
}

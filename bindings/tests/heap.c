#include "heap.h"

void *__real_malloc(size_t size);
void *__real_realloc(void *old, size_t size);
void __real_free(void *old);
void *__wrap_malloc(size_t size);
void *__wrap_realloc(void *old, size_t size);
void __wrap_free(void *old);

static size_t made, refused;
static ptrdiff_t held;

void refuse_request(size_t number) { made = 0, refused = number, held = 0; }

size_t requests_made(void) { return made; }

ptrdiff_t blocks_held(void) { return held; }

void *__wrap_malloc(size_t size) {
    void *block = ++made == refused ? NULL : __real_malloc(size);
    held += block != NULL;
    return block;
}

void *__wrap_realloc(void *old, size_t size) {
    void *block = ++made == refused ? NULL : __real_realloc(old, size);
    held += block && !old;
    return block;
}

void __wrap_free(void *old) {
    held -= old != NULL;
    __real_free(old);
}

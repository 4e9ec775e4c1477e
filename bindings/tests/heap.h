/* The heap of a test program: counts the blocks that calls hold, and refuses one request. The linker has to put it before that
 * of the C library: -Wl,--wrap=malloc,--wrap=realloc,--wrap=free. */
#ifndef HEAP_H
#define HEAP_H

#include <stddef.h>

/* From now on, the request with this number is refused, counted from 1; none for 0. */
void refuse_request(size_t number);

/* The number of requests since then, refused ones included, and how many blocks are held more than then. */
size_t requests_made(void);
ptrdiff_t blocks_held(void);

#endif

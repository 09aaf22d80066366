/* What heap.c and collect.c share: the heap, which is mapped once, and the holes in it. */
#ifndef HEAP_H
#define HEAP_H

#include "vm.h"

/* A bit for each 8 bytes of the heap: where objects start, and which of them are marked. */
typedef struct Heap {
    char *start, *limit;
    char *high; /* what lies above was never used, so it is 0 */
    uint64_t *starts, *marks;
} Heap;

extern Heap heap;

static inline size_t place_of(void *at) { return (size_t)((char *)at - heap.start) / 8; }

void heap_open(size_t size);
void heap_no_holes(void); /* in a stopped world: no thread has room to allocate any more */
void heap_add_hole(char *at, char *end); /* by rising places */

#endif

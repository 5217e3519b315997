/* Memory of the C library, or the end of the run with status 5. */
#ifndef MEMORY_OR_DIE_H
#define MEMORY_OR_DIE_H

#include <stdio.h>
#include <stdlib.h>

static inline void *or_die(void *memory)
{
    if (memory == NULL) {
        puts("error: no memory");
        exit(5);
    }
    return memory;
}

static inline void *resized(void *memory, size_t bytes)
{
    return or_die(realloc(memory, bytes));
}

static inline void *zeroed(size_t count, size_t bytes)
{
    return or_die(calloc(count, bytes));
}

#endif

/* How much stack a call takes: how much of a painted one is written. Define _XOPEN_SOURCE as 700 first. */
#ifndef CONIKS_PAINTED_H
#define CONIKS_PAINTED_H

#include <pthread.h>
#include <stdint.h>
#include <stdlib.h>
#include <string.h>

enum { PAINTED = 1 << 20, PAINT = 0xa5 };

/* Makes a call in a thread of its own, with what it returns in *result. Returns how many bytes of its stack were written. */
static size_t painted(void *(*call)(void *), void *argument, void **result)
{
    pthread_attr_t attributes;
    pthread_t thread;
    size_t unused = 0;
    uint8_t *stack = aligned_alloc(4096, PAINTED);
    if (stack == NULL)
        exit(2);
    memset(stack, PAINT, PAINTED);
    pthread_attr_init(&attributes);
    if (pthread_attr_setstack(&attributes, stack, PAINTED) || pthread_create(&thread, &attributes, call, argument) ||
        pthread_join(thread, result))
        exit(2);
    while (unused < PAINTED && stack[unused] == PAINT)
        unused++;
    free(stack);
    return PAINTED - unused;
}

#endif

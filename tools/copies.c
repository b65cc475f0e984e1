/* Counts the copies of more than 2,000 bytes that a program makes through memcpy and memmove, and writes their number to standard
   error as it ends. tools/copies loads it before the system's library. */
#include <stddef.h>
#include <stdio.h>

static unsigned long copies;

static void *copy(unsigned char *to, const unsigned char *from, size_t n, int backwards)
{
    if (n > 2000)
        copies++;
    if (backwards)
        while (n--)
            to[n] = from[n];
    else
        for (size_t i = 0; i < n; i++)
            to[i] = from[i];
    return to;
}

void *memcpy(void *to, const void *from, size_t n) { return copy(to, from, n, 0); }

void *memmove(void *to, const void *from, size_t n) { return copy(to, from, n, to > from); }

__attribute__((destructor)) static void tell(void) { fprintf(stderr, "%lu\n", copies); }

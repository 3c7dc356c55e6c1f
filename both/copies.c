/* Counts what is copied between `begin_call` and `end_call`: linked into `bench` in the place of the C library's memcpy and memmove, so
   that every copy that is a call is seen. At the end of the call: bytes and copies, on one line of standard output. */
#include <stddef.h>
#include <stdio.h>

void begin_call(void);
void end_call(void);
void *memcpy(void *restrict to, const void *restrict from, size_t bytes);
void *memmove(void *to, const void *from, size_t bytes);

static size_t copies, copied;

/* byte by byte, and through volatile: a compiler makes a call of memcpy out of a plain loop */
static void put(volatile unsigned char *to, const volatile unsigned char *from, size_t at) { to[at] = from[at]; }

void *memcpy(void *restrict to, const void *restrict from, size_t bytes)
{
    copies++;
    copied += bytes;
    for (size_t at = 0; at < bytes; at++)
        put(to, from, at);
    return to;
}

void *memmove(void *to, const void *from, size_t bytes)
{
    copies++;
    copied += bytes;
    const int forward = (const unsigned char *)to < (const unsigned char *)from;
    for (size_t i = 0; i < bytes; i++)
        put(to, from, forward ? i : bytes - 1 - i);
    return to;
}

void begin_call(void) { copies = copied = 0; }

void end_call(void)
{
    const size_t bytes = copied, calls = copies;
    printf("%zu bytes in %zu copies\n", bytes, calls);
}

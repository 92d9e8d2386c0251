/*
 * A host without an operating system's libraries: the library needs memcpy and memset, and nothing else.
 * Ends with 0 where a seal that must be refused is refused, and its pull left as it was.
 */
#include "snaldrek.h"

void *memcpy(void *to, const void *from, size_t n)
{
    uint8_t *t = (uint8_t *)to;
    const uint8_t *f = (const uint8_t *)from;
    while (n--)
        *t++ = *f++;
    return to;
}

void *memset(void *to, int byte, size_t n)
{
    uint8_t *t = (uint8_t *)to;
    while (n--)
        *t++ = (uint8_t)byte;
    return to;
}

/* Gate "at least 5e-324", raw 0. */
static const uint8_t body[SNALDREK_SEAL_BYTES] = {1, 1};

static int wrong(void)
{
    double pull = 7;
    return snaldrek_seal(body, sizeof body, 1.0, 0.0, &pull) != SNALDREK_PULL_OUTSIDE || pull != 7;
}

/* The stack is aligned as a call would leave it; then the program ends itself. */
__attribute__((force_align_arg_pointer)) void _start(void)
{
    __asm__ volatile("syscall" : : "a"(60), "D"((long)wrong()) : "rcx", "r11", "memory");
    for (;;)
        ;
}

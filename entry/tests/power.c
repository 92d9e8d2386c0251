/*
 * The power goes at a write: to be linked into a host with the linker's --wrap. LOST_AT names the write,
 * counted from 1, and LOST_PARTS how much of it still reaches the medium, in quarters. With LOST_BEFORE it
 * is the write before that one of which so much is there, as on a medium that exchanges the two.
 */
#include <stdlib.h>
#include <sys/types.h>
#include <unistd.h>

ssize_t __real_pwrite64(int file, const void *bytes, size_t length, off_t at);
ssize_t __wrap_pwrite64(int file, const void *bytes, size_t length, off_t at);
ssize_t __wrap_pwrite(int file, const void *bytes, size_t length, off_t at);

static long number(const char *name) { return getenv(name) ? strtol(getenv(name), NULL, 10) : 0; }

ssize_t __wrap_pwrite64(int file, const void *bytes, size_t length, off_t at)
{
    static long writes;
    const long before = number("LOST_BEFORE"), left = number("LOST_AT") - ++writes;
    const size_t part = length * (size_t)number("LOST_PARTS") / 4;
    if (left != before && left != 0)
        return __real_pwrite64(file, bytes, length, at);
    if (left == before && part > 0)
        (void)!__real_pwrite64(file, bytes, part, at);
    if (left == 0 && before > 0)
        (void)!__real_pwrite64(file, bytes, length, at);
    if (left == 0)
        _exit(9);
    return (ssize_t)length;
}

ssize_t __wrap_pwrite(int file, const void *bytes, size_t length, off_t at)
{
    return __wrap_pwrite64(file, bytes, length, at);
}

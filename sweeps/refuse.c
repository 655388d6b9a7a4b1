/* Refuses allocations of a program from outside. Preloaded, it overrides malloc, calloc and realloc
   of the C library, the only functions that Rattle's allocator calls.

   REFUSE_AT     the number of the allocation that is refused, from 1 on; with 0 or without it,
                 allocations are only counted, and their number is written to standard error at exit
   REFUSE_LATER  if set, each later allocation is refused too
   REFUSE_WHOLE  if set, all allocations of the process count; else only those in a window

   A window opens when the program writes text to standard output that doesn't end with a line feed,
   which is the name of a case, and closes when it writes ": ".

   Random octets are always the same, so that equal runs leave equal files. */

#define _GNU_SOURCE
#include <errno.h>
#include <stdio.h>
#include <stdlib.h>
#include <string.h>
#include <sys/syscall.h>
#include <unistd.h>

extern void *__libc_malloc(size_t size);
extern void *__libc_calloc(size_t count, size_t size);
extern void *__libc_realloc(void *block, size_t size);

static unsigned long growths, refused_at;
static int whole, is_open, refuses_later;

__attribute__((constructor)) static void begin(void)
{
    const char *at = getenv("REFUSE_AT");
    refused_at = at ? strtoul(at, NULL, 10) : 0;
    refuses_later = getenv("REFUSE_LATER") != NULL;
    whole = getenv("REFUSE_WHOLE") != NULL;
    is_open = whole;
}

__attribute__((destructor)) static void end(void)
{
    is_open = 0;
    if (refused_at == 0)
        dprintf(2, "growths %lu\n", growths);
}

static int is_refused(void)
{
    if (!is_open)
        return 0;
    growths++;
    if (refused_at == 0 || growths < refused_at || (growths > refused_at && !refuses_later))
        return 0;
    errno = ENOMEM;
    return 1;
}

void *malloc(size_t size)
{
    return is_refused() ? NULL : __libc_malloc(size);
}

void *calloc(size_t count, size_t size)
{
    return is_refused() ? NULL : __libc_calloc(count, size);
}

void *realloc(void *block, size_t size)
{
    return is_refused() ? NULL : __libc_realloc(block, size);
}

ssize_t write(int file, const void *octets, size_t count)
{
    const char *text = octets;
    ssize_t written;

    if (file != 1 || whole || count == 0)
        return syscall(SYS_write, file, octets, count);
    is_open = 0;
    written = syscall(SYS_write, file, octets, count);
    if (text[count - 1] != '\n' && (count != 2 || memcmp(text, ": ", 2) != 0))
        is_open = 1;
    return written;
}

int getentropy(void *octets, size_t count)
{
    memset(octets, 7, count);
    return 0;
}

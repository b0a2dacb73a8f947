/* An allocator that refuses: loaded before the C library's (LD_PRELOAD), it counts the requests for memory and refuses
   the one with the number REFUSE_AT, and where REFUSE_ALL is set every later one too. A request is a call of malloc,
   calloc or realloc; giving memory back is none. Where REFUSE_LOG names a file, it gets numbers when the process
   ends: how many requests there were, and the size of each that was refused, up to MANY of them. */
#define _GNU_SOURCE
#include <errno.h>
#include <fcntl.h>
#include <stddef.h>
#include <stdio.h>
#include <stdlib.h>
#include <string.h>
#include <unistd.h>

void *__libc_malloc(size_t size);
void *__libc_calloc(size_t count, size_t size);
void *__libc_realloc(void *old, size_t size);

enum { MANY = 4096 };

static unsigned long requests, refused, refuse_at, refuse_all, sizes[MANY];
static int is_ready;

static unsigned long number(const char *name)
{
    const char *text = getenv(name);
    unsigned long value = 0;
    for (; text && *text >= '0' && *text <= '9'; text++)
        value = 10 * value + (unsigned long)(*text - '0');
    return value;
}

static int is_refused(size_t size)
{
    if (!is_ready) {
        is_ready = 1;
        refuse_at = number("REFUSE_AT");
        refuse_all = number("REFUSE_ALL");
    }
    requests++;
    if (refuse_at == 0 || requests < refuse_at || (requests > refuse_at && !refuse_all))
        return 0;
    if (refused < MANY)
        sizes[refused] = size;
    refused++;
    errno = ENOMEM;
    return 1;
}

void *malloc(size_t size)
{
    return is_refused(size) ? NULL : __libc_malloc(size);
}

void *calloc(size_t count, size_t size)
{
    return is_refused(count * size) ? NULL : __libc_calloc(count, size);
}

void *realloc(void *old, size_t size)
{
    return is_refused(size) ? NULL : __libc_realloc(old, size);
}

static void print(int to, unsigned long value)
{
    char digits[24];
    size_t at = sizeof digits;
    digits[--at] = '\n';
    do
        digits[--at] = (char)('0' + value % 10);
    while (value /= 10);
    if (write(to, digits + at, sizeof digits - at) < 0)
        _exit(99);
}

__attribute__((destructor)) static void report(void)
{
    const char *file = getenv("REFUSE_LOG");
    unsigned long at;
    int to;
    if (!file || (to = open(file, O_WRONLY | O_CREAT | O_TRUNC, 0600)) < 0)
        return;
    print(to, requests);
    for (at = 0; at < refused && at < MANY; at++)
        print(to, sizes[at]);
    close(to);
}

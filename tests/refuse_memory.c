/* A library to preload that refuses one request for memory, or reports each.
 *
 * REFUSE_REQUEST is the number of the request that gets NULL, counted from 1. That request makes the file that
 * REFUSE_REPORT names, so that without it no request was refused. With REFUSE_NONE instead, none is refused, and each
 * writes a line `request N` to standard output, where N is its number of bytes: of `realloc` all of the block. It needs
 * GNU's C library.
 */
#include <errno.h>
#include <fcntl.h>
#include <stddef.h>
#include <stdio.h>
#include <stdlib.h>
#include <unistd.h>

void *__libc_malloc(size_t size);
void *__libc_calloc(size_t count, size_t size);
void *__libc_realloc(void *block, size_t size);
void *__libc_memalign(size_t alignment, size_t size);

/* The number of requests up to the refused one, including it; 0 if none is refused any more. */
static unsigned long requests_left;

/* Whether each request writes a line. */
static int are_told;

__attribute__((constructor)) static void begin(void)
{
    const char *request = getenv("REFUSE_REQUEST");
    requests_left = request ? strtoul(request, NULL, 10) : 0;
    are_told = getenv("REFUSE_NONE") != NULL;
}

/* Reports a request for this many bytes. Exits with status 99 if that fails. */
static void tell(size_t size)
{
    char line[40];
    const int length = snprintf(line, sizeof line, "request %zu\n", size);
    if (length < 0 || write(STDOUT_FILENO, line, (size_t)length) != length)
        _exit(99);
}

/* Reports that a request is refused. Exits with status 99 if that fails. */
static void report(void)
{
    const char *path = getenv("REFUSE_REPORT");
    int file = path ? open(path, O_WRONLY | O_CREAT | O_TRUNC, 0600) : -1;
    if (file < 0 || close(file) != 0)
        _exit(99);
}

/* Returns whether this request, for this many bytes, is the one to refuse. */
static int is_refused(size_t size)
{
    if (are_told)
        tell(size);
    if (requests_left == 0)
        return 0;
    requests_left -= 1;
    if (requests_left > 0)
        return 0;
    report();
    errno = ENOMEM;
    return 1;
}

void *malloc(size_t size)
{
    return is_refused(size) ? NULL : __libc_malloc(size);
}

void *calloc(size_t count, size_t size)
{
    return is_refused(count * size) ? NULL : __libc_calloc(count, size);
}

void *realloc(void *block, size_t size)
{
    return is_refused(size) ? NULL : __libc_realloc(block, size);
}

void *aligned_alloc(size_t alignment, size_t size)
{
    return is_refused(size) ? NULL : __libc_memalign(alignment, size);
}

int posix_memalign(void **block, size_t alignment, size_t size)
{
    if (is_refused(size))
        return ENOMEM;
    void *made = __libc_memalign(alignment, size);
    if (made == NULL)
        return ENOMEM;
    *block = made;
    return 0;
}

/* A library to preload that shortens reads and writes, and lets a signal interrupt them.
 *
 * DEVICE_BYTES is the most bytes that a read or write moves; without it they are as usual. SIGUSR1 has a handler that
 * does nothing and restarts no call, so that a waiting call fails as interrupted, or ends with the bytes that it has
 * moved.
 */
#define _GNU_SOURCE
#include <signal.h>
#include <stdlib.h>
#include <sys/syscall.h>
#include <unistd.h>

static size_t most_bytes = (size_t)-1;

static void ignore(int number)
{
    (void)number;
}

__attribute__((constructor)) static void begin(void)
{
    const char *bytes = getenv("DEVICE_BYTES");
    struct sigaction action = {.sa_handler = ignore, .sa_flags = 0};
    if (bytes != NULL)
        most_bytes = strtoul(bytes, NULL, 10);
    if (sigemptyset(&action.sa_mask) != 0 || sigaction(SIGUSR1, &action, NULL) != 0)
        _exit(99);
}

static size_t shortened(size_t count)
{
    return count < most_bytes ? count : most_bytes;
}

ssize_t read(int file, void *bytes, size_t count)
{
    return syscall(SYS_read, file, bytes, shortened(count));
}

ssize_t write(int file, const void *bytes, size_t count)
{
    return syscall(SYS_write, file, bytes, shortened(count));
}

ssize_t __write(int file, const void *bytes, size_t count)
{
    return write(file, bytes, count);
}

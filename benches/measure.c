/* measure INPUT PROGRAM ARG ..   Runs a program from a file to /dev/null, without messages, and prints how it ended.
 *
 * Prints its status, the microseconds from before its start to after its end, and its peak memory in KiB. A script
 * can't measure the last: a program that it starts counts the memory of the script as its own.
 */
#define _GNU_SOURCE
#include <fcntl.h>
#include <stdio.h>
#include <sys/resource.h>
#include <sys/wait.h>
#include <time.h>
#include <unistd.h>

static void run(char **arguments)
{
    int input = open(arguments[1], O_RDONLY), nothing = open("/dev/null", O_WRONLY);
    if (dup2(input, 0) < 0 || dup2(nothing, 1) < 0 || dup2(nothing, 2) < 0)
        _exit(126);
    execv(arguments[2], arguments + 2);
    _exit(127);
}

int main(int count, char **arguments)
{
    struct timespec begin, end;
    struct rusage usage;
    int status;
    if (count < 3)
        return 2;
    clock_gettime(CLOCK_MONOTONIC, &begin);
    pid_t child = fork();
    if (child == 0)
        run(arguments);
    if (child < 0 || wait4(child, &status, 0, &usage) != child)
        return 1;
    clock_gettime(CLOCK_MONOTONIC, &end);
    long taken = (end.tv_sec - begin.tv_sec) * 1000000 + (end.tv_nsec - begin.tv_nsec) / 1000;
    printf("%d %ld %ld\n", WIFEXITED(status) ? WEXITSTATUS(status) : 128 + WTERMSIG(status), taken, usage.ru_maxrss);
    return 0;
}

/* Tests calls of the library from several threads at once, over a shared source and shared pairs. */
#include "subst.h"

#include <pthread.h>
#include <stdio.h>
#include <string.h>

/* More pairs and placeholders than are searched one by one. */
enum { THREADS = 4, TURNS = 500, PAIRS = 40, ROOM = 256 };

static char names[PAIRS][8];
static struct subst_pair pairs[PAIRS];
static char source[ROOM];
static char wanted[ROOM];

/* Makes pairs a0, a1, .. whose values are their names, a source with all of them, and its output. */
static void make_source(void)
{
    for (int at = 0; at < PAIRS; at++) {
        struct subst_pair pair = {names[at], 0, names[at], 0};
        const int length = snprintf(names[at], sizeof names[at], "a%d", at);
        pair.name_len = pair.value_len = (size_t)length;
        pairs[at] = pair;
        strcat(strcat(source, at > 0 ? ".$" : "$"), names[at]);
        strcat(strcat(wanted, at > 0 ? "." : ""), names[at]);
    }
}

/* Returns whether a call has this output, and another one reports the fault without the last pair. */
static int is_right(void)
{
    char buffer[ROOM];
    size_t needed = 0;
    struct subst_fault fault = {0, 0, 0};
    if (subst_bytes(source, strlen(source), pairs, PAIRS, buffer, sizeof buffer, &needed, &fault) != SUBST_DONE)
        return 0;
    if (needed != strlen(wanted) || memcmp(buffer, wanted, needed) != 0)
        return 0;
    return subst_bytes(source, strlen(source), pairs, PAIRS - 1, buffer, sizeof buffer, &needed, &fault) == SUBST_REFUSED &&
           fault.kind == SUBST_NO_SUCH_VARIABLE && fault.position + fault.length == strlen(source);
}

static void *run_thread(void *right)
{
    for (int turn = 0; turn < TURNS; turn++)
        *(int *)right += is_right();
    return NULL;
}

int main(void)
{
    pthread_t threads[THREADS];
    int right[THREADS] = {0}, passed = 0;
    make_source();
    for (int at = 0; at < THREADS; at++)
        if (pthread_create(&threads[at], NULL, run_thread, &right[at]) != 0)
            return 1;
    for (int at = 0; at < THREADS; at++)
        passed += pthread_join(threads[at], NULL) == 0 && right[at] == TURNS;
    printf("%d of %d threads passed\n", passed, THREADS);
    return passed == THREADS ? 0 : 1;
}

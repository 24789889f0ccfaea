/* calls WORK CALLS SOURCE VARIABLES   Makes a call of the library for C so many times, over a file and its variables.
 *
 * VARIABLES has a line NAME=VALUE for each variable. WORK is `bytes` (subst_bytes_into), `parse` (subst_template_new),
 * `expand` (subst_expand over a template that is kept), or `each` (subst_bytes_each over so many equal rows).
 */
#include <stdio.h>
#include <stdlib.h>
#include <string.h>
#include <subst.h>

enum { MOST = 100000 };

static char *contents(const char *path, size_t *length)
{
    FILE *file = fopen(path, "rb");
    char *data = malloc(64 << 20);
    *length = file && data ? fread(data, 1, 64 << 20, file) : 0;
    return data;
}

static size_t split(char *text, struct subst_pair *pairs)
{
    size_t count = 0;
    for (char *line = strtok(text, "\n"); line && count < MOST; line = strtok(NULL, "\n")) {
        size_t name = strcspn(line, "=");
        pairs[count++] = (struct subst_pair){line, name, line + name + 1, strlen(line + name + 1)};
    }
    return count;
}

/* Fills the values by number from the pairs. */
static void find(const struct subst_cell *cells, size_t cells_len, const char *source, size_t length,
                 const struct subst_pair *pairs, size_t count, struct subst_value *values)
{
    struct subst_variable name;
    for (size_t i = 0; subst_template_variable(cells, cells_len, source, length, i, &name) == SUBST_DONE; i++)
        for (size_t at = 0; at < count; at++)
            if (pairs[at].name_len == name.length && !memcmp(pairs[at].name, source + name.position, name.length))
                values[i] = (struct subst_value){pairs[at].value, pairs[at].value_len, SUBST_SET};
}

int main(int argc, char **argv)
{
    static struct subst_pair pairs[MOST];
    static struct subst_value values[MOST];
    static char buffer[64 << 20];
    size_t length, size, cells_len = 0, needed = 0, row, calls = argc == 5 ? strtoul(argv[2], NULL, 10) : 0;
    if (calls == 0)
        return 2;
    char *source = contents(argv[3], &length), *text = contents(argv[4], &size);
    text[size] = 0;
    size_t count = split(text, pairs);
    struct subst_fault fault;
    struct subst_cell *cells = NULL;
    subst_template_new(source, length, 0, &cells, &cells_len, &fault);
    find(cells, cells_len, source, length, pairs, count, values);
    struct subst_row *rows = calloc(calls, sizeof *rows);
    size_t *ends = calloc(calls, sizeof *ends);
    for (size_t i = 0; i < calls; i++)
        rows[i] = (struct subst_row){pairs, count};
    uint32_t result = SUBST_DONE;
    char work = argv[1][0];
    if (work == 'e' && argv[1][1] == 'a')
        return (int)subst_bytes_each(source, length, rows, calls, buffer, sizeof buffer, ends, calls, &needed, &row,
                                     &fault);
    for (size_t i = 0; i < calls && result == SUBST_DONE; i++) {
        if (work == 'b') {
            result = subst_bytes_into(source, length, pairs, count, buffer, sizeof buffer, &needed, &fault);
        } else if (work == 'p') {
            free(cells);
            result = subst_template_new(source, length, 0, &cells, &cells_len, &fault);
        } else {
            result = subst_expand(cells, cells_len, source, length, values, cells_len, buffer, sizeof buffer, &needed,
                                  &fault);
        }
    }
    return (int)result;
}

/* Tests of what only C and C++ can pass: the functions of subst.h with NULL beside a length of 0, and its version.
 * fuzz/subst.c tests all other promises of the header. A failed test prints a line, and the last line is 'N passed, M
 * failed'.
 *
 * With the arguments CALL SOURCE [NAME VALUE].., makes this call alone, and exits with its result.
 */
#include "subst.h"

#include <stdio.h>
#include <stdlib.h>
#include <string.h>

enum { ROOM = 128, MOST_PAIRS = 64 };

static int passed, failed;
/* The name of the tested call. */
static const char *tested = "";

#define EXPECT(fact) ((fact) ? (void)(passed += 1) : fail(#fact))

static void fail(const char *fact)
{
    failed += 1;
    printf("%s FAILED: %s\n", tested, fact);
}

/* Returns whether a call is done and needs nothing, and resets the needed length. */
static int is_empty(uint32_t result, size_t *needed)
{
    int is_right = result == SUBST_DONE && *needed == 0;
    *needed = ROOM;
    return is_right;
}

typedef uint32_t filling(const void *source, size_t source_len, const struct subst_pair *pairs, size_t pairs_len,
                         void *buffer, size_t buffer_len, size_t *needed, struct subst_fault *fault);

/* Tests a call that fills in, also without a buffer. */
static void test_filling(const char *name, filling *call)
{
    struct subst_pair empty = {"a", 1, NULL, 0}, nameless = {NULL, 0, "1", 1};
    struct subst_fault fault = {0, 0, 0};
    size_t needed = ROOM;
    char buffer[ROOM];
    tested = name;
    EXPECT(is_empty(call(NULL, 0, NULL, 0, NULL, 0, &needed, &fault), &needed));
    EXPECT(call("${a:bc}", 7, NULL, 0, NULL, 0, &needed, &fault) == SUBST_ROOM_TOO_SMALL && needed == 2);
    EXPECT(call("<${a:bc}>", 9, &empty, 1, buffer, 2, &needed, &fault) == SUBST_DONE && needed == 2
           && memcmp(buffer, "<>", 2) == 0);
    EXPECT(call("$a", 2, &nameless, 1, NULL, 0, &needed, &fault) == SUBST_REFUSED
           && fault.kind == SUBST_NO_SUCH_VARIABLE);
}

static void test_rows_and_lists(void)
{
    struct subst_row row = {NULL, 0};
    struct subst_fault fault;
    size_t needed = ROOM, end = ROOM, index;
    char buffer[1];
    EXPECT(is_empty(subst_bytes_each(NULL, 0, NULL, 0, NULL, 0, NULL, 0, &needed, &index, &fault), &needed));
    EXPECT(subst_bytes_each("a", 1, &row, 1, buffer, 1, &end, 1, &needed, &index, &fault) == SUBST_DONE
           && needed == 1 && end == 1 && buffer[0] == 'a');
    EXPECT(subst_check(NULL, 0, &fault) == SUBST_DONE);
    EXPECT(is_empty(subst_variables(NULL, 0, NULL, 0, &needed, &fault), &needed));
    EXPECT(is_empty(subst_missing(NULL, 0, NULL, 0, NULL, 0, &needed, &fault), &needed));
    EXPECT(subst_missing("$a", 2, NULL, 0, NULL, 0, &needed, &fault) == SUBST_ROOM_TOO_SMALL && needed == 1);
}

static void test_documents_and_faults(void)
{
    struct subst_fault fault;
    size_t needed = ROOM, line = 0, column = 0;
    EXPECT(subst_json(NULL, 0, NULL, 0, NULL, 0, &needed, &fault) == SUBST_REFUSED
           && fault.kind == SUBST_INVALID_DOCUMENT);
    EXPECT(is_empty(subst_toml(NULL, 0, NULL, 0, NULL, 0, &needed, &fault), &needed));
    EXPECT(is_empty(subst_yaml(NULL, 0, NULL, 0, NULL, 0, &needed, &fault), &needed));
    EXPECT(is_empty(subst_json_fault_text("1", 1, NULL, 0, NULL, 0, &needed), &needed));
    EXPECT(is_empty(subst_toml_fault_text(NULL, 0, NULL, 0, NULL, 0, &needed), &needed));
    EXPECT(is_empty(subst_yaml_fault_text(NULL, 0, NULL, 0, NULL, 0, &needed), &needed));
    EXPECT(is_empty(subst_fault_text(NULL, 0, NULL, 0, NULL, 0, &needed), &needed));
    EXPECT(is_empty(subst_fault_highlighting(NULL, 0, NULL, 0, NULL, 0, &needed), &needed));
    EXPECT(subst_place(NULL, 0, 0, &line, &column) == SUBST_DONE && line == 1 && column == 1);
}

/* The span of a fault is its own, within its value. */
static void test_yaml(void)
{
    const struct subst_pair port = {"PORT", 4, "80", 2}, mapping = {"PORT", 4, "a: b", 4};
    struct subst_fault fault = {0, 0, 0};
    size_t needed = ROOM;
    char buffer[ROOM];
    EXPECT(subst_yaml("a: $PORT # $A", 13, &port, 1, buffer, ROOM, &needed, &fault) == SUBST_DONE && needed == 10
           && memcmp(buffer, "a: 80 # $A", 10) == 0);
    EXPECT(subst_yaml("$PORT: $PORT", 12, &mapping, 1, buffer, 12, &needed, &fault) == SUBST_ROOM_TOO_SMALL
           && needed == 13);
    EXPECT(subst_yaml("$PORT: $PORT", 12, &mapping, 1, buffer, 13, &needed, &fault) == SUBST_DONE && needed == 13
           && memcmp(buffer, "$PORT: \"a: b\"", 13) == 0);
    EXPECT(subst_yaml("- 1\n- \"$PORT$A\"\n", 16, &port, 1, buffer, ROOM, &needed, &fault) == SUBST_REFUSED
           && fault.kind == SUBST_NO_SUCH_VARIABLE && fault.position == 13 && fault.length == 1);
    EXPECT(subst_yaml_fault_text("- 1\n- \"$PORT$A\"\n", 16, &port, 1, buffer, ROOM, &needed) == SUBST_DONE
           && needed > 5 && memcmp(buffer, "[1]: ", 5) == 0);
    EXPECT(subst_yaml("a: $A\n\tb: 1", 11, NULL, 0, buffer, ROOM, &needed, &fault) == SUBST_REFUSED
           && fault.kind == SUBST_NOT_YAML && fault.position == 6 && fault.length == 1);
    EXPECT(subst_yaml_fault_text("a: $A\n\tb: 1", 11, NULL, 0, buffer, ROOM, &needed) == SUBST_DONE
           && needed > 5 && memcmp(buffer, "a tab", 5) == 0);
    EXPECT(subst_yaml("\xC3", 1, NULL, 0, buffer, ROOM, &needed, &fault) == SUBST_NOT_UTF8);
}

typedef uint32_t naming(const void *source, size_t source_len, void *buffer, size_t buffer_len, size_t *ends,
                        size_t ends_len, size_t *needed, size_t *count, struct subst_fault *fault);
typedef uint32_t numbering(const void *source, size_t source_len, const struct subst_value *values, size_t values_len,
                           void *buffer, size_t buffer_len, size_t *needed, struct subst_fault *fault);

/* Tests a document whose name a is spelled with an escape, and no bytes, which are no document of JSON alone. */
static void test_names(const char *name, naming *parse, numbering *expand, const char *source, const char *output)
{
    const struct subst_value value = {"1", 1, SUBST_SET};
    const uint32_t empty = *source == '[' ? SUBST_REFUSED : SUBST_DONE;
    const size_t length = strlen(source), output_len = strlen(output);
    struct subst_fault fault = {0, 0, 0};
    size_t needed = 0, count = 0, end = 0;
    char buffer[ROOM];
    tested = name;
    EXPECT(parse(NULL, 0, NULL, 0, NULL, 0, &needed, &count, &fault) == empty && needed == 0 && count == 0);
    EXPECT(expand(NULL, 0, NULL, 0, NULL, 0, &needed, &fault) == empty && needed == 0);
    EXPECT(fault.kind == (empty == SUBST_DONE ? 0 : SUBST_INVALID_DOCUMENT));
    EXPECT(parse(source, length, NULL, 0, NULL, 0, &needed, &count, &fault) == SUBST_ROOM_TOO_SMALL && needed == 1
           && count == 1);
    EXPECT(parse(source, length, buffer, 1, &end, 1, &needed, &count, &fault) == SUBST_DONE && buffer[0] == 'a'
           && end == 1);
    EXPECT(expand(source, length, &value, 1, buffer, ROOM, &needed, &fault) == SUBST_DONE && needed == output_len
           && memcmp(buffer, output, output_len) == 0);
    EXPECT(expand(source, length, NULL, 0, NULL, 0, &needed, &fault) == SUBST_REFUSED
           && fault.kind == SUBST_NO_SUCH_VARIABLE && fault.position == length - 9 && fault.length == 6);
}

/* Gets the value of $a, and none of any other name. */
static int get_a(void *context, const char *name, size_t name_len, struct subst_value *value)
{
    const struct subst_value one = {"1", 1, SUBST_SET};
    *(int *)context += 1;
    if (name_len == 1 && *name == 'a')
        *value = one;
    return name_len > 4;
}

static void test_templates(void)
{
    const struct subst_value value = {"1", 1, SUBST_SET}, none = {NULL, 1, SUBST_UNSET};
    const struct subst_value_row row = {NULL, 0};
    struct subst_cell cells[ROOM], *list = NULL;
    struct subst_cursor cursor = {0, 0};
    struct subst_fault fault = {0, 0, 0};
    struct subst_variable use = {0, 0, 0};
    size_t needed = ROOM, count, end = ROOM, number = ROOM, index;
    char buffer[ROOM];
    EXPECT(subst_parse(NULL, 0, 0, NULL, 0, &needed, &fault) == SUBST_ROOM_TOO_SMALL && needed == 1);
    EXPECT(subst_parse(NULL, 0, 0, cells, 1, &needed, &fault) == SUBST_DONE && needed == 1);
    EXPECT(subst_template_variables(cells, 1) == 0 && subst_template_variables(NULL, 0) == 0);
    EXPECT(is_empty(subst_expand(cells, 1, NULL, 0, NULL, 0, NULL, 0, &needed, &fault), &needed));
    EXPECT(subst_expand_step(cells, 1, NULL, 0, NULL, 0, &cursor, NULL, 0, &number, &fault) == SUBST_DONE);
    EXPECT(is_empty(subst_expand_each(cells, 1, NULL, 0, NULL, 0, NULL, 0, NULL, 0, &needed, &index, &fault), &needed));
    EXPECT(is_empty(subst_expand_each(cells, 1, NULL, 0, &row, 1, NULL, 0, &end, 1, &needed, &index, &fault), &needed)
           && end == 0);
    EXPECT(subst_template_variable(NULL, 0, NULL, 0, 0, &use) == SUBST_NOT_A_TEMPLATE);
    EXPECT(subst_expand(NULL, 0, NULL, 0, NULL, 0, NULL, 0, &needed, &fault) == SUBST_NOT_A_TEMPLATE);
    EXPECT(subst_expand_step(NULL, 0, NULL, 0, NULL, 0, &cursor, NULL, 0, &number, &fault) == SUBST_NOT_A_TEMPLATE);
    EXPECT(subst_template_new("<${a?}$b>", 9, 0, &list, &count, &fault) == SUBST_DONE && count <= 10);
    EXPECT(subst_template_variables(list, count) == 2);
    EXPECT(subst_template_variable(list, count, "<${a?}$b>", 9, 1, &use) == SUBST_DONE && use.position == 7);
    EXPECT(subst_expand(list, count, "<${a?}$b>", 9, &value, 1, buffer, ROOM, &needed, &fault) == SUBST_REFUSED
           && fault.kind == SUBST_NO_SUCH_VARIABLE && fault.position == 7 && fault.length == 1);
    EXPECT(subst_expand(list, count, "<${a?}$b>", 9, &none, 1, NULL, 0, &needed, &fault) == SUBST_REFUSED);
    free(list);
    EXPECT(subst_template_new(NULL, 0, 0, &list, &count, &fault) == SUBST_DONE && count == 1);
    free(list);
}

static void test_getters_and_errors(void)
{
    struct subst_fault fault = {0, 0, 0};
    size_t needed = ROOM;
    int calls = 0;
    char buffer[ROOM];
    EXPECT(is_empty(subst_bytes_by(NULL, 0, get_a, NULL, NULL, 0, &needed, &fault), &needed));
    EXPECT(subst_bytes_by("$a${b:${a}${b?}}", 16, get_a, &calls, buffer, 2, &needed, &fault) == SUBST_DONE
           && needed == 2 && memcmp(buffer, "11", 2) == 0 && calls == 2);
    EXPECT(subst_bytes_by("$a${b:-}", 8, get_a, &calls, NULL, 0, &needed, &fault) == SUBST_ROOM_TOO_SMALL
           && needed == 2);
    EXPECT(subst_bytes_by("$names", 6, get_a, &calls, NULL, 0, &needed, &fault) == SUBST_STOPPED);
    EXPECT(subst_bytes_by("$b", 2, get_a, &calls, NULL, 0, &needed, &fault) == SUBST_REFUSED && fault.position == 1);
    EXPECT(is_empty(subst_error_text(NULL, 0, &fault, NULL, 0, &needed), &needed));
    EXPECT(subst_error_highlighting(NULL, 0, &fault, NULL, 0, &needed) == SUBST_NOT_A_BOUNDARY);
    EXPECT(subst_parse("${a?}", 5, SUBST_NO_OPTIONAL, NULL, 0, &needed, &fault) == SUBST_REFUSED
           && fault.kind == SUBST_UNEXPECTED_AFTER_NAME && fault.position == 3 && fault.length == 1);
    EXPECT(subst_error_text("${a?}", 5, &fault, buffer, ROOM, &needed) == SUBST_DONE && needed > 15
           && memcmp(buffer + needed - 15, " or colon (':')", 15) == 0);
}

/* Any number but 0 makes variables optional. No form has the largest number. */
static void test_other_tools(void)
{
    struct subst_pair five = {"5", 1, NULL, 0};
    size_t needed = ROOM, position;
    uint32_t form;
    char buffer[ROOM];
    EXPECT(is_empty(subst_from_envsubst(NULL, 0, 0, NULL, 0, &needed), &needed));
    EXPECT(subst_from_envsubst("$a", 2, 2, buffer, ROOM, &needed) == SUBST_DONE && needed == 5
           && memcmp(buffer, "${a?}", 5) == 0);
    EXPECT(subst_with_only("$", 1, NULL, 0, 0, NULL, 0, &needed) == SUBST_ROOM_TOO_SMALL && needed == 2);
    EXPECT(subst_with_only("$a $5", 5, &five, 1, 2, buffer, ROOM, &needed) == SUBST_DONE && needed == 9
           && memcmp(buffer, "\\$a ${5?}", 9) == 0);
    needed = ROOM;
    EXPECT(is_empty(subst_from_shell(NULL, 0, NULL, 0, &needed, &form, &position), &needed));
    EXPECT(is_empty(subst_shell_form_text(UINT32_MAX, NULL, 0, &needed), &needed));
}

typedef uint32_t styled(const void *source, size_t source_len, const struct subst_style *style,
                        const struct subst_pair *pairs, size_t pairs_len, void *buffer, size_t buffer_len,
                        size_t *needed, struct subst_style_fault *fault);

static void test_style(const char *name, styled *call)
{
    const struct subst_pair port = {"PORT", 4, NULL, 0}, host = {"HOST", 4, "", 0};
    const struct subst_style shell = {SUBST_FORMS_SHELL, SUBST_NAMES_ALL, SUBST_UNSET_NOTHING, NULL, 0},
                             one = {SUBST_FORMS_SHELL, SUBST_NAMES_ONLY, SUBST_UNSET_REFUSED, &port, 1},
                             known = {SUBST_FORMS_OWN, SUBST_NAMES_KNOWN, SUBST_UNSET_REFUSED, NULL, 0},
                             none = {SUBST_FORMS_COMMON + 1, SUBST_NAMES_ALL, SUBST_UNSET_REFUSED, NULL, 0};
    struct subst_style_fault fault = {0, 0, 0, 0, 0, 0};
    size_t needed = ROOM;
    char buffer[ROOM];
    tested = name;
    EXPECT(is_empty(call(NULL, 0, &shell, NULL, 0, NULL, 0, &needed, &fault), &needed));
    EXPECT(call("${PORT:-80}$HOST", 16, &one, NULL, 0, NULL, 0, &needed, &fault) == SUBST_ROOM_TOO_SMALL && needed == 7);
    EXPECT(call("${PORT:-80}$HOST", 16, &one, NULL, 0, buffer, 7, &needed, &fault) == SUBST_DONE
           && memcmp(buffer, "80$HOST", 7) == 0);
    EXPECT(call("$PORT,$HOST\\${a:b}", 18, &known, &host, 1, buffer, ROOM, &needed, &fault) == SUBST_DONE && needed == 8
           && memcmp(buffer, "$PORT,\\b", 8) == 0);
    EXPECT(call("$$ $a<${HOST:?must be ${set}}>", 30, &shell, &host, 1, buffer, ROOM, &needed, &fault) == SUBST_REFUSED
           && fault.kind == SUBST_NO_SUCH_VARIABLE && fault.form == 0 && fault.position == 8 && fault.length == 4
           && fault.message_position == 14 && fault.message_length == 14);
    EXPECT(call("${HOST?} ${PORT^}", 17, &shell, &host, 1, buffer, ROOM, &needed, &fault) == SUBST_REFUSED
           && fault.kind == SUBST_REFUSED_FORM && fault.form == SUBST_FORM_OTHER && fault.position == 9
           && fault.length == 1 && fault.message_position == 0 && fault.message_length == 0);
    EXPECT(call("$a", 2, &one, NULL, 0, buffer, ROOM, &needed, &fault) == SUBST_DONE && needed == 2);
    EXPECT(call("$PORT", 5, &one, NULL, 0, buffer, ROOM, &needed, &fault) == SUBST_REFUSED && fault.position == 1);
    EXPECT(call("", 0, &none, NULL, 0, buffer, ROOM, &needed, &fault) == SUBST_NO_SUCH_STYLE);
}

static void test_styles(void)
{
    const struct subst_style shell = {SUBST_FORMS_SHELL, SUBST_NAMES_ALL, SUBST_UNSET_NOTHING, NULL, 0};
    struct subst_style_fault fault;
    size_t needed = ROOM;
    char buffer[ROOM];
    test_style("subst_bytes_by_style", subst_bytes_by_style);
    test_style("subst_text_by_style", subst_text_by_style);
    EXPECT(subst_bytes_by_style("\xC3$a", 3, &shell, NULL, 0, buffer, ROOM, &needed, &fault) == SUBST_DONE && needed == 1);
    EXPECT(subst_text_by_style("\xC3$a", 3, &shell, NULL, 0, buffer, ROOM, &needed, &fault) == SUBST_NOT_UTF8);
}

/* Expands a text of a shell by its kept template: the first name has an empty value, the second none. */
static void test_kept_style(void)
{
    static const char text[] = "${A:-d}, ${B+b}${C:?no}";
    const size_t length = sizeof text - 1;
    const struct subst_style shell = {SUBST_FORMS_SHELL, SUBST_NAMES_ALL, SUBST_UNSET_NOTHING, NULL, 0};
    struct subst_style_fault told;
    struct subst_fault fault;
    struct subst_variable name;
    struct subst_value values[3] = {{"", 0, SUBST_SET}, {NULL, 0, SUBST_UNSET}, {"c", 1, SUBST_SET}};
    struct subst_cell *cells;
    size_t made = 0, count, needed, i;
    char source[ROOM], buffer[ROOM];
    tested = "subst_template_by_style";
    EXPECT(is_empty(subst_template_by_style(NULL, 0, &shell, NULL, 0, &made, &told), &made));
    EXPECT(subst_template_by_style("${A#b}", 6, &shell, source, ROOM, &made, &told) == SUBST_REFUSED
           && told.kind == SUBST_REFUSED_FORM && told.form == SUBST_FORM_HASH && told.position == 0);
    EXPECT(subst_template_by_style(text, length, &shell, source, ROOM, &made, &told) == SUBST_DONE);
    EXPECT(subst_template_new(source, made, 0, &cells, &count, &fault) == SUBST_DONE);
    for (i = 0; i < 3; i++) {
        EXPECT(subst_template_variable_by_style(cells, count, source, made, shell.forms, i, &name) == SUBST_DONE
               && name.length == 1 && source[name.position] == "ABC"[i]);
        EXPECT(subst_value_by_style(cells, count, source, made, shell.forms, i, &values[i]) == SUBST_DONE);
    }
    EXPECT(values[0].given == SUBST_UNSET && values[1].given == SUBST_SET && values[1].length == 0);
    EXPECT(subst_expand(cells, count, source, made, values, 3, buffer, ROOM, &needed, &fault) == SUBST_DONE
           && needed == 4 && memcmp(buffer, "d, c", 4) == 0);
    EXPECT(subst_expand(cells, count, source, made, values, 2, buffer, ROOM, &needed, &fault) == SUBST_REFUSED);
    EXPECT(subst_fault_by_style(text, length, &shell, source, made, &fault, &told) == SUBST_DONE
           && told.kind == SUBST_NO_SUCH_VARIABLE && told.position == 17 && told.length == 1
           && told.message_position == 20 && told.message_length == 2);
    fault.kind = SUBST_MISSING_CLOSING_BRACE;
    EXPECT(subst_fault_by_style(text, length, &shell, source, made, &fault, &told) == SUBST_NOT_A_TEMPLATE);
    EXPECT(subst_value_by_style(cells, count, source, made, 4, 0, &values[0]) == SUBST_NO_SUCH_STYLE);
    EXPECT(subst_value_by_style(NULL, 0, NULL, 0, 0, 0, &values[0]) == SUBST_NOT_A_TEMPLATE);
    EXPECT(subst_template_variable_by_style(NULL, 0, NULL, 0, 0, 0, &name) == SUBST_NOT_A_TEMPLATE);
    free(cells);
}

/* Parses a source, and expands its cells once, by the steps and for two rows. Only the parse takes memory. */
static uint32_t expanded(const char *source, const struct subst_pair *pairs, size_t pairs_len)
{
    struct subst_cell cells[MOST_PAIRS];
    struct subst_value values[MOST_PAIRS];
    struct subst_value_row rows[2];
    struct subst_cursor cursor = {0, 0};
    struct subst_fault fault;
    size_t length = strlen(source), needed, count, ends[2], index, i;
    char buffer[ROOM];
    uint32_t result = subst_parse(source, length, 0, cells, MOST_PAIRS, &count, &fault);
    if (result != SUBST_DONE)
        return result;
    for (i = 0; i < pairs_len; i++) {
        const struct subst_value value = {pairs[i].value, pairs[i].value_len, SUBST_SET};
        values[i] = value;
    }
    rows[0].values = rows[1].values = values;
    rows[0].values_len = rows[1].values_len = pairs_len;
    result = subst_expand(cells, count, source, length, values, pairs_len, buffer, ROOM, &needed, &fault);
    if (subst_expand_step(cells, count, source, length, values, pairs_len, &cursor, buffer, ROOM, &index, &fault)
        != result)
        return UINT32_MAX;
    if (subst_expand_each(cells, count, source, length, rows, 2, buffer, ROOM, ends, 2, &needed, &index, &fault)
        != result)
        return UINT32_MAX;
    return result;
}

/* Makes the call of this name. Returns UINT32_MAX if there is none. */
static uint32_t call_of(const char *name, const char *source, const struct subst_pair *pairs, size_t pairs_len)
{
    struct subst_fault fault;
    char buffer[ROOM];
    size_t needed;
    if (strcmp(name, "subst_check") == 0)
        return subst_check(source, strlen(source), &fault);
    if (strcmp(name, "subst_parse") == 0)
        return subst_parse(source, strlen(source), 0, NULL, 0, &needed, &fault) == SUBST_REFUSED;
    if (strcmp(name, "subst_expand") == 0)
        return expanded(source, pairs, pairs_len);
    if (strcmp(name, "subst_bytes") == 0)
        return subst_bytes(source, strlen(source), pairs, pairs_len, buffer, ROOM, &needed, &fault);
    if (strcmp(name, "subst_bytes_into") == 0)
        return subst_bytes_into(source, strlen(source), pairs, pairs_len, buffer, ROOM, &needed, &fault);
    return UINT32_MAX;
}

int main(int argc, char **argv)
{
    struct subst_pair pairs[MOST_PAIRS];
    size_t pairs_len = 0;
    int i;
    for (i = 3; i + 1 < argc && pairs_len < MOST_PAIRS; i += 2) {
        struct subst_pair pair = {argv[i], strlen(argv[i]), argv[i + 1], strlen(argv[i + 1])};
        pairs[pairs_len++] = pair;
    }
    if (argc > 2)
        return (int)call_of(argv[1], argv[2], pairs, pairs_len);
    test_filling("subst_bytes", subst_bytes);
    test_filling("subst_text", subst_text);
    test_filling("subst_bytes_into", subst_bytes_into);
    test_filling("subst_text_into", subst_text_into);
    test_styles();
    test_kept_style();
    test_names("subst_json_parse", subst_json_parse, subst_json_expand, "[\"${\\u0061}\"]", "[\"1\"]");
    test_names("subst_toml_parse", subst_toml_parse, subst_toml_expand, "a = \"${\\u0061}\"\n", "a = \"1\"\n");
    test_names("subst_yaml_parse", subst_yaml_parse, subst_yaml_expand, "- \"${\\u0061}\"\n", "- \"1\"\n");
    tested = "";
    test_rows_and_lists();
    test_documents_and_faults();
    test_yaml();
    test_templates();
    test_getters_and_errors();
    test_other_tools();
    EXPECT(subst_version() == SUBST_VERSION && SUBST_VERSION_MINOR < 100 && SUBST_VERSION_PATCH < 100);
    printf("%d passed, %d failed\n", passed, failed);
    return failed == 0 ? EXIT_SUCCESS : EXIT_FAILURE;
}

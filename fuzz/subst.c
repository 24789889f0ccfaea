/* A target of libFuzzer that tests each call of subst.h against the header's promises.
 *
 * An input is the length of a buffer, the number of pairs, for each pair the lengths of its name and its value, these
 * words, and then the source. A call's outputs have guards around them, since sanitizers don't see the library's own
 * writes. A call that is out of memory must have written nothing, and is made again. With -DSTANDALONE, for other
 * compilers, there is a main that tries each named file, and counts the calls that were out of memory. texts.h, which
 * tools/faults.py prints, has the beginnings of the texts of faults, by their kinds.
 */
/* For mmap without a file. */
#define _DEFAULT_SOURCE

#include "subst.h"
#include "texts.h"

#include <fcntl.h>
#include <stdio.h>
#include <stdlib.h>
#include <string.h>
#include <sys/mman.h>
#include <unistd.h>

/* More than 16 pairs may be looked up by an index. */
enum { MOST_PAIRS = 24, MOST_WORDS = 2 * MOST_PAIRS + 1, ROOMS = 5, GUARD = 32, UNTOUCHED = 0xA5, UNTOLD = 77 };

/* The arguments of calls: copies from the input, of their exact size. */
struct input {
    /* the names and values, in turn, and then the source */
    uint8_t *words[MOST_WORDS];
    size_t lengths[MOST_WORDS];
    const uint8_t *source;
    size_t source_len;
    const struct subst_pair *pairs;
    size_t pairs_len;
    const struct subst_row *rows;
    size_t rows_len;
    size_t *ends;
    size_t ends_len;
    struct subst_style style;
    uint32_t flags;
    /* a template of the source, or damaged cells, with values by number */
    const struct subst_cell *cells;
    size_t cells_len;
    const struct subst_value *values;
    size_t values_len;
    const struct subst_value_row *value_rows;
    struct subst_fault fault;
    /* the number of the name at which the getter of subst_bytes_by stops, from 1; 0 for none */
    size_t stop_at;
    /* a length of a buffer to try besides those of the answer */
    size_t buffer_len;
};

/* The answer of a call, or the expected one: items with SUBST_DONE, and a fault with SUBST_REFUSED. */
struct answer {
    uint32_t result;
    size_t needed;
    struct subst_fault fault;
    size_t row;
    uint8_t *items;
    /* the block to free */
    uint8_t *block;
};

static const struct answer NOTHING = {SUBST_DONE, 0, {UNTOLD, UNTOLD, UNTOLD}, UNTOLD, NULL, NULL};
static const struct answer NO_TEXT = {SUBST_NOT_UTF8, 0, {UNTOLD, UNTOLD, UNTOLD}, UNTOLD, NULL, NULL};
static const struct answer NO_STYLE = {SUBST_NO_SUCH_STYLE, 0, {UNTOLD, UNTOLD, UNTOLD}, UNTOLD, NULL, NULL};

/* The items of an answer as variables. */
#define VARIABLES(answer) ((const struct subst_variable *)(const void *)(answer)->items)
/* Returns whether two variables, or two faults, are equal. */
#define IS_SAME(a, b) ((a)->kind == (b)->kind && (a)->position == (b)->position && (a)->length == (b)->length)

/* The input in use. */
static const uint8_t *tried;
static size_t tried_len;

/* Fails with the unmet expectation, and with the input in hexadecimal. */
#define EXPECT(fact) ((fact) ? (void)0 : fail(#fact, __func__, __LINE__))

static void fail(const char *fact, const char *where, int line)
{
    size_t i;
    fprintf(stderr, "%s:%d: not so: %s\ninput: ", where, line, fact);
    for (i = 0; i < tried_len; i++)
        fprintf(stderr, "%02x", tried[i]);
    fputc('\n', stderr);
    abort();
}

/* Memory */

/* Resizes a block, or allocates one for NULL. A request may be refused once. */
static void *resized(void *block, size_t size)
{
    void *made = realloc(block, size > 0 ? size : 1);
    if (made == NULL)
        made = realloc(block, size > 0 ? size : 1);
    if (made == NULL)
        exit(EXIT_FAILURE);
    return made;
}

static void *taken(size_t size)
{
    return resized(NULL, size);
}

static uint8_t *copy_of(const void *bytes, size_t length)
{
    uint8_t *copy = taken(length);
    if (length > 0)
        memcpy(copy, bytes, length);
    return copy;
}

/* Returns a buffer of this size with guards before and after it. */
static uint8_t *guarded(size_t size)
{
    uint8_t *block = taken(size + 2 * GUARD);
    memset(block, UNTOUCHED, size + 2 * GUARD);
    return block;
}

/* Returns whether the guards of a buffer are untouched, and its bytes from an index on. */
static int is_untouched(const uint8_t *block, size_t from, size_t size)
{
    size_t i;
    for (i = 0; i < size + 2 * GUARD; i++)
        if (block[i] != UNTOUCHED && (i < GUARD || i >= GUARD + from))
            return 0;
    return 1;
}

/* Properties of sources that need no parsing of placeholders */

static int is_name_byte(uint8_t b)
{
    return (b >= '0' && b <= '9') || (b >= 'A' && b <= 'Z') || (b >= 'a' && b <= 'z') || b == '_';
}

static int is_utf8(const uint8_t *bytes, size_t length)
{
    size_t at, count, i;
    for (at = 0; at < length; at += count) {
        uint8_t b = bytes[at], second = at + 1 < length ? bytes[at + 1] : 0;
        count = b < 0x80 ? 1 : b < 0xC2 ? 0 : b < 0xE0 ? 2 : b < 0xF0 ? 3 : b < 0xF5 ? 4 : 0;
        if (count == 0 || count > length - at)
            return 0;
        if ((b == 0xE0 && second < 0xA0) || (b == 0xED && second > 0x9F) || (b == 0xF0 && second < 0x90)
            || (b == 0xF4 && second > 0x8F))
            return 0;
        for (i = 1; i < count; i++)
            if ((bytes[at + i] & 0xC0) != 0x80)
                return 0;
    }
    return 1;
}

static int are_texts(const struct input *input)
{
    size_t i;
    for (i = 0; i < input->pairs_len; i++)
        if (!is_utf8(input->pairs[i].value, input->pairs[i].value_len))
            return 0;
    return is_utf8(input->source, input->source_len);
}

/* Returns the first pair with a name of the source, or NULL. */
static const struct subst_pair *pair_of(const struct input *input, size_t position, size_t length)
{
    size_t i;
    for (i = 0; i < input->pairs_len; i++)
        if (input->pairs[i].name_len == length
            && memcmp(input->pairs[i].name, input->source + position, length) == 0)
            return &input->pairs[i];
    return NULL;
}

/* Returns whether a whole name, after a dollar or a brace, is here. */
static int is_name_at(const struct input *input, size_t position, size_t length)
{
    const uint8_t *source = input->source;
    size_t i;
    if (length == 0 || position == 0 || position > input->source_len || length > input->source_len - position)
        return 0;
    for (i = position; i < position + length; i++)
        if (!is_name_byte(source[i]))
            return 0;
    if (i < input->source_len && is_name_byte(source[i]))
        return 0;
    return source[position - 1] == '$' || (position > 1 && source[position - 1] == '{' && source[position - 2] == '$');
}

static int is_template(const struct answer *answer)
{
    return answer->result == SUBST_DONE || answer->fault.kind == SUBST_NO_SUCH_VARIABLE;
}

/* Fails unless a fault is within the source, and begins as its kind requires. */
static void expect_within(const struct input *input, const struct subst_fault *fault)
{
    uint8_t first;
    EXPECT(fault->length > 0 && fault->position < input->source_len);
    EXPECT(fault->length <= input->source_len - fault->position);
    first = input->source[fault->position];
    switch (fault->kind) {
    case SUBST_INVALID_ESCAPE_SEQUENCE:
        EXPECT(first == '\\');
        break;
    case SUBST_MISSING_VARIABLE_NAME:
        EXPECT(first == '$' && fault->length <= 2);
        break;
    case SUBST_UNEXPECTED_CHARACTER:
    case SUBST_UNEXPECTED_AFTER_NAME:
        EXPECT(fault->position > 2 && first != '}');
        break;
    case SUBST_MISSING_CLOSING_BRACE:
        EXPECT(first == '{' && fault->length == 1);
        break;
    case SUBST_NO_SUCH_VARIABLE:
        EXPECT(is_name_at(input, fault->position, fault->length));
        EXPECT(pair_of(input, fault->position, fault->length) == NULL);
        break;
    default:
        EXPECT(!"a kind of fault that the header has");
    }
}

/* Calls */

struct call {
    uint32_t (*make)(const struct input *input, void *buffer, size_t buffer_len, struct answer *told);
    size_t item;
    /* 1 if it writes straight into the buffer, which is then unspecified without SUBST_DONE, unless the source is no
     * template; 2 if it is unspecified then too */
    int is_straight;
};

#define CALL(name, item, is_straight, ...)                                                                     \
    static uint32_t make_##name(const struct input *input, void *buffer, size_t buffer_len, struct answer *told)   \
    {                                                                                                          \
        return subst_##name(__VA_ARGS__);                                                                      \
    }                                                                                                          \
    static const struct call call_##name = {make_##name, sizeof(item), is_straight};
#define SOURCE input->source, input->source_len
#define PAIRS input->pairs, input->pairs_len
#define ROWS input->rows, input->rows_len
#define ENDS input->ends, input->ends_len
#define CELLS input->cells, input->cells_len
#define VALUES input->values, input->values_len
#define VALUE_ROWS input->value_rows, input->rows_len

CALL(bytes, uint8_t, 0, SOURCE, PAIRS, buffer, buffer_len, &told->needed, &told->fault)
CALL(text, uint8_t, 0, SOURCE, PAIRS, buffer, buffer_len, &told->needed, &told->fault)
CALL(bytes_into, uint8_t, 1, SOURCE, PAIRS, buffer, buffer_len, &told->needed, &told->fault)
CALL(text_into, uint8_t, 1, SOURCE, PAIRS, buffer, buffer_len, &told->needed, &told->fault)
CALL(bytes_each, uint8_t, 0, SOURCE, ROWS, buffer, buffer_len, ENDS, &told->needed, &told->row, &told->fault)
CALL(variables, struct subst_variable, 0, SOURCE, buffer, buffer_len, &told->needed, &told->fault)
CALL(missing, struct subst_variable, 0, SOURCE, PAIRS, buffer, buffer_len, &told->needed, &told->fault)
CALL(json, uint8_t, 0, SOURCE, PAIRS, buffer, buffer_len, &told->needed, &told->fault)
CALL(toml, uint8_t, 0, SOURCE, PAIRS, buffer, buffer_len, &told->needed, &told->fault)
CALL(yaml, uint8_t, 0, SOURCE, PAIRS, buffer, buffer_len, &told->needed, &told->fault)
CALL(json_fault_text, uint8_t, 0, SOURCE, PAIRS, buffer, buffer_len, &told->needed)
CALL(toml_fault_text, uint8_t, 0, SOURCE, PAIRS, buffer, buffer_len, &told->needed)
CALL(yaml_fault_text, uint8_t, 0, SOURCE, PAIRS, buffer, buffer_len, &told->needed)
CALL(fault_text, uint8_t, 0, SOURCE, PAIRS, buffer, buffer_len, &told->needed)
CALL(fault_highlighting, uint8_t, 0, SOURCE, PAIRS, buffer, buffer_len, &told->needed)
CALL(from_envsubst, uint8_t, 0, SOURCE, SUBST_OPTIONAL, buffer, buffer_len, &told->needed)
CALL(with_only, uint8_t, 0, SOURCE, PAIRS, SUBST_REQUIRED, buffer, buffer_len, &told->needed)
CALL(from_shell, uint8_t, 0, SOURCE, buffer, buffer_len, &told->needed, &told->fault.kind, &told->fault.position)
CALL(shell_form_text, uint8_t, 0, (uint32_t)input->buffer_len, buffer, buffer_len, &told->needed)
CALL(parse, struct subst_cell, 0, SOURCE, input->flags, buffer, buffer_len, &told->needed, &told->fault)
CALL(expand, uint8_t, 2, CELLS, SOURCE, VALUES, buffer, buffer_len, &told->needed, &told->fault)
CALL(expand_each, uint8_t, 2, CELLS, SOURCE, VALUE_ROWS, buffer, buffer_len, ENDS, &told->needed, &told->row,
     &told->fault)
CALL(error_text, uint8_t, 0, SOURCE, &input->fault, buffer, buffer_len, &told->needed)
CALL(error_highlighting, uint8_t, 0, SOURCE, &input->fault, buffer, buffer_len, &told->needed)

/* The report of the last call by a style, and its value if nothing is reported. */
static struct subst_style_fault reported;
static const struct subst_style_fault UNREPORTED = {UNTOLD, UNTOLD, UNTOLD, UNTOLD, UNTOLD, UNTOLD};

/* Returns the result of a call by a style, which reports only with SUBST_REFUSED. */
static uint32_t result_of(uint32_t result, struct answer *told)
{
    if (result == SUBST_REFUSED) {
        const struct subst_fault fault = {reported.kind, reported.position, reported.length};
        told->fault = fault;
    } else {
        EXPECT(memcmp(&reported, &UNREPORTED, sizeof reported) == 0);
    }
    return result;
}

#define CALL_BY_STYLE(name, ...)                                                                               \
    static uint32_t make_##name(const struct input *input, void *buffer, size_t buffer_len, struct answer *told)   \
    {                                                                                                          \
        reported = UNREPORTED;                                                                                 \
        return result_of(subst_##name(SOURCE, &input->style, __VA_ARGS__, &told->needed, &reported), told);     \
    }                                                                                                          \
    static const struct call call_##name = {make_##name, 1, 0};

CALL_BY_STYLE(bytes_by_style, PAIRS, buffer, buffer_len)
CALL_BY_STYLE(text_by_style, PAIRS, buffer, buffer_len)
CALL_BY_STYLE(template_by_style, buffer, buffer_len)

/* The number of names that the last parse of a document told, and its value if none was told. */
static size_t counted;

#define CALLS_BY_NAMES(name)                                                                                   \
    static uint32_t make_##name##_parse(const struct input *input, void *buffer, size_t buffer_len,            \
                                        struct answer *told)                                                   \
    {                                                                                                          \
        uint32_t result;                                                                                       \
        counted = UNTOLD;                                                                                      \
        result = subst_##name##_parse(SOURCE, buffer, buffer_len, ENDS, &told->needed, &counted, &told->fault); \
        EXPECT(result == SUBST_DONE || result == SUBST_ROOM_TOO_SMALL || counted == UNTOLD);                   \
        return result;                                                                                         \
    }                                                                                                          \
    static const struct call call_##name##_parse = {make_##name##_parse, 1, 0};                                \
    CALL(name##_expand, uint8_t, 0, SOURCE, VALUES, buffer, buffer_len, &told->needed, &told->fault)

CALLS_BY_NAMES(json)
CALLS_BY_NAMES(toml)
CALLS_BY_NAMES(yaml)

/* The number of calls that were out of memory. */
static unsigned long times_out_of_memory;

/* Returns whether a call was out of memory. It must have written nothing, and has to be made again. */
static int is_out_of_memory(const struct input *input, const struct answer *told, size_t size)
{
    if (told->result != SUBST_OUT_OF_MEMORY)
        return 0;
    times_out_of_memory += 1;
    EXPECT(is_untouched(told->block, 0, size) && told->needed == UNTOLD && told->row == UNTOLD);
    EXPECT(IS_SAME(&told->fault, &NOTHING.fault));
    EXPECT(input->ends == NULL
           || is_untouched((const uint8_t *)input->ends - GUARD, 0, input->ends_len * sizeof input->ends[0]));
    return 1;
}

/* Makes a call in a buffer of this length. Fails if it writes what its result doesn't allow. A call that writes
 * straight into the buffer leaves it unchanged if the source is no template or no text. */
static struct answer asked(const struct call *call, const struct input *input, size_t buffer_len)
{
    struct answer told = NOTHING;
    size_t size = buffer_len * call->item, written = 0;
    told.needed = UNTOLD;
    told.block = guarded(size);
    told.items = told.block + GUARD;
    do
        told.result = call->make(input, told.items, buffer_len, &told);
    while (is_out_of_memory(input, &told, size));
    EXPECT(told.result == SUBST_REFUSED || (IS_SAME(&told.fault, &NOTHING.fault) && told.row == UNTOLD));
    if (told.result == SUBST_DONE)
        written = told.needed * call->item;
    else if (call->is_straight == 2
             || (call->is_straight && (told.result == SUBST_ROOM_TOO_SMALL || is_template(&told))))
        written = size;
    EXPECT(written <= size && is_untouched(told.block, written, size));
    if (told.result != SUBST_DONE && told.result != SUBST_ROOM_TOO_SMALL) {
        EXPECT(told.needed == UNTOLD);
        told.needed = 0;
    }
    return told;
}

static int has_items_of(const struct answer *told, const struct answer *wanted, size_t item)
{
    size_t i;
    if (item != sizeof(struct subst_variable))
        return wanted->needed == 0 || memcmp(told->items, wanted->items, wanted->needed * item) == 0;
    for (i = 0; i < wanted->needed; i++)
        if (!IS_SAME(VARIABLES(told) + i, VARIABLES(wanted) + i))
            return 0;
    return 1;
}

/* Makes a call in a buffer of this length. Fails unless it has this answer, or is too small for it. */
static uint32_t expect(const struct call *call, const struct input *input, const struct answer *wanted, size_t buffer_len)
{
    struct answer told = asked(call, input, buffer_len);
    int is_small = wanted->result == SUBST_DONE && buffer_len < wanted->needed;
    EXPECT(told.result == (is_small ? SUBST_ROOM_TOO_SMALL : wanted->result));
    EXPECT(told.needed == (wanted->result == SUBST_REFUSED ? 0 : wanted->needed));
    EXPECT(IS_SAME(&told.fault, &wanted->fault) && told.row == wanted->row);
    EXPECT(told.result != SUBST_DONE || has_items_of(&told, wanted, call->item));
    free(told.block);
    return told.result;
}

/* Returns the answer of a call. */
static struct answer answer_of(const struct call *call, const struct input *input)
{
    struct answer none = asked(call, input, 0), answer = asked(call, input, none.needed);
    free(none.block);
    EXPECT(answer.result != SUBST_ROOM_TOO_SMALL);
    if (answer.result == SUBST_REFUSED)
        expect_within(input, &answer.fault);
    expect(call, input, &answer, 0);
    return answer;
}

/* Returns lengths of buffers for this many items: none, one too few, exact, more, and one from the input. */
static void buffers_for(size_t lengths[ROOMS], const struct input *input, size_t needed)
{
    lengths[0] = 0;
    lengths[1] = needed - (needed > 0);
    lengths[2] = needed;
    lengths[3] = needed + 3;
    lengths[4] = input->buffer_len;
}

static void expect_in_buffers(const struct call *call, const struct input *input, const struct answer *wanted)
{
    size_t lengths[ROOMS], i;
    buffers_for(lengths, input, wanted->needed);
    for (i = 0; i < ROOMS; i++)
        expect(call, input, wanted, lengths[i]);
}

/* Returns the answer of a call, after tries in each buffer. */
static struct answer held(const struct call *call, const struct input *input)
{
    struct answer answer = answer_of(call, input);
    expect_in_buffers(call, input, &answer);
    return answer;
}

/* Fails unless all calls that expand a source agree. Those of texts refuse a source or a value that isn't UTF-8. */
static void try_filling(const struct input *input, const struct answer *answer)
{
    const struct answer *of_text = are_texts(input) ? answer : &NO_TEXT;
    expect_in_buffers(&call_bytes, input, answer);
    expect_in_buffers(&call_bytes_into, input, answer);
    expect_in_buffers(&call_text, input, of_text);
    expect_in_buffers(&call_text_into, input, of_text);
    if (of_text->result == SUBST_DONE)
        EXPECT(is_utf8(answer->items, answer->needed));
}

/* Returns the result of subst_check, once it has memory. */
static uint32_t checked(const uint8_t *source, size_t source_len, struct subst_fault *fault)
{
    uint32_t result = subst_check(source, source_len, fault);
    if (result != SUBST_OUT_OF_MEMORY)
        return result;
    times_out_of_memory += 1;
    EXPECT(IS_SAME(fault, &NOTHING.fault));
    return checked(source, source_len, fault);
}

/* Fails unless subst_check accepts each template, and refuses all else with the fault. */
static void try_check(const struct input *input, const struct answer *answer)
{
    struct subst_fault fault = NOTHING.fault;
    uint32_t result = checked(SOURCE, &fault);
    EXPECT(result == (is_template(answer) ? SUBST_DONE : SUBST_REFUSED));
    EXPECT(IS_SAME(&fault, is_template(answer) ? &NOTHING.fault : &answer->fault));
}

/* Fails unless backslashes take away the meaning of all special bytes. */
static void try_escaped(const struct input *input)
{
    struct input escaped = *input;
    struct answer answer;
    uint8_t *source = taken(2 * input->source_len);
    size_t i;
    escaped.source = source;
    escaped.source_len = 0;
    for (i = 0; i < input->source_len; i++) {
        if (input->source[i] != 0 && strchr("\\${}:", input->source[i]) != NULL)
            source[escaped.source_len++] = '\\';
        source[escaped.source_len++] = input->source[i];
    }
    answer = answer_of(&call_bytes, &escaped);
    EXPECT(answer.result == SUBST_DONE && answer.needed == input->source_len);
    EXPECT(memcmp(answer.items, input->source, answer.needed) == 0);
    free(answer.block);
    free(source);
}

/* Fails unless a translated text is a template without missing variables: all are optional, or pairs name them. */
static void try_translated(const struct call *call, const struct input *input)
{
    struct answer translated = held(call, input), missing;
    struct input of_template = *input;
    EXPECT(translated.result == SUBST_DONE);
    of_template.source = translated.items;
    of_template.source_len = translated.needed;
    missing = answer_of(&call_missing, &of_template);
    EXPECT(missing.result == SUBST_DONE && missing.needed == 0);
    free(missing.block);
    free(translated.block);
}

/* Fails unless a text of a shell has a template, or a form without one. Only the numbers of forms have texts. */
static void try_shell(const struct input *input)
{
    struct answer none = asked(&call_from_shell, input, 0), answer = asked(&call_from_shell, input, none.needed);
    struct answer said = held(&call_shell_form_text, input);
    struct subst_fault fault = answer.fault;
    if (answer.result == SUBST_REFUSED) {
        EXPECT(fault.kind >= SUBST_FORM_DOLLAR && fault.kind <= SUBST_FORM_UNCLOSED);
        EXPECT(fault.position < input->source_len);
        EXPECT(input->source[fault.position] == (fault.kind == SUBST_FORM_BRACE ? '{' : '$'));
    } else {
        EXPECT(answer.result == SUBST_DONE && checked(answer.items, answer.needed, &fault) == SUBST_DONE);
    }
    expect_in_buffers(&call_from_shell, input, &answer);
    EXPECT(said.result == SUBST_DONE && is_utf8(said.items, said.needed));
    EXPECT((said.needed > 0) == (input->buffer_len >= SUBST_FORM_DOLLAR && input->buffer_len <= SUBST_FORM_UNCLOSED));
    free(none.block);
    free(answer.block);
    free(said.block);
}

/* Fails unless the span is right: a form begins with a dollar or a brace; a missing variable has a name, and no value
 * or an empty one; a message is between a question mark and a closing brace. */
static void expect_style_fault(const struct input *input, const struct subst_style_fault *fault)
{
    const uint8_t *source = input->source;
    const struct subst_pair *pair;
    size_t end = fault->message_position + fault->message_length;
    EXPECT(fault->position < input->source_len && fault->length <= input->source_len - fault->position);
    if (fault->kind == SUBST_REFUSED_FORM) {
        EXPECT(fault->form >= SUBST_FORM_DOLLAR && fault->form <= SUBST_FORM_UNCLOSED);
        EXPECT(source[fault->position] == (fault->form == SUBST_FORM_BRACE ? '{' : '$') && fault->length == 1);
        EXPECT(end == 0 && input->style.forms != SUBST_FORMS_ENVSUBST);
        return;
    }
    pair = pair_of(input, fault->position, fault->length);
    EXPECT(fault->kind == SUBST_NO_SUCH_VARIABLE && fault->form == 0);
    EXPECT(is_name_at(input, fault->position, fault->length));
    EXPECT(pair == NULL || (pair->value_len == 0 && input->style.forms >= SUBST_FORMS_SHELL));
    if (fault->message_position > 0)
        EXPECT(source[fault->message_position - 1] == '?' && end < input->source_len && source[end] == '}');
    else
        EXPECT(end == 0);
}

/* Fails unless an expansion by a style is refused as the translation is, or has the output of the template. */
static void expect_as_template(const struct call *translate, const struct input *input, const struct answer *answer)
{
    struct answer none = asked(translate, input, 0), translated = asked(translate, input, none.needed), filled;
    struct input of_template = *input;
    if (translated.result == SUBST_REFUSED) {
        EXPECT(answer->result == SUBST_REFUSED && reported.kind == SUBST_REFUSED_FORM);
        EXPECT(reported.form == translated.fault.kind && reported.position == translated.fault.position);
    } else {
        of_template.source = translated.items;
        of_template.source_len = translated.needed;
        filled = answer_of(&call_bytes, &of_template);
        EXPECT(filled.result == answer->result && filled.needed == answer->needed);
        EXPECT(filled.needed == 0 || memcmp(filled.items, answer->items, filled.needed) == 0);
        free(filled.block);
    }
    free(none.block);
    free(translated.block);
}

/* Returns whether a pair has an empty value. */
static int has_empty_value(const struct input *input)
{
    size_t i;
    for (i = 0; i < input->pairs_len; i++)
        if (input->pairs[i].value_len == 0)
            return 1;
    return 0;
}

static void try_style(const struct input *input)
{
    const uint32_t forms = input->style.forms, unset = input->style.unset;
    struct answer none = asked(&call_bytes_by_style, input, 0), answer = asked(&call_bytes_by_style, input, none.needed);
    EXPECT(answer.result == SUBST_DONE || answer.result == SUBST_REFUSED);
    if (answer.result == SUBST_REFUSED)
        expect_style_fault(input, &reported);
    if (input->style.names == SUBST_NAMES_ALL && forms == SUBST_FORMS_ENVSUBST && unset == SUBST_UNSET_NOTHING)
        expect_as_template(&call_from_envsubst, input, &answer);
    if (input->style.names == SUBST_NAMES_ALL && forms == SUBST_FORMS_COMMON && !has_empty_value(input))
        expect_as_template(&call_from_shell, input, &answer);
    expect_in_buffers(&call_bytes_by_style, input, &answer);
    expect_in_buffers(&call_text_by_style, input, are_texts(input) ? &answer : &NO_TEXT);
    free(none.block);
    free(answer.block);
}

/* Tries all forms with all choices of names; the first half of the pairs are the names. Other numbers are refused. */
static void try_styles(const struct input *given)
{
    struct input input = *given;
    const struct subst_style first = {0, 0, 0, input.pairs, input.pairs_len / 2};
    for (input.style = first; input.style.forms <= SUBST_FORMS_COMMON; input.style.forms++)
        for (input.style.names = 0; input.style.names <= SUBST_NAMES_KNOWN; input.style.names++) {
            input.style.unset = (input.style.forms + input.style.names + input.source_len) % 2;
            try_style(&input);
        }
    expect(&call_bytes_by_style, &input, &NO_STYLE, input.buffer_len);
    input.style = first;
    input.style.names = SUBST_NAMES_KNOWN + 1;
    expect(&call_bytes_by_style, &input, &NO_STYLE, input.buffer_len);
    expect(&call_template_by_style, &input, &NO_STYLE, input.buffer_len);
    input.style = first;
    input.style.unset = UINT32_MAX;
    expect(&call_text_by_style, &input, are_texts(&input) ? &NO_STYLE : &NO_TEXT, input.buffer_len);
}

/* Fails unless a document is filled in, or refused with a span in it. It has a fault's text only if it is refused. */
static void try_document(const struct call *fill_in, const struct call *say, const struct input *input)
{
    struct answer none = asked(fill_in, input, 0), answer = asked(fill_in, input, none.needed), said = held(say, input);
    const struct subst_fault *fault = &answer.fault;
    EXPECT(answer.result == (are_texts(input) ? answer.result : SUBST_NOT_UTF8));
    EXPECT(answer.result == SUBST_DONE || answer.result == SUBST_REFUSED || !are_texts(input));
    if (answer.result == SUBST_REFUSED) {
        EXPECT(fault->kind >= SUBST_INVALID_ESCAPE_SEQUENCE && fault->kind <= SUBST_INVALID_DOCUMENT);
        EXPECT(fault->position <= input->source_len && fault->length <= input->source_len - fault->position);
    }
    expect_in_buffers(fill_in, input, &answer);
    EXPECT(said.result == (are_texts(input) ? SUBST_DONE : SUBST_NOT_UTF8));
    EXPECT((said.needed > 0) == (answer.result == SUBST_REFUSED) && is_utf8(said.items, said.needed));
    free(none.block);
    free(answer.block);
    free(said.block);
}

/* Rows */

/* Returns the expected answer of subst_bytes_each: the outputs of the rows in order, and their ends, or the fault of
 * the first refused row. A source that is no template is refused with the index 0, also without rows. */
static struct answer answer_of_rows(const struct input *input, const struct answer *answer, size_t *ends)
{
    struct answer all = NOTHING;
    size_t i;
    if (!is_template(answer)) {
        all = *answer;
        all.row = 0;
        all.block = NULL;
    }
    for (i = 0; i < input->rows_len && all.result == SUBST_DONE; i++) {
        struct input row = *input;
        struct answer one;
        row.pairs = input->rows[i].pairs;
        row.pairs_len = input->rows[i].pairs_len;
        one = answer_of(&call_bytes, &row);
        all.result = one.result;
        all.fault = one.fault;
        all.row = one.result == SUBST_REFUSED ? i : UNTOLD;
        all.items = all.block = resized(all.block, all.needed + one.needed);
        memcpy(all.items + all.needed, one.items, one.needed);
        ends[i] = all.needed += one.needed;
        free(one.block);
    }
    return all;
}

static void expect_rows(const struct call *call, const struct input *rows, const struct answer *wanted,
                        const size_t *ends, size_t buffer_len, size_t ends_len)
{
    struct input input = *rows;
    struct answer all = *wanted;
    size_t size = ends_len * sizeof ends[0], written = rows->rows_len * sizeof ends[0];
    uint8_t *block = guarded(size);
    input.ends = (size_t *)(void *)(block + GUARD);
    input.ends_len = ends_len;
    if (all.result == SUBST_DONE && size < written)
        all.result = SUBST_ROOM_TOO_SMALL;
    if (expect(call, &input, &all, buffer_len) == SUBST_DONE)
        EXPECT(written == 0 || memcmp(input.ends, ends, written) == 0);
    else
        written = call->is_straight ? size : 0;
    EXPECT(is_untouched(block, written, size));
    free(block);
}

/* Makes a call for rows in buffers and with ends of each length. */
static void expect_rows_in_buffers(const struct call *call, const struct input *input, const struct answer *all,
                                   const size_t *ends)
{
    size_t lengths[ROOMS], i;
    buffers_for(lengths, input, all->needed);
    for (i = 0; i < ROOMS; i++)
        expect_rows(call, input, all, ends, lengths[i], input->rows_len);
    expect_rows(call, input, all, ends, all->needed, input->rows_len + 1);
    if (input->rows_len > 0)
        expect_rows(call, input, all, ends, all->needed, input->rows_len - 1);
}

/* Tries no row, one, and one for each number of pairs left out in front, in buffers and with ends of each length. */
static void try_rows(const struct input *given, const struct answer *answer)
{
    size_t counts[] = {0, 1, given->pairs_len + 1}, ends[MOST_PAIRS + 1], i;
    struct subst_row rows[MOST_PAIRS + 1];
    struct input input = *given;
    input.rows = rows;
    for (i = 0; i <= input.pairs_len; i++) {
        rows[i].pairs = input.pairs + i;
        rows[i].pairs_len = input.pairs_len - i;
    }
    for (i = 0; i < 3; i++) {
        struct answer all;
        input.rows_len = counts[i];
        all = answer_of_rows(&input, answer, ends);
        expect_rows_in_buffers(&call_bytes_each, &input, &all, ends);
        free(all.block);
    }
}

/* Lists */

/* Fails unless the variables are names of the source, in order, with the text of their kinds after them. */
static void expect_variables(const struct input *input, const struct answer *list)
{
    const struct subst_variable *variable = VARIABLES(list);
    size_t i;
    for (i = 0; i < list->needed; i++, variable++) {
        EXPECT(is_name_at(input, variable->position, variable->length));
        EXPECT(i == 0 || variable->position > variable[-1].position);
        EXPECT(variable->kind <= SUBST_WITH_DEFAULT);
        if (variable->kind != SUBST_REQUIRED)
            EXPECT(input->source[variable->position + variable->length] == " ?:"[variable->kind]);
    }
}

/* Fails unless missing variables are required ones that no pair names. None is missing exactly if the source has an
 * output; otherwise the fault is for the first one. */
static void expect_missing(const struct input *input, const struct answer *variables, const struct answer *missing,
                           const struct answer *answer)
{
    const struct subst_variable *all = VARIABLES(variables), *lacked = VARIABLES(missing);
    size_t i, j = 0;
    EXPECT((missing->needed == 0) == (answer->result == SUBST_DONE));
    if (missing->needed > 0)
        EXPECT(lacked->position == answer->fault.position && lacked->length == answer->fault.length);
    for (i = 0; i < missing->needed; i++, j++) {
        while (j < variables->needed && !IS_SAME(&all[j], &lacked[i]))
            j += 1;
        EXPECT(j < variables->needed && lacked[i].kind == SUBST_REQUIRED);
        EXPECT(pair_of(input, lacked[i].position, lacked[i].length) == NULL);
    }
}

/* Fails unless the answer continues with these bytes. Returns the index after them. */
static size_t after_part(const struct answer *answer, size_t at, const uint8_t *bytes, size_t length)
{
    EXPECT(at <= answer->needed && length <= answer->needed - at);
    EXPECT(length == 0 || memcmp(answer->items + at, bytes, length) == 0);
    return at + length;
}

/* Fails unless a source without a backslash and a default has its text as output, with the first value of each name. */
static void expect_values(const struct input *input, const struct answer *variables, const struct answer *answer)
{
    const struct subst_variable *variable = VARIABLES(variables), *end = variable + variables->needed;
    size_t at = 0, given = 0;
    if (answer->result != SUBST_DONE || memchr(input->source, '\\', input->source_len) != NULL)
        return;
    for (; variable < end; variable++)
        if (variable->kind == SUBST_WITH_DEFAULT)
            return;
    for (variable = VARIABLES(variables); variable < end; variable++) {
        const struct subst_pair *pair = pair_of(input, variable->position, variable->length);
        size_t braces = input->source[variable->position - 1] == '{';
        given = after_part(answer, given, input->source + at, variable->position - 1 - braces - at);
        if (pair != NULL)
            given = after_part(answer, given, pair->value, pair->value_len);
        at = variable->position + variable->length + braces + (variable->kind == SUBST_OPTIONAL);
    }
    EXPECT(after_part(answer, given, input->source + at, input->source_len - at) == answer->needed);
}

/* Tries the lists. A source that is no template has none. */
static void try_lists(const struct input *input, const struct answer *answer)
{
    struct answer variables, missing;
    if (!is_template(answer)) {
        expect_in_buffers(&call_variables, input, answer);
        expect_in_buffers(&call_missing, input, answer);
        return;
    }
    variables = held(&call_variables, input);
    missing = held(&call_missing, input);
    EXPECT(variables.result == SUBST_DONE && missing.result == SUBST_DONE);
    expect_variables(input, &variables);
    expect_missing(input, &variables, &missing, answer);
    expect_values(input, &variables, answer);
    free(variables.block);
    free(missing.block);
}

/* Texts of faults */

static int begins_with(const struct answer *text, const char *start)
{
    return text->needed >= strlen(start) && memcmp(text->items, start, strlen(start)) == 0;
}

static void try_text(const struct input *input, const struct answer *answer)
{
    struct answer text = held(&call_fault_text, input);
    const struct subst_fault *fault = &answer->fault;
    EXPECT(text.result == SUBST_DONE && (text.needed == 0) == (answer->result == SUBST_DONE));
    if (answer->result == SUBST_REFUSED)
        EXPECT(begins_with(&text, TEXTS[fault->kind]) && is_utf8(text.items, text.needed));
    if (fault->kind == SUBST_NO_SUCH_VARIABLE)
        EXPECT(text.needed == strlen(TEXTS[fault->kind]) + fault->length
               && memcmp(text.items + text.needed - fault->length, input->source + fault->position, fault->length) == 0);
    free(text.block);
}

/* Fails unless there are two lines with two blanks in front, the second of more blanks and then carets. */
static void expect_underlined(const struct answer *text)
{
    const uint8_t *at = text->items, *end = at + text->needed;
    EXPECT(begins_with(text, "  ") && end[-1] == '\n' && is_utf8(text->items, text->needed));
    at = (const uint8_t *)memchr(at, '\n', text->needed) + 1;
    EXPECT(end - at >= 3 && at[0] == ' ' && at[1] == ' ');
    while (*at == ' ')
        at += 1;
    while (*at == '^')
        at += 1;
    EXPECT(at + 1 == end);
}

static void try_highlighting(const struct input *input, const struct answer *answer)
{
    struct answer text;
    if (!is_utf8(input->source, input->source_len)) {
        expect_in_buffers(&call_fault_highlighting, input, &NO_TEXT);
        return;
    }
    text = held(&call_fault_highlighting, input);
    EXPECT(text.result == SUBST_DONE && (answer->result == SUBST_REFUSED || text.needed == 0));
    if (text.needed > 0)
        expect_underlined(&text);
    free(text.block);
}

/* Fails unless the line counts line ends before a position, and the column counts the characters of its line, if all
 * before it are one column wide. */
static void expect_place(const struct input *input, size_t position, size_t line, size_t column)
{
    const uint8_t *source = input->source;
    size_t lines = 1, start = position, i;
    for (i = 0; i < position; i++)
        lines += source[i] == '\n' || (source[i] == '\r' && !(i + 1 < position && source[i + 1] == '\n'));
    while (start > 0 && source[start - 1] >= ' ' && source[start - 1] <= '~')
        start -= 1;
    EXPECT(line == lines && column > 0);
    if (start == 0 || source[start - 1] == '\n' || source[start - 1] == '\r')
        EXPECT(column == position - start + 1);
}

/* Fails unless each position in UTF-8 has a line and a column, if it isn't past the end or inside a character. */
static void try_place(const struct input *input, const struct answer *answer)
{
    const size_t positions[] = {answer->result == SUBST_REFUSED ? answer->fault.position : 0, input->buffer_len,
                                input->source_len, input->source_len + 1, SIZE_MAX};
    size_t i;
    for (i = 0; i < sizeof positions / sizeof positions[0]; i++) {
        size_t line = UNTOLD, column = UNTOLD;
        uint32_t result = subst_place(SOURCE, positions[i], &line, &column);
        if (!is_utf8(input->source, input->source_len))
            EXPECT(result == SUBST_NOT_UTF8);
        else if (positions[i] > input->source_len || !is_utf8(input->source, positions[i]))
            EXPECT(result == SUBST_NOT_A_BOUNDARY);
        else
            EXPECT(result == SUBST_DONE);
        if (result == SUBST_DONE)
            expect_place(input, positions[i], line, column);
        else
            EXPECT(line == UNTOLD && column == UNTOLD);
    }
}

/* Templates that the caller keeps */

/* The state of random numbers, which depend on the input alone. */
static uint32_t random_state;

static void seed(void)
{
    size_t at;
    random_state = (uint32_t)tried_len;
    for (at = 0; at < tried_len; at++)
        random_state = (random_state ^ tried[at]) * 16777619u;
}

static uint32_t some(uint32_t below)
{
    random_state = random_state * 1664525u + 1013904223u;
    return (random_state >> 8) % below;
}

/* Finds the next variable that the output of a template needs, from an index on. */
static int next_need(const struct input *input, size_t *at, struct subst_variable *need)
{
    const uint8_t *source = input->source;
    size_t after, depth = 1;
    while (*at < input->source_len && source[*at] != '$')
        *at += 1 + (source[*at] == '\\');
    if (*at >= input->source_len)
        return 0;
    need->position = after = *at + 1 + (source[*at + 1] == '{');
    while (after < input->source_len && is_name_byte(source[after]))
        after += 1;
    need->length = after - need->position;
    *at = after;
    if (source[need->position - 1] == '{' && source[after] == ':'
        && pair_of(input, need->position, need->length) != NULL)
        for (*at += 1; depth > 0; *at += 1 + (source[*at] == '\\'))
            depth = depth + (source[*at] == '{') - (source[*at] == '}');
    return 1;
}

static int is_same_name(const struct input *input, const struct subst_variable *a, const struct subst_variable *b)
{
    return a->length == b->length && memcmp(input->source + a->position, input->source + b->position, a->length) == 0;
}

/* Finds the next needed variable whose name isn't needed before. */
static int next_name(const struct input *input, size_t *at, struct subst_variable *name)
{
    struct subst_variable other;
    while (next_need(input, at, name)) {
        size_t before = 0;
        while (next_need(input, &before, &other) && !is_same_name(input, &other, name))
            continue;
        if (other.position == name->position)
            return 1;
    }
    return 0;
}

/* Returns the value of a pair, or none for NULL. */
static struct subst_value value_of(const struct subst_pair *pair)
{
    struct subst_value value = {NULL, 1, SUBST_UNSET};
    if (pair != NULL) {
        value.bytes = pair->value;
        value.length = pair->value_len;
        value.given = SUBST_SET;
    }
    return value;
}

/* The context of a getter: the index up to which names were asked for, and their number. */
struct asking {
    const struct input *input;
    size_t at, count;
};

/* Gets values of the pairs. Fails unless it is asked for the names that are needed, in order. The first time it calls
 * the library, with a getter that counts from 1. */
static int get(void *context, const char *name, size_t name_len, struct subst_value *value)
{
    struct asking *asking = context, inner = {asking->input, 0, 1};
    const struct input *input = asking->input;
    struct subst_variable need;
    struct subst_fault fault;
    size_t needed;
    EXPECT(next_name(input, &asking->at, &need) && name_len == need.length && value->given == SUBST_UNSET);
    EXPECT(memcmp(name, input->source + need.position, name_len) == 0);
    if (asking->count++ == 0)
        EXPECT(subst_bytes_by(SOURCE, get, &inner, NULL, 0, &needed, &fault) != SUBST_NOT_A_TEMPLATE);
    *value = value_of(pair_of(input, need.position, need.length));
    if (value->given == SUBST_UNSET && asking->count % 2 == 0)
        value->given = SUBST_NOT_ASKED;
    return asking->count == input->stop_at ? -1 : 0;
}

/* Fails unless the getter was asked for all names that are needed, up to a missing one. */
static uint32_t make_bytes_by(const struct input *input, void *buffer, size_t buffer_len, struct answer *told)
{
    struct asking asking = {input, 0, 0};
    struct subst_variable need;
    uint32_t result = subst_bytes_by(SOURCE, get, &asking, buffer, buffer_len, &told->needed, &told->fault);
    if (result == SUBST_DONE || result == SUBST_ROOM_TOO_SMALL)
        EXPECT(!next_name(input, &asking.at, &need));
    else if (result == SUBST_REFUSED && told->fault.kind == SUBST_NO_SUCH_VARIABLE)
        EXPECT(!next_name(input, &asking.at, &need) || need.position > told->fault.position);
    else
        EXPECT(asking.count == (result == SUBST_STOPPED ? input->stop_at : 0));
    return result;
}

/* Expands with each value once it is asked for. Fails if one is asked for twice. */
static uint32_t make_steps(const struct input *input, void *buffer, size_t buffer_len, struct answer *told)
{
    struct subst_value *values = (void *)copy_of(input->values, input->values_len * sizeof values[0]);
    struct subst_cursor cursor = {0, 0};
    size_t number = UNTOLD, i;
    uint32_t result;
    for (i = 0; i < input->values_len; i++)
        values[i].given = SUBST_NOT_ASKED;
    while ((result = subst_expand_step(CELLS, SOURCE, values, input->values_len, &cursor, buffer, buffer_len, &number,
                                       &told->fault)) == SUBST_ASKS) {
        EXPECT(number < input->values_len && values[number].given == SUBST_NOT_ASKED);
        values[number] = input->values[number];
        number = UNTOLD;
    }
    EXPECT(number == UNTOLD);
    if (result == SUBST_DONE || result == SUBST_ROOM_TOO_SMALL) {
        EXPECT((cursor.written > buffer_len) == (result == SUBST_ROOM_TOO_SMALL));
        told->needed = cursor.written;
    }
    free(values);
    return result;
}

/* Copies the cells into a buffer, as subst_parse does. */
static uint32_t make_template_new(const struct input *input, void *buffer, size_t buffer_len, struct answer *told)
{
    struct subst_cell *cells = NULL;
    size_t cells_len = UNTOLD;
    uint32_t result = subst_template_new(SOURCE, input->flags, &cells, &cells_len, &told->fault);
    EXPECT((result == SUBST_DONE) == (cells != NULL) && (result == SUBST_DONE || cells_len == UNTOLD));
    if (result == SUBST_DONE)
        told->needed = cells_len;
    if (result == SUBST_DONE && cells_len <= buffer_len)
        memcpy(buffer, cells, cells_len * sizeof cells[0]);
    else if (result == SUBST_DONE)
        result = SUBST_ROOM_TOO_SMALL;
    free(cells);
    return result;
}

static const struct call call_bytes_by = {make_bytes_by, 1, 2}, call_steps = {make_steps, 1, 2},
                         call_template_new = {make_template_new, sizeof(struct subst_cell), 0};

/* Fails unless the variables of a template are those of the list, each at its first use. Writes their values by the
 * pairs, and returns their number. */
static size_t number_variables(const struct input *input, const struct answer *list, struct subst_value *values)
{
    struct subst_variable use = {UNTOLD, UNTOLD, UNTOLD};
    size_t count = 0, i, j;
    for (i = 0; i < list->needed; i++) {
        const struct subst_variable *variable = VARIABLES(list) + i;
        for (j = 0; j < count; j++)
            if (subst_template_variable(CELLS, SOURCE, j, &use) != SUBST_DONE || is_same_name(input, &use, variable))
                break;
        if (j < count)
            continue;
        EXPECT(subst_template_variable(CELLS, SOURCE, count, &use) == SUBST_DONE && IS_SAME(&use, variable));
        values[count++] = value_of(pair_of(input, variable->position, variable->length));
    }
    use.position = UNTOLD;
    EXPECT(subst_template_variables(CELLS) == count);
    EXPECT(subst_template_variable(CELLS, SOURCE, count, &use) == SUBST_NOT_A_TEMPLATE && use.position == UNTOLD);
    EXPECT(subst_template_variable(CELLS, SOURCE, SIZE_MAX, &use) == SUBST_NOT_A_TEMPLATE && use.position == UNTOLD);
    return count;
}

/* Fails unless values are the same as pairs, alone and in rows, and a value past their end is the same as none. */
static void try_values(const struct input *given, const struct answer *answer, struct subst_value *values)
{
    static const struct answer ASKS = {SUBST_ASKS, 0, {UNTOLD, UNTOLD, UNTOLD}, UNTOLD, NULL, NULL};
    const struct subst_value_row value_rows[] = {{values, given->values_len}, {values, given->values_len}, {NULL, 0}};
    const struct subst_row rows[] = {{given->pairs, given->pairs_len}, {given->pairs, given->pairs_len}, {NULL, 0}};
    const size_t half = given->values_len / 2;
    struct input input = *given;
    struct subst_variable need;
    struct answer answers;
    size_t ends[3], i, at = 0;
    expect_in_buffers(&call_expand, &input, answer);
    expect_in_buffers(&call_steps, &input, answer);
    input.rows = rows;
    input.value_rows = value_rows;
    for (input.rows_len = 0; input.rows_len <= 3; input.rows_len += 3) {
        answers = answer_of_rows(&input, answer, ends);
        expect_rows_in_buffers(&call_expand_each, &input, &answers, ends);
        free(answers.block);
    }
    input.values_len = half;
    answers = asked(&call_expand, &input, answer->needed + input.source_len);
    for (i = half; i < given->values_len; i++)
        values[i].given = SUBST_UNSET;
    input.values_len = given->values_len;
    expect(&call_expand, &input, &answers, answer->needed + input.source_len);
    expect(&call_steps, &input, &answers, answer->needed + input.source_len);
    for (i = 0; i < half; i++)
        values[i].given = SUBST_NOT_ASKED;
    expect(&call_expand, &input, half > 0 && next_need(given, &at, &need) ? &ASKS : &answers, answers.needed);
    free(answers.block);
}

/* Fails unless a parse without optional variables refuses the question mark after a name in braces as any other
 * character there. */
static void try_no_optional(const struct input *given, const struct answer *cells, const struct answer *variables)
{
    const struct subst_variable *variable = VARIABLES(variables), *end = variable + variables->needed;
    struct answer wanted = *cells;
    struct input input = *given;
    uint8_t *source = copy_of(given->source, given->source_len);
    size_t i;
    for (i = 0; i < input.source_len; i++)
        if (source[i] == '?')
            source[i] = '!';
    wanted.fault = NOTHING.fault;
    wanted.result = checked(source, input.source_len, &wanted.fault);
    if (wanted.fault.kind == SUBST_UNEXPECTED_CHARACTER)
        wanted.fault.kind = SUBST_UNEXPECTED_AFTER_NAME;
    while (variable < end && variable->kind != SUBST_OPTIONAL)
        variable += 1;
    if (variable < end)
        EXPECT(wanted.fault.position == variable->position + variable->length);
    else
        EXPECT(wanted.result == cells->result || cells->result == SUBST_REFUSED);
    wanted.needed = wanted.result == SUBST_DONE ? cells->needed : 0;
    input.flags = SUBST_NO_OPTIONAL;
    expect_in_buffers(&call_parse, &input, &wanted);
    expect(&call_template_new, &input, &wanted, wanted.needed);
    input.flags = SUBST_NO_OPTIONAL + 1 + some(5);
    expect(&call_parse, &input, &NO_STYLE, input.buffer_len);
    free(source);
}

/* Fails unless the value of a text's variable is adapted for a name with this digit of a question, or 0 for none. */
static void expect_adapted(uint32_t forms, uint8_t question, const struct subst_value *old,
                           const struct subst_value *value)
{
    const int may_change = forms >= SUBST_FORMS_SHELL && question != '1' && old->given != SUBST_NOT_ASKED;
    const int is_none = old->given != SUBST_SET || (question != '2' && old->length == 0);
    if (!may_change || (question == 0 && !is_none))
        EXPECT(value->given == old->given && value->bytes == old->bytes && value->length == old->length);
    else if (question != 0 && is_none)
        EXPECT(value->given == SUBST_SET && value->length == 0);
    else
        EXPECT(value->given != SUBST_SET && value->given != SUBST_NOT_ASKED);
}

/* Fails unless the calls for a variable of a text do what the header says for any cells: the name is that of the cells,
 * without the digit of a question, and the value is for the whole name. Returns the result. */
static uint32_t expect_by_forms(const struct input *input, uint32_t forms, size_t number)
{
    static const struct subst_variable UNUSED = {UNTOLD, UNTOLD, UNTOLD};
    const struct subst_value values[] = {{NULL, 1, SUBST_UNSET}, {NULL, 1, SUBST_NOT_ASKED}, {NULL, 1, UINT32_MAX},
                                         {NULL, 0, SUBST_SET}, {"", 0, SUBST_SET}, {"v", 1, SUBST_SET}};
    struct subst_variable whole = UNUSED, use = UNUSED;
    const uint32_t found = subst_template_variable(CELLS, SOURCE, number, &whole);
    const uint32_t result = forms > SUBST_FORMS_COMMON ? (uint32_t)SUBST_NO_SUCH_STYLE : found;
    uint8_t question = 0;
    size_t i;
    EXPECT(subst_template_variable_by_style(CELLS, SOURCE, forms, number, &use) == result);
    if (result == SUBST_DONE && forms == SUBST_FORMS_SHELL && whole.length > 0)
        question = input->source[whole.position];
    if (question < '1' || question > '3')
        question = 0;
    whole.position += question != 0;
    whole.length -= question != 0;
    EXPECT(IS_SAME(&use, result == SUBST_DONE ? &whole : &UNUSED));
    for (i = 0; i < sizeof values / sizeof values[0]; i++) {
        struct subst_value value = values[i];
        EXPECT(subst_value_by_style(CELLS, SOURCE, forms, number, &value) == result);
        expect_adapted(result == SUBST_DONE ? forms : (uint32_t)SUBST_FORMS_OWN, question, &values[i], &value);
    }
    return result;
}

/* Memory between pages that can't be touched, for each argument of an expansion. */
enum { AREAS = 4, AREA = 1 << 16, PAGE = 1 << 12 };

/* Copies bytes to the beginning or to the end of an area. */
static void *placed(size_t number, const void *bytes, size_t length, int is_at_end)
{
    static uint8_t *areas;
    uint8_t *place;
    size_t i;
    if (areas == NULL) {
        areas = mmap(NULL, AREAS * (AREA + PAGE) + PAGE, PROT_NONE, MAP_PRIVATE | MAP_ANONYMOUS, -1, 0);
        for (i = 0; i < AREAS; i++)
            if (areas == MAP_FAILED || mprotect(areas + i * (AREA + PAGE) + PAGE, AREA, PROT_READ | PROT_WRITE) != 0)
                exit(EXIT_FAILURE);
    }
    place = areas + number * (AREA + PAGE) + PAGE + (is_at_end ? AREA - length : 0);
    return length > 0 ? memcpy(place, bytes, length) : place;
}

/* Fails unless an output has only bytes of the source, of values and of cells. */
static void expect_made_of(const struct input *input, const struct answer *answer)
{
    uint8_t known[256] = {0};
    size_t i, j;
    for (i = 0; i < input->source_len; i++)
        known[input->source[i]] = 1;
    for (i = 0; i < input->values_len; i++)
        for (j = 0; input->values[i].given == SUBST_SET && j < input->values[i].length; j++)
            known[((const uint8_t *)input->values[i].bytes)[j]] = 1;
    for (i = 0; i < input->cells_len; i++)
        known[input->cells[i].first & 255] |= input->cells[i].first < 256;
    for (i = 0; i < answer->needed; i++)
        EXPECT(known[answer->items[i]]);
}

/* Fails unless an expansion of any cells has an answer that it may have, and stays within its arguments, also from any
 * cursor. Returns the result. */
static uint32_t expect_harmless(const struct input *given, int is_at_end)
{
    struct input placed_input = *given;
    const struct input *input = &placed_input;
    struct answer none, answer, other = NOTHING;
    struct subst_cursor cursor = {some(9), (size_t)some(9) - some(3)};
    struct subst_value_row row;
    struct subst_variable use;
    size_t number, length;
    placed_input.cells = placed(0, given->cells, given->cells_len * sizeof given->cells[0], is_at_end);
    placed_input.source = placed(1, given->source, given->source_len, is_at_end);
    row.values = placed(2, given->values, given->values_len * sizeof given->values[0], is_at_end);
    placed_input.values = row.values;
    row.values_len = given->values_len;
    placed_input.value_rows = &row;
    placed_input.rows_len = 1;
    none = asked(&call_expand, input, 0);
    free(none.block);
    if (none.needed > AREA)
        return none.result;
    answer = asked(&call_expand, input, none.needed);
    EXPECT(answer.result == SUBST_DONE || answer.result == SUBST_NOT_A_TEMPLATE || answer.result == SUBST_REFUSED);
    if (answer.result == SUBST_REFUSED)
        EXPECT(answer.fault.kind == SUBST_NO_SUCH_VARIABLE && answer.fault.position <= input->source_len
               && answer.fault.length <= input->source_len - answer.fault.position);
    expect_made_of(input, &answer);
    expect_in_buffers(&call_expand, input, &answer);
    expect_in_buffers(&call_steps, input, &answer);
    for (length = answer.needed; length + 2 > answer.needed && length <= answer.needed; length--)
        call_expand.make(input, placed(3, answer.items, length, is_at_end), length, &other);
    subst_expand_step(CELLS, SOURCE, VALUES, &cursor, placed(3, answer.items, answer.needed, is_at_end), answer.needed,
                      &number, &other.fault);
    for (number = 0; number < 9; number++) {
        if (subst_template_variable(CELLS, SOURCE, number, &use) == SUBST_DONE)
            EXPECT(use.position <= input->source_len && use.length <= input->source_len - use.position);
        expect_by_forms(input, (uint32_t)(number % (SUBST_FORMS_COMMON + 2)), number);
    }
    answer.row = answer.result == SUBST_REFUSED ? 0 : UNTOLD;
    expect_rows(&call_expand_each, input, &answer, &answer.needed, answer.needed, 1);
    free(answer.block);
    return answer.result;
}

/* Makes a template's head and its check sum right, so that the cells are expanded. */
static void seal(struct subst_cell *cells, size_t cells_len, uint32_t length)
{
    const struct subst_cell *end = cells + cells_len, *cell;
    const struct subst_cell head = {0x01425553, length, cells->second, cells->second};
    *cells = head;
    for (cell = cells + 1; cell < end; cell++)
        cells->number += cell->kind + cell->first + cell->second + cell->number;
}

/* Tries a template over other sources, cut, with other numbers, and random cells. Without a new check sum, a source of
 * another length and another number are seen. */
static void try_damaged(const struct input *given)
{
    const size_t size = given->cells_len * sizeof given->cells[0];
    const uint32_t length = (uint32_t)given->source_len, numbers_len = (uint32_t)(4 * given->cells_len);
    int round;
    if (size > AREA || length > AREA || given->values_len * sizeof given->values[0] > AREA)
        return;
    for (round = 0; round < 8; round++) {
        struct input input = *given;
        struct subst_cell *cells = (void *)copy_of(given->cells, size);
        uint8_t *source = copy_of(given->source, length);
        uint32_t *numbers = &cells->kind, changes = round < 2 ? (uint32_t)round : some(4), i, at, result;
        input.cells = cells;
        input.source = source;
        input.source_len -= round == 0 && length > 0;
        input.cells_len -= round == 2 ? some((uint32_t)input.cells_len) : 0;
        for (i = 0; i < length && round == 3; i++)
            source[i] = given->source[some(length)];
        for (i = 4; i < numbers_len && round == 4; i++)
            numbers[i] = i % 4 == 0 ? some(6) : some(length + 2);
        for (i = 0; i < changes; i++) {
            at = some(numbers_len);
            numbers[at] = some(2) ? some(length + 2) : numbers[at] ^ ((uint32_t)1 << some(32));
        }
        if (round > 1)
            seal(cells, input.cells_len, length);
        result = expect_harmless(&input, (int)some(2));
        if (round < 2 && (input.source_len < length || memcmp(cells, given->cells, size) != 0))
            EXPECT(result == SUBST_NOT_A_TEMPLATE);
        free(cells);
        free(source);
    }
}

/* Fails unless the fault of a call with pairs has the same text and lines alone, and one that may be in no source has
 * those that it may have. */
static void try_error(const struct input *given, const struct answer *answer)
{
    const struct subst_fault other = {some(11), some((uint32_t)given->source_len + 2), some(5) - (size_t)some(2)};
    const size_t end = other.position + other.length;
    struct answer text = answer_of(&call_fault_text, given), lines = answer_of(&call_fault_highlighting, given);
    struct input input = *given;
    input.fault = answer->fault;
    if (answer->result == SUBST_REFUSED) {
        expect_in_buffers(&call_error_text, &input, &text);
        expect_in_buffers(&call_error_highlighting, &input, &lines);
    }
    free(text.block);
    free(lines.block);
    input.fault = other;
    text = held(&call_error_text, &input);
    lines = held(&call_error_highlighting, &input);
    EXPECT(text.result == SUBST_DONE && is_utf8(text.items, text.needed));
    if (text.needed > 0)
        EXPECT(end >= other.position && end <= input.source_len
               && (other.kind - 1 < SUBST_NO_SUCH_VARIABLE || other.kind == SUBST_UNEXPECTED_AFTER_NAME));
    if (!is_utf8(input.source, input.source_len))
        EXPECT(lines.result == SUBST_NOT_UTF8);
    else if (end < other.position || end > input.source_len || !is_utf8(input.source, other.position)
             || !is_utf8(input.source, end))
        EXPECT(lines.result == SUBST_NOT_A_BOUNDARY);
    else
        EXPECT(lines.result == SUBST_DONE);
    if (lines.needed > 0)
        expect_underlined(&lines);
    free(text.block);
    free(lines.block);
}

/* Fails unless a parse and an expansion have the answer of one call. */
static void try_templates(const struct input *given, const struct answer *answer)
{
    static const struct answer STOPPED = {SUBST_STOPPED, 0, {UNTOLD, UNTOLD, UNTOLD}, UNTOLD, NULL, NULL};
    struct input input = *given;
    struct answer cells = held(&call_parse, &input), variables = answer_of(&call_variables, &input);
    struct subst_value *values = taken(cells.needed * sizeof values[0]);
    struct subst_variable name;
    size_t at;
    EXPECT(is_template(answer) ? cells.result == SUBST_DONE && cells.needed <= input.source_len + 1
                               : cells.result == SUBST_REFUSED && IS_SAME(&cells.fault, &answer->fault));
    expect_in_buffers(&call_template_new, &input, &cells);
    expect_in_buffers(&call_bytes_by, &input, answer);
    try_no_optional(&input, &cells, &variables);
    try_error(&input, answer);
    if (is_template(answer)) {
        input.cells = (void *)cells.items;
        input.cells_len = cells.needed;
        input.values = values;
        input.values_len = number_variables(&input, &variables, values);
        try_damaged(&input);
        try_values(&input, answer, values);
        at = 0;
        input.stop_at = 1;
        if (next_name(&input, &at, &name))
            expect(&call_bytes_by, &input, &STOPPED, answer->needed);
    }
    free(values);
    free(cells.block);
    free(variables.block);
}

/* Documents by names */

/* Fails unless names are there once each, of bytes of names. Writes their values by number, and the pairs that have
 * these. Returns the number of pairs. */
static size_t number_names(const struct input *of_names, const size_t *ends, size_t count, struct subst_value *values,
                           struct subst_pair *pairs)
{
    size_t pairs_len = 0, i, j;
    struct subst_variable name = {0, 0, SUBST_REQUIRED}, other = name;
    for (i = 0; i < count; i++, name.position += name.length) {
        const struct subst_pair *pair;
        EXPECT(ends[i] > name.position && ends[i] <= of_names->source_len);
        name.length = ends[i] - name.position;
        for (j = name.position; j < ends[i]; j++)
            EXPECT(is_name_byte(of_names->source[j]));
        for (j = 0, other.position = 0; j < i; other.position = ends[j++]) {
            other.length = ends[j] - other.position;
            EXPECT(!is_same_name(of_names, &name, &other));
        }
        pair = pair_of(of_names, name.position, name.length);
        values[i] = value_of(pair);
        if (pair != NULL)
            pairs[pairs_len++] = *pair;
    }
    EXPECT(name.position == of_names->source_len);
    return pairs_len;
}

/* Fails unless values by number do what pairs do, also without those at their end that are no value, and only a missing
 * variable is refused. */
static void expect_as_pairs(const struct call *fill_in, const struct call *expand, const struct input *given)
{
    struct answer none = asked(fill_in, given, 0), answer = asked(fill_in, given, none.needed);
    struct input input = *given;
    EXPECT(answer.result != SUBST_REFUSED || answer.fault.kind == SUBST_NO_SUCH_VARIABLE);
    expect(expand, &input, &answer, answer.needed);
    while (input.values_len > 0 && input.values[input.values_len - 1].given != SUBST_SET)
        input.values_len -= 1;
    expect(expand, &input, &answer, input.buffer_len);
    free(none.block);
    free(answer.block);
}

/* Fails unless the names of the pairs are in the order of their use, if the document has no backslash and no brace: the
 * first name without a value is missing. */
static void expect_in_order(const struct call *expand, const struct input *given)
{
    struct input input = *given;
    if (memchr(input.source, '\\', input.source_len) != NULL || memchr(input.source, '{', input.source_len) != NULL)
        return;
    for (input.values_len = 0; input.values_len < input.pairs_len; input.values_len++) {
        const struct subst_pair *pair = &input.pairs[input.values_len];
        struct answer answer = asked(expand, &input, 0);
        EXPECT(answer.fault.kind == SUBST_NO_SUCH_VARIABLE && answer.fault.length == pair->name_len);
        EXPECT(memcmp(input.source + answer.fault.position, pair->name, pair->name_len) == 0);
        free(answer.block);
    }
}

/* Tries the values of all names, with the given pairs and a value too many if these are texts; those of the first names
 * alone; and a value for each name. */
static void try_numbered(const struct call *fill_in, const struct call *expand, const struct input *given,
                         const struct answer *names, const size_t *ends)
{
    const struct subst_value more = {"\"\n", 2, SUBST_SET};
    const size_t count = given->rows_len, half = count / 2;
    struct subst_value *values = taken((count + 1) * sizeof values[0]);
    struct subst_pair *pairs = taken(count * sizeof pairs[0]);
    struct input of_names = *given, input = *given;
    struct answer none, answer;
    size_t pairs_len, i;
    input.ends = NULL;
    of_names.source = names->items;
    of_names.source_len = names->needed;
    pairs_len = number_names(&of_names, ends, count, values, pairs);
    values[count] = more;
    input.values = values;
    input.values_len = count + (size_t)are_texts(given);
    if (!are_texts(given)) {
        input.pairs = pairs;
        input.pairs_len = pairs_len;
    }
    expect_as_pairs(fill_in, expand, &input);
    input.pairs = pairs;
    input.pairs_len = pairs_len;
    input.values_len = count;
    for (i = half; i < count; i++) {
        input.pairs_len -= values[i].given == SUBST_SET;
        values[i].given = i % 2 == 0 ? SUBST_UNSET : SUBST_NOT_ASKED;
    }
    expect_as_pairs(fill_in, expand, &input);
    for (i = 0; i < count; i++) {
        const size_t start = i > 0 ? ends[i - 1] : 0;
        const struct subst_pair pair = {names->items + start, ends[i] - start, more.bytes, more.length};
        pairs[i] = pair;
        values[i] = more;
    }
    input.pairs_len = input.values_len = count;
    none = asked(fill_in, &input, 0);
    answer = asked(fill_in, &input, none.needed);
    EXPECT(answer.result == SUBST_DONE);
    expect(expand, &input, &answer, answer.needed + 3);
    expect(expand, &input, &answer, answer.needed - (answer.needed > 0));
    free(none.block);
    free(answer.block);
    expect_in_order(expand, &input);
    free(values);
    free(pairs);
}

/* Fails unless a document without names is refused for the same fault with any values, and with pairs too, unless a
 * variable is missing before it. A value that isn't UTF-8 is refused first. */
static void try_nameless(const struct call *fill_in, const struct call *expand, const struct input *given,
                         const struct answer *names)
{
    const struct answer *wanted = are_texts(given) ? names : &NO_TEXT;
    struct subst_value values[MOST_PAIRS];
    struct input input = *given;
    struct answer answer = asked(fill_in, given, given->buffer_len);
    size_t i;
    EXPECT(names->result == (is_utf8(given->source, given->source_len) ? SUBST_REFUSED : SUBST_NOT_UTF8));
    EXPECT(names->fault.kind != SUBST_NO_SUCH_VARIABLE && answer.result == wanted->result);
    if (answer.fault.kind == SUBST_NO_SUCH_VARIABLE)
        EXPECT(answer.fault.position < names->fault.position);
    else
        EXPECT(IS_SAME(&answer.fault, &wanted->fault));
    for (i = 0; i < given->pairs_len; i++)
        values[i] = value_of(&given->pairs[i]);
    input.values = values;
    expect(expand, &input, names, given->buffer_len);
    input.values_len = given->pairs_len;
    expect(expand, &input, wanted, given->buffer_len);
    free(answer.block);
}

/* Tries the names of a document in buffers and with ends of each length, and then its values by number. */
static void try_names(const struct call *fill_in, const struct call *parse, const struct call *expand,
                      const struct input *given)
{
    struct input input = *given;
    struct answer none = asked(parse, &input, 0), names;
    const int has_names = none.result == SUBST_DONE || none.result == SUBST_ROOM_TOO_SMALL;
    const size_t count = counted;
    uint8_t *block;
    size_t lengths[ROOMS + 2], i;
    input.rows_len = input.ends_len = has_names ? count : 0;
    block = guarded(input.rows_len * sizeof input.ends[0]);
    input.ends = (size_t *)(void *)(block + GUARD);
    names = asked(parse, &input, none.needed);
    EXPECT((names.result == SUBST_DONE) == has_names);
    lengths[ROOMS] = lengths[ROOMS + 1] = names.needed;
    buffers_for(lengths, &input, names.needed);
    for (i = 0; i < ROOMS + 2; i++) {
        const size_t change = i < ROOMS ? 0 : i == ROOMS ? 1 : 0 - (size_t)(input.rows_len > 0);
        expect_rows(parse, &input, &names, input.ends, lengths[i], input.rows_len + change);
        EXPECT(counted == count);
    }
    if (has_names)
        try_numbered(fill_in, expand, &input, &names, input.ends);
    else
        try_nameless(fill_in, expand, given, &names);
    free(none.block);
    free(names.block);
    free(block);
}

/* Kept templates of texts of other tools */

/* Reports a fault in a text, once there is memory, from a template that no memory follows. Fails unless the report is a
 * variable of the text, or nothing without SUBST_DONE. */
static uint32_t fault_in_text(const struct input *input, const uint8_t *template, size_t template_len,
                              const struct subst_fault *fault)
{
    uint32_t result;
    size_t end;
    if (template_len <= AREA)
        template = placed(1, template, template_len, 1);
    reported = UNREPORTED;
    while ((result = subst_fault_by_style(SOURCE, &input->style, template, template_len, fault, &reported))
           == SUBST_OUT_OF_MEMORY) {
        times_out_of_memory += 1;
        EXPECT(memcmp(&reported, &UNREPORTED, sizeof reported) == 0);
    }
    if (result != SUBST_DONE) {
        EXPECT(memcmp(&reported, &UNREPORTED, sizeof reported) == 0);
        return result;
    }
    end = reported.message_position + reported.message_length;
    EXPECT(reported.kind == SUBST_NO_SUCH_VARIABLE && fault->kind == SUBST_NO_SUCH_VARIABLE && reported.form == 0);
    EXPECT(is_name_at(input, reported.position, reported.length));
    EXPECT(end >= reported.message_length && end < input->source_len && (end == 0 || input->source[end] == '}'));
    return result;
}

/* Fails unless variables of a template, at most two of them, are variables of its text. Faults of other kinds and
 * spans are none. Those of other templates and styles may be. */
static void try_faults(const struct input *text, const struct input *template)
{
    static const struct subst_fault ENDLESS = {SUBST_NO_SUCH_VARIABLE, SIZE_MAX, 2};
    struct answer none = asked(&call_variables, template, 0), variables = asked(&call_variables, template, none.needed);
    const uint8_t *source = template->source;
    const size_t source_len = template->source_len, count = variables.needed;
    uint8_t *damaged = copy_of(source, source_len);
    struct input other = *text;
    size_t i = count > 2 ? some((uint32_t)count - 1) : 0;
    const size_t end = count > 2 ? i + 2 : count;
    other.style.forms = some(SUBST_FORMS_COMMON + 2);
    other.style.names = some(SUBST_NAMES_KNOWN + 2);
    for (; i < end; i++) {
        const struct subst_variable *variable = VARIABLES(&variables) + i;
        const uint8_t *name = source + variable->position;
        struct subst_fault fault = {SUBST_NO_SUCH_VARIABLE, variable->position, variable->length};
        size_t question;
        EXPECT(fault_in_text(text, source, source_len, &fault) == SUBST_DONE);
        question = variable->length - reported.length;
        EXPECT(question == (size_t)(text->style.forms == SUBST_FORMS_SHELL && *name >= '1' && *name <= '3'));
        EXPECT(memcmp(text->source + reported.position, name + question, reported.length) == 0);
        EXPECT((fault_in_text(&other, source, source_len, &fault) == SUBST_NO_SUCH_STYLE)
               == (other.style.forms > SUBST_FORMS_COMMON || other.style.names > SUBST_NAMES_KNOWN));
        damaged[some((uint32_t)source_len)] = (uint8_t)"$\\{}:?a1"[some(8)];
        fault_in_text(text, damaged, source_len, &fault);
        fault_in_text(text, text->source, text->source_len, &fault);
        EXPECT(fault_in_text(text, source, variable->position, &fault) == SUBST_NOT_A_TEMPLATE);
        fault.position += 1;
        EXPECT(fault_in_text(text, source, source_len, &fault) == SUBST_NOT_A_TEMPLATE);
        fault.position -= 1;
        fault.kind = some(SUBST_NO_SUCH_VARIABLE);
        EXPECT(fault_in_text(text, source, source_len, &fault) == SUBST_NOT_A_TEMPLATE);
    }
    EXPECT(fault_in_text(text, source, source_len, &ENDLESS) == SUBST_NOT_A_TEMPLATE);
    free(none.block);
    free(variables.block);
    free(damaged);
}

/* Fails unless a template expands to the output of its text by subst_bytes_by_style, or has its fault. */
static void expect_kept(const struct input *text, const struct input *template, const struct answer *answer,
                        const struct subst_style_fault *fault)
{
    const uint32_t forms = text->style.forms;
    struct input with_values = *template;
    const struct input *input = &with_values;
    struct answer cells = answer_of(&call_parse, input), filled;
    struct subst_value *values;
    struct subst_variable use;
    size_t i;
    EXPECT(cells.result == SUBST_DONE);
    with_values.cells = (void *)cells.items;
    with_values.cells_len = cells.needed;
    with_values.values_len = subst_template_variables(CELLS);
    with_values.values = values = taken(input->values_len * sizeof values[0]);
    for (i = 0; i < input->values_len; i++) {
        EXPECT(expect_by_forms(input, forms, i) == SUBST_DONE);
        EXPECT(subst_template_variable_by_style(CELLS, SOURCE, forms, i, &use) == SUBST_DONE);
        values[i] = value_of(pair_of(input, use.position, use.length));
        EXPECT(subst_value_by_style(CELLS, SOURCE, forms, i, &values[i]) == SUBST_DONE);
    }
    EXPECT(expect_by_forms(input, forms, i) == SUBST_NOT_A_TEMPLATE);
    EXPECT(expect_by_forms(input, SUBST_FORMS_COMMON + 1, 0) == SUBST_NO_SUCH_STYLE);
    filled = asked(&call_expand, input, answer->needed);
    EXPECT(filled.result == answer->result);
    if (filled.result == SUBST_REFUSED) {
        EXPECT(fault_in_text(text, input->source, input->source_len, &filled.fault) == SUBST_DONE);
        EXPECT(memcmp(&reported, fault, sizeof reported) == 0);
        answer = &filled;
    }
    expect_in_buffers(&call_expand, input, answer);
    expect(&call_steps, input, answer, answer->needed);
    free(filled.block);
    free(values);
    free(cells.block);
}

/* Fails unless a text has a template by a style, or a refused form, as subst_bytes_by_style has it with pairs. */
static void try_kept_style(const struct input *given)
{
    struct answer none = asked(&call_bytes_by_style, given, 0), answer = asked(&call_bytes_by_style, given, none.needed);
    const struct subst_style_fault fault = reported;
    struct input input = *given, template;
    struct answer made;
    free(none.block);
    if (input.style.names == SUBST_NAMES_KNOWN) {
        input.style.only = input.pairs;
        input.style.only_len = input.pairs_len;
    }
    none = asked(&call_template_by_style, &input, 0);
    made = asked(&call_template_by_style, &input, none.needed);
    if (answer.result == SUBST_REFUSED && fault.kind == SUBST_REFUSED_FORM)
        EXPECT(made.result == SUBST_REFUSED && memcmp(&reported, &fault, sizeof fault) == 0);
    else
        EXPECT(made.result == SUBST_DONE);
    EXPECT(!is_utf8(input.source, input.source_len) || is_utf8(made.items, made.needed));
    expect_in_buffers(&call_template_by_style, &input, &made);
    if (made.result == SUBST_DONE) {
        template = input;
        template.source = made.items;
        template.source_len = made.needed;
        expect_kept(&input, &template, &answer, &fault);
        try_faults(&input, &template);
    }
    free(none.block);
    free(answer.block);
    free(made.block);
}

/* Tries all forms, all choices of names, and both expansions of an unset variable. */
static void try_kept_styles(const struct input *given)
{
    struct input input = *given;
    const struct subst_style first = {0, 0, 0, input.pairs, input.pairs_len / 2};
    for (input.style = first; input.style.forms <= SUBST_FORMS_COMMON; input.style.forms++)
        for (input.style.names = 0; input.style.names <= SUBST_NAMES_KNOWN; input.style.names++)
            for (input.style.unset = 0; input.style.unset <= SUBST_UNSET_NOTHING; input.style.unset++)
                try_kept_style(&input);
}

/* Inputs */

/* Reads an input: numbers of one byte, 0 if none is left, and then this many bytes for each word, or as many as are
 * left. */
static struct input input_of(const uint8_t *data, size_t size, struct subst_pair *pairs)
{
    struct input input;
    size_t at = 0, i;
    memset(&input, 0, sizeof input);
    input.buffer_len = at < size ? data[at++] : 0;
    input.pairs_len = (at < size ? data[at++] : 0) % (MOST_PAIRS + 1);
    input.pairs = pairs;
    for (i = 0; i < 2 * input.pairs_len; i++)
        input.lengths[i] = at < size ? data[at++] : 0;
    input.lengths[i] = size;
    for (i = 0; i <= 2 * input.pairs_len; i++) {
        if (input.lengths[i] > size - at)
            input.lengths[i] = size - at;
        input.words[i] = copy_of(data + at, input.lengths[i]);
        at += input.lengths[i];
    }
    for (i = 0; i < input.pairs_len; i++) {
        const struct subst_pair pair = {input.words[2 * i], input.lengths[2 * i], input.words[2 * i + 1],
                                        input.lengths[2 * i + 1]};
        pairs[i] = pair;
    }
    input.source = input.words[2 * input.pairs_len];
    input.source_len = input.lengths[2 * input.pairs_len];
    return input;
}

/* Fails if a call has changed what it borrows, and frees it. The words end at the end of the data. */
static void end_input(struct input *input, const uint8_t *end)
{
    size_t i;
    for (i = 0; i < input->pairs_len; i++) {
        const struct subst_pair *pair = &input->pairs[i];
        EXPECT(pair->name == input->words[2 * i] && pair->value == input->words[2 * i + 1]);
        EXPECT(pair->name_len == input->lengths[2 * i] && pair->value_len == input->lengths[2 * i + 1]);
    }
    for (i = 2 * input->pairs_len + 1; i-- > 0;) {
        end -= input->lengths[i];
        EXPECT(memcmp(input->words[i], end, input->lengths[i]) == 0);
        free(input->words[i]);
    }
}

/* The library has no counters of its own, so these report answers of a new kind to libFuzzer. */
#if defined(__clang__) && defined(__linux__) && !defined(STANDALONE)
__attribute__((section("__libfuzzer_extra_counters")))
#endif
static uint8_t answers_of_a_kind[6][8][8][8];

static void count_answer(const struct input *input, const struct answer *answer)
{
    size_t kind = answer->result == SUBST_REFUSED ? answer->fault.kind : 0, dollars = 0, braces = 0, i;
    for (i = 0; i < input->source_len; i++) {
        dollars += input->source[i] == '$' && dollars < 7;
        braces += input->source[i] == '{' && braces < 7;
    }
    answers_of_a_kind[kind][dollars][braces][answer->needed < 7 ? answer->needed : 7] = 1;
}

int LLVMFuzzerTestOneInput(const uint8_t *data, size_t size);

int LLVMFuzzerTestOneInput(const uint8_t *data, size_t size)
{
    struct subst_pair pairs[MOST_PAIRS];
    struct input input = input_of(data, size, pairs);
    struct answer answer;
    tried = data;
    tried_len = size;
    seed();
    answer = answer_of(&call_bytes, &input);
    try_filling(&input, &answer);
    count_answer(&input, &answer);
    try_check(&input, &answer);
    try_rows(&input, &answer);
    try_lists(&input, &answer);
    try_text(&input, &answer);
    try_highlighting(&input, &answer);
    try_place(&input, &answer);
    try_escaped(&input);
    try_translated(&call_from_envsubst, &input);
    try_translated(&call_with_only, &input);
    try_shell(&input);
    try_styles(&input);
    try_document(&call_json, &call_json_fault_text, &input);
    try_names(&call_json, &call_json_parse, &call_json_expand, &input);
    try_document(&call_toml, &call_toml_fault_text, &input);
    try_names(&call_toml, &call_toml_parse, &call_toml_expand, &input);
    try_document(&call_yaml, &call_yaml_fault_text, &input);
    try_names(&call_yaml, &call_yaml_parse, &call_yaml_expand, &input);
    try_templates(&input, &answer);
    try_kept_styles(&input);
    free(answer.block);
    end_input(&input, data + size);
    return 0;
}

#ifdef STANDALONE
static void try_file(const char *name)
{
    static uint8_t data[1 << 20];
    int file = open(name, O_RDONLY);
    ssize_t size = read(file, data, sizeof data);
    if (size < 0) {
        perror(name);
        exit(EXIT_FAILURE);
    }
    close(file);
    LLVMFuzzerTestOneInput(data, (size_t)size);
}

int main(int argc, char **argv)
{
    int i;
    for (i = 1; i < argc; i++)
        try_file(argv[i]);
    printf("%d inputs, %lu times out of memory\n", argc - 1, times_out_of_memory);
    return EXIT_SUCCESS;
}
#endif

/* The module subst._fast: expands templates for the package, by CPython's stable interface.
 *
 * It links to no library: `bind` takes the addresses of the functions of the library that ctypes has loaded. It expands
 * with a dict whose values have the type of the source, and returns None in all other cases, also for a source that is
 * refused. The package then makes the call by ctypes, which raises the error.
 */
#define Py_LIMITED_API 0x03080000
#define PY_SSIZE_T_CLEAN
#include <Python.h>
#include <stdlib.h>
#include <string.h>
#include <subst.h>

/* The most values, and the most bytes of an output, on the stack, and those past which other threads run. */
enum { FEW = 16, SMALL = 1024, LARGE = 1 << 16 };

static struct {
    uint32_t (*template_new)(const uint8_t *, size_t, uint32_t, struct subst_cell **, size_t *, struct subst_fault *);
    size_t (*template_variables)(const struct subst_cell *, size_t);
    uint32_t (*template_variable)(const struct subst_cell *, size_t, const uint8_t *, size_t, size_t,
                                  struct subst_variable *);
    uint32_t (*expand)(const struct subst_cell *, size_t, const uint8_t *, size_t, const struct subst_value *, size_t,
                       uint8_t *, size_t, size_t *, struct subst_fault *);
} library;

/* A template: its source in bytes, its cells, and the names of its variables as a tuple. */
struct template {
    const uint8_t *source;
    size_t source_len;
    struct subst_cell *cells;
    size_t cells_len, count;
    PyObject *names;
    int is_text, no_empty;
};

/* Returns None, or NULL if an error is set. */
static PyObject *none(void)
{
    if (PyErr_Occurred())
        return NULL;
    Py_RETURN_NONE;
}

static PyObject *decoded(const void *bytes, size_t size, int is_text)
{
    return is_text ? PyUnicode_DecodeUTF8(bytes, (Py_ssize_t)size, NULL)
                   : PyBytes_FromStringAndSize(bytes, (Py_ssize_t)size);
}

/* Returns a str or bytes as bytes, or NULL without an error if it has another type, or lone surrogates. */
static PyObject *encoded(PyObject *given, int is_text, const uint8_t **bytes, size_t *size)
{
    PyObject *found = NULL;
    Py_INCREF(given);
    if (is_text && PyUnicode_Check(given))
        found = PyUnicode_AsUTF8String(given);
    else if (!is_text && (PyBytes_Check(given) || PyByteArray_Check(given) || PyMemoryView_Check(given)))
        found = PyBytes_FromObject(given);
    Py_DECREF(given);
    if (found == NULL) {
        PyErr_Clear();
        return NULL;
    }
    *bytes = (const uint8_t *)PyBytes_AsString(found);
    *size = (size_t)PyBytes_Size(found);
    return found;
}

/* Looks up the values, and adds up their sizes. Returns whether each that is found has the type of the source. */
static int looked_up(const struct template *it, PyObject *variables, struct subst_value *values, PyObject **held,
                     size_t *size)
{
    size_t i;
    for (i = 0; i < it->count; i++) {
        PyObject *name = PyTuple_GetItem(it->names, (Py_ssize_t)i);
        PyObject *value = name == NULL ? NULL : PyDict_GetItemWithError(variables, name);
        const uint8_t *bytes;
        if (value == NULL && PyErr_Occurred())
            return 0;
        if (value == NULL)
            continue;
        held[i] = encoded(value, it->is_text, &bytes, &values[i].length);
        if (held[i] == NULL)
            return 0;
        values[i].bytes = bytes;
        values[i].given = it->no_empty && values[i].length == 0 ? SUBST_UNSET : SUBST_SET;
        *size += values[i].length;
    }
    return 1;
}

/* Expands with these values, whose size is known, and returns the output. */
static PyObject *output_of(const struct template *it, const struct subst_value *values, size_t size)
{
    uint8_t small[SMALL], *buffer = small;
    size_t capacity = sizeof small, needed = 2 * (it->source_len + size);
    uint32_t result = SUBST_ROOM_TOO_SMALL;
    struct subst_fault fault;
    PyObject *output;
    while (result == SUBST_ROOM_TOO_SMALL) {
        PyThreadState *state;
        if (buffer != small)
            free(buffer);
        buffer = needed <= sizeof small ? small : malloc(needed);
        if (buffer == NULL)
            return none();
        capacity = needed <= sizeof small ? sizeof small : needed;
        state = capacity > LARGE ? PyEval_SaveThread() : NULL;
        result = library.expand(it->cells, it->cells_len, it->source, it->source_len, values, it->count, buffer,
                                capacity, &needed, &fault);
        if (state != NULL)
            PyEval_RestoreThread(state);
    }
    output = result == SUBST_DONE ? decoded(buffer, needed, it->is_text) : none();
    if (buffer != small)
        free(buffer);
    return output;
}

/* Expands a template with the values of a dict. */
static PyObject *expanded(const struct template *it, PyObject *variables)
{
    struct subst_value few[FEW], *values = it->count <= FEW ? few : malloc(it->count * sizeof *values);
    PyObject *few_held[FEW], **held = it->count <= FEW ? few_held : malloc(it->count * sizeof *held), *output = NULL;
    size_t i, size = 0;
    if (values != NULL && held != NULL) {
        memset(values, 0, it->count * sizeof *values);
        memset(held, 0, it->count * sizeof *held);
        output = looked_up(it, variables, values, held, &size) ? output_of(it, values, size) : none();
        for (i = 0; i < it->count; i++)
            Py_XDECREF(held[i]);
    }
    if (values != few)
        free(values);
    if (held != few_held)
        free(held);
    return output == NULL ? none() : output;
}

/* Parses the source of a template. Returns whether it is one. */
static int parsed(struct template *it)
{
    struct subst_variable first = {0, 0, 0};
    struct subst_fault fault;
    PyThreadState *state = it->source_len > LARGE ? PyEval_SaveThread() : NULL;
    uint32_t result = library.template_new(it->source, it->source_len, 0, &it->cells, &it->cells_len, &fault);
    size_t i;
    if (state != NULL)
        PyEval_RestoreThread(state);
    if (result != SUBST_DONE)
        return 0;
    it->count = library.template_variables(it->cells, it->cells_len);
    it->names = PyTuple_New((Py_ssize_t)it->count);
    for (i = 0; it->names != NULL && i < it->count; i++) {
        PyObject *name;
        library.template_variable(it->cells, it->cells_len, it->source, it->source_len, i, &first);
        name = decoded(it->source + first.position, first.length, it->is_text);
        if (name == NULL || PyTuple_SetItem(it->names, (Py_ssize_t)i, name) != 0)
            return 0;
    }
    return it->names != NULL;
}

static PyObject *fill_in(PyObject *module, PyObject *arguments)
{
    struct template it = {NULL, 0, NULL, 0, 0, NULL, 0, 0};
    PyObject *source, *variables, *held = NULL, *output;
    (void)module;
    if (!PyArg_UnpackTuple(arguments, "fill_in", 2, 2, &source, &variables))
        return NULL;
    it.is_text = PyUnicode_Check(source);
    if (library.expand != NULL && PyDict_CheckExact(variables))
        held = encoded(source, it.is_text, &it.source, &it.source_len);
    output = held != NULL && parsed(&it) ? expanded(&it, variables) : none();
    free(it.cells);
    Py_XDECREF(it.names);
    Py_XDECREF(held);
    return output;
}

/* Expands the template of the arguments of `template`. */
static PyObject *fill(PyObject *arguments, PyObject *variables)
{
    PyObject *cells = PyTuple_GetItem(arguments, 0), *source = PyTuple_GetItem(arguments, 1);
    struct template it;
    if (library.expand == NULL || !PyDict_CheckExact(variables))
        Py_RETURN_NONE;
    it.source = (const uint8_t *)PyBytes_AsString(source);
    it.source_len = (size_t)PyBytes_Size(source);
    it.cells = (struct subst_cell *)(void *)PyBytes_AsString(cells);
    it.cells_len = (size_t)PyBytes_Size(cells) / sizeof *it.cells;
    it.count = library.template_variables(it.cells, it.cells_len);
    it.names = PyTuple_GetItem(arguments, 2);
    it.is_text = PyTuple_GetItem(arguments, 3) == Py_True;
    it.no_empty = PyTuple_GetItem(arguments, 4) == Py_True;
    return expanded(&it, variables);
}

static PyMethodDef filler = {"fill", fill, METH_O, "fill(variables): Expands the template, or returns None."};

static PyObject *template(PyObject *module, PyObject *arguments)
{
    PyObject *bytes, *names, *flag;
    (void)module;
    if (!PyArg_ParseTuple(arguments, "SSO!O!O!", &bytes, &bytes, &PyTuple_Type, &names, &PyBool_Type, &flag,
                          &PyBool_Type, &flag))
        return NULL;
    return PyCFunction_NewEx(&filler, arguments, NULL);
}

static PyObject *bind(PyObject *module, PyObject *addresses)
{
    (void)module;
    if (PyBytes_Size(addresses) != sizeof library)
        return PyErr_Occurred() ? NULL : PyErr_Format(PyExc_ValueError, "not %zu bytes", sizeof library);
    memcpy(&library, PyBytes_AsString(addresses), sizeof library);
    Py_RETURN_NONE;
}

static PyMethodDef functions[] = {
    {"bind", bind, METH_O,
     "bind(addresses): Takes those of subst_template_new, _template_variables, _template_variable and _expand."},
    {"template", template, METH_VARARGS,
     "template(cells, source, names, is_text, no_empty): Returns a function that expands this template with a dict."},
    {"fill_in", fill_in, METH_VARARGS, "fill_in(source, variables): Expands a source with a dict, or returns None."},
    {NULL, NULL, 0, NULL}};

static struct PyModuleDef definition = {
    PyModuleDef_HEAD_INIT, "_fast", "Expands templates with a dict.", -1, functions, NULL, NULL, NULL, NULL};

PyMODINIT_FUNC PyInit__fast(void);

PyMODINIT_FUNC PyInit__fast(void)
{
    return PyModule_Create(&definition);
}

/* The nodes of lattices, and the entries of surfaces. */
#include "core.h"
#include <string.h>

/* Returns, for each byte of a line and for its end, how many characters start before it. */
static Py_ssize_t *character_numbers(const char *line, size_t length) {
    Py_ssize_t *numbers = PyMem_Malloc((length + 1) * sizeof *numbers), count = 0;
    if (numbers == NULL) {
        PyErr_NoMemory();
        return NULL;
    }
    for (size_t at = 0; at < length; at++) {
        numbers[at] = count;
        count += (line[at] & 0xc0) != 0x80;
    }
    numbers[length] = count;
    return numbers;
}

/* Returns a word or a node of a line whose characters are numbered. */
static word *made_of(call *of, PyTypeObject *type, const kumquatsieve_word *from,
                     const Py_ssize_t *characters) {
    entry *e = entry_of(of->dictionary, &of->native, from);
    if (e == NULL) return NULL;
    Py_ssize_t start = characters[from->start], end = characters[from->end];
    PyObject *surface = PyUnicode_Substring(of->text, start, end);
    return new_word(of->state, type, surface, e, from, 0, start, end);
}

static PyObject *node_of(call *of, const kumquatsieve_node *from, const Py_ssize_t *characters,
                         int64_t total) {
    node *made = (node *)made_of(of, of->state->node, &from->word, characters);
    if (made == NULL) return NULL;
    made->place = characters[from->word.place];
    made->byte_place = from->word.place;
    made->through = from->through;
    made->lost = from->through - total;
    made->reaches_end = from->reaches_end != 0;
    made->on_best = from->on_best != 0;
    return (PyObject *)made;
}

/* Returns the nodes of the line that was segmented. */
static PyObject *list_of_nodes(call *of, int64_t total) {
    const kumquatsieve_node *all = NULL;
    size_t count = 0;
    kumquatsieve_error error;
    PyThreadState *saved = of->utf8.length >= LONG_TEXT ? PyEval_SaveThread() : NULL;
    uint32_t code = kumquatsieve_nodes(&of->native, &all, &count, &error);
    if (saved) PyEval_RestoreThread(saved);
    if (code != KUMQUATSIEVE_OK) return raise_error(of->state, &error, -1);
    Py_ssize_t *characters = character_numbers(of->utf8.bytes, of->utf8.length);
    PyObject *list = characters ? PyList_New((Py_ssize_t)count) : NULL;
    for (size_t at = 0; list && at < count; at++) {
        PyObject *made = node_of(of, &all[at], characters, total);
        if (made == NULL || PyList_SetItem(list, (Py_ssize_t)at, made) < 0) Py_CLEAR(list);
    }
    PyMem_Free(characters);
    return list;
}

/* Segments the text of a call, which must be one line. Sets its total cost. */
static bool segment_one(call *of, int64_t *total) {
    line_bounds bounds = line_at(of->utf8.bytes, of->utf8.length, 0);
    kumquatsieve_line line = {0};
    kumquatsieve_error error = {0};
    if (bounds.next < of->utf8.length) {
        error.code = KUMQUATSIEVE_LINE_FEED;
        strcpy(error.message, "the text has several lines");
        raise_error(of->state, &error, characters_in(of->utf8.bytes, bounds.next - 1));
        return false;
    }
    of->utf8.length = bounds.end;
    if (of->utf8.length > LONGEST_LINE) {
        kumquatsieve_segment(&of->native, of->utf8.bytes, of->utf8.length, 0, &line, &error);
        return raise_error(of->state, &error, PyUnicode_GetLength(of->text)) != NULL;
    }
    if (!segment_part(of, &bounds, 0, &line)) return false;
    *total = line.total;
    of->longest = LONGEST_LINE;
    return true;
}

PyObject *lattice(PyObject *self, PyObject *text) {
    call of;
    int64_t total = 0;
    if (!start_call(&of, self, text, false, OWN_FORMAT)) return NULL;
    Py_ssize_t length = PyUnicode_GetLength(text) - (Py_ssize_t)of.utf8.length;
    PyObject *list = segment_one(&of, &total) ? list_of_nodes(&of, total) : NULL;
    PyObject *kind = list ? item_of("kumquatsieve._lattice", "Lattice") : NULL;
    PyObject *made = NULL;
    /* A line end has as many characters as bytes. */
    length += (Py_ssize_t)of.utf8.length;
    if (kind)
        made = PyObject_CallFunction(kind, "OLNO", list, (long long)total,
                                     PyUnicode_Substring(text, 0, length), of.dictionary);
    Py_XDECREF(list);
    Py_XDECREF(kind);
    end_call(&of);
    return made;
}

/* Returns the entries that a call of the library wrote, as words. */
static PyObject *list_of_entries(call *of, const kumquatsieve_word *words, size_t count) {
    Py_ssize_t *characters = character_numbers(of->utf8.bytes, of->utf8.length);
    PyObject *list = characters ? PyObject_CallObject(of->state->words, NULL) : NULL;
    if (list && !set_total(of->state, list, 0)) Py_CLEAR(list);
    for (size_t at = 0; list && at < count; at++) {
        PyObject *made = (PyObject *)made_of(of, of->state->word, &words[at], characters);
        if (made == NULL || PyList_Append(list, made) < 0) Py_CLEAR(list);
        Py_XDECREF(made);
    }
    PyMem_Free(characters);
    return list;
}

/* Asks for the entries of a surface: first for their number, then for themselves. */
static PyObject *entries_of(call *of, uint32_t flags) {
    const utf8 *text = &of->utf8;
    kumquatsieve_dictionary *in = of->dictionary->native;
    kumquatsieve_error error;
    size_t count = 0;
    if (kumquatsieve_lookup(in, text->bytes, text->length, flags, NULL, 0, &count, &error))
        return raise_error(of->state, &error, -1);
    kumquatsieve_word *words = PyMem_Calloc(count + 1, sizeof *words);
    if (words == NULL) return PyErr_NoMemory();
    PyObject *list = NULL;
    if (kumquatsieve_lookup(in, text->bytes, text->length, flags, words, count, &count, &error))
        raise_error(of->state, &error, -1);
    else
        list = list_of_entries(of, words, count);
    PyMem_Free(words);
    return list;
}

PyObject *look_up(PyObject *object, PyObject *arguments, PyObject *keywords) {
    static char *names[] = {"surface", "prefixes", NULL};
    dictionary *self = (dictionary *)object;
    int has_prefixes = 0;
    kumquatsieve_error error;
    call of = {.state = self->state, .dictionary = self, .native = KUMQUATSIEVE_EMPTY};
    if (!PyArg_ParseTupleAndKeywords(arguments, keywords, "O|$p:lookup", names, &of.text,
                                     &has_prefixes))
        return NULL;
    if (!encode(self->state, of.text, false, &of.utf8)) return NULL;
    PyObject *list = kumquatsieve_segmenter_open(&of.native, self->native, &error)
                         ? raise_error(self->state, &error, -1)
                         : entries_of(&of, has_prefixes ? KUMQUATSIEVE_PREFIXES : 0);
    kumquatsieve_segmenter_close(&of.native);
    Py_XDECREF(of.utf8.owner);
    return list;
}

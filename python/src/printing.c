/* The output of the lines of a text, which is made without the lock of Python if the text is long.
   Surfaces are an output too, since the library prints them faster than it describes words. */
#include "core.h"
#include <stdlib.h>
#include <string.h>

/* What a call prints: its output in UTF-8, and the end of each line's output if `ends` is not NULL.
   `bytes` are in `room`, or borrowed from the library. */
typedef struct output {
    const char *bytes;
    char *room;
    size_t length, size, count, *ends;
} output;

static void free_output(output *of) {
    free(of->room);
    free(of->ends);
}

/* Appends bytes. Returns whether it succeeded. */
static bool append_bytes(output *to, const char *bytes, size_t length) {
    if (to->size - to->length < length) {
        size_t size = 2 * (to->length + length) + 64;
        char *moved = length < PY_SSIZE_T_MAX / 8 ? realloc(to->room, size) : NULL;
        if (moved == NULL) return false;
        to->bytes = to->room = moved;
        to->size = size;
    }
    if (length) memcpy(to->room + to->length, bytes, length);
    to->length += length;
    return true;
}

/* Appends the output of a line, which is segmented in parts. The output of the only part of a text
   is borrowed. */
static uint32_t print_line(call *of, const line_bounds *bounds, output *to,
                           kumquatsieve_error *error) {
    const char *bytes = NULL;
    size_t length = 0, at = 0, end = bounds->end - bounds->start;
    bool is_part = !of->utf8.is_plain || end > LONGEST_LINE;
    kumquatsieve_line line = {.end = is_part ? 0 : end};
    do {
        /* No bytes are no line, and a line feed is an empty one. */
        uint32_t code =
            is_part
                ? segment_native(of, bounds, at = line.end, &line, error)
                : kumquatsieve_parse_lines(&of->native, end ? of->utf8.bytes + bounds->start : "\n",
                                           end ? end : 1, &bytes, &length, NULL, error);
        if (is_part && code == KUMQUATSIEVE_OK)
            code = kumquatsieve_print(&of->native, &bytes, &length, error);
        if (code != KUMQUATSIEVE_OK) return code;
        if (line.end - at > of->longest) of->longest = line.end - at;
        if (!is_part && bounds->start == 0 && bounds->next == of->utf8.length) {
            to->bytes = bytes;
            to->length = length;
        } else if (!append_bytes(to, bytes, length) || !check_signals(of, line.end - at)) {
            return KUMQUATSIEVE_MEMORY;
        }
    } while (line.end < end);
    if (to->ends) to->ends[to->count++] = to->length;
    return KUMQUATSIEVE_OK;
}

/* Prints each line of the text of a call. Raises the error if one fails. */
static bool print_text(call *of, output *to) {
    kumquatsieve_error error = {0};
    line_bounds bounds = {0, 0, 0};
    uint32_t code;
    of->released = of->utf8.length >= LONG_TEXT ? PyEval_SaveThread() : NULL;
    do {
        bounds = line_at(of->utf8.bytes, of->utf8.length, bounds.next);
        code = print_line(of, &bounds, to, &error);
    } while (code == KUMQUATSIEVE_OK && bounds.next < of->utf8.length);
    if (of->released) PyEval_RestoreThread(of->released);
    if (code == KUMQUATSIEVE_OK) return true;
    if (error.code != KUMQUATSIEVE_OK)
        raise_error(of->state, &error, -1);
    else if (!PyErr_Occurred())
        PyErr_NoMemory();
    return false;
}

static PyObject *decoded(const call *of, const output *from, size_t start, size_t end) {
    return PyUnicode_DecodeUTF8(end > start ? from->bytes + start : "", (Py_ssize_t)(end - start),
                                of->utf8.is_plain ? "strict" : "surrogatepass");
}

PyObject *parse(PyObject *self, PyObject *text) {
    call of;
    output to = {0};
    if (!start_call(&of, self, text, false, OWN_FORMAT)) return NULL;
    PyObject *result = print_text(&of, &to) ? decoded(&of, &to, 0, to.length) : NULL;
    free_output(&to);
    end_call(&of);
    return result;
}

/* Returns the surface at *from, which ends with a line feed, and moves *from after it. One that was
   kept is not decoded again. Its key is a 1 and its bytes, so longer ones are not kept. */
static PyObject *next_surface(core_state *state, const char **from) {
    const char *start = *from;
    unsigned __int128 key = 1;
    for (; **from != '\n'; ++*from) key = key << 8 | (unsigned char)**from;
    Py_ssize_t length = (*from)++ - start;
    kept *slot = &state->kept[((uint64_t)key ^ (uint64_t)(key >> 61)) * 0x9e3779b97f4a7c15 >> 52];
    if (slot->text == NULL || slot->key != key || length >= (Py_ssize_t)sizeof key) {
        PyObject *text = PyUnicode_DecodeUTF8(start, length, "strict");
        if (text == NULL || length >= (Py_ssize_t)sizeof key) return text;
        Py_XDECREF(slot->text);
        *slot = (kept){key, text};
    }
    Py_INCREF(slot->text);
    return slot->text;
}

/* Returns the surfaces of an output, in a list. A line feed follows each. */
static PyObject *surfaces_in(core_state *state, const output *from) {
    const char *bytes = from->bytes;
    Py_ssize_t count = 0;
    for (size_t at = 0; at < from->length; at++) count += bytes[at] == '\n';
    PyObject *list = PyList_New(count);
    for (Py_ssize_t at = 0; list && at < count; at++) {
        PyObject *surface = next_surface(state, &bytes);
        if (surface == NULL || PyList_SetItem(list, at, surface) < 0) Py_CLEAR(list);
    }
    return list;
}

/* Returns the surfaces of a text by its words, which have its surrogates. */
static PyObject *surfaces_of_words(PyObject *self, PyObject *text) {
    PyObject *words = words_in(self, text);
    for (Py_ssize_t at = 0; words && at < PyList_Size(words); at++) {
        PyObject *surface = ((word *)PyList_GetItem(words, at))->surface;
        Py_INCREF(surface);
        PyList_SetItem(words, at, surface);
    }
    PyObject *list = words ? PySequence_List(words) : NULL;
    Py_XDECREF(words);
    return list;
}

PyObject *wakati(PyObject *self, PyObject *text) {
    call of;
    output to = {0};
    if (!start_call(&of, self, text, false, SURFACES)) return NULL;
    bool is_plain = of.utf8.is_plain;
    PyObject *list = is_plain && print_text(&of, &to) ? surfaces_in(of.state, &to) : NULL;
    free_output(&to);
    end_call(&of);
    return is_plain ? list : surfaces_of_words(self, text);
}

/* Returns the outputs of the lines, in a list, without the blank after the last surface. */
static PyObject *list_of(const call *of, const output *from) {
    PyObject *list = PyList_New((Py_ssize_t)from->count);
    size_t start = 0;
    for (size_t at = 0; list && at < from->count; at++) {
        size_t end = from->ends[at];
        PyObject *line = decoded(of, from, start, end - (of->format == WAKATI && end > start));
        start = end;
        if (line == NULL || PyList_SetItem(list, (Py_ssize_t)at, line) < 0) Py_CLEAR(list);
    }
    return list;
}

PyObject *print_lines(PyObject *self, PyObject *arguments) {
    call of;
    output to = {0};
    PyObject *text, *list = NULL;
    int is_wakati;
    if (!PyArg_ParseTuple(arguments, "Op", &text, &is_wakati)) return NULL;
    if (!start_call(&of, self, text, true, is_wakati ? WAKATI : OWN_FORMAT)) return NULL;
    to.ends = malloc((of.utf8.length + 1) * sizeof *to.ends); /* at most a line a byte */
    if (to.ends == NULL) PyErr_NoMemory();
    if (to.ends && print_text(&of, &to)) list = list_of(&of, &to);
    free_output(&to);
    end_call(&of);
    return list;
}

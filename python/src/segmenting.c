/* The words of texts. */
#include "core.h"

uint32_t segment_native(call *of, const line_bounds *bounds, size_t at, kumquatsieve_line *line,
                        kumquatsieve_error *error) {
    const char *start = of->utf8.bytes + bounds->start;
    size_t length = bounds->end - bounds->start;
    if (!of->utf8.is_plain || length > LONGEST_LINE)
        return kumquatsieve_segment_text(&of->native, start, length, at, 0, line, error);
    uint32_t code = kumquatsieve_segment(&of->native, start, length, 0, line, error);
    line->end = length;
    return code;
}

bool segment_part(call *of, const line_bounds *bounds, size_t at, kumquatsieve_line *line) {
    kumquatsieve_error error;
    bool is_long = bounds->end - bounds->start - at >= LONG_TEXT;
    PyThreadState *saved = is_long ? PyEval_SaveThread() : NULL;
    uint32_t code = segment_native(of, bounds, at, line, &error);
    if (saved) PyEval_RestoreThread(saved);
    if (code != KUMQUATSIEVE_OK) return raise_error(of->state, &error, -1) != NULL;
    if (line->end - at > of->longest) of->longest = line->end - at;
    return check_signals(of, line->end - at);
}

/* Counts the characters up to a byte. */
static void advance(call *of, size_t byte) {
    of->character += characters_in(of->utf8.bytes + of->byte, byte - of->byte);
    of->byte = byte;
}

/* Returns the surface of a word, and counts its characters. */
static PyObject *surface_of(call *of, const char *line, const kumquatsieve_word *word, entry *e) {
    Py_ssize_t start = of->character;
    PyObject *surface = of->utf8.is_plain ? e->surface : NULL;
    size_t length = word->end - word->start;
    of->byte += length;
    of->character +=
        surface ? PyUnicode_GetLength(surface) : characters_in(line + word->start, length);
    if (surface)
        Py_INCREF(surface);
    else
        surface = PyUnicode_Substring(of->text, start, of->character);
    if (surface && e->surface == NULL && e->is_known && of->utf8.is_plain) {
        Py_INCREF(surface);
        e->surface = surface;
    }
    return surface;
}

/* Returns a word of the line that starts at byte `start` of the text. */
static PyObject *word_of(call *of, size_t start, const kumquatsieve_word *from) {
    const char *line = of->utf8.bytes + start;
    advance(of, start + from->start);
    entry *e = entry_of(of->dictionary, &of->native, from);
    Py_ssize_t first = of->character;
    PyObject *surface = e ? surface_of(of, line, from, e) : NULL;
    return (PyObject *)new_word(of->state, of->state->word, surface, e, from, start, first,
                                of->character);
}

/* Segments a line in parts, and appends the words of each. Adds their costs to *total. */
static bool append_parts(call *of, const line_bounds *bounds, PyObject *list, int64_t *total) {
    kumquatsieve_line line = {0};
    const kumquatsieve_word *words = NULL;
    size_t count = 0;
    kumquatsieve_error error;
    do {
        if (!segment_part(of, bounds, line.end, &line)) return false;
        *total += line.total;
        if (kumquatsieve_words(&of->native, &words, &count, &error) != KUMQUATSIEVE_OK)
            return raise_error(of->state, &error, -1) != NULL;
        for (size_t at = 0; at < count; at++) {
            PyObject *made = word_of(of, bounds->start, &words[at]);
            int code = made ? PyList_Append(list, made) : -1;
            Py_XDECREF(made);
            if (code < 0) return false;
        }
    } while (line.end < bounds->end - bounds->start);
    return true;
}

/* Appends the words of each line of a text. */
static bool append_lines(call *of, PyObject *list, int64_t *total) {
    line_bounds bounds = {0, 0, 0};
    do {
        bounds = line_at(of->utf8.bytes, of->utf8.length, bounds.next);
        if (!append_parts(of, &bounds, list, total)) return false;
    } while (bounds.next < of->utf8.length);
    return true;
}

bool set_total(core_state *state, PyObject *list, int64_t total) {
    PyObject *number = PyLong_FromLongLong(total);
    int code = number ? PyObject_SetAttr(list, state->total, number) : -1;
    Py_XDECREF(number);
    return code == 0;
}

PyObject *words_in(PyObject *self, PyObject *text) {
    call of;
    int64_t total = 0;
    if (!start_call(&of, self, text, false, OWN_FORMAT)) return NULL;
    PyObject *list = PyObject_CallObject(of.state->words, NULL);
    if (list && !(append_lines(&of, list, &total) && set_total(of.state, list, total)))
        Py_CLEAR(list);
    end_call(&of);
    return list;
}

PyObject *call_segmenter(PyObject *self, PyObject *arguments, PyObject *keywords) {
    static char *names[] = {"", NULL}; /* the text has no name */
    PyObject *text;
    bool is_text = PyArg_ParseTupleAndKeywords(arguments, keywords, "O:Segmenter", names, &text);
    return is_text ? words_in(self, text) : NULL;
}

/* Segmenters, which any number of threads may call. Each call has a native segmenter of its own. */
#include "core.h"
#include <string.h>
#include <structmember.h>

/* A native segmenter that had a line of more bytes is closed, since it keeps the memory of its
   longest line. A call that keeps the lock of Python lets other threads run after so many bytes,
   which take about ten milliseconds. */
enum { LONGEST_KEPT = 65536, BYTES_BETWEEN_SIGNALS = 1 << 18, BYTES_BETWEEN_TURNS = 1 << 13 };

/* Returns a text of the format, which has its UTF-8, or NULL for the default. */
static const char *format_text(PyObject *format, Py_ssize_t number) {
    PyObject *text = PyTuple_GetItem(format, number);
    return text == Py_None ? NULL : PyUnicode_AsUTF8AndSize(text, NULL);
}

/* Returns the position of an error of a format in characters, or -1 if it is another error. */
static Py_ssize_t position_in(PyObject *format, const kumquatsieve_error *error) {
    if (error->code >> 8 != 'P' || error->number > 3) return -1;
    const char *text = format_text(format, (Py_ssize_t)error->number);
    if (text == NULL) text = format_text(format, 0);
    return text ? characters_in(text, error->position) : -1;
}

static bool open_native(segmenter *self, int format, kumquatsieve_segmenter *native) {
    kumquatsieve_error error;
    PyObject *own = format == OWN_FORMAT ? self->format : NULL;
    const char *node = own ? format_text(own, 0) : format == WAKATI ? "%m " : "%m\\n";
    *native = (kumquatsieve_segmenter)KUMQUATSIEVE_EMPTY;
    if (kumquatsieve_segmenter_open(native, self->dictionary->native, &error) == KUMQUATSIEVE_OK &&
        kumquatsieve_set_grouping(native, self->grouping, &error) == KUMQUATSIEVE_OK &&
        kumquatsieve_set_format(native, node, own ? format_text(own, 1) : NULL,
                                own ? format_text(own, 2) : NULL, own ? format_text(own, 3) : "",
                                &error) == KUMQUATSIEVE_OK)
        return true;
    kumquatsieve_segmenter_close(native);
    return raise_error(self->state, &error, position_in(self->format, &error)) != NULL;
}

/* Takes an idle native segmenter of a format, or opens one. */
static bool take(segmenter *self, int format, kumquatsieve_segmenter *native) {
    if (self->dictionary == NULL) {
        PyErr_SetString(PyExc_ValueError, "the segmenter is closed");
        return false;
    }
    if (self->idle_count[format] == 0) return open_native(self, format, native);
    *native = self->idle[format][--self->idle_count[format]];
    return true;
}

static void release_native(segmenter *self, int format, kumquatsieve_segmenter *native,
                           size_t longest) {
    int *count = &self->idle_count[format];
    if (self->dictionary == NULL || *count == IDLE || longest > LONGEST_KEPT)
        kumquatsieve_segmenter_close(native);
    else
        self->idle[format][(*count)++] = *native;
}

bool start_call(call *of, PyObject *object, PyObject *text, bool takes_bytes, int format) {
    segmenter *self = (segmenter *)object;
    *of = (call){.self = self, .state = self->state, .format = format, .text = text};
    if (takes_bytes && PyBytes_Check(text)) {
        of->utf8 = (utf8){PyBytes_AsString(text), (size_t)PyBytes_Size(text), text, true};
        Py_INCREF(text);
    } else if (!encode(self->state, text, self->is_strict, &of->utf8)) {
        return false;
    }
    if (!take(self, format, &of->native)) {
        Py_XDECREF(of->utf8.owner);
        return false;
    }
    of->dictionary = self->dictionary;
    Py_INCREF(of->dictionary);
    return true;
}

void end_call(call *of) {
    release_native(of->self, of->format, &of->native, of->longest);
    Py_XDECREF(of->utf8.owner);
    Py_DECREF(of->dictionary);
}

bool check_signals(call *of, size_t bytes) {
    of->unchecked += bytes;
    if (of->unchecked < (of->released ? BYTES_BETWEEN_SIGNALS : BYTES_BETWEEN_TURNS)) return true;
    of->unchecked = 0;
    PyEval_RestoreThread(of->released ? of->released : PyEval_SaveThread());
    int code = PyErr_CheckSignals();
    if (of->released) of->released = PyEval_SaveThread();
    return code == 0;
}

/* Returns whether a format has four items, each a text without a zero byte, or None. */
static bool is_format(PyObject *format) {
    if (!PyTuple_Check(format) || PyTuple_Size(format) != 4)
        PyErr_Format(PyExc_ValueError, "%R is not a format: it must be 'wakati' or a Format",
                     format);
    for (Py_ssize_t at = 0; at < 4 && !PyErr_Occurred(); at++) {
        PyObject *text = PyTuple_GetItem(format, at);
        Py_ssize_t length = 0;
        if (text != Py_None && !PyUnicode_Check(text))
            raise_type("a text of a format must be a str or None", text);
        else if (text != Py_None && PyUnicode_AsUTF8AndSize(text, &length) &&
                 strlen(format_text(format, at)) != (size_t)length)
            PyErr_SetString(PyExc_ValueError, "a text of a format has a null character");
    }
    return !PyErr_Occurred();
}

static PyObject *new_segmenter(PyTypeObject *type, PyObject *arguments, PyObject *keywords) {
    core_state *state = state_of(type);
    PyObject *given, *format;
    unsigned grouping;
    int is_strict;
    kumquatsieve_segmenter native;
    (void)keywords;
    if (state == NULL || !PyArg_ParseTuple(arguments, "O!OIp", state->dictionary, &given, &format,
                                           &grouping, &is_strict))
        return NULL;
    if (!is_format(format)) return NULL;
    segmenter *self = (segmenter *)((allocfunc)PyType_GetSlot(type, Py_tp_alloc))(type, 0);
    if (self == NULL) return NULL;
    Py_INCREF(given);
    Py_INCREF(format);
    self->state = hold_state(state);
    self->dictionary = (dictionary *)given;
    self->format = format;
    self->grouping = grouping;
    self->is_strict = is_strict != 0;
    /* The first one is opened at once, since that tests the format and the grouping. */
    if (take(self, OWN_FORMAT, &native))
        release_native(self, OWN_FORMAT, &native, 0);
    else
        Py_CLEAR(self);
    return (PyObject *)self;
}

/* Frees the idle native segmenters. A native segmenter that a call uses is freed when the call
   ends. */
static PyObject *close_segmenter(PyObject *object, PyObject *unused) {
    segmenter *self = (segmenter *)object;
    (void)unused;
    for (int format = 0; format < FORMATS; format++)
        while (self->idle_count[format] > 0)
            kumquatsieve_segmenter_close(&self->idle[format][--self->idle_count[format]]);
    Py_CLEAR(self->dictionary);
    Py_RETURN_NONE;
}

/* Visits the dictionary and the format, which may have attributes of the caller, and so be in a
   cycle. */
static int visit(PyObject *object, visitproc visit, void *arg) {
    Py_VISIT(Py_TYPE(object));
    Py_VISIT(((segmenter *)object)->dictionary);
    Py_VISIT(((segmenter *)object)->format);
    return 0;
}

static int clear(PyObject *object) {
    Py_XDECREF(close_segmenter(object, NULL));
    Py_CLEAR(((segmenter *)object)->format);
    return 0;
}

static void free_segmenter(PyObject *object) {
    PyTypeObject *type = Py_TYPE(object);
    PyObject *module = ((segmenter *)object)->state->module;
    PyObject_GC_UnTrack(object);
    clear(object);
    ((freefunc)PyType_GetSlot(type, Py_tp_free))(object);
    Py_DECREF(type);
    Py_DECREF(module);
}

static PyObject *get_dictionary(PyObject *object, void *unused) {
    PyObject *of = (PyObject *)((segmenter *)object)->dictionary;
    (void)unused;
    if (of == NULL) PyErr_SetString(PyExc_ValueError, "the segmenter is closed");
    Py_XINCREF(of);
    return of;
}

static PyObject *get_errors(PyObject *object, void *unused) {
    (void)unused;
    return PyUnicode_FromString(((segmenter *)object)->is_strict ? "strict" : "replace");
}

static PyObject *get_closed(PyObject *object, void *unused) {
    (void)unused;
    return PyBool_FromLong(((segmenter *)object)->dictionary == NULL);
}

static PyObject *share(PyObject *self, PyObject *unused) {
    PyObject *copy = item_of("copy", "copy");
    PyObject *other = copy ? PyObject_CallFunctionObjArgs(copy, self, NULL) : NULL;
    (void)unused;
    Py_XDECREF(copy);
    return other;
}

static PyGetSetDef getters[] = {
    {"dictionary", get_dictionary, NULL, "The dictionary of the segmenter.", NULL},
    {"closed", get_closed, NULL, "Whether it was closed.", NULL},
    {"errors", get_errors, NULL, "How a surrogate is treated.", NULL},
    {NULL, NULL, NULL, NULL, NULL}};

static PyMemberDef members[] = {
    {"grouping", T_UINT, offsetof(segmenter, grouping), READONLY,
     "How many characters may follow the first one of a grouped unknown word."},
    {"_format", T_OBJECT, offsetof(segmenter, format), READONLY, NULL},
    {NULL, 0, 0, 0, NULL}};

static PyMethodDef methods[] = {
    {"words", words_in, METH_O, "words($self, text, /)\n--\n\nReturns the words of a text."},
    {"wakati", wakati, METH_O, "wakati($self, text, /)\n--\n\nReturns the surfaces of a text."},
    {"parse", parse, METH_O,
     "parse($self, text, /)\n--\n\nReturns the output of each line of a text, joined."},
    {"close", close_segmenter, METH_NOARGS,
     "close($self, /)\n--\n\n"
     "Frees its memory. Calls that run end as usual, and later calls raise ValueError."},
    {"_print_lines", print_lines, METH_VARARGS, NULL},
    {"lattice", lattice, METH_O,
     "lattice($self, line, /)\n--\n\nReturns the lattice of a line: the words it may have."},
    {"share", share, METH_NOARGS,
     "share($self, /)\n--\n\nReturns another segmenter over the same dictionary."},
    {"__enter__", itself, METH_NOARGS, NULL},
    {"__exit__", close_segmenter, METH_VARARGS, NULL},
    {NULL, NULL, 0, NULL}};

static PyType_Slot slots[] = {
    {Py_tp_new, new_segmenter}, {Py_tp_dealloc, free_segmenter}, {Py_tp_traverse, visit},
    {Py_tp_clear, clear},       {Py_tp_call, call_segmenter},    {Py_tp_methods, methods},
    {Py_tp_getset, getters},    {Py_tp_members, members},        {0, NULL}};

PyType_Spec segmenter_spec = {"kumquatsieve._core.Segmenter", sizeof(segmenter), 0,
                              Py_TPFLAGS_DEFAULT | Py_TPFLAGS_BASETYPE | Py_TPFLAGS_HAVE_GC, slots};

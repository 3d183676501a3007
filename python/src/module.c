/* The module kumquatsieve._core. The package kumquatsieve has its types and calls. */
#include "core.h"
#include <stdio.h>
#include <string.h>

core_state *state_of(PyTypeObject *type) {
    for (; type; type = (PyTypeObject *)PyType_GetSlot(type, Py_tp_base)) {
        PyObject *module = PyType_GetModule(type);
        if (module && PyModule_GetDef(module) == &core_module) return PyModule_GetState(module);
        PyErr_Clear();
    }
    PyErr_SetString(PyExc_TypeError, "a type of another module");
    return NULL;
}

PyObject *raise_error(core_state *state, const kumquatsieve_error *error, Py_ssize_t position) {
    /* A message has names of files, which may have any bytes. */
    PyObject *message =
        PyUnicode_DecodeUTF8(error->message, (Py_ssize_t)strlen(error->message), "replace");
    PyObject *exception = PyObject_CallFunction(state->error_of, "IKnnN", (unsigned)error->code,
                                                (unsigned long long)error->number, position,
                                                (Py_ssize_t)error->image, message);
    if (exception == NULL) return NULL;
    PyErr_SetObject((PyObject *)Py_TYPE(exception), exception);
    Py_DECREF(exception);
    return NULL;
}

PyObject *itself(PyObject *self, PyObject *unused) {
    (void)unused;
    Py_INCREF(self);
    return self;
}

/* A call that writes texts with zero bytes to a buffer. */
typedef uint32_t write_texts(char *out, size_t room, size_t *needed, kumquatsieve_error *error);

/* Returns the texts that a call writes, in a list. */
static PyObject *list_texts(core_state *state, write_texts *call) {
    size_t room = 0, needed = 0;
    char *bytes = NULL;
    kumquatsieve_error error;
    uint32_t code = call(NULL, 0, &needed, &error);
    while (code == KUMQUATSIEVE_SHORT_BUFFER) {
        PyMem_Free(bytes);
        room = needed + 1;
        bytes = PyMem_Malloc(room);
        if (bytes == NULL) return PyErr_NoMemory();
        code = call(bytes, room, &needed, &error);
    }
    PyObject *list = code == KUMQUATSIEVE_OK ? PyList_New(0) : raise_error(state, &error, -1);
    for (size_t at = 0; list && bytes && at < needed; at += strlen(bytes + at) + 1) {
        PyObject *text = PyUnicode_DecodeFSDefault(bytes + at);
        if (text == NULL || PyList_Append(list, text) < 0) Py_CLEAR(list);
        Py_XDECREF(text);
    }
    PyMem_Free(bytes);
    return list;
}

static PyObject *images(PyObject *module, PyObject *unused) {
    (void)unused;
    return list_texts(PyModule_GetState(module), kumquatsieve_list_images);
}

/* Returns whether a file starts as the image of a system dictionary does. (docs/FORMAT.md) */
static PyObject *is_system(PyObject *module, PyObject *path) {
    char start[16] = {0};
    PyObject *bytes = NULL;
    (void)module;
    if (!PyUnicode_FSConverter(path, &bytes)) return NULL;
    FILE *file = fopen(PyBytes_AsString(bytes), "rbe");
    Py_DECREF(bytes);
    bool is_read = file && fread(start, sizeof start, 1, file) == 1;
    if (file) fclose(file);
    memset(start + 8, 0, 4); /* the layout */
    return PyBool_FromLong(is_read && memcmp(start, "MJDICT\r\n\0\0\0\0\0\0\0", 16) == 0);
}

/* Returns the str or the bytes that an object has, whatever the methods of its class return, or
   None if it has neither. */
static PyObject *plain(PyObject *module, PyObject *object) {
    if (PyUnicode_Check(object)) return PyUnicode_FromObject(object);
    if (PyBytes_CheckExact(object)) return itself(object, module);
    PyObject *view = PyMemoryView_FromObject(object);
    PyObject *size = view ? PyObject_GetAttrString(view, "itemsize") : NULL;
    PyObject *bytes = NULL;
    if (size && PyLong_AsLong(size) == 1) bytes = PyObject_CallMethod(view, "tobytes", NULL);
    Py_XDECREF(view);
    Py_XDECREF(size);
    if (bytes || (PyErr_Occurred() && !PyErr_ExceptionMatches(PyExc_TypeError))) return bytes;
    PyErr_Clear();
    Py_RETURN_NONE;
}

static PyObject *directories(PyObject *module, PyObject *unused) {
    (void)unused;
    return list_texts(PyModule_GetState(module), kumquatsieve_list_directories);
}

static PyObject *explain(PyObject *module, PyObject *code) {
    (void)module;
    unsigned long number = PyLong_AsUnsignedLong(code);
    if (number == (unsigned long)-1 && PyErr_Occurred()) return NULL;
    const char *text = kumquatsieve_explain((uint32_t)number);
    return PyUnicode_FromString(text ? text : "");
}

static PyMethodDef methods[] = {{"images", images, METH_NOARGS, NULL},
                                {"directories", directories, METH_NOARGS, NULL},
                                {"explain", explain, METH_O, NULL},
                                {"is_system", is_system, METH_O, NULL},
                                {"plain", plain, METH_O, NULL},
                                {"restore", restore, METH_VARARGS, NULL},
                                {NULL, NULL, 0, NULL}};

/* Adds a type to the module. Returns it, or NULL. */
static PyTypeObject *add_type(PyObject *module, PyType_Spec *spec, PyTypeObject *base) {
    PyObject *bases = base ? PyTuple_Pack(1, base) : NULL;
    if (base && bases == NULL) return NULL;
    PyObject *type = PyType_FromModuleAndSpec(module, spec, bases);
    Py_XDECREF(bases);
    if (type == NULL) return NULL;
    Py_INCREF(type);
    if (PyModule_AddObject(module, strrchr(spec->name, '.') + 1, type) == 0)
        return (PyTypeObject *)type;
    Py_DECREF(type);
    Py_DECREF(type);
    return NULL;
}

PyObject *item_of(const char *module, const char *name) {
    PyObject *imported = PyImport_ImportModule(module);
    PyObject *item = imported ? PyObject_GetAttrString(imported, name) : NULL;
    Py_XDECREF(imported);
    return item;
}

static int fill_module(PyObject *module) {
    core_state *state = PyModule_GetState(module);
    state->module = module;
    state->words = item_of("kumquatsieve._words", "Words");
    state->names_of = state->words ? item_of("kumquatsieve._words", "names_of") : NULL;
    state->error_of = state->names_of ? item_of("kumquatsieve._errors", "error_of") : NULL;
    state->surface = PyUnicode_InternFromString("surface");
    state->feature = PyUnicode_InternFromString("feature");
    state->total = PyUnicode_InternFromString("total");
    if (!PyErr_Occurred()) state->dictionary = add_type(module, &dictionary_spec, NULL);
    state->segmenter = state->dictionary ? add_type(module, &segmenter_spec, NULL) : NULL;
    state->word = state->segmenter ? add_type(module, &word_spec, NULL) : NULL;
    state->node = state->word ? add_type(module, &node_spec, state->word) : NULL;
    if (state->node == NULL) return -1;
    return PyModule_AddIntConstant(module, "VERSION", (long)kumquatsieve_version());
}

static int visit(PyObject *module, visitproc visit, void *arg) {
    core_state *state = PyModule_GetState(module);
    for (size_t at = 0; state && at < HELD; at++) Py_VISIT(state->held[at]);
    return 0;
}

static int clear(PyObject *module) {
    core_state *state = PyModule_GetState(module);
    for (size_t at = 0; state && at < HELD; at++) Py_CLEAR(state->held[at]);
    for (size_t at = 0; state && at < KEPT; at++) Py_CLEAR(state->kept[at].text);
    return 0;
}

static void free_module(void *module) { clear(module); }

static PyModuleDef_Slot slots[] = {{Py_mod_exec, fill_module}, {0, NULL}};

PyModuleDef core_module = {PyModuleDef_HEAD_INIT,
                           .m_name = "kumquatsieve._core",
                           .m_size = sizeof(core_state),
                           .m_methods = methods,
                           .m_slots = slots,
                           .m_traverse = visit,
                           .m_clear = clear,
                           .m_free = free_module};

PyMODINIT_FUNC PyInit__core(void) { return PyModuleDef_Init(&core_module); }

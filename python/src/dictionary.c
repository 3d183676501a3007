/* Dictionaries, which any number of segmenters share. */
#include "core.h"
#include <errno.h>
#include <string.h>
#include <structmember.h>

/* The images to open: addresses and lengths of the items of a tuple, each None or bytes. */
typedef struct images {
    const char **names;
    kumquatsieve_image *all;
    size_t count;
} images;

static bool read_images(PyObject *tuple, int are_bytes, images *to) {
    to->count = (size_t)PyTuple_Size(tuple);
    to->names = PyMem_Calloc(to->count + 1, sizeof *to->names);
    to->all = PyMem_Calloc(to->count + 1, sizeof *to->all);
    if (to->names == NULL || to->all == NULL) {
        PyErr_NoMemory();
        return false;
    }
    for (size_t at = 0; at < to->count; at++) {
        PyObject *item = PyTuple_GetItem(tuple, (Py_ssize_t)at);
        char *bytes = NULL;
        Py_ssize_t length = 0;
        /* Without a place for the length, a zero byte is an error. */
        if (item != Py_None &&
            PyBytes_AsStringAndSize(item, &bytes, are_bytes ? &length : NULL) < 0)
            return false;
        to->names[at] = bytes;
        to->all[at] = (kumquatsieve_image){bytes, (size_t)length};
    }
    if (to->count == 0) PyErr_SetString(PyExc_ValueError, "no image is given");
    return to->count > 0;
}

/* Opens or loads a dictionary without the lock of Python. */
static void open_images(kumquatsieve_dictionary **native, const images *given, unsigned flags,
                        int are_bytes, kumquatsieve_error *error) {
    Py_BEGIN_ALLOW_THREADS if (are_bytes)
        kumquatsieve_dictionary_load(native, given->all, given->count, flags, error);
    else kumquatsieve_dictionary_open(native, given->names[0], given->names + 1, given->count - 1,
                                      flags, error);
    Py_END_ALLOW_THREADS
}

static kumquatsieve_dictionary *open_native(core_state *state, PyObject *tuple, unsigned flags,
                                            int are_bytes) {
    images given = {NULL, NULL, 0};
    kumquatsieve_dictionary *native = NULL;
    kumquatsieve_error error = {0};
    if (read_images(tuple, are_bytes, &given)) {
        open_images(&native, &given, flags, are_bytes, &error);
        /* A signal came while a pipe was opened. Its handler may raise an exception. */
        while (error.code == KUMQUATSIEVE_FILE && error.number == EINTR && !PyErr_CheckSignals())
            open_images(&native, &given, flags, are_bytes, &error);
        if (error.code != KUMQUATSIEVE_OK && !PyErr_Occurred()) raise_error(state, &error, -1);
    }
    PyMem_Free(given.names);
    PyMem_Free(given.all);
    return native;
}

/* Returns a tuple of texts, with None for NULL. */
static PyObject *texts_of(const char *const *texts, uint32_t count) {
    PyObject *tuple = PyTuple_New(count);
    for (uint32_t at = 0; tuple && at < count; at++) {
        PyObject *text =
            texts[at] ? PyUnicode_DecodeUTF8(texts[at], (Py_ssize_t)strlen(texts[at]), "replace")
                      : (Py_INCREF(Py_None), Py_None);
        if (text == NULL || PyTuple_SetItem(tuple, (Py_ssize_t)at, text) < 0) Py_CLEAR(tuple);
    }
    return tuple;
}

/* Sets the names of the fields, those given or those of the image. */
static bool set_names(dictionary *self, PyObject *given) {
    kumquatsieve_info info;
    kumquatsieve_error error;
    if (kumquatsieve_dictionary_info(self->native, 0, &info, &error) != KUMQUATSIEVE_OK)
        return raise_error(self->state, &error, -1) != NULL;
    if (given == Py_None)
        self->field_names = texts_of(info.fields, info.field_count);
    else
        self->field_names = PySequence_Tuple(given);
    if (self->field_names == NULL) return false;
    self->names = PyObject_CallFunctionObjArgs(self->state->names_of, self->field_names,
                                               self->state->node, NULL);
    if (self->names == NULL) return false;
    PyObject *base = PyDict_GetItemString(self->names, "base_form");
    self->base = base ? PyLong_AsSsize_t(base) : -1;
    return true;
}

/* Returns the object of the same dictionary that was opened by the same names before. To compare
   names may run Python, which may free any object but the held one. */
static PyObject *opened_before(core_state *state, PyTypeObject *type,
                               kumquatsieve_dictionary *native, PyObject *origin) {
    PyObject *held = NULL;
    int same = 0;
    for (dictionary *one = state->opened; one && same == 0; one = one->next) {
        if (one->native != native || Py_TYPE(one) != type || Py_REFCNT(one) == 0) continue;
        Py_INCREF(one);
        Py_XDECREF(held);
        held = (PyObject *)one;
        same = PyObject_RichCompareBool(one->origin, origin, Py_EQ);
    }
    if (same <= 0) Py_CLEAR(held);
    return held;
}

static PyObject *new_dictionary(PyTypeObject *type, PyObject *arguments, PyObject *keywords) {
    core_state *state = state_of(type);
    PyObject *tuple, *fields, *origin;
    int are_bytes, test_digest;
    (void)keywords;
    if (state == NULL || !PyArg_ParseTuple(arguments, "O!ppOO!", &PyTuple_Type, &tuple, &are_bytes,
                                           &test_digest, &fields, &PyTuple_Type, &origin))
        return NULL;
    unsigned flags = test_digest ? KUMQUATSIEVE_TEST_DIGEST : 0;
    if (are_bytes) flags = test_digest ? 0 : KUMQUATSIEVE_SKIP_DIGEST;
    kumquatsieve_dictionary *native = open_native(state, tuple, flags, are_bytes);
    if (native == NULL) return NULL;
    PyObject *before = opened_before(state, type, native, origin);
    allocfunc allocate = (allocfunc)PyType_GetSlot(type, Py_tp_alloc);
    dictionary *self = before || PyErr_Occurred() ? NULL : (dictionary *)allocate(type, 0);
    if (self == NULL) {
        kumquatsieve_dictionary_release(native);
        return before;
    }
    self->state = hold_state(state);
    self->native = native;
    Py_INCREF(origin);
    self->origin = origin;
    if (!set_names(self, fields)) {
        Py_DECREF(self);
        return NULL;
    }
    /* Another thread may get it from now on. */
    self->next = state->opened;
    state->opened = self;
    return (PyObject *)self;
}

static void free_dictionary(PyObject *object) {
    dictionary *self = (dictionary *)object;
    PyTypeObject *type = Py_TYPE(object);
    PyObject *module = self->state->module;
    for (dictionary **at = &self->state->opened; *at; at = &(*at)->next) {
        if (*at != self) continue;
        *at = self->next;
        break;
    }
    free_entries(self->entries);
    kumquatsieve_dictionary_release(self->native);
    Py_XDECREF(self->origin);
    Py_XDECREF(self->field_names);
    Py_XDECREF(self->names);
    ((freefunc)PyType_GetSlot(type, Py_tp_free))(object);
    Py_DECREF(type);
    Py_DECREF(module);
}

/* Returns a description of each image, in a list of ImageInfo. */
static PyObject *get_images(PyObject *object, void *unused) {
    dictionary *self = (dictionary *)object;
    PyObject *kind = item_of("kumquatsieve._lattice", "ImageInfo");
    PyObject *list = kind ? PyList_New(0) : NULL;
    kumquatsieve_info info = {.image_count = 1};
    kumquatsieve_error error;
    (void)unused;
    for (uint32_t at = 0; list && at < info.image_count; at++) {
        kumquatsieve_dictionary_info(self->native, at, &info, &error);
        PyObject *path =
            info.path ? PyUnicode_DecodeFSDefault(info.path) : (Py_INCREF(Py_None), Py_None);
        PyObject *item = PyObject_CallFunction(
            kind, "NKy#IOIIIIINN", path, (unsigned long long)info.size, (const char *)info.sha256,
            (Py_ssize_t)sizeof info.sha256, info.layout, info.is_user ? Py_True : Py_False,
            info.entries, info.unknown_entries, info.surfaces, info.left_ids, info.right_ids,
            texts_of(info.categories, info.category_count),
            texts_of(info.fields, info.field_count));
        if (item == NULL || PyList_Append(list, item) < 0) Py_CLEAR(list);
        Py_XDECREF(item);
    }
    Py_XDECREF(kind);
    return list;
}

static PyMethodDef methods[] = {
    {"lookup", (PyCFunction)(void (*)(void))look_up, METH_VARARGS | METH_KEYWORDS,
     "lookup($self, /, surface, *, prefixes=False)\n--\n\nReturns the entries of a surface as "
     "words. With `prefixes` they are all words with which a line of this text may start."},
    {"__copy__", itself, METH_NOARGS, NULL},
    {"__deepcopy__", itself, METH_O, NULL},
    {NULL, NULL, 0, NULL}};

static PyGetSetDef getters[] = {
    {"images", get_images, NULL, "A description of each image, the system's first.", NULL},
    {NULL, NULL, NULL, NULL, NULL}};

static PyMemberDef members[] = {
    {"_origin", T_OBJECT, offsetof(dictionary, origin), READONLY, NULL},
    {"field_names", T_OBJECT, offsetof(dictionary, field_names), READONLY,
     "The names of the fields of a feature, None for a field without a name."},
    {NULL, 0, 0, 0, NULL}};

static PyType_Slot slots[] = {{Py_tp_new, new_dictionary}, {Py_tp_dealloc, free_dictionary},
                              {Py_tp_methods, methods},    {Py_tp_getset, getters},
                              {Py_tp_members, members},    {0, NULL}};

PyType_Spec dictionary_spec = {"kumquatsieve._core.Dictionary", sizeof(dictionary), 0,
                               Py_TPFLAGS_DEFAULT | Py_TPFLAGS_BASETYPE, slots};

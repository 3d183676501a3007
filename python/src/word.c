/* Words, and the nodes of lattices. */
#include "core.h"
#include <stdio.h>
#include <string.h>
#include <structmember.h>

word *new_word(core_state *state, PyTypeObject *type, PyObject *surface, entry *of,
               const kumquatsieve_word *from, size_t line, Py_ssize_t start, Py_ssize_t end) {
    word *made = surface ? PyObject_New(word, type) : NULL;
    if (made == NULL) {
        Py_XDECREF(surface);
        return NULL;
    }
    made->state = hold_state(state);
    made->surface = surface;
    made->entry = of;
    of->holders += 1;
    made->start = start;
    made->end = end;
    made->byte_start = line + from->start;
    made->byte_length = (uint32_t)(from->end - from->start);
    made->category = from->category;
    made->total = from->total;
    return made;
}

static void free_word(PyObject *self) {
    PyTypeObject *type = Py_TYPE(self);
    PyObject *module = ((word *)self)->state->module;
    Py_DECREF(((word *)self)->surface);
    release_entry(((word *)self)->entry);
    PyObject_Free(self);
    Py_DECREF(type);
    Py_DECREF(module);
}

static PyObject *reject_construction(PyTypeObject *type, PyObject *arguments, PyObject *keywords) {
    (void)type, (void)arguments, (void)keywords;
    PyErr_SetString(PyExc_TypeError, "words are made by a Segmenter");
    return NULL;
}

/* Raises the error of a name that is no attribute, and lists the fields. */
static PyObject *no_attribute(word *self, PyObject *name) {
    PyErr_Clear();
    PyObject *comma = PyUnicode_FromString(", ");
    PyObject *list = comma ? PyUnicode_Join(comma, self->entry->names) : NULL;
    if (list)
        PyErr_Format(PyExc_AttributeError,
                     "%U is no attribute of a word; the fields of this dictionary are %U", name,
                     list);
    Py_XDECREF(comma);
    Py_XDECREF(list);
    return NULL;
}

static PyObject *attribute(PyObject *self, PyObject *name) {
    word *of = (word *)self;
    /* Most programs read these two. No field has their names. */
    PyObject *text = name == of->state->surface ? of->surface : NULL;
    if (name == of->state->feature) text = of->entry->feature;
    Py_XINCREF(text);
    if (text) return text;
    PyObject *number = PyDict_GetItemWithError(of->entry->names, name);
    if (number) return field_of(of->entry, PyLong_AsSsize_t(number));
    if (PyErr_Occurred()) return NULL;
    PyObject *value = PyObject_GenericGetAttr(self, name);
    if (value || !PyErr_ExceptionMatches(PyExc_AttributeError)) return value;
    return no_attribute(of, name);
}

static PyObject *directory(PyObject *self, PyObject *unused) {
    (void)unused;
    PyObject *own = PyObject_CallMethod((PyObject *)&PyBaseObject_Type, "__dir__", "O", self);
    PyObject *both = own ? PySequence_InPlaceConcat(own, ((word *)self)->entry->names) : NULL;
    Py_XDECREF(own);
    return both;
}

static PyObject *feature(PyObject *self, void *unused) {
    (void)unused;
    PyObject *text = ((word *)self)->entry->feature;
    Py_INCREF(text);
    return text;
}

static PyObject *fields(PyObject *self, void *unused) {
    (void)unused;
    PyObject *all = fields_of(((word *)self)->entry);
    Py_XINCREF(all);
    return all;
}

static PyObject *is_unknown(PyObject *self, void *unused) {
    (void)unused;
    return PyBool_FromLong(!((word *)self)->entry->is_known);
}

static PyObject *base_or_surface(PyObject *self, void *unused) {
    (void)unused;
    word *of = (word *)self;
    PyObject *base = of->entry->base < 0 ? NULL : field_of(of->entry, of->entry->base);
    if (base == NULL && PyErr_Occurred()) return NULL;
    if (base && base != Py_None) return base;
    Py_XDECREF(base);
    Py_INCREF(of->surface);
    return of->surface;
}

enum { COST, LEFT_ID, RIGHT_ID, TOKEN, DICTIONARY, BYTE_END };
static char which[] = {COST, LEFT_ID, RIGHT_ID, TOKEN, DICTIONARY, BYTE_END};

static PyObject *number(PyObject *self, void *name) {
    const word *of = (word *)self;
    switch (*(char *)name) {
    case COST: return PyLong_FromLong(of->entry->cost);
    case LEFT_ID: return PyLong_FromLong(of->entry->left_id);
    case RIGHT_ID: return PyLong_FromLong(of->entry->right_id);
    case TOKEN: return PyLong_FromUnsignedLong(of->entry->key & 0xffffffff);
    case DICTIONARY: return PyLong_FromUnsignedLongLong(of->entry->key >> 32);
    default: return PyLong_FromUnsignedLongLong(of->byte_start + of->byte_length);
    }
}

static PyObject *through_or_lost(PyObject *self, void *is_lost) {
    const node *of = (node *)self;
    if (!of->reaches_end) Py_RETURN_NONE;
    return PyLong_FromLongLong(is_lost ? of->lost : of->through);
}

static bool is_node(PyObject *self) {
    return PyObject_TypeCheck(self, ((word *)self)->state->node);
}

static PyObject *shown(PyObject *self) {
    const word *of = (word *)self;
    const node *n = (node *)self;
    const char *kind = is_node(self) ? "Node" : "Word";
    char end[48] = "";
    if (is_node(self) && !n->reaches_end)
        strcpy(end, " no path has it");
    else if (is_node(self))
        snprintf(end, sizeof end, n->on_best ? " best" : " lost by %lld", (long long)n->lost);
    return PyUnicode_FromFormat("<%s %U %U %zd:%zd cost %d%s%s>", kind, of->surface,
                                of->entry->feature, of->start, of->end, of->entry->cost,
                                of->entry->is_known ? "" : " unknown", end);
}

/* Words are equal if everything but their totals is, which depend on the words before. */
static PyObject *compare(PyObject *one, PyObject *other, int how) {
    PyTypeObject *type = ((word *)one)->state->word;
    if (!PyObject_TypeCheck(other, type) || (how != Py_EQ && how != Py_NE))
        Py_RETURN_NOTIMPLEMENTED;
    const word *a = (word *)one, *b = (word *)other;
    const entry *e = a->entry, *f = b->entry;
    bool same = a->start == b->start && a->end == b->end && a->byte_start == b->byte_start &&
                a->byte_length == b->byte_length && a->category == b->category &&
                e->key == f->key && e->cost == f->cost && e->left_id == f->left_id &&
                e->right_id == f->right_id && e->is_known == f->is_known &&
                PyUnicode_Compare(a->surface, b->surface) == 0 &&
                PyUnicode_Compare(e->feature, f->feature) == 0;
    if (PyErr_Occurred()) return NULL;
    return PyBool_FromLong(same == (how == Py_EQ));
}

static Py_hash_t hash(PyObject *self) {
    const word *of = (word *)self;
    Py_hash_t value = PyObject_Hash(of->surface);
    if (value == -1) return -1;
    value ^= (Py_hash_t)(of->entry->key * 0x9e3779b97f4a7c15 + (uint64_t)of->start);
    return value == -1 ? -2 : value;
}

static PyObject *reduce(PyObject *self, PyObject *unused) {
    (void)unused;
    static const node none;
    const word *of = (word *)self;
    const entry *e = of->entry;
    const node *n = is_node(self) ? (node *)self : &none;
    unsigned long long start = of->byte_start, end = start + of->byte_length;
    PyObject *call = item_of("kumquatsieve._core", "restore");
    if (call == NULL) return NULL;
    return Py_BuildValue("N(OOOnKiHHinnKKBLinKLLii)", call, of->surface, e->feature, e->names,
                         e->base, (unsigned long long)e->key, e->cost, e->left_id, e->right_id,
                         e->is_known, of->start, of->end, start, end, (int)of->category,
                         (long long)of->total, n != &none, n->place,
                         (unsigned long long)n->byte_place, (long long)n->through,
                         (long long)n->lost, n->reaches_end, n->on_best);
}

/* Makes a word again that was pickled. */
PyObject *restore(PyObject *module, PyObject *arguments) {
    core_state *state = PyModule_GetState(module);
    PyObject *surface;
    unsigned long long key, start, end, byte_place;
    long long total, through, lost;
    int is_known, is_node, reaches_end, on_best;
    Py_ssize_t first, last, place;
    kumquatsieve_word from = {0};
    entry e = {0};
    if (!PyArg_ParseTuple(arguments, "UUO!nKiHHinnKKBLinKLLii", &surface, &e.feature, &PyDict_Type,
                          &e.names, &e.base, &key, &e.cost, &e.left_id, &e.right_id, &is_known,
                          &first, &last, &start, &end, &from.category, &total, &is_node, &place,
                          &byte_place, &through, &lost, &reaches_end, &on_best))
        return NULL;
    entry *own = PyMem_Malloc(sizeof *own);
    if (own == NULL) return PyErr_NoMemory();
    Py_INCREF(e.feature);
    Py_INCREF(e.names);
    Py_INCREF(surface);
    e.holders = 1;
    e.key = key;
    e.is_known = is_known != 0;
    *own = e;
    from.start = start;
    from.end = end;
    from.total = total;
    word *made =
        new_word(state, is_node ? state->node : state->word, surface, own, &from, 0, first, last);
    release_entry(own);
    if (made == NULL || !is_node) return (PyObject *)made;
    node *to = (node *)made;
    to->place = place;
    to->byte_place = byte_place;
    to->through = through;
    to->lost = lost;
    to->reaches_end = reaches_end != 0;
    to->on_best = on_best != 0;
    return (PyObject *)made;
}

static PyMemberDef word_members[] = {
    {"surface", T_OBJECT_EX, offsetof(word, surface), READONLY, "Its text."},
    {"start", T_PYSSIZET, offsetof(word, start), READONLY, "Its start, in characters."},
    {"end", T_PYSSIZET, offsetof(word, end), READONLY, "Its end, in characters."},
    {"byte_start", T_ULONGLONG, offsetof(word, byte_start), READONLY,
     "Its start, in bytes of UTF-8."},
    {"category", T_UINT, offsetof(word, category), READONLY,
     "The number of the category of its first character."},
    {"total", T_LONGLONG, offsetof(word, total), READONLY,
     "The least cost from the start of the line up to and with it."},
    {NULL, 0, 0, 0, NULL}};

static PyGetSetDef word_getters[] = {
    {"feature", feature, NULL, "The feature, as the dictionary has it.", NULL},
    {"fields", fields, NULL, "The fields of the feature, without quotes.", NULL},
    {"is_unknown", is_unknown, NULL, "Whether no dictionary has it.", NULL},
    {"base_or_surface", base_or_surface, NULL, "The base form, or else the surface.", NULL},
    {"cost", number, NULL, "The word cost.", &which[COST]},
    {"left_id", number, NULL, "The left context id.", &which[LEFT_ID]},
    {"right_id", number, NULL, "The right context id.", &which[RIGHT_ID]},
    {"token", number, NULL, "The number of its entry.", &which[TOKEN]},
    {"dictionary", number, NULL, "0 for the system's, 1 and more for users'.", &which[DICTIONARY]},
    {"byte_end", number, NULL, "Its end, in bytes of UTF-8.", &which[BYTE_END]},
    {NULL, NULL, NULL, NULL, NULL}};

static PyMethodDef word_methods[] = {{"__dir__", directory, METH_NOARGS, NULL},
                                     {"__reduce__", reduce, METH_NOARGS, NULL},
                                     {NULL, NULL, 0, NULL}};

static PyType_Slot word_slots[] = {
    {Py_tp_doc, "A word of a text. The named fields of its feature are attributes too, which are "
                "None if the field is absent or \"*\"."},
    {Py_tp_new, reject_construction},
    {Py_tp_dealloc, free_word},
    {Py_tp_getattro, attribute},
    {Py_tp_repr, shown},
    {Py_tp_hash, hash},
    {Py_tp_richcompare, compare},
    {Py_tp_members, word_members},
    {Py_tp_getset, word_getters},
    {Py_tp_methods, word_methods},
    {0, NULL}};

PyType_Spec word_spec = {"kumquatsieve.Word", sizeof(word), 0,
                         Py_TPFLAGS_DEFAULT | Py_TPFLAGS_BASETYPE, word_slots};

static PyMemberDef node_members[] = {
    {"place", T_PYSSIZET, offsetof(node, place), READONLY,
     "Where the blanks before it start, in characters."},
    {"byte_place", T_ULONGLONG, offsetof(node, byte_place), READONLY,
     "Where the blanks before it start, in bytes of UTF-8."},
    {"best", T_BOOL, offsetof(node, on_best), READONLY, "Whether it is on the best path."},
    {NULL, 0, 0, 0, NULL}};

static PyGetSetDef node_getters[] = {
    {"through", through_or_lost, NULL, "The least cost of the paths that have it, or None.", NULL},
    {"lost", through_or_lost, NULL, "How much more than the best path such a path costs, or None.",
     &which},
    {NULL, NULL, NULL, NULL, NULL}};

static PyType_Slot node_slots[] = {{Py_tp_doc, "A word of a lattice, with the costs of its paths."},
                                   {Py_tp_new, reject_construction},
                                   {Py_tp_dealloc, free_word},
                                   {Py_tp_members, node_members},
                                   {Py_tp_getset, node_getters},
                                   {0, NULL}};

PyType_Spec node_spec = {"kumquatsieve.Node", sizeof(node), 0,
                         Py_TPFLAGS_DEFAULT | Py_TPFLAGS_BASETYPE, node_slots};

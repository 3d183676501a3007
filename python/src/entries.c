/* The entries of a dictionary that were found, with what Python shows of them, so that an entry
   that comes again costs no decoding. */
#include "core.h"

/* Each image and token has one slot of a table, 2 to the power of 16 slots. An entry replaces that
   of another key. */
enum { SLOTS = 65536 };

void release_entry(entry *held) {
    if (held == NULL || --held->holders > 0) return;
    Py_XDECREF(held->surface);
    Py_XDECREF(held->feature);
    Py_XDECREF(held->fields);
    Py_XDECREF(held->names);
    PyMem_Free(held);
}

void free_entries(entry **all) {
    for (size_t at = 0; all && at < SLOTS; at++) release_entry(all[at]);
    PyMem_Free(all);
}

static entry *new_entry(dictionary *of, kumquatsieve_segmenter *native,
                        const kumquatsieve_word *word, uint64_t key) {
    const char *feature = NULL;
    size_t length = 0;
    kumquatsieve_error error;
    if (kumquatsieve_feature(native, word, &feature, &length, &error) != KUMQUATSIEVE_OK)
        return (entry *)raise_error(of->state, &error, -1);
    PyObject *text = PyUnicode_DecodeUTF8(feature, (Py_ssize_t)length, "strict");
    if (text == NULL) return NULL;
    entry *made = PyMem_Malloc(sizeof *made);
    if (made == NULL) {
        Py_DECREF(text);
        PyErr_NoMemory();
        return NULL;
    }
    Py_INCREF(of->names);
    *made = (entry){.holders = 1,
                    .key = key,
                    .feature = text,
                    .names = of->names,
                    .base = of->base,
                    .cost = word->cost,
                    .left_id = word->left_id,
                    .right_id = word->right_id,
                    .is_known = word->known};
    return made;
}

entry *entry_of(dictionary *of, kumquatsieve_segmenter *native, const kumquatsieve_word *word) {
    uint64_t key = (uint64_t)word->dictionary << 32 | word->token;
    if (of->entries == NULL) of->entries = PyMem_Calloc(SLOTS, sizeof *of->entries);
    if (of->entries == NULL) return (entry *)PyErr_NoMemory();
    entry **slot = &of->entries[key * 0x9e3779b97f4a7c15 >> 48], *found = *slot;
    if (found == NULL || found->key != key) {
        found = new_entry(of, native, word, key);
        if (found == NULL) return NULL;
        release_entry(*slot);
        *slot = found;
    }
    return found;
}

/* Returns the fields of a feature in a list, by MeCab's quoting: blanks before a field are no part
   of it, nor is what follows a closing quote, and quotes within quotes are doubled. */
static PyObject *split(const char *at, const char *end, char *field) {
    PyObject *list = PyList_New(0);
    while (list && at <= end) {
        size_t length = 0;
        while (at < end && (*at == ' ' || *at == '\t')) at++;
        bool is_quoted = at < end && *at == '"';
        for (at += is_quoted; is_quoted && at < end; at++) {
            if (*at == '"' && (at + 1 == end || *++at != '"')) break;
            field[length++] = *at;
        }
        for (; at < end && *at != ','; at++)
            if (!is_quoted) field[length++] = *at;
        at++;
        PyObject *text = PyUnicode_DecodeUTF8(field, (Py_ssize_t)length, "strict");
        if (text == NULL || PyList_Append(list, text) < 0) Py_CLEAR(list);
        Py_XDECREF(text);
    }
    return list;
}

PyObject *fields_of(entry *of) {
    Py_ssize_t length = 0;
    if (of->fields) return of->fields;
    const char *feature = PyUnicode_AsUTF8AndSize(of->feature, &length);
    char *field = feature ? PyMem_Malloc((size_t)length + 1) : NULL;
    if (field == NULL) return feature ? PyErr_NoMemory() : NULL;
    PyObject *list = split(feature, feature + length, field);
    PyObject *fields = list ? PySequence_Tuple(list) : NULL;
    PyMem_Free(field);
    Py_XDECREF(list);
    /* A finalizer that ran meanwhile may have set them. */
    if (of->fields)
        Py_XDECREF(fields);
    else
        of->fields = fields;
    return of->fields;
}

PyObject *field_of(entry *of, Py_ssize_t number) {
    PyObject *fields = fields_of(of);
    if (fields == NULL) return NULL;
    PyObject *field = number < PyTuple_Size(fields) ? PyTuple_GetItem(fields, number) : Py_None;
    if (field && field != Py_None && PyUnicode_CompareWithASCIIString(field, "*") == 0)
        field = Py_None;
    Py_XINCREF(field);
    return field;
}

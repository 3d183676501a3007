/* Declarations that the files of the module kumquatsieve._core share.

   The module has no state but the one of each interpreter. The lock of Python (GIL) guards all of
   it. A call over a long text releases the lock while the library works, over a native segmenter
   that no other call has then. */
#ifndef CORE_H
#define CORE_H
#define PY_SSIZE_T_CLEAN
#define Py_LIMITED_API 0x03090000
#include <Python.h>
#include <kumquatsieve.h>
#include <stdbool.h>

/* Every CPython from 3.3 on exports it, but the headers list it for the stable ABI from 3.10 on. */
PyAPI_FUNC(const char *) PyUnicode_AsUTF8AndSize(PyObject *text, Py_ssize_t *length);

/* The lock of Python is released from LONG_TEXT bytes of a line or of a text on. A call that
   releases it and waits for it again takes longer than a shorter text. The library takes lines of
   at most LONGEST_LINE bytes. */
enum { LONG_TEXT = 2000, LONGEST_LINE = 1048576 };

typedef struct dictionary dictionary;

/* The state of the module in one interpreter. Each object that has its address holds the module,
   because the garbage collector may clear the types of an object before the object. */
enum { HELD = 10, KEPT = 4096 };
typedef struct kept {
    unsigned __int128 key;
    PyObject *text;
} kept;
typedef struct core_state {
    PyObject *module; /* borrowed */
    union {
        PyObject *held[HELD];
        struct {
            PyTypeObject *dictionary, *segmenter, *word, *node;
            PyObject *words;    /* the class of lists of words */
            PyObject *error_of; /* returns the exception of an error of the library */
            PyObject *names_of; /* returns the numbers of the fields by their names */
            PyObject *surface, *feature, *total; /* names of attributes, which are interned */
        };
    };
    struct dictionary *opened; /* all Dictionary objects, in a list */
    kept kept[KEPT];           /* each surface in a slot that its key decides */
} core_state;

/* Returns the state by a type of this module or by a subclass of one. */
core_state *state_of(PyTypeObject *type);

static inline core_state *hold_state(core_state *state) {
    Py_INCREF(state->module);
    return state;
}

/* Returns an item of a module in Python. */
PyObject *item_of(const char *module, const char *name);

/* Raises TypeError: what is wanted, and the type of the object that was given. */
void raise_type(const char *wanted, PyObject *given);

/* Raises the exception of an error and returns NULL. `position` counts in characters, and is
   negative for none. */
PyObject *raise_error(core_state *state, const kumquatsieve_error *error, Py_ssize_t position);

/* text.c: a text of the caller in UTF-8. */
typedef struct utf8 {
    const char *bytes;
    size_t length;
    PyObject *owner; /* of the bytes: NULL if the text itself has them */
    bool is_plain;   /* whether it has no surrogates */
} utf8;

/* Encodes a text, which must be a str. A surrogate that has no other half is replaced by U+FFFD,
   or raises an error if `is_strict`. Returns whether it succeeded. */
bool encode(core_state *state, PyObject *text, bool is_strict, utf8 *to);

/* Returns the number of characters that start in these bytes of UTF-8. */
Py_ssize_t characters_in(const char *bytes, size_t length);

/* A line of a text: `start` to `end` without its line end, which is "\n" or "\r\n", and where the
   next line starts. */
typedef struct line_bounds {
    size_t start, end, next;
} line_bounds;

line_bounds line_at(const char *text, size_t length, size_t start);

/* entries.c: what words of the same entry of a dictionary share. */
typedef struct entry {
    Py_ssize_t holders;
    uint64_t key;
    PyObject *surface; /* NULL until a known word of the entry was found in a plain text */
    PyObject *feature;
    PyObject *fields; /* a tuple, or NULL until they are read */
    PyObject *names;  /* numbers of fields by their names */
    Py_ssize_t base;  /* number of the field base_form, or -1 */
    int32_t cost;
    uint16_t left_id, right_id;
    bool is_known;
} entry;

/* Returns the entry of a word, borrowed until the next call. NULL is an error. */
entry *entry_of(dictionary *of, kumquatsieve_segmenter *native, const kumquatsieve_word *word);
void release_entry(entry *held);
void free_entries(entry **all);

/* Returns the fields of an entry, borrowed. */
PyObject *fields_of(entry *of);

/* Returns a new reference to a field, None if it is absent or "*". */
PyObject *field_of(entry *of, Py_ssize_t number);

/* dictionary.c */
struct dictionary {
    PyObject head;
    core_state *state;
    kumquatsieve_dictionary *native;
    PyObject *origin;      /* what it was opened by */
    PyObject *field_names; /* a tuple: None for a field without a name */
    PyObject *names;       /* numbers of fields by their names */
    Py_ssize_t base;
    entry **entries; /* see entries.c; NULL until one is found */
    dictionary *next;
};

/* segmenter.c. A native segmenter has the segmenter's format, or prints surfaces alone, each with a
   line feed or with a blank after it. */
enum { OWN_FORMAT, SURFACES, WAKATI, FORMATS, IDLE = 8 };

typedef struct segmenter {
    PyObject head;
    core_state *state;
    dictionary *dictionary; /* NULL if it is closed */
    PyObject *format;       /* four items, bytes or None */
    unsigned grouping;
    bool is_strict;
    int idle_count[FORMATS];
    kumquatsieve_segmenter idle[FORMATS][IDLE]; /* those that no call has, by their formats */
} segmenter;

/* A call over a text. */
typedef struct call {
    segmenter *self;
    core_state *state;
    dictionary *dictionary;
    kumquatsieve_segmenter native;
    int format; /* of `native` */
    PyObject *text;
    utf8 utf8;
    size_t byte;             /* up to which characters were counted */
    Py_ssize_t character;    /* their number */
    size_t longest;          /* bytes of the longest part that was segmented */
    size_t unchecked;        /* bytes segmented since signals were last checked */
    PyThreadState *released; /* if the lock of Python is released */
} call;

/* Starts a call over a str, or over bytes of UTF-8 if it `takes_bytes`. Takes a native segmenter of
   a format. Returns whether it succeeded. */
bool start_call(call *of, PyObject *self, PyObject *text, bool takes_bytes, int format);

/* Gives back what a call has. */
void end_call(call *of);

/* Looks for signals if that is due after so many more bytes, so that Ctrl-C ends a call over a long
   text, and lets other threads run. Returns false if a handler raised an exception. */
bool check_signals(call *of, size_t bytes);

/* segmenting.c. Segments the part of a line that starts at byte `at` of the line, from which its
   offsets count. A line of at most LONGEST_LINE bytes is one part. Uses nothing of Python. */
uint32_t segment_native(call *of, const line_bounds *bounds, size_t at, kumquatsieve_line *line,
                        kumquatsieve_error *error);

/* Segments a part as segment_native does, without the lock of Python if the part is long. Returns
   whether it succeeded and no handler of a signal raised an exception. */
bool segment_part(call *of, const line_bounds *bounds, size_t at, kumquatsieve_line *line);

/* Sets the attribute `total` of a list of words. Returns whether it succeeded. */
bool set_total(core_state *state, PyObject *list, int64_t total);

/* The methods that other files have. */
PyObject *call_segmenter(PyObject *self, PyObject *arguments, PyObject *keywords);
PyObject *words_in(PyObject *self, PyObject *text);
PyObject *wakati(PyObject *self, PyObject *text);
PyObject *parse(PyObject *self, PyObject *text);
PyObject *print_lines(PyObject *self, PyObject *arguments);
PyObject *lattice(PyObject *self, PyObject *text);
PyObject *look_up(PyObject *self, PyObject *arguments, PyObject *keywords);
PyObject *itself(PyObject *self, PyObject *unused);

typedef struct word {
    PyObject head;
    core_state *state;
    PyObject *surface;
    entry *entry;
    Py_ssize_t start, end; /* in characters */
    uint64_t byte_start;
    uint32_t byte_length, category;
    int64_t total;
} word;

typedef struct node {
    word word;
    Py_ssize_t place;
    uint64_t byte_place;
    int64_t through, lost;
    char reaches_end, on_best;
} node;

/* Returns a new word or node of an entry, which takes over `surface`, or NULL if that is NULL.
   `from` counts from byte `line` of the text. The fields of a node are not set. */
word *new_word(core_state *state, PyTypeObject *type, PyObject *surface, entry *of,
               const kumquatsieve_word *from, size_t line, Py_ssize_t start, Py_ssize_t end);

extern PyType_Spec dictionary_spec, segmenter_spec, word_spec, node_spec;
extern PyModuleDef core_module;
PyObject *restore(PyObject *module, PyObject *arguments);
#endif

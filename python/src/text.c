/* Texts of callers in UTF-8, and their lines. */
#include "core.h"
#include <string.h>

/* Texts of at most this many characters keep their UTF-8, so that the next call over the same text
   need not encode it. */
enum { KEPT_TEXT = 65536 };

/* Returns whether three bytes of UTF-8 are the half of a pair of surrogates that has these bits. */
static bool is_half(const unsigned char *at, size_t left, unsigned char half) {
    return left >= 3 && at[0] == 0xed && (at[1] & 0xf0) == half;
}

/* Replaces the surrogates that have no other half by U+FFFD, which has as many bytes. */
static void replace_surrogates(unsigned char *bytes, size_t length) {
    for (size_t at = 0; at < length;) {
        bool is_high = is_half(bytes + at, length - at, 0xa0);
        if (is_high && is_half(bytes + at + 3, length - at - 3, 0xb0)) {
            at += 6;
        } else if (is_high || is_half(bytes + at, length - at, 0xb0)) {
            memcpy(bytes + at, "\xef\xbf\xbd", 3);
            at += 3;
        } else {
            at += 1;
        }
    }
}

/* Raises the error of the first surrogate of a text, and returns false. */
static bool raise_surrogate(core_state *state, PyObject *text) {
    kumquatsieve_error error = {.code = KUMQUATSIEVE_NOT_UTF8};
    Py_ssize_t at = 0;
    strcpy(error.message, "the text has half of a surrogate pair");
    while ((PyUnicode_ReadChar(text, at) & 0x1ff800) != 0xd800) at++;
    return raise_error(state, &error, at) != NULL;
}

/* Uses bytes, which it takes over. */
static void use_bytes(PyObject *owner, utf8 *to) {
    to->bytes = PyBytes_AsString(owner);
    to->length = (size_t)PyBytes_Size(owner);
    to->owner = owner;
}

static bool encode_surrogates(core_state *state, PyObject *text, bool is_strict, utf8 *to) {
    if (!PyErr_ExceptionMatches(PyExc_UnicodeEncodeError)) return false;
    PyErr_Clear();
    if (is_strict) return raise_surrogate(state, text);
    PyObject *owner = PyUnicode_AsEncodedString(text, "utf-8", "surrogatepass");
    if (owner == NULL) return false;
    use_bytes(owner, to);
    to->is_plain = false;
    /* Nothing else has the bytes yet. */
    replace_surrogates((unsigned char *)to->bytes, to->length);
    return true;
}

void raise_type(const char *wanted, PyObject *given) {
    PyObject *name = PyObject_GetAttrString((PyObject *)Py_TYPE(given), "__name__");
    if (name) PyErr_Format(PyExc_TypeError, "%s, not %U", wanted, name);
    Py_XDECREF(name);
}

bool encode(core_state *state, PyObject *text, bool is_strict, utf8 *to) {
    Py_ssize_t length = 0;
    to->owner = NULL;
    to->is_plain = true;
    if (!PyUnicode_Check(text)) {
        raise_type("a text must be a str", text);
        return false;
    }
    bool is_kept = PyUnicode_GetLength(text) <= KEPT_TEXT;
    PyObject *owner = is_kept ? NULL : PyUnicode_AsUTF8String(text);
    to->bytes = is_kept ? PyUnicode_AsUTF8AndSize(text, &length) : NULL;
    to->length = (size_t)length;
    if (owner) use_bytes(owner, to);
    return to->bytes || encode_surrogates(state, text, is_strict, to);
}

Py_ssize_t characters_in(const char *bytes, size_t length) {
    Py_ssize_t count = 0;
    for (size_t at = 0; at < length; at++) count += (bytes[at] & 0xc0) != 0x80;
    return count;
}

line_bounds line_at(const char *text, size_t length, size_t start) {
    const char *feed = length > start ? memchr(text + start, '\n', length - start) : NULL;
    line_bounds bounds = {start, length, length};
    if (feed) {
        bounds.end = (size_t)(feed - text);
        bounds.next = bounds.end + 1;
        if (bounds.end > start && text[bounds.end - 1] == '\r') bounds.end -= 1;
    }
    return bounds;
}

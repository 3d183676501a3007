/* The fields of a feature, between commas, as MeCab reads them. libmecab uses this file too. */
#ifndef FIELDS_H
#define FIELDS_H
#include <stdbool.h>
#include <stddef.h>

/* The text of a field. Within quotes a quote is doubled. */
typedef struct field {
    const char *text;
    size_t length;
    bool is_quoted;
} field;

/* Moves *at past the field that starts there, and past its comma, and sets *to to the field.
   Drops the blanks before it. Returns false if no field starts there: what follows the last comma
   is none if it is empty. What follows a closing quote is no part of the field. */
static inline bool next_field(const char **at, const char *end, field *to) {
    const char *from = *at;
    if (from == end) return false;
    while (from < end && (*from == ' ' || *from == '\t')) from++;
    to->is_quoted = from < end && *from == '"';
    to->text = from += to->is_quoted;
    if (to->is_quoted) {
        for (; from < end && (*from != '"' || (from + 1 < end && from[1] == '"')); from++)
            from += *from == '"';
        to->length = (size_t)(from - to->text);
    }
    while (from < end && *from != ',') from++;
    if (!to->is_quoted) to->length = (size_t)(from - to->text);
    *at = from < end ? from + 1 : end;
    return true;
}

/* Copies the text of a field without the second one of doubled quotes, to as many bytes as it has
   or to its own place. Returns the length of the copy. */
static inline size_t copy_field(const field *from, char *to) {
    size_t length = 0;
    for (size_t i = 0; i < from->length; i++) {
        if (from->is_quoted && from->text[i] == '"') i++;
        to[length++] = from->text[i < from->length ? i : from->length - 1];
    }
    return length;
}
#endif

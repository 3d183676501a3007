/* UTF-8, and texts that are printed in one line. */
#include "pjseg.h"
#include <stdio.h>
#include <stdlib.h>
#include <string.h>

/* Returns the length in bytes of the character at the start of a text, or 0 if none starts there.
   (RFC 3629) The text ends with a zero byte. */
static size_t character_at(const unsigned char *at) {
    /* The ranges of the first and the second byte of each kind of character. */
    static const struct {
        unsigned char low, high, second_low, second_high;
        size_t length;
    } KINDS[] = {
        {0x01, 0x7f, 0x00, 0x00, 1}, {0xc2, 0xdf, 0x80, 0xbf, 2}, {0xe0, 0xe0, 0xa0, 0xbf, 3},
        {0xe1, 0xec, 0x80, 0xbf, 3}, {0xed, 0xed, 0x80, 0x9f, 3}, {0xee, 0xef, 0x80, 0xbf, 3},
        {0xf0, 0xf0, 0x90, 0xbf, 4}, {0xf1, 0xf3, 0x80, 0xbf, 4}, {0xf4, 0xf4, 0x80, 0x8f, 4},
    };
    size_t kind = 0, count = sizeof KINDS / sizeof *KINDS;
    while (kind < count && (*at < KINDS[kind].low || *at > KINDS[kind].high)) kind++;
    if (kind == count) return 0;
    if (KINDS[kind].length > 1 &&
        (at[1] < KINDS[kind].second_low || at[1] > KINDS[kind].second_high))
        return 0;
    for (size_t i = 2; i < KINDS[kind].length; i++) {
        if (at[i] < 0x80 || at[i] > 0xbf) return 0;
    }
    return KINDS[kind].length;
}

bool is_utf8(const char *text) {
    const unsigned char *at = (const unsigned char *)text;
    while (*at) {
        size_t length = character_at(at);
        if (length == 0) return false;
        at += length;
    }
    return true;
}

/* Returns the control character at the start of a text, or 0 if it is another one. Sets *length to
   its length in bytes. */
static unsigned control_at(const unsigned char *at, size_t *length) {
    *length = at[0] == 0xc2 && at[1] >= 0x80 && at[1] <= 0x9f ? 2 : 1;
    if (*length == 2) return at[1];
    return at[0] < 0x20 || at[0] == 0x7f ? at[0] : 0;
}

static int escape(char *out, unsigned control) {
    switch (control) {
    case '\t': return sprintf(out, "\\t");
    case '\n': return sprintf(out, "\\n");
    case '\r': return sprintf(out, "\\r");
    default: return sprintf(out, "\\u{%x}", control);
    }
}

char *one_line(const char *text) {
    /* The longest escape of one byte is `\u{1b}`. */
    enum { LONGEST = 6 };
    char *line = malloc(LONGEST * strlen(text) + LONGEST + 1), *end = line;
    const unsigned char *at = (const unsigned char *)text;
    if (!line) return NULL;
    while (*at) {
        size_t length = 1;
        unsigned control = control_at(at, &length);
        if (control) {
            end += escape(end, control);
            at += length;
        } else {
            *end++ = (char)*at++;
        }
    }
    *end = '\0';
    return line;
}

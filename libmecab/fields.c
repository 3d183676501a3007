/* The fields of a feature, between commas. */
#include "../capi/src/fields.h"
#include "formats.h"
#include <string.h>

/* The last of `most` fields has the remainder of the text. (MeCab) */
size_t split_fields(char *text, const char **fields, size_t most) {
    const char *at = text, *end = text + strlen(text);
    size_t count = 0;
    field found;
    while (count < most) {
        if (!next_field(&at, end, &found)) break;
        if (count + 1 == most && !found.is_quoted) found.length = (size_t)(end - found.text);
        char *field = text + (found.text - text);
        fields[count++] = field;
        field[copy_field(&found, field)] = '\0';
    }
    return count;
}

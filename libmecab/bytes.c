/* Byte buffers that grow. */
#include "formats.h"
#include <stdlib.h>
#include <string.h>

bool grow_bytes(bytes *of, size_t length) {
    if (length < of->room) return true;
    size_t room = length < SIZE_MAX / 2 ? 2 * length + 64 : length + 1;
    char *at = realloc(of->at, room);
    if (!at) return false;
    of->at = at;
    of->room = room;
    return true;
}

bool set_bytes(bytes *to, const void *from, size_t length) {
    if (!grow_bytes(to, length)) return false;
    if (length > 0) memmove(to->at, from, length);
    to->at[length] = '\0';
    to->length = length;
    return true;
}

bool add_bytes(bytes *to, const char *from, size_t length) {
    if (!grow_bytes(to, to->length + length)) return false;
    if (length > 0) memcpy(to->at + to->length, from, length);
    to->length += length;
    to->at[to->length] = '\0';
    return true;
}

void free_bytes(bytes *of) {
    free(of->at);
    *of = (bytes){NULL, 0, 0};
}

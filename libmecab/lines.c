/* Reads the lines of a file, each as soon as it is complete. */
#include "formats.h"
#include <errno.h>
#include <string.h>
#include <unistd.h>

enum { PIECE = 1 << 16 };

/* Drops the bytes of lines that were returned, and makes one read. */
static bool read_more(lines *of, fault *error) {
    of->held.length -= of->returned;
    if (of->returned > 0) memmove(of->held.at, of->held.at + of->returned, of->held.length);
    of->seen -= of->returned;
    of->returned = 0;
    if (!grow_bytes(&of->held, of->held.length + PIECE)) return fail_memory(error);
    ssize_t got = 0;
    do got = read(of->from, of->held.at + of->held.length, PIECE);
    while (got < 0 && errno == EINTR);
    if (got < 0) return fail(error, "%s", strerror(errno));
    of->held.length += (size_t)got;
    of->is_over = got == 0;
    return true;
}

/* Finds the next complete line, or the last line at the end of the file. Returns false if there is
   none yet. */
static bool find_line(lines *of, const char **line, size_t *length) {
    const char *from = of->held.at + of->returned;
    size_t unseen = of->held.length - of->seen;
    const char *end = unseen > 0 ? memchr(of->held.at + of->seen, '\n', unseen) : NULL;
    of->seen = of->held.length;
    if (!end && (!of->is_over || of->returned == of->held.length)) return false;
    *line = from;
    *length = end ? (size_t)(end - from) : of->held.length - of->returned;
    of->returned += *length + (end != NULL);
    of->seen = of->returned;
    of->number++;
    return true;
}

bool next_line(lines *of, FILE *to, const char **line, size_t *length, fault *error) {
    *line = NULL;
    while (!find_line(of, line, length)) {
        if (of->is_over) return true;
        if (fflush(to) != 0) return fail(error, "a write failed: %s", strerror(errno));
        if (!read_more(of, error)) return false;
    }
    return true;
}

/* Reads standard input in pieces of at most a megabyte that end at line ends. A failed read is not
   repeated. */
#include "pjseg.h"
#include <stdlib.h>
#include <string.h>
#include <unistd.h>

/* After this many reads the input counts as endless, as in jseg. */
static const uint64_t READS_MOST = (uint64_t)1 << 40;

bool make_input(input *in) {
    *in = (input){.open = malloc(LINE_MOST)};
    return in->open != NULL;
}

void free_input(input *in) { free(in->open); }

/* Makes one read after the first `length` bytes. */
static ending read_more(input *in, uint8_t *bytes, size_t *length, size_t *lines_end) {
    if (in->reads == READS_MOST) return ENDLESS;
    in->reads++;
    ssize_t got = read(STDIN_FILENO, bytes + *length, READ_MOST);
    if (got < 0) return READ_FAILED;
    if (got == 0) return AT_END;
    const uint8_t *feed = memrchr(bytes + *length, '\n', (size_t)got);
    if (feed) *lines_end = (size_t)(feed + 1 - bytes);
    *length += (size_t)got;
    return *length - *lines_end > LINE_MOST ? LINE_TOO_LONG : MORE;
}

/* Reads until there are a line end and `least` bytes, or the text ends or a read fails. The bytes
   after the last line end are kept for the next piece. They are at most LINE_MOST, so there is room
   for one more read. */
void read_piece(input *in, piece *next, size_t least) {
    size_t length = in->open_length, lines_end = 0;
    ending how = MORE;
    memcpy(next->bytes, in->open, length);
    while (how == MORE && (length < least || lines_end == 0))
        how = read_more(in, next->bytes, &length, &lines_end);
    if (how == AT_END) lines_end = length;
    in->open_length = how == MORE ? length - lines_end : 0;
    memcpy(in->open, next->bytes + lines_end, in->open_length);
    next->length = lines_end;
    next->ending = how;
}

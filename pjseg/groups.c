/* Segments a piece in groups of whole lines. So the output that waits to be written is bounded by
   KEPT_MOST and the output of one group, whatever the lines print. Groups are short, and shorter
   after one with much output. A longer line is a group by itself. */
#include "pjseg.h"
#include <stdlib.h>
#include <string.h>

/* In bytes. The output of a group of GROUP_MOST, most often ten times as much, fits in a
   processor's cache, from where it is copied or written. */
enum {
    GROUP_LEAST = 256,
    GROUP_FIRST = 1024,
    GROUP_MOST = 16384,
    PRINTED_MOST = 1048576,
    KEPT_LEAST = 262144,
};

bool make_worker(worker *own, const options *chosen, kumquatsieve_dictionary *dictionary) {
    own->group = GROUP_FIRST;
    own->text.bytes = malloc(PIECE_ROOM);
    return own->text.bytes && make_segmenter(chosen, dictionary, &own->segmenter);
}

void free_worker(worker *own) {
    kumquatsieve_segmenter_close(&own->segmenter);
    free(own->text.bytes);
    free(own->kept);
}

void start_piece(worker *own) {
    own->written_to = own->segmented_to = 0;
    own->printed = 0;
}

/* Returns the offset in the text at which the next group ends. */
static size_t group_end(const worker *own) {
    const uint8_t *text = own->text.bytes;
    size_t length = own->text.length, most = own->segmented_to + own->group;
    if (most >= length) return length;
    const uint8_t *feed = memrchr(text + own->segmented_to, '\n', own->group);
    if (!feed) feed = memchr(text + most, '\n', length - most);
    return feed ? (size_t)(feed + 1 - text) : length;
}

/* Returns the length of the next group, for an output of about PRINTED_MOST at the rate of the last
   group. */
static size_t next_group(size_t group, size_t printed) {
    if (printed > PRINTED_MOST) {
        uint64_t less = (uint64_t)group * PRINTED_MOST / printed;
        return less < GROUP_LEAST ? GROUP_LEAST : (size_t)less;
    }
    return printed <= PRINTED_MOST / 2 && group <= GROUP_MOST / 2 ? 2 * group : group;
}

bool segment_group(worker *own) {
    size_t end = group_end(own);
    const char *from = (const char *)own->text.bytes + own->segmented_to;
    own->code = kumquatsieve_parse_lines(&own->segmenter, from, end - own->segmented_to, &own->out,
                                         &own->out_length, &own->lines, NULL);
    own->segmented_to = end;
    own->group = next_group(own->group, own->out_length);
    own->printed += own->out_length;
    return own->code == KUMQUATSIEVE_OK && end < own->text.length;
}

/* Grows the memory for kept output to at least `needed` bytes, which are at most KEPT_MOST. */
static bool grow_kept(worker *own, size_t needed) {
    size_t room = own->kept_room < KEPT_LEAST ? KEPT_LEAST : own->kept_room;
    while (room < needed) room *= 2;
    uint8_t *kept = realloc(own->kept, room);
    if (!kept) return false;
    own->kept = kept;
    own->kept_room = room;
    return true;
}

bool keep_group(worker *own) {
    if (own->out_length > KEPT_MOST - own->kept_length) return false;
    size_t needed = own->kept_length + own->out_length;
    if (needed > own->kept_room && !grow_kept(own, needed)) return false;
    if (own->out_length > 0) memcpy(own->kept + own->kept_length, own->out, own->out_length);
    own->kept_length = needed;
    own->kept_lines += own->lines;
    return true;
}

void mark_written(worker *own) {
    own->kept_length = 0;
    own->kept_lines = 0;
    own->written_to = own->segmented_to;
}

size_t fitting_length(const worker *own) {
    uint64_t printed = own->printed, length = own->text.length;
    if (printed <= KEPT_MOST / 2) return PIECE_MOST;
    uint64_t fitting = length * (KEPT_MOST / 2) / printed;
    return fitting < PIECE_MOST ? (size_t)fitting : PIECE_MOST;
}

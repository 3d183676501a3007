/* The state of a segmenter outside the core. */
#ifndef SEGMENTER_H
#define SEGMENTER_H
#include "library.h"

/* Bytes of a text that were replaced: `times` replacements of `length` bytes each, from `at` of the
   repaired text on, for `given` bytes each, from `given_at` of the line on. */
typedef struct exchange {
    uint32_t at, given_at, times;
    uint8_t length, given;
} exchange;

/* A line whose invalid bytes were replaced. `invalid_count` counts the bytes that U+FFFD replaced.
 */
typedef struct repaired {
    char *text;
    size_t length, room;
    exchange *exchanges;
    size_t count, exchange_room;
    size_t invalid_count;
} repaired;

/* The state of a full segmenter. The last line starts at `start` of the caller's text; if it was
   repaired, `last` has its exchanges, and else none. `line_words` is the number of its words, which
   are in `words` if `has_words`. */
typedef struct state {
    kumquatsieve_dictionary *dictionary;
    size_t start;
    size_t line_length, line_words;
    repaired last;
    repaired spare;
    kumquatsieve_word *words;
    size_t word_room;
    bool has_words;
    kumquatsieve_node *nodes;
    size_t node_room;
    char *field;
    size_t field_room;
} state;

/* Returns the state of a full segmenter, or NULL. */
static inline state *state_in(const kumquatsieve_segmenter *segmenter) {
    return segmenter && segmenter->held ? segmenter->state : NULL;
}

/* The core takes no NULL. */
static inline const char *text_at(const char *text) { return text ? text : ""; }

/* segmenter.c. Forgets the words of the last line. */
void forget_line(state *of);

/* repair.c. The most bytes of a line that the core segments. */
enum { LINE_MOST = 1048576 };

/* Returns how many bytes at the start of a text are UTF-8. */
size_t valid_length(const char *text, size_t length);
/* Repairs a text into `to`, whose memory is used again. Returns false if memory runs out. */
bool repair(repaired *to, const char *given, size_t length);
/* Returns the place in the given line of a place in the repaired one. */
size_t given_place(const repaired *of, size_t at);
/* Removes what follows the first `length` bytes of a repaired text. */
void cut_repaired(repaired *of, size_t length);
void free_repaired(repaired *of);
/* Returns the length of the first part of a text that is longer than `most`. */
size_t part_of(const char *text, size_t length, size_t most);
#endif

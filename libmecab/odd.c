/* Segments sentences that the library's call for a line rejects, because they are not UTF-8 or too
   long, and sentences with a word that is too long for a node, part by part. */
#include "layer.h"
#include <string.h>

/* A function that takes the result of each part. */
typedef bool take(mecab_lattice_t *lattice, part *of, fault *error);

/* A pair of surrogates has so many bytes. */
enum { CHARACTER_MOST = 6 };

static const char FULL_STOP[] = "\xe3\x80\x82";

/* Returns whether a byte is the second one or a later one of a character, or the first one of the
   second of two surrogates. */
static bool is_inside(const char *at) {
    const unsigned char *bytes = (const unsigned char *)at;
    return (bytes[0] & 0xc0) == 0x80 || (bytes[0] == 0xed && bytes[1] >= 0xb0);
}

/* Returns the end of a part of at most UINT16_MAX bytes, which has no longer word: after the last
   full stop, or else between two characters. */
static size_t short_end(const char *text, size_t at, size_t size) {
    size_t end = at + UINT16_MAX, stop = strlen(FULL_STOP);
    if (end + 1 >= size) return end < size ? end : size;
    for (size_t last = end; last >= at + stop; last--) {
        if (memcmp(text + last - stop, FULL_STOP, stop) == 0) return last;
    }
    size_t whole = end;
    while (whole + CHARACTER_MOST > end && is_inside(text + whole)) whole--;
    return is_inside(text + whole) ? end : whole;
}

/* The words have the places of the sentence as it was given. */
static bool segment_parts(mecab_lattice_t *lattice, part *of, take *from, fault *error) {
    lattice->invalid_bytes = 0;
    while (of->at < lattice->size) {
        size_t end = lattice->has_long_word ? short_end(lattice->sentence, of->at, lattice->size)
                                            : lattice->size;
        uint32_t code = kumquatsieve_segment_text(&lattice->segmenter, lattice->sentence, end,
                                                  of->at, KUMQUATSIEVE_WHOLE, &of->line, NULL);
        if (code != KUMQUATSIEVE_OK) return fail_code(error, "sentence", code);
        lattice->invalid_bytes += of->line.replaced;
        if (!from(lattice, of, error)) return false;
    }
    return true;
}

bool is_odd(uint32_t code) {
    return code == KUMQUATSIEVE_NOT_UTF8 || code == KUMQUATSIEVE_TOO_LONG;
}

bool add_odd(mecab_lattice_t *lattice, long *cost, fault *error) {
    part one = {.is_whole = false};
    bool is_segmented = segment_parts(lattice, &one, add_nodes, error);
    if (is_segmented && lattice->invalid_bytes > 0)
        fail(error, "%zu bytes that are not UTF-8 were segmented as U+FFFD",
             lattice->invalid_bytes);
    *cost = lattice->count > 1 ? one.cost : (long)one.line.total;
    return is_segmented;
}

/* Segments the parts once more, because the library has the lattice of a part only until the next
   one is segmented. */
bool find_odd(mecab_lattice_t *lattice, fault *error) {
    part one = {.is_whole = false};
    return segment_parts(lattice, &one, add_found, error);
}

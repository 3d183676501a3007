/* Entries of dictionaries by their surfaces. They are nodes of the lattice of the surface, which a
   segmenter of the call's own segments. */
#include "segmenter.h"

/* Returns whether a node is an entry that the flags select, of a text of `length` bytes. The line
   has no word before it, so its place is 0. */
static bool is_wanted(const kumquatsieve_node *node, size_t length, uint32_t flags) {
    const kumquatsieve_word *word = &node->word;
    if (flags & KUMQUATSIEVE_PREFIXES) return word->place == 0;
    return word->known && word->start == 0 && word->end == length;
}

/* Writes the entries among the nodes of the last line. */
static uint32_t write_entries(kumquatsieve_segmenter *segmenter, size_t length, uint32_t flags,
                              kumquatsieve_word *words, size_t room, size_t *count) {
    const kumquatsieve_node *nodes = NULL;
    size_t all = 0, found = 0;
    uint32_t code = kumquatsieve_nodes(segmenter, &nodes, &all, NULL);
    if (code != KUMQUATSIEVE_OK) return code;
    for (size_t i = 0; i < all; i++) {
        if (!is_wanted(&nodes[i], length, flags)) continue;
        if (found < room) words[found] = nodes[i].word;
        found++;
    }
    if (count) *count = found;
    return code;
}

uint32_t kumquatsieve_lookup(kumquatsieve_dictionary *dictionary, const char *surface,
                             size_t length, uint32_t flags, kumquatsieve_word *words, size_t room,
                             size_t *count, kumquatsieve_error *error) {
    kumquatsieve_segmenter own = KUMQUATSIEVE_EMPTY;
    bool is_valid = (surface || length == 0) && (words || room == 0) &&
                    (flags & ~(uint32_t)KUMQUATSIEVE_PREFIXES) == 0;
    if (!dictionary) return fail(error, KUMQUATSIEVE_EMPTY_SEGMENTER);
    if (!is_valid) return fail(error, KUMQUATSIEVE_BAD_ARGUMENT);
    uint32_t code = kumquatsieve_segmenter_open(&own, dictionary, NULL);
    if (code == KUMQUATSIEVE_OK)
        code = kumquatsieve_segment(&own, surface, length, KUMQUATSIEVE_WHOLE, NULL, NULL);
    bool is_text = code != KUMQUATSIEVE_NOT_UTF8 && code != KUMQUATSIEVE_TOO_LONG;
    if (code == KUMQUATSIEVE_OK) code = write_entries(&own, length, flags, words, room, count);
    kumquatsieve_segmenter_close(&own);
    if (!is_text && count) *count = 0;
    return fail(error, is_text ? code : KUMQUATSIEVE_OK);
}

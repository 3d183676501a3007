/* Words and nodes of the last line, and their features and fields. */
#include "fields.h"
#include "segmenter.h"
#include <stdlib.h>
#include <string.h>

/* The layout of the core's words is a prefix of the layout of the public ones. */
_Static_assert(offsetof(kumquatsieve_word, feature_offset) == sizeof(core_word), "words");
_Static_assert(offsetof(kumquatsieve_word, feature_length) == offsetof(core_word, feature_length),
               "words");
_Static_assert(sizeof(core_node) <= sizeof(kumquatsieve_node), "nodes");

/* The first guess of how many nodes there are: so many for each byte, up to a limit. */
enum { NODES_A_BYTE = 2, NODES_FIRST = 65536 };

/* Grows an array to `wanted` items of a size or more. Returns false if memory runs out. */
static bool grow(void **array, size_t *room, size_t wanted, size_t size) {
    size_t items = wanted + wanted / 2;
    if (wanted <= *room) return true;
    if (wanted > PTRDIFF_MAX / 2 / size) return false;
    void *grown = realloc(*array, items * size);
    if (!grown) return false;
    *array = grown;
    *room = items;
    return true;
}

/* Makes the offsets of a word those of the caller's text. */
static void place_word(const state *of, kumquatsieve_word *word) {
    if (of->last.count > 0) {
        word->place = given_place(&of->last, word->place);
        word->start = given_place(&of->last, word->start);
        word->end = given_place(&of->last, word->end);
    }
    word->place += of->start;
    word->start += of->start;
    word->end += of->start;
}

/* Copies a word of the core. Its bytes may overlap those of the public word. */
static void copy_word(kumquatsieve_word *to, const void *from) {
    memmove(to, from, sizeof(core_word));
    to->feature_offset = 0;
}

/* The core has written its words, which are shorter, to the start of the array. So they are moved
   from the last to the first. */
static void finish_words(state *of, size_t count) {
    size_t offset = 0;
    for (size_t i = count; i-- > 0;)
        copy_word(&of->words[i], (const char *)of->words + i * sizeof(core_word));
    for (size_t i = 0; i < count; i++) {
        of->words[i].feature_offset = offset;
        offset += of->words[i].feature_length;
        place_word(of, &of->words[i]);
    }
    of->has_words = true;
}

static uint32_t make_words(kumquatsieve_segmenter *segmenter, state *of) {
    core_word none;
    size_t count = 0;
    if (!grow((void **)&of->words, &of->word_room, of->line_words, sizeof *of->words))
        return KUMQUATSIEVE_MEMORY;
    uint32_t code = proved_words(segmenter, 0, of->words ? (core_word *)of->words : &none,
                                 of->word_room, &count);
    if (code == KUMQUATSIEVE_OK) finish_words(of, count);
    return code;
}

uint32_t kumquatsieve_words(kumquatsieve_segmenter *segmenter, const kumquatsieve_word **words,
                            size_t *count, kumquatsieve_error *error) {
    state *of = state_in(segmenter);
    if (!of) return fail(error, KUMQUATSIEVE_EMPTY_SEGMENTER);
    uint32_t code = of->has_words ? KUMQUATSIEVE_OK : make_words(segmenter, of);
    if (code != KUMQUATSIEVE_OK) return fail(error, code);
    if (words) *words = of->words;
    if (count) *count = of->line_words;
    return succeed(error);
}

static void finish_nodes(state *of, size_t count) {
    for (size_t i = count; i-- > 0;) {
        core_node node;
        memcpy(&node, (const char *)of->nodes + i * sizeof node, sizeof node);
        kumquatsieve_node *to = &of->nodes[i];
        copy_word(&to->word, &node.word);
        to->through = node.through;
        to->reaches_end = node.reaches_end;
        to->on_best = node.on_best;
        place_word(of, &to->word);
    }
}

/* Asks again if the guess was too low. */
uint32_t make_nodes(kumquatsieve_segmenter *segmenter, size_t *count) {
    state *of = segmenter->state;
    size_t guess = NODES_A_BYTE * of->line_length + 1, room = 0;
    uint32_t code = KUMQUATSIEVE_OK;
    for (*count = guess < NODES_FIRST ? guess : NODES_FIRST; *count > room;) {
        if (!grow((void **)&of->nodes, &of->node_room, *count, sizeof *of->nodes))
            return KUMQUATSIEVE_MEMORY;
        room = of->node_room;
        code = proved_nodes(segmenter, 0, (core_node *)of->nodes, room, count);
        if (code != KUMQUATSIEVE_OK) return code;
    }
    finish_nodes(of, *count);
    return code;
}

uint32_t kumquatsieve_nodes(kumquatsieve_segmenter *segmenter, const kumquatsieve_node **nodes,
                            size_t *count, kumquatsieve_error *error) {
    state *of = state_in(segmenter);
    size_t found = 0;
    if (!of) return fail(error, KUMQUATSIEVE_EMPTY_SEGMENTER);
    uint32_t code = make_nodes(segmenter, &found);
    if (code != KUMQUATSIEVE_OK) return fail(error, code);
    if (nodes) *nodes = of->nodes;
    if (count) *count = found;
    return succeed(error);
}

/* A call of the core that passes a text. */
typedef uint32_t text_call(kumquatsieve_segmenter *segmenter, const char **text, size_t *length);

static uint32_t borrow(kumquatsieve_segmenter *segmenter, text_call *call, const char **text,
                       size_t *length, kumquatsieve_error *error) {
    const char *borrowed = NULL;
    size_t borrowed_length = 0;
    if (!state_in(segmenter)) return fail(error, KUMQUATSIEVE_EMPTY_SEGMENTER);
    uint32_t code = call(segmenter, &borrowed, &borrowed_length);
    if (code != KUMQUATSIEVE_OK) return fail(error, code);
    if (text) *text = borrowed;
    if (length) *length = borrowed_length;
    return succeed(error);
}

uint32_t kumquatsieve_print(kumquatsieve_segmenter *segmenter, const char **output, size_t *length,
                            kumquatsieve_error *error) {
    return borrow(segmenter, proved_print, output, length, error);
}

uint32_t kumquatsieve_features(kumquatsieve_segmenter *segmenter, const char **features,
                               size_t *length, kumquatsieve_error *error) {
    return borrow(segmenter, proved_features, features, length, error);
}

uint32_t kumquatsieve_feature(kumquatsieve_segmenter *segmenter, const kumquatsieve_word *word,
                              const char **feature, size_t *length, kumquatsieve_error *error) {
    const char *borrowed = NULL;
    size_t borrowed_length = 0;
    if (!state_in(segmenter)) return fail(error, KUMQUATSIEVE_EMPTY_SEGMENTER);
    if (!word) return fail(error, KUMQUATSIEVE_BAD_ARGUMENT);
    uint32_t code = proved_entry_feature(segmenter, word->known != 0, word->dictionary, word->token,
                                         &borrowed, &borrowed_length);
    if (code != KUMQUATSIEVE_OK) return fail(error, code);
    if (feature) *feature = borrowed;
    if (length) *length = borrowed_length;
    return succeed(error);
}

/* Points *text at a field: in the core's buffer if it has no quotes, or else in the segmenter's. */
static uint32_t borrow_field(state *of, const field *found, const char **text, size_t *length) {
    *text = found->text;
    *length = found->length;
    if (!found->is_quoted) return KUMQUATSIEVE_OK;
    if (!grow((void **)&of->field, &of->field_room, found->length + 1, 1))
        return KUMQUATSIEVE_MEMORY;
    *text = of->field;
    *length = copy_field(found, of->field);
    return KUMQUATSIEVE_OK;
}

/* Sets *text to a field of a word, or to NULL if its feature has fewer fields. */
static uint32_t find_field(kumquatsieve_segmenter *segmenter, const kumquatsieve_word *word,
                           size_t number, const char **text, size_t *length,
                           kumquatsieve_error *error) {
    const char *feature = NULL;
    size_t feature_length = 0;
    field found = {.length = 0};
    *text = NULL;
    *length = 0;
    uint32_t code = kumquatsieve_feature(segmenter, word, &feature, &feature_length, error);
    if (code != KUMQUATSIEVE_OK) return code;
    const char *at = feature, *end = feature + feature_length;
    for (size_t i = 0; i <= number; i++) {
        if (!next_field(&at, end, &found)) return code;
    }
    return fail(error, borrow_field(segmenter->state, &found, text, length));
}

static uint32_t set_field(uint32_t code, const char *text, size_t text_length, const char **field,
                          size_t *length) {
    if (code == KUMQUATSIEVE_OK && field) *field = text;
    if (code == KUMQUATSIEVE_OK && length) *length = text_length;
    return code;
}

uint32_t kumquatsieve_field(kumquatsieve_segmenter *segmenter, const kumquatsieve_word *word,
                            size_t number, const char **field, size_t *length,
                            kumquatsieve_error *error) {
    const char *text = NULL;
    size_t text_length = 0;
    uint32_t code = find_field(segmenter, word, number, &text, &text_length, error);
    return set_field(code, text, text_length, field, length);
}

uint32_t kumquatsieve_field_named(kumquatsieve_segmenter *segmenter, const kumquatsieve_word *word,
                                  const char *name, const char **field, size_t *length,
                                  kumquatsieve_error *error) {
    const char *text = NULL;
    size_t text_length = 0;
    state *of = state_in(segmenter);
    if (!of) return fail(error, KUMQUATSIEVE_EMPTY_SEGMENTER);
    if (!name) return fail(error, KUMQUATSIEVE_BAD_ARGUMENT);
    size_t number = field_number(&of->dictionary->images[0].info, name);
    if (number == SIZE_MAX) return fail(error, KUMQUATSIEVE_NO_FIELD);
    uint32_t code = find_field(segmenter, word, number, &text, &text_length, error);
    bool is_none = text_length == 1 && *text == '*';
    return set_field(code, is_none ? NULL : text, is_none ? 0 : text_length, field, length);
}

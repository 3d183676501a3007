/* MeCab's nodes of the words of a sentence. */
#include "layer.h"
#include <stdlib.h>
#include <string.h>

static bool grow_words(mecab_lattice_t *lattice, size_t wanted, fault *error) {
    size_t room = 2 * wanted + 8;
    kumquatsieve_word *words = realloc(lattice->words, room * sizeof *words);
    if (!words) return fail_memory(error);
    lattice->words = words;
    lattice->words_room = room;
    return true;
}

static bool grow_nodes(mecab_lattice_t *lattice, size_t wanted, fault *error) {
    size_t room = 2 * wanted + 8;
    mecab_node_t *nodes = realloc(lattice->nodes, room * sizeof *nodes);
    if (!nodes) return fail_memory(error);
    lattice->nodes = nodes;
    lattice->nodes_room = room;
    return true;
}

/* Makes room for further nodes of `count` words and of the end. */
static bool has_room(mecab_lattice_t *lattice, size_t count, fault *error) {
    size_t wanted = lattice->count + count + 1;
    return wanted <= lattice->nodes_room || grow_nodes(lattice, wanted, error);
}

/* Copies words that are changed, because the library's own can't be. */
static bool copy_words(mecab_lattice_t *lattice, const kumquatsieve_word *words, size_t count,
                       fault *error) {
    if (count > lattice->words_room && !grow_words(lattice, count, error)) return false;
    if (count > 0) memcpy(lattice->words, words, count * sizeof *words);
    return true;
}

/* A part of blanks only has no cost. */
void end_part(part *of) {
    if (of->line.count > 0) of->cost += (long)of->line.total;
    of->at = of->line.end;
}

/* Changes the costs of words of a part to those of the whole sentence. A word starts, with its
   blanks, where the word before it ended. */
static void move_words(kumquatsieve_word *words, size_t count, part *of) {
    for (size_t i = 0; i < count; i++) {
        words[i].place = of->place;
        words[i].total += of->cost;
        of->place = words[i].end;
    }
    end_part(of);
}

/* Makes a word fit in a node, which has 16 bits for its length with its blanks: drops the first of
   too many blanks. Returns false if the surface alone is too long, as it may be in surrogates. */
bool fit_in_node(kumquatsieve_word *word) {
    if (word->end - word->start > UINT16_MAX) return false;
    if (word->end - word->place > UINT16_MAX) word->place = word->end - UINT16_MAX;
    return true;
}

static bool fit_all(kumquatsieve_word *words, size_t count) {
    size_t fitting = 0;
    while (fitting < count && fit_in_node(&words[fitting])) fitting++;
    return fitting == count;
}

/* Sets the node of a word, without its neighbors. Returns false, and sets nothing, if the token of
   the word has no node yet, or its dictionary has no such token. */
static inline bool set_node(const tokens *of, mecab_node_t *node, const kumquatsieve_word *word,
                            const char *sentence) {
    size_t token = of->starts[word->dictionary] + word->token;
    if (token >= of->starts[word->dictionary + 1]) return false;
    const mecab_node_t *kept = atomic_load_explicit(&of->nodes[token], memory_order_acquire);
    if (!kept) return false;
    *node = *kept;
    node->surface = sentence + word->start;
    node->length = (unsigned short)(word->end - word->start);
    node->rlength = (unsigned short)(word->end - word->place);
    node->char_type = word->category;
    node->cost = (long)word->total;
    return true;
}

/* Sets nodes of the path with their neighbors, up to the first word whose node can't be set.
   Returns how many were set. */
static size_t set_nodes(const tokens *of, mecab_node_t *node, size_t id,
                        const kumquatsieve_word *words, size_t count, const char *sentence) {
    const kumquatsieve_word *word = words, *end = words + count;
    for (; word < end && set_node(of, node, word, sentence); word++, node++) {
        node->prev = node - 1;
        node->next = node + 1;
        node->id = (unsigned)id++;
    }
    return (size_t)(word - words);
}

void exchange_features(const char *feature, mecab_node_t *nodes, size_t count) {
    for (size_t i = 0; i < count; i++) {
        if (nodes[i].stat == MECAB_UNK_NODE) nodes[i].feature = feature;
    }
}

/* Sets the nodes of all words that were segmented last. */
static bool set_all(mecab_lattice_t *lattice, mecab_node_t *nodes, const kumquatsieve_word *words,
                    size_t count, fault *error) {
    const tokens *of = lattice->tables->tokens;
    for (size_t done = 0;;) {
        done += set_nodes(of, nodes + done, lattice->count + done, words + done, count - done,
                          lattice->sentence);
        if (done == count) break;
        if (!add_token(of, &lattice->segmenter, &words[done], error)) return false;
    }
    if (lattice->tables->unk_feature) exchange_features(lattice->tables->unk_feature, nodes, count);
    return true;
}

/* Adds the nodes of the part that was segmented last after those of the parts before it. */
bool add_nodes(mecab_lattice_t *lattice, part *of, fault *error) {
    const kumquatsieve_word *words = NULL;
    size_t count = 0;
    bool is_long = lattice->size > UINT16_MAX;
    uint32_t code = kumquatsieve_words(&lattice->segmenter, &words, &count, NULL);
    if (code != KUMQUATSIEVE_OK) return fail_code(error, "words", code);
    if (!has_room(lattice, count, error)) return false;
    if (!of->is_whole || is_long) {
        if (!copy_words(lattice, words, count, error)) return false;
        words = lattice->words;
    }
    if (!of->is_whole) move_words(lattice->words, count, of);
    if (is_long && !fit_all(lattice->words, count)) {
        lattice->has_long_word = true;
        return false;
    }
    if (!set_all(lattice, &lattice->nodes[lattice->count], words, count, error)) return false;
    lattice->count += count;
    return true;
}

static bool add_whole(mecab_lattice_t *lattice, long *cost, fault *error) {
    part whole = {.is_whole = true};
    *cost = (long)lattice->line.total;
    return add_nodes(lattice, &whole, error);
}

/* Sets the nodes of BOS and EOS around the words. */
static void add_boundaries(mecab_lattice_t *lattice, long cost) {
    mecab_node_t *first = lattice->nodes, *end = first + lattice->count;
    *first = *end = lattice->tables->boundary;
    first->surface = lattice->sentence;
    first->stat = MECAB_BOS_NODE;
    first->next = first + 1;
    end->surface = lattice->sentence + lattice->size;
    end->stat = MECAB_EOS_NODE;
    end->id = (unsigned)lattice->count;
    end->prev = end - 1;
    end->cost = cost;
    lattice->count++;
}

/* Links the nodes of all parts again, because the nodes may have been moved when later ones were
   added. */
static void link_nodes(mecab_lattice_t *lattice) {
    for (size_t i = 1; i < lattice->count; i++) {
        lattice->nodes[i - 1].next = &lattice->nodes[i];
        lattice->nodes[i].prev = &lattice->nodes[i - 1];
    }
}

static bool add_words(mecab_lattice_t *lattice, long *cost, fault *error) {
    lattice->count = 1;
    return lattice->is_odd ? add_odd(lattice, cost, error) : add_whole(lattice, cost, error);
}

/* If a word of an odd sentence is too long for a node, the sentence is segmented again in parts
   that have no such word. */
bool make_nodes(mecab_lattice_t *lattice, fault *error) {
    long cost = 0;
    if (lattice->count > 0) return true;
    bool is_added = add_words(lattice, &cost, error);
    if (!is_added && lattice->has_long_word) is_added = add_words(lattice, &cost, error);
    if (!is_added) {
        lattice->count = 0;
        return false;
    }
    add_boundaries(lattice, cost);
    if (lattice->is_odd) link_nodes(lattice);
    return true;
}

/* Makes room for the nodes that are not on the path, which don't move until the next sentence. */
static bool has_others_room(mecab_lattice_t *lattice, fault *error) {
    if (lattice->found_count <= lattice->others_room) return true;
    free(lattice->others);
    lattice->others_room = 0;
    lattice->others = malloc(lattice->found_count * sizeof *lattice->others);
    if (!lattice->others) return fail_memory(error);
    lattice->others_room = lattice->found_count;
    return true;
}

bool make_other(mecab_lattice_t *lattice, mecab_node_t *node, const kumquatsieve_word *word,
                const char *text, fault *error) {
    const tokens *of = lattice->tables->tokens;
    while (!set_node(of, node, word, text)) {
        if (!add_token(of, &lattice->segmenter, word, error)) return false;
    }
    node->isbest = 0;
    return true;
}

/* Makes the nodes in the order of the words. */
bool make_others(mecab_lattice_t *lattice, fault *error) {
    if (!has_others_room(lattice, error)) return false;
    mecab_node_t *node = lattice->others;
    for (size_t i = 0; i < lattice->found_count; i++) {
        const kumquatsieve_node *found = &lattice->found[i];
        if (found->on_best) continue;
        if (!make_other(lattice, node, &found->word, lattice->sentence, error)) return false;
        node++;
    }
    const char *feature = lattice->tables->unk_feature;
    if (feature) exchange_features(feature, lattice->others, (size_t)(node - lattice->others));
    return true;
}

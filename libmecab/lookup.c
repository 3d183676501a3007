/* The call that looks up the words with which a text starts. */
#include "layer.h"
#include <stdlib.h>

static bool has_room(mecab_lattice_t *lattice, size_t wanted, fault *error) {
    if (wanted <= lattice->entries_room) return true;
    kumquatsieve_word *entries = realloc(lattice->entries, wanted * sizeof *entries);
    if (entries) lattice->entries = entries;
    mecab_node_t *nodes = realloc(lattice->looked_up, wanted * sizeof *nodes);
    if (nodes) lattice->looked_up = nodes;
    if (!entries || !nodes) return fail_memory(error);
    lattice->entries_room = wanted;
    return true;
}

/* Sets *count to the number of the words. Repeats the call if they had too little room. */
static bool find_entries(mecab_lattice_t *lattice, const char *text, size_t length, size_t *count,
                         fault *error) {
    kumquatsieve_dictionary *dictionary = dictionary_of(lattice->tables->images);
    size_t room = 0;
    for (*count = 1; *count > room;) {
        if (!has_room(lattice, *count, error)) return false;
        room = lattice->entries_room;
        uint32_t code = kumquatsieve_lookup(dictionary, text, length, KUMQUATSIEVE_PREFIXES,
                                            lattice->entries, room, count, NULL);
        if (code != KUMQUATSIEVE_OK) return fail_code(error, "lookup", code);
    }
    return true;
}

/* Makes the nodes of the words that fit in a node, linked from the last to the first. (MeCab) */
static mecab_node_t *link_entries(mecab_lattice_t *lattice, const char *text, size_t count,
                                  fault *error) {
    const char *feature = lattice->tables->unk_feature;
    mecab_node_t *last = NULL;
    for (size_t i = 0; i < count; i++) {
        kumquatsieve_word *word = &lattice->entries[i];
        mecab_node_t *node = &lattice->looked_up[i];
        if (!fit_in_node(word)) continue;
        if (!make_other(lattice, node, word, text, error)) return NULL;
        if (feature) exchange_features(feature, node, 1);
        node->cost = 0;
        node->bnext = last;
        last = node;
    }
    return last;
}

/* The nodes are valid until the next call of this function with this lattice. After a swap of the
   model its result is forgotten, because its nodes are of the other dictionaries. */
mecab_node_t *mecab_model_lookup(mecab_model_t *model, const char *begin, const char *end,
                                 mecab_lattice_t *lattice) {
    size_t count = 0;
    if (!model || !lattice || !begin || end < begin) {
        fail(lattice ? &lattice->error : common_fault(), "no model, lattice or text is given");
        return NULL;
    }
    fault *error = &lattice->error;
    size_t length = (size_t)(end - begin);
    if (!lattice->tables || lattice->tables->number != model->number) forget_path(lattice);
    bool is_found =
        use_tables(model, lattice, error) && find_entries(lattice, begin, length, &count, error);
    return is_found ? link_entries(lattice, begin, count, error) : NULL;
}

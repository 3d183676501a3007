/* The words of the whole lattice of a sentence: those of the best path, and all others that a chain
   of words reaches. */
#include "layer.h"
#include <stdlib.h>
#include <string.h>

static bool has_room(mecab_lattice_t *lattice, size_t wanted, fault *error) {
    size_t room = wanted + wanted / 2;
    if (wanted <= lattice->found_room) return true;
    kumquatsieve_node *found = realloc(lattice->found, room * sizeof *found);
    if (!found) return fail_memory(error);
    lattice->found = found;
    lattice->found_room = room;
    return true;
}

/* Changes the places and costs of words of a part to those of the whole sentence, as move_words in
   nodes.c does. The first words of a part start where the path of the part before it ended. */
static void move_found(kumquatsieve_node *found, size_t count, part *of) {
    size_t place = of->place;
    for (size_t i = 0; i < count; i++) {
        kumquatsieve_word *word = &found[i].word;
        if (word->place == of->at) word->place = place;
        word->total += of->cost;
        if (found[i].on_best) of->place = word->end;
    }
    end_part(of);
}

/* Keeps the words that fit in nodes, and returns their number. The words of the path all fit,
   because their nodes were made before. */
static size_t keep_fitting(kumquatsieve_node *found, size_t count) {
    size_t kept = 0;
    for (size_t i = 0; i < count; i++) {
        if (fit_in_node(&found[i].word)) found[kept++] = found[i];
    }
    return kept;
}

/* Adds the words of the part that was segmented last after those of the parts before it. */
bool add_found(mecab_lattice_t *lattice, part *of, fault *error) {
    const kumquatsieve_node *nodes = NULL;
    size_t count = 0;
    uint32_t code = kumquatsieve_nodes(&lattice->segmenter, &nodes, &count, NULL);
    if (code != KUMQUATSIEVE_OK) return fail_code(error, "nodes", code);
    if (!has_room(lattice, lattice->found_count + count, error)) return false;
    kumquatsieve_node *found = lattice->found + lattice->found_count;
    if (count > 0) memcpy(found, nodes, count * sizeof *found);
    if (!of->is_whole) move_found(found, count, of);
    lattice->found_count += lattice->size > UINT16_MAX ? keep_fitting(found, count) : count;
    return true;
}

/* The nodes are in the order of their starts, and nodes with the same start in the order of the
   words that start there. */
bool find_nodes(mecab_lattice_t *lattice, fault *error) {
    part whole = {.is_whole = true};
    lattice->found_count = 0;
    return lattice->is_odd ? find_odd(lattice, error) : add_found(lattice, &whole, error);
}

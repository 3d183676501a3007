/* Arrays of the nodes of the lattice, by the positions at which they start and end. */
#include "layer.h"
#include <stdlib.h>

/* The number of positions that MeCab's arrays have beyond the sentence. */
enum { BEYOND = 4 };

static bool has_room(mecab_lattice_t *lattice, fault *error) {
    size_t room = lattice->size + BEYOND;
    if (room <= lattice->places_room) return true;
    mecab_node_t **begins = realloc(lattice->begins, room * sizeof *begins);
    if (begins) lattice->begins = begins;
    mecab_node_t **ends = realloc(lattice->ends, room * sizeof *ends);
    if (ends) lattice->ends = ends;
    if (!begins || !ends) return fail_memory(error);
    lattice->places_room = room;
    return true;
}

static void clear(mecab_lattice_t *lattice) {
    for (size_t i = 0; i < lattice->size + BEYOND; i++)
        lattice->begins[i] = lattice->ends[i] = NULL;
}

/* Lists the nodes by their starts, blanks included. The last node of a place is the first one in
   its list. All nodes are numbered. (MeCab) */
static void link_begins(mecab_lattice_t *lattice) {
    mecab_node_t *best = lattice->nodes + 1, *other = lattice->others;
    for (size_t i = 0; i < lattice->found_count; i++) {
        const kumquatsieve_node *found = &lattice->found[i];
        mecab_node_t *node = found->on_best ? best++ : other++,
                     **first = &lattice->begins[found->word.place];
        node->id = (unsigned)(i + 1);
        node->bnext = *first;
        *first = node;
    }
}

static void add_end(mecab_lattice_t *lattice, mecab_node_t *node, size_t end) {
    node->enext = lattice->ends[end];
    lattice->ends[end] = node;
}

/* Lists the nodes by their ends. The node that was added last is the first one in its list: nodes
   are added by their starts, and those of one start in the order of its list. (MeCab) */
static void link_ends(mecab_lattice_t *lattice) {
    for (size_t at = 0; at < lattice->size; at++) {
        for (mecab_node_t *node = lattice->begins[at]; node; node = node->bnext)
            add_end(lattice, node, at + node->rlength);
    }
}

/* Lists BOS as ending at the start of the sentence, and EOS as starting at its end. EOS is also
   listed as ending where the last word ends. (MeCab) */
static void link_boundaries(mecab_lattice_t *lattice) {
    mecab_node_t *first = lattice->nodes, *end = &lattice->nodes[lattice->count - 1],
                 *last = end - 1;
    end->id = (unsigned)(lattice->found_count + 1);
    add_end(lattice, end, (size_t)(last->surface - lattice->sentence) + last->length);
    lattice->ends[0] = first;
    lattice->begins[lattice->size] = end;
}

static bool place_nodes(mecab_lattice_t *lattice, fault *error) {
    if (!make_nodes(lattice, error) || !find_nodes(lattice, error) ||
        !make_others(lattice, error) || !has_room(lattice, error))
        return false;
    clear(lattice);
    lattice->ends[0] = lattice->nodes;
    link_begins(lattice);
    link_ends(lattice);
    link_boundaries(lattice);
    return true;
}

/* Allocates the arrays when they are first requested. Before a parse no place has a node. */
static bool has_places(mecab_lattice_t *lattice, fault *error) {
    if (lattice->is_placed) return true;
    if (lattice->is_segmented)
        lattice->is_placed = place_nodes(lattice, error);
    else if ((lattice->is_placed = has_room(lattice, error)))
        clear(lattice);
    return lattice->is_placed;
}

/* The nodes are linked in the order of their starts. (MeCab) */
bool chain_all(mecab_lattice_t *lattice, fault *error) {
    if (!has_places(lattice, error)) return false;
    mecab_node_t *last = lattice->nodes;
    for (size_t at = 0; at <= lattice->size; at++) {
        for (mecab_node_t *node = lattice->begins[at]; node; last = node, node = node->bnext) {
            last->next = node;
            node->prev = last;
        }
    }
    lattice->is_chained = true;
    return true;
}

mecab_node_t **mecab_lattice_get_all_begin_nodes(mecab_lattice_t *lattice) {
    return has_places(lattice, &lattice->error) ? lattice->begins : NULL;
}

mecab_node_t **mecab_lattice_get_all_end_nodes(mecab_lattice_t *lattice) {
    return has_places(lattice, &lattice->error) ? lattice->ends : NULL;
}

mecab_node_t *mecab_lattice_get_begin_nodes(mecab_lattice_t *lattice, size_t at) {
    return has_places(lattice, &lattice->error) && at <= lattice->size ? lattice->begins[at] : NULL;
}

mecab_node_t *mecab_lattice_get_end_nodes(mecab_lattice_t *lattice, size_t at) {
    return has_places(lattice, &lattice->error) && at <= lattice->size ? lattice->ends[at] : NULL;
}

/* The calls for N-best, of which only the best path is supported, and nodes in the format of a
   tagger. */
#include "layer.h"
#include "layer_cpp.h"
#include <string.h>

enum { NBEST_MAX = 512 };

/* The first path is the best one. The second one is an error, so that no caller takes the best path
   for the only one. */
int mecab_lattice_next(mecab_lattice_t *lattice) {
    if (!(lattice->request & MECAB_NBEST))
        return fail(&lattice->error, "MECAB_NBEST request type is not set");
    if (!lattice->is_segmented) return fail(&lattice->error, "no sentence was parsed");
    if (lattice->is_best_returned) return fail_left_out(&lattice->error, "N-best");
    lattice->is_best_returned = true;
    return true;
}

/* Adds the text after the last of N paths. */
static bool add_end(mecab_lattice_t *lattice) {
    mecab_node_t end = {.surface = lattice->sentence + lattice->size, .stat = MECAB_EON_NODE};
    return print_by_status(format_of(lattice), lattice, &end, &lattice->listed, &lattice->error);
}

static bool list_best(mecab_lattice_t *lattice, size_t n) {
    fault *error = &lattice->error;
    if (n == 0 || n > NBEST_MAX)
        return fail(error, "nbest size must be 1 <= nbest <= %d", NBEST_MAX);
    if (n > 1) return fail_left_out(error, "N-best");
    if (!mecab_lattice_next(lattice) || !text_of(lattice, error)) return false;
    const bytes *text = &lattice->printed;
    return (set_bytes(&lattice->listed, text->at, text->length) || fail_memory(error)) &&
           add_end(lattice);
}

static char *copy_text(const bytes *text, char *out, size_t room, fault *error) {
    if (text->length >= room) {
        fail(error, "output buffer overflow");
        return NULL;
    }
    memcpy(out, text->at, text->length + 1);
    return out;
}

const char *mecab_lattice_nbest_tostr(mecab_lattice_t *lattice, size_t n) {
    return list_best(lattice, n) ? lattice->listed.at : NULL;
}

const char *mecab_lattice_nbest_tostr2(mecab_lattice_t *lattice, size_t n, char *out, size_t room) {
    return list_best(lattice, n) ? copy_text(&lattice->listed, out, room, &lattice->error) : NULL;
}

int mecab_nbest_init2(mecab_t *tagger, const char *text, size_t length) {
    return parse_sentence(tagger, text, length, MECAB_NBEST, false);
}

int mecab_nbest_init(mecab_t *tagger, const char *text) {
    return mecab_nbest_init2(tagger, text, text ? strlen(text) : 0);
}

static bool list_own(mecab_t *tagger, size_t n, const char *text, size_t length) {
    if (n > 1 && n <= NBEST_MAX) return fail_left_out(&tagger->error, "N-best");
    if (!mecab_nbest_init2(tagger, text, length)) return false;
    return list_best(tagger->lattice, n) || fail(&tagger->error, "%s", tagger->lattice->error.text);
}

const char *mecab_nbest_sparse_tostr2(mecab_t *tagger, size_t n, const char *text, size_t length) {
    return list_own(tagger, n, text, length) ? tagger->lattice->listed.at : NULL;
}

const char *mecab_nbest_sparse_tostr(mecab_t *tagger, size_t n, const char *text) {
    return mecab_nbest_sparse_tostr2(tagger, n, text, text ? strlen(text) : 0);
}

char *mecab_nbest_sparse_tostr3(mecab_t *tagger, size_t n, const char *text, size_t length,
                                char *out, size_t room) {
    return list_own(tagger, n, text, length)
               ? copy_text(&tagger->lattice->listed, out, room, &tagger->error)
               : NULL;
}

static bool next_of(mecab_t *tagger) {
    return mecab_lattice_next(tagger->lattice) ||
           fail(&tagger->error, "%s", tagger->lattice->error.text);
}

const char *mecab_nbest_next_tostr(mecab_t *tagger) {
    return next_of(tagger) ? text_of(tagger->lattice, &tagger->error) : NULL;
}

char *mecab_nbest_next_tostr2(mecab_t *tagger, char *out, size_t room) {
    return mecab_nbest_next_tostr(tagger)
               ? copy_text(&tagger->lattice->printed, out, room, &tagger->error)
               : NULL;
}

const mecab_node_t *mecab_nbest_next_tonode(mecab_t *tagger) {
    if (tagger->request & MECAB_MARGINAL_PROB) {
        fail_left_out(&tagger->error, "a marginal probability");
        return NULL;
    }
    return next_of(tagger) && make_nodes(tagger->lattice, &tagger->error)
               ? mecab_lattice_get_bos_node(tagger->lattice)
               : NULL;
}

/* Prints a node. A lattice without a model has a format of its own for that. (MeCab) */
static bool print_one(mecab_lattice_t *lattice, const mecab_node_t *node, fault *error) {
    bytes *to = &lattice->listed;
    if (!node) return fail(error, "node is NULL");
    if (!set_bytes(to, "", 0)) return fail_memory(error);
    if (lattice->model) return print_by_status(&lattice->model->texts, lattice, node, to, error);
    const char *feature = node->feature ? node->feature : "";
    bool is_put = add_bytes(to, node->surface, node->length) && add_bytes(to, "\t", 1) &&
                  add_bytes(to, feature, strlen(feature));
    return is_put || fail_memory(error);
}

const char *text_of_node(mecab_lattice_t *lattice, const mecab_node_t *node) {
    return print_one(lattice, node, &lattice->error) ? lattice->listed.at : NULL;
}

const char *copy_text_of_node(mecab_lattice_t *lattice, const mecab_node_t *node, char *out,
                              size_t room) {
    return print_one(lattice, node, &lattice->error)
               ? copy_text(&lattice->listed, out, room, &lattice->error)
               : NULL;
}

const char *mecab_format_node(mecab_t *tagger, const mecab_node_t *node) {
    return print_one(tagger->lattice, node, &tagger->error) ? tagger->lattice->listed.at : NULL;
}

const char *copy_format_node(mecab_t *tagger, const mecab_node_t *node, char *out, size_t room) {
    return print_one(tagger->lattice, node, &tagger->error)
               ? copy_text(&tagger->lattice->listed, out, room, &tagger->error)
               : NULL;
}

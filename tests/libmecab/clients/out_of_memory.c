/* Makes a model, a tagger and a lattice, and parses with them: out_of_memory IMG OPTIONS. Each
   allocation fails in turn. Then the error is printed, with status 1, and everything else works. */
#include "helpers.h"

static const char SENTENCE[] = "すもももも\xff もも";

static int is_reported(const char *result, const char *message) {
    CHECK(result || *message);
    return result != NULL;
}

static int parse(mecab_t *tagger, mecab_lattice_t *lattice) {
    mecab_lattice_add_request_type(lattice, MECAB_ALLOCATE_SENTENCE);
    mecab_lattice_set_sentence(lattice, SENTENCE);
    if (!mecab_parse_lattice(tagger, lattice))
        return is_reported(NULL, mecab_lattice_strerror(lattice));
    for (mecab_node_t *node = mecab_lattice_get_bos_node(lattice); node; node = node->next)
        CHECK(node->feature);
    if (!mecab_lattice_get_all_begin_nodes(lattice) || !mecab_lattice_get_all_end_nodes(lattice))
        return is_reported(NULL, mecab_lattice_strerror(lattice));
    return is_reported(mecab_lattice_tostr(lattice), mecab_lattice_strerror(lattice));
}

static int parse_with_tagger(mecab_t *tagger) {
    const mecab_node_t *node = mecab_sparse_tonode(tagger, LINE);
    if (!node || !mecab_format_node(tagger, node->next))
        return is_reported(NULL, mecab_strerror(tagger));
    return is_reported(mecab_nbest_sparse_tostr(tagger, 1, LINE), mecab_strerror(tagger));
}

int main(int given, char **words) {
    CHECK(given == 3);
    mecab_model_t *model = mecab_model_new2(words_of(words[1], words[2]));
    mecab_t *tagger = model ? mecab_model_new_tagger(model) : NULL;
    mecab_lattice_t *lattice = model ? mecab_model_new_lattice(model) : NULL;
    int done = tagger && lattice ? parse(tagger, lattice) : is_reported(NULL, mecab_strerror(NULL));
    if (tagger) done = parse_with_tagger(tagger) && done;
    mecab_lattice_destroy(lattice);
    mecab_destroy(tagger);
    mecab_model_destroy(model);
    return done ? 0 : 1;
}

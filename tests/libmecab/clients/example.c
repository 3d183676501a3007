/* A program like those in MeCab's documentation, in C: example DICTIONARY PART. The parts `tagger`
   and `lattice` print the best path, `tagger-nbest` and `lattice-nbest` three paths. An error is
   printed, with status 1. */
#include <mecab.h>
#include <stdio.h>
#include <string.h>

enum { PATHS = 3 };

static const char SENTENCE[] = "太郎は次郎が持っている本を花子に渡した。";

static int report_rejection(const char *why) {
    printf("refused: %s\n", why);
    return 1;
}

static void print_node(const mecab_node_t *node) {
    if (node->stat == MECAB_BOS_NODE)
        printf("BOS");
    else if (node->stat == MECAB_EOS_NODE)
        printf("EOS");
    else
        printf("%.*s", node->length, node->surface);
    printf(" %s %td %u %u %u %u ", node->feature, node->surface - SENTENCE, node->length,
           node->rcAttr, node->lcAttr, node->posid);
    printf("%u %u %u %f %f %f %ld\n", node->char_type, node->stat, node->isbest, node->alpha,
           node->beta, node->prob, node->cost);
}

static void print_dictionaries(const mecab_dictionary_info_t *info) {
    for (; info; info = info->next) {
        printf("charset: %s\nsize: %u\ntype: %d\n", info->charset, info->size, info->type);
        printf("lsize: %u\nrsize: %u\nversion: %u\n", info->lsize, info->rsize, info->version);
    }
}

static int with_tagger(mecab_t *tagger) {
    const char *text = mecab_sparse_tostr(tagger, SENTENCE);
    if (!text) return report_rejection(mecab_strerror(tagger));
    printf("INPUT: %s\nRESULT:\n%s", SENTENCE, text);
    const mecab_node_t *node = mecab_sparse_tonode(tagger, SENTENCE);
    if (!node) return report_rejection(mecab_strerror(tagger));
    for (; node; node = node->next) print_node(node);
    print_dictionaries(mecab_dictionary_info(tagger));
    return 0;
}

static int with_tagger_nbest(mecab_t *tagger) {
    const char *text = mecab_nbest_sparse_tostr(tagger, PATHS, SENTENCE);
    if (!text)
        report_rejection(mecab_strerror(tagger));
    else
        printf("NBEST:\n%s", text);
    if (!mecab_nbest_init(tagger, SENTENCE)) return report_rejection(mecab_strerror(tagger));
    for (int i = 0; i < PATHS; i++) {
        text = mecab_nbest_next_tostr(tagger);
        if (!text) return report_rejection(mecab_strerror(tagger));
        printf("%d:\n%s", i, text);
    }
    return 0;
}

static void print_places(mecab_lattice_t *lattice) {
    for (size_t at = 0; at <= mecab_lattice_get_size(lattice); at++) {
        for (const mecab_node_t *node = mecab_lattice_get_begin_nodes(lattice, at); node;
             node = node->bnext) {
            if (node->isbest) printf("%zu ", at), print_node(node);
        }
    }
}

static int with_lattice(mecab_t *tagger, mecab_lattice_t *lattice) {
    mecab_lattice_set_sentence(lattice, SENTENCE);
    if (!mecab_parse_lattice(tagger, lattice))
        return report_rejection(mecab_lattice_strerror(lattice));
    printf("INPUT: %s\nRESULT:\n%s", mecab_lattice_get_sentence(lattice),
           mecab_lattice_tostr(lattice));
    for (const mecab_node_t *node = mecab_lattice_get_bos_node(lattice); node; node = node->next)
        print_node(node);
    print_places(lattice);
    return 0;
}

static int with_lattice_nbest(mecab_t *tagger, mecab_lattice_t *lattice) {
    mecab_lattice_add_request_type(lattice, MECAB_NBEST);
    mecab_lattice_set_sentence(lattice, SENTENCE);
    if (!mecab_parse_lattice(tagger, lattice))
        return report_rejection(mecab_lattice_strerror(lattice));
    for (int i = 0; i < PATHS; i++) {
        if (!mecab_lattice_next(lattice)) return report_rejection(mecab_lattice_strerror(lattice));
        printf("%d:\n%s", i, mecab_lattice_tostr(lattice));
    }
    return 0;
}

static int with_part(const char *part, mecab_t *tagger, mecab_lattice_t *lattice) {
    if (strcmp(part, "tagger") == 0) return with_tagger(tagger);
    if (strcmp(part, "tagger-nbest") == 0) return with_tagger_nbest(tagger);
    return strcmp(part, "lattice") == 0 ? with_lattice(tagger, lattice)
                                        : with_lattice_nbest(tagger, lattice);
}

int main(int given, char **words) {
    if (given != 3) return 2;
    char folder[] = "-d";
    char *options[] = {words[0], folder, words[1]};
    mecab_model_t *model = mecab_model_new(3, options);
    mecab_t *tagger = model ? mecab_model_new_tagger(model) : NULL;
    mecab_lattice_t *lattice = model ? mecab_model_new_lattice(model) : NULL;
    int status = tagger && lattice ? with_part(words[2], tagger, lattice)
                                   : report_rejection(mecab_strerror(NULL));
    if (lattice) mecab_lattice_destroy(lattice);
    if (tagger) mecab_destroy(tagger);
    if (model) mecab_model_destroy(model);
    return status;
}

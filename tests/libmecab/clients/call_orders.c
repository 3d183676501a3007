/* Makes the calls of MeCab's C interface in orders and with options that its examples don't have,
   and prints the results: call_orders DICTIONARY. The lines are the same with MeCab's library and
   with this one. */
#include <mecab.h>
#include <stdio.h>
#include <stdlib.h>
#include <string.h>

static const char LINE[] = "すもももも";
static const char *dictionary;

static char *words(const char *more) {
    static char line[4096];
    snprintf(line, sizeof line, "-d %s %s", dictionary, more);
    return line;
}

static void print_text(const char *what, const char *text) {
    printf("%s: %s\n", what, text ? text : "NULL");
}

static void print_number(const char *what, long number) { printf("%s: %ld\n", what, number); }

static void empty_lattices(void) {
    mecab_lattice_t *lattice = mecab_lattice_new();
    print_number("request type of a new lattice", mecab_lattice_get_request_type(lattice));
    print_number("theta of a new lattice, in hundredths",
                 (long)(100 * mecab_lattice_get_theta(lattice)));
    print_number("is available", mecab_lattice_is_available(lattice));
    print_text("sentence", mecab_lattice_get_sentence(lattice));
    print_number("size", (long)mecab_lattice_get_size(lattice));
    mecab_lattice_set_theta(lattice, 0.5);
    mecab_lattice_set_z(lattice, 2);
    mecab_lattice_set_sentence(lattice, LINE);
    print_number("theta after a sentence was set", (long)(100 * mecab_lattice_get_theta(lattice)));
    print_number("Z after a sentence was set", (long)mecab_lattice_get_z(lattice));
    print_number("is available before it is parsed", mecab_lattice_is_available(lattice));
    print_number("has a beginning before it is parsed",
                 mecab_lattice_get_bos_node(lattice) != NULL);
    print_number("has an end before it is parsed", mecab_lattice_get_eos_node(lattice) != NULL);
    mecab_lattice_add_request_type(lattice, MECAB_ALLOCATE_SENTENCE);
    print_number("has a request type",
                 mecab_lattice_has_request_type(lattice, MECAB_ALLOCATE_SENTENCE));
    mecab_lattice_remove_request_type(lattice, MECAB_ALLOCATE_SENTENCE);
    print_number("has a request type that was removed",
                 mecab_lattice_has_request_type(lattice, MECAB_ALLOCATE_SENTENCE));
    mecab_lattice_clear(lattice);
    print_number("is available after it was cleared", mecab_lattice_is_available(lattice));
    mecab_lattice_destroy(lattice);
}

/* A lattice has the format of the model that made it, whichever tagger parses it. A lattice without
   a model has the default format. */
static void formats_of_lattices(void) {
    mecab_model_t *model = mecab_model_new2(words("")),
                  *wakati = mecab_model_new2(words("-Owakati"));
    mecab_t *tagger = mecab_model_new_tagger(model),
            *wakati_tagger = mecab_model_new_tagger(wakati);
    mecab_lattice_t *own = mecab_lattice_new(), *of_wakati = mecab_model_new_lattice(wakati);
    mecab_lattice_set_sentence(own, LINE);
    print_number("no lattice is parsed", mecab_parse_lattice(tagger, NULL));
    print_number("a lattice of no model, by a tagger of wakati",
                 mecab_parse_lattice(wakati_tagger, own));
    print_text("its text", mecab_lattice_tostr(own));
    mecab_lattice_set_sentence(of_wakati, LINE);
    print_number("a lattice of wakati, by another tagger", mecab_parse_lattice(tagger, of_wakati));
    print_text("its text", mecab_lattice_tostr(of_wakati));
    print_text("its text again", mecab_lattice_tostr(of_wakati));
    mecab_set_partial(tagger, 5);
    print_number("partial", mecab_get_partial(tagger));
    mecab_lattice_set_sentence(own, LINE);
    print_number("the request type of a tagger is not that of other lattices",
                 mecab_parse_lattice(tagger, own));
    mecab_set_partial(tagger, 0);
    print_number("not partial", mecab_get_partial(tagger));
    mecab_lattice_clear(own);
    print_number("a cleared lattice", mecab_parse_lattice(tagger, own));
    print_number("a swap", mecab_model_swap(model, wakati));
    print_text("the format stays after a swap", mecab_sparse_tostr(tagger, LINE));
    mecab_lattice_destroy(of_wakati);
    mecab_lattice_destroy(own);
    mecab_destroy(wakati_tagger);
    mecab_destroy(tagger);
    mecab_model_destroy(model);
}

static void settings_of_taggers(void) {
    mecab_t *tagger = mecab_new2(words(""));
    char out[8];
    print_number("theta, in hundredths", (long)(100 * mecab_get_theta(tagger)));
    print_number("level", mecab_get_lattice_level(tagger));
    mecab_set_all_morphs(tagger, 7);
    print_number("all morphs", mecab_get_all_morphs(tagger));
    mecab_set_all_morphs(tagger, 0);
    mecab_set_lattice_level(tagger, 1);
    print_number("level 1", mecab_get_lattice_level(tagger));
    mecab_set_lattice_level(tagger, 2);
    print_number("level 2", mecab_get_lattice_level(tagger));
    mecab_destroy(tagger);
    tagger = mecab_new2(words(""));
    print_text("a short buffer", mecab_sparse_tostr3(tagger, LINE, strlen(LINE), out, sizeof out));
    print_text("its error", mecab_strerror(tagger));
    mecab_destroy(tagger);
    print_number("a tagger with no value for an option", mecab_new2(words("-F")) != NULL);
    print_number("a tagger with a value for none", mecab_new2(words("-Cx")) != NULL);
    print_number("a tagger with an unknown option", mecab_new2(words("--nosuch")) != NULL);
}

static void options_and_sentences(void) {
    static const char *const OPTIONS[] = {
        "",
        "-Owakati\n",
        "\t-O\twakati",
        "-F '%m '",
        "-F \"%m\" -E \\n",
        "nothing",
        "--node-format=%m/ --eos-format=",
        "-F%m -Ux\\n",
        "-Fa -Fb\\n",
        "-Owakati -F%m\\n",
        "nothing -Owakati",
        "- -Owakati",
        "-- -Owakati",
        "-C",
        "-r /dev/null",
        "-b 5",
        "-B[ -E] -F(%m)",
    };
    static const char *const SENTENCES[] = {"", " \t ", LINE, "a  すもも   ", "a b\n\nc  "};
    for (size_t i = 0; i < sizeof OPTIONS / sizeof *OPTIONS; i++) {
        mecab_t *tagger = mecab_new2(words(OPTIONS[i]));
        print_text("options", OPTIONS[i]);
        for (size_t k = 0; tagger && k < sizeof SENTENCES / sizeof *SENTENCES; k++)
            print_text("text", mecab_sparse_tostr(tagger, SENTENCES[k]));
        mecab_destroy(tagger);
    }
}

static void nodes(void) {
    mecab_t *tagger = mecab_new2(words("-C"));
    const mecab_node_t *node = mecab_sparse_tonode(tagger, "a  すもも   ");
    for (; node; node = node->next) {
        printf("%.*s %s %u %u ", node->length, node->surface, node->feature, node->length,
               node->rlength);
        printf("%u %u %u %u %u ", node->rcAttr, node->lcAttr, node->char_type, node->stat,
               node->isbest);
        printf("%d %ld %g %g %g\n", node->wcost, node->cost, node->alpha, node->beta, node->prob);
    }
    print_number("nodes of an empty sentence", mecab_sparse_tonode(tagger, "")->next->stat);
    mecab_destroy(tagger);
}

/* Finds the words of the best path by the arrays, from the last one back. The order of the other
   nodes depends on the sources of the dictionary, which are not the same here. */
static void places(void) {
    mecab_t *tagger = mecab_new2(words(""));
    mecab_lattice_t *lattice = mecab_lattice_new();
    mecab_lattice_set_sentence(lattice, " すもももももも の うち ");
    if (!mecab_parse_lattice(tagger, lattice)) return;
    mecab_node_t **begins = mecab_lattice_get_all_begin_nodes(lattice),
                 **ends = mecab_lattice_get_all_end_nodes(lattice);
    for (size_t at = 0; at <= mecab_lattice_get_size(lattice); at++) {
        for (mecab_node_t *node = begins[at]; node; node = node->bnext) {
            if (node->isbest)
                printf("begins at %zu: %.*s %d\n", at, node->length, node->surface,
                       node == mecab_lattice_get_eos_node(lattice));
        }
        for (mecab_node_t *node = mecab_lattice_get_end_nodes(lattice, at); node;
             node = node->enext) {
            if (!node->isbest || node->stat == MECAB_EOS_NODE) continue;
            printf("ends at %zu: %.*s %d\n", at, node->length, node->surface,
                   ends[0] == mecab_lattice_get_bos_node(lattice));
        }
    }
    mecab_lattice_destroy(lattice);
    mecab_destroy(tagger);
}

int main(int given, char **paths) {
    if (given != 2) return 2;
    dictionary = paths[1];
    empty_lattices();
    formats_of_lattices();
    settings_of_taggers();
    options_and_sentences();
    nodes();
    places();
    return 0;
}

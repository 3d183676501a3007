/* Prints the whole lattice of each line: lattices DICTIONARY LINES [USERS]. Prints the nodes by
   their starts, in the order of each list, then by their ends, and then in the order in which they
   are linked with MECAB_ALL_MORPHS.

   If only blanks are left, MeCab has a node of unknown blanks that ends after the sentence. Such a
   node is left out, and the id of EOS is what it would be without it. */
#include <mecab.h>
#include <stdio.h>
#include <stdlib.h>
#include <string.h>

static const char *sentence;
static size_t size;
static unsigned passed;

static int is_within(const mecab_node_t *node) {
    return (size_t)(node->surface - sentence) + node->length <= size;
}

static unsigned id_of(const mecab_node_t *node) {
    return node->stat == MECAB_EOS_NODE ? node->id - passed : node->id;
}

static void print_node(const mecab_node_t *node) {
    printf("%u %td %u %u %s ", id_of(node), node->surface - sentence, node->length, node->rlength,
           node->feature);
    printf("%u %u %u %u %u ", node->rcAttr, node->lcAttr, node->posid, node->char_type, node->stat);
    printf("%u %d %ld", node->isbest, node->wcost, node->cost);
    if (node->isbest && node->prev) printf(" after %u", id_of(node->prev));
    if (node->isbest && node->next) printf(" before %u", id_of(node->next));
    printf("\n");
}

static unsigned count_passed(mecab_node_t *const *begins) {
    unsigned count = 0;
    for (size_t at = 0; at <= size; at++) {
        for (const mecab_node_t *node = begins[at]; node; node = node->bnext)
            count += !is_within(node);
    }
    return count;
}

static void print_begin_nodes(mecab_node_t *const *begins) {
    passed = count_passed(begins);
    for (size_t at = 0; at <= size; at++) {
        for (const mecab_node_t *node = begins[at]; node; node = node->bnext) {
            if (is_within(node)) print_node(node);
        }
    }
}

static void print_end_nodes(mecab_node_t *const *ends) {
    for (size_t at = 0; at <= size; at++) {
        for (const mecab_node_t *node = ends[at]; node; node = node->enext)
            printf("%u ", id_of(node));
        if (ends[at]) printf("end at %zu\n", at);
    }
}

static int print_line(mecab_t *tagger, mecab_lattice_t *lattice) {
    mecab_lattice_set_request_type(lattice, MECAB_ONE_BEST);
    mecab_lattice_set_sentence2(lattice, sentence, size);
    if (!mecab_parse_lattice(tagger, lattice)) return 0;
    print_begin_nodes(mecab_lattice_get_all_begin_nodes(lattice));
    print_end_nodes(mecab_lattice_get_all_end_nodes(lattice));
    mecab_lattice_set_request_type(lattice, MECAB_ONE_BEST | MECAB_ALL_MORPHS);
    mecab_lattice_set_sentence2(lattice, sentence, size);
    if (!mecab_parse_lattice(tagger, lattice)) return 0;
    for (const mecab_node_t *node = mecab_lattice_get_bos_node(lattice); node; node = node->next) {
        if (is_within(node)) printf("%u ", id_of(node));
    }
    printf("are all\n");
    return 1;
}

int main(int given, char **paths) {
    char options[4096], *line = NULL;
    size_t room = 0;
    int is_printed = 1;
    FILE *file = given == 3 || given == 4 ? fopen(paths[2], "r") : NULL;
    if (!file) return 2;
    snprintf(options, sizeof options, "-d %s %s %s", paths[1], given == 4 ? "-u" : "",
             given == 4 ? paths[3] : "");
    mecab_model_t *model = mecab_model_new2(options);
    mecab_t *tagger = model ? mecab_model_new_tagger(model) : NULL;
    mecab_lattice_t *lattice = model ? mecab_model_new_lattice(model) : NULL;
    if (!tagger || !lattice) return 1;
    while (is_printed && getline(&line, &room, file) > 0) {
        size = strcspn(line, "\n");
        line[size] = '\0';
        sentence = line;
        is_printed = print_line(tagger, lattice);
    }
    free(line);
    fclose(file);
    mecab_lattice_destroy(lattice);
    mecab_destroy(tagger);
    mecab_model_destroy(model);
    return is_printed ? 0 : 1;
}

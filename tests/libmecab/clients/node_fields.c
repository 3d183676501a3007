/* Prints each field of each node, BOS and EOS included, for each line: node_fields DICTIONARY LINES
   [USERS]. */
#include <mecab.h>
#include <stdio.h>
#include <stdlib.h>
#include <string.h>

static void print_node(const mecab_node_t *node) {
    printf("%.*s %s %u %u ", node->length, node->surface, node->feature, node->length,
           node->rlength);
    printf("%u %u %u %u %u ", node->rcAttr, node->lcAttr, node->posid, node->char_type, node->stat);
    printf("%u %d %ld %g %g %g\n", node->isbest, node->wcost, node->cost, node->alpha, node->beta,
           node->prob);
}

int main(int given, char **paths) {
    char options[4096], *line = NULL;
    size_t room = 0;
    FILE *file = given == 3 || given == 4 ? fopen(paths[2], "r") : NULL;
    if (!file) return 2;
    snprintf(options, sizeof options, "-d %s %s %s", paths[1], given == 4 ? "-u" : "",
             given == 4 ? paths[3] : "");
    mecab_t *tagger = mecab_new2(options);
    if (!tagger) return 1;
    while (getline(&line, &room, file) > 0) {
        line[strcspn(line, "\n")] = '\0';
        const mecab_node_t *node = mecab_sparse_tonode(tagger, line);
        if (!node) return 1;
        for (; node; node = node->next) print_node(node);
    }
    free(line);
    fclose(file);
    mecab_destroy(tagger);
    return 0;
}

/* Prints each line in a dictionary's own format: endings DICTIONARY TYPE LINES. Prints the text,
   and each node by itself, also BOS and EOS. Then prints the best path of some sentences as the
   first of N, with the text after these. Each of these sentences has one best path, because MeCab
   may choose another one of equal costs. */
#include <mecab.h>
#include <stdio.h>
#include <stdlib.h>
#include <string.h>

static const char *const SENTENCES[] = {"すもももももももものうち", "東京都に住む", " a b ", ""};

static int print_first_of_several(mecab_t *tagger) {
    for (size_t i = 0; i < sizeof SENTENCES / sizeof *SENTENCES; i++) {
        const char *text = mecab_nbest_sparse_tostr(tagger, 1, SENTENCES[i]);
        if (!text) return 0;
        printf("%s|", text);
    }
    return 1;
}

static int print_line(mecab_t *tagger, const char *line) {
    const char *text = mecab_sparse_tostr(tagger, line);
    if (!text) return 0;
    printf("%s|", text);
    for (const mecab_node_t *node = mecab_sparse_tonode(tagger, line); node; node = node->next) {
        text = mecab_format_node(tagger, node);
        printf("%u %s|", node->stat, text ? text : "none");
    }
    return 1;
}

int main(int given, char **words) {
    char options[4096], *line = NULL;
    size_t room = 0;
    int is_printed = 1;
    FILE *file = given == 4 ? fopen(words[3], "r") : NULL;
    if (!file) return 2;
    snprintf(options, sizeof options, "-d %s -O %s", words[1], words[2]);
    mecab_t *tagger = mecab_new2(options);
    if (!tagger) return 1;
    while (is_printed && getline(&line, &room, file) > 0) {
        line[strcspn(line, "\n")] = '\0';
        is_printed = print_line(tagger, line);
    }
    is_printed = is_printed && print_first_of_several(tagger);
    free(line);
    fclose(file);
    mecab_destroy(tagger);
    return is_printed ? 0 : 1;
}

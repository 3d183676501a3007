/* Segments each line of standard input by one way of MeCab's library, reads the fields of its
   nodes, and prints their sum: nodes WAY DICTIONARY. The ways are `lattice`, which has a model, a
   tagger and a lattice, and `tonode`, which has a tagger alone. All lines are read before. */
#include <mecab.h>
#include <stdio.h>
#include <stdlib.h>
#include <string.h>

/* A tagger, and for `lattice` its model and its lattice. */
typedef struct segmenter {
    mecab_model_t *model;
    mecab_t *tagger;
    mecab_lattice_t *lattice;
} segmenter;

static void stop(const char *why) {
    fprintf(stderr, "nodes: %s\n", why);
    exit(1);
}

static segmenter open_segmenter(const char *way, const char *dictionary) {
    char options[4096];
    segmenter made = {NULL, NULL, NULL};
    snprintf(options, sizeof options, "-r /dev/null -d %s", dictionary);
    if (strcmp(way, "lattice") == 0) {
        made.model = mecab_model_new2(options);
        if (made.model) made.tagger = mecab_model_new_tagger(made.model);
        if (made.model) made.lattice = mecab_model_new_lattice(made.model);
    } else {
        made.tagger = mecab_new2(options);
    }
    if (!made.tagger) stop(mecab_strerror(NULL));
    return made;
}

static const mecab_node_t *segment(const segmenter *by, const char *line, size_t length) {
    if (!by->lattice) return mecab_sparse_tonode2(by->tagger, line, length);
    mecab_lattice_set_sentence2(by->lattice, line, length);
    return mecab_parse_lattice(by->tagger, by->lattice) ? mecab_lattice_get_bos_node(by->lattice)
                                                        : NULL;
}

static unsigned long sum_of(const mecab_node_t *node) {
    unsigned long sum = 0;
    for (; node; node = node->next) {
        sum = sum * 31 + (unsigned char)node->surface[0] + node->length +
              (unsigned char)node->feature[0];
        sum += (unsigned long)node->cost + (unsigned long)node->wcost + node->posid + node->stat +
               node->char_type;
    }
    return sum;
}

/* Returns all of standard input, with a zero after it. */
static char *read_all(size_t *length) {
    size_t room = 1 << 20, got = 1;
    char *text = NULL;
    for (*length = 0; got > 0; *length += got) {
        if (!text || *length == room) text = realloc(text, (room *= 2) + 1);
        if (!text) stop("out of memory");
        got = fread(text + *length, 1, room - *length, stdin);
    }
    text[*length] = '\0';
    return text;
}

int main(int given, char **words) {
    size_t length = 0;
    unsigned long sum = 0;
    if (given != 3) return 2;
    char *text = read_all(&length), *end = text + length;
    segmenter by = open_segmenter(words[1], words[2]);
    for (char *line = text, *next = text; line < end; line = next + 1) {
        next = memchr(line, '\n', (size_t)(end - line));
        if (!next) next = end;
        const mecab_node_t *node = segment(&by, line, (size_t)(next - line));
        if (!node) stop("a line is invalid");
        sum = sum * 31 + sum_of(node);
    }
    printf("%lu\n", sum);
    mecab_lattice_destroy(by.lattice);
    mecab_destroy(by.tagger);
    mecab_model_destroy(by.model);
    free(text);
    return 0;
}

/* The calls of the library that integrations/postgresql makes, over MeCab's library. The extension
   is linked with them, so that its tokens and vectors can be compared with those over libmecab.

   The name of a dictionary is the folder of a compiled dictionary. The variable
   KUMQUATSIEVE_BASE_FIELD is the number of the field with the base form, from 0: 6 by default, as
   in IPADIC. Lookups find nothing, and images have no checksum. */
#include <kumquatsieve.h>
#include <mecab.h>
#include <stdio.h>
#include <stdlib.h>
#include <string.h>

/* IPADIC's number. */
enum { BASE_FIELD = 6 };

struct kumquatsieve_dictionary {
    size_t holders;
    char *path;
    mecab_model_t *model;
};

typedef struct state {
    kumquatsieve_dictionary *dictionary;
    mecab_t *tagger;
    mecab_lattice_t *lattice;
    kumquatsieve_word *words;
    const char **features;
    size_t count, room;
} state;

static uint32_t done(kumquatsieve_error *error, uint32_t code, const char *message) {
    if (error) {
        *error = (kumquatsieve_error){.code = code};
        snprintf(error->message, sizeof error->message, "%s", message);
    }
    return code;
}

uint32_t kumquatsieve_dictionary_open(kumquatsieve_dictionary **dictionary, const char *name,
                                      const char *const *users, size_t count, uint32_t flags,
                                      kumquatsieve_error *error) {
    char options[4096];
    kumquatsieve_dictionary *made = calloc(1, sizeof *made);
    (void)users;
    (void)flags;
    if (!name || count > 0) return done(error, KUMQUATSIEVE_BAD_ARGUMENT, "no folder of MeCab");
    snprintf(options, sizeof options, "-C -r /dev/null -d %s", name);
    *made = (kumquatsieve_dictionary){1, strdup(name), mecab_model_new2(options)};
    if (!made->model) return done(error, KUMQUATSIEVE_FILE, mecab_strerror(NULL));
    *dictionary = made;
    return done(error, KUMQUATSIEVE_OK, "");
}

kumquatsieve_dictionary *kumquatsieve_dictionary_retain(kumquatsieve_dictionary *dictionary) {
    if (dictionary) dictionary->holders++;
    return dictionary;
}

void kumquatsieve_dictionary_release(kumquatsieve_dictionary *dictionary) {
    if (!dictionary || --dictionary->holders > 0) return;
    mecab_model_destroy(dictionary->model);
    free(dictionary->path);
    free(dictionary);
}

uint32_t kumquatsieve_dictionary_info(const kumquatsieve_dictionary *dictionary, size_t number,
                                      kumquatsieve_info *info, kumquatsieve_error *error) {
    (void)number;
    const mecab_dictionary_info_t *system = mecab_model_dictionary_info(dictionary->model);
    *info =
        (kumquatsieve_info){.path = dictionary->path, .entries = system->size, .image_count = 1};
    return done(error, KUMQUATSIEVE_OK, "");
}

uint32_t kumquatsieve_lookup(kumquatsieve_dictionary *dictionary, const char *surface,
                             size_t length, uint32_t flags, kumquatsieve_word *words, size_t room,
                             size_t *count, kumquatsieve_error *error) {
    (void)dictionary;
    (void)surface;
    (void)length;
    (void)flags;
    (void)words;
    (void)room;
    *count = 0;
    return done(error, KUMQUATSIEVE_OK, "");
}

uint32_t kumquatsieve_segmenter_open(kumquatsieve_segmenter *segmenter,
                                     kumquatsieve_dictionary *dictionary,
                                     kumquatsieve_error *error) {
    state *made = calloc(1, sizeof *made);
    made->dictionary = kumquatsieve_dictionary_retain(dictionary);
    made->tagger = mecab_model_new_tagger(dictionary->model);
    made->lattice = mecab_model_new_lattice(dictionary->model);
    *segmenter = (kumquatsieve_segmenter){true, NULL, made};
    return done(error, KUMQUATSIEVE_OK, "");
}

void kumquatsieve_segmenter_close(kumquatsieve_segmenter *segmenter) {
    state *of = segmenter->state;
    if (!segmenter->held) return;
    mecab_lattice_destroy(of->lattice);
    mecab_destroy(of->tagger);
    kumquatsieve_dictionary_release(of->dictionary);
    free(of->words);
    free(of->features);
    free(of);
    *segmenter = (kumquatsieve_segmenter)KUMQUATSIEVE_EMPTY;
}

uint32_t kumquatsieve_shrink(kumquatsieve_segmenter *segmenter, kumquatsieve_error *error) {
    state *of = segmenter->state;
    mecab_lattice_destroy(of->lattice);
    of->lattice = mecab_model_new_lattice(of->dictionary->model);
    return done(error, KUMQUATSIEVE_OK, "");
}

static void add_word(state *of, const mecab_node_t *node, const char *text) {
    size_t start = (size_t)(node->surface - text);
    if (of->count == of->room) {
        of->room = 2 * of->room + 64;
        of->words = realloc(of->words, of->room * sizeof *of->words);
        of->features = realloc(of->features, of->room * sizeof *of->features);
    }
    of->features[of->count] = node->feature;
    of->words[of->count] = (kumquatsieve_word){.place = start - (node->rlength - node->length),
                                               .start = start,
                                               .end = start + node->length,
                                               .token = (uint32_t)of->count,
                                               .known = node->stat == MECAB_NOR_NODE};
    of->count++;
}

uint32_t kumquatsieve_segment_text(kumquatsieve_segmenter *segmenter, const char *text,
                                   size_t length, size_t position, uint32_t flags,
                                   kumquatsieve_line *line, kumquatsieve_error *error) {
    state *of = segmenter->state;
    const char *start = text + position, *feed = memchr(start, '\n', length - position);
    size_t end = feed ? (size_t)(feed - text) : length;
    (void)flags;
    mecab_lattice_set_sentence2(of->lattice, start, end - position);
    of->count = 0;
    if (!mecab_parse_lattice(of->tagger, of->lattice))
        return done(error, KUMQUATSIEVE_MEMORY, mecab_lattice_strerror(of->lattice));
    for (const mecab_node_t *node = mecab_lattice_get_bos_node(of->lattice); node;
         node = node->next)
        if (node->stat != MECAB_BOS_NODE && node->stat != MECAB_EOS_NODE) add_word(of, node, text);
    *line = (kumquatsieve_line){.end = end + (feed != NULL), .count = of->count};
    return done(error, KUMQUATSIEVE_OK, "");
}

uint32_t kumquatsieve_words(kumquatsieve_segmenter *segmenter, const kumquatsieve_word **words,
                            size_t *count, kumquatsieve_error *error) {
    state *of = segmenter->state;
    *words = of->words;
    *count = of->count;
    return done(error, KUMQUATSIEVE_OK, "");
}

uint32_t kumquatsieve_feature(kumquatsieve_segmenter *segmenter, const kumquatsieve_word *word,
                              const char **feature, size_t *length, kumquatsieve_error *error) {
    state *of = segmenter->state;
    *feature = of->features[word->token];
    *length = strlen(*feature);
    return done(error, KUMQUATSIEVE_OK, "");
}

/* Each name is that of the base form. A word that is not of the last line has none. */
uint32_t kumquatsieve_field_named(kumquatsieve_segmenter *segmenter, const kumquatsieve_word *word,
                                  const char *name, const char **field, size_t *length,
                                  kumquatsieve_error *error) {
    state *of = segmenter->state;
    const char *at = word->token < of->count ? of->features[word->token] : NULL,
               *number = getenv("KUMQUATSIEVE_BASE_FIELD");
    (void)name;
    for (int left = number ? atoi(number) : BASE_FIELD; at && left > 0; left--) {
        at = strchr(at, ',');
        if (at) at++;
    }
    if (length) *length = at ? strcspn(at, ",") : 0;
    if (field) *field = at && strcmp(at, "*") != 0 && strncmp(at, "*,", 2) != 0 ? at : NULL;
    return done(error, KUMQUATSIEVE_OK, "");
}

const char *kumquatsieve_explain(uint32_t code) {
    (void)code;
    return NULL;
}

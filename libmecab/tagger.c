/* The calls of a tagger, which parses sentences with the dictionaries of a model. */
#include "layer.h"
#include "layer_cpp.h"
#include <stdlib.h>
#include <string.h>

mecab_t *open_tagger(mecab_model_t *model, fault *error) {
    mecab_t *tagger = calloc(1, sizeof *tagger);
    mecab_lattice_t *lattice = tagger ? mecab_model_new_lattice(model) : NULL;
    if (!lattice) {
        free(tagger);
        fail_memory(error);
        return NULL;
    }
    tagger->model = hold_model(model);
    tagger->lattice = lattice;
    lock_shared();
    tagger->request = model->request;
    tagger->theta = model->theta;
    unlock_shared();
    return tagger;
}

/* Returns a tagger that is the only holder of its model, or NULL. */
static mecab_t *opened(settings *from) {
    mecab_model_t *model = open_model(from, common_fault());
    mecab_t *tagger = model ? open_tagger(model, common_fault()) : NULL;
    mecab_model_destroy(model);
    return tagger;
}

mecab_t *mecab_new(int count, char **words) {
    settings from = {0};
    mecab_t *tagger = read_options(&from, count, words, common_fault()) ? opened(&from) : NULL;
    free_settings(&from);
    return tagger;
}

mecab_t *mecab_new2(const char *line) {
    settings from = {0};
    mecab_t *tagger = read_options_of(&from, line, common_fault()) ? opened(&from) : NULL;
    free_settings(&from);
    return tagger;
}

void mecab_destroy(mecab_t *tagger) {
    if (!tagger) return;
    mecab_lattice_destroy(tagger->lattice);
    mecab_model_destroy(tagger->model);
    free(tagger);
}

const char *mecab_version(void) { return "0.996"; }

const char *mecab_strerror(mecab_t *tagger) {
    return tagger ? tagger->error.text : common_fault()->text;
}

const mecab_dictionary_info_t *mecab_dictionary_info(mecab_t *tagger) {
    return mecab_model_dictionary_info(tagger->model);
}

/* Any number of threads may call this with one tagger, each with a lattice of its own. (mecab.h) */
int mecab_parse_lattice(mecab_t *tagger, mecab_lattice_t *lattice) {
    if (!lattice) return fail(common_fault(), "no lattice is given");
    return parse(tagger->model, lattice, true, &lattice->error);
}

/* The request type is set before the sentence, because it decides whether that is copied. */
bool parse_sentence(mecab_t *tagger, const char *text, size_t length, int request, bool nodes) {
    mecab_lattice_t *lattice = tagger->lattice;
    lattice->request = tagger->request | request;
    mecab_lattice_set_sentence2(lattice, text, length);
    lattice->theta = tagger->theta;
    return parse(tagger->model, lattice, nodes, &tagger->error);
}

const char *mecab_sparse_tostr2(mecab_t *tagger, const char *text, size_t length) {
    return parse_sentence(tagger, text, length, 0, false) ? text_of(tagger->lattice, &tagger->error)
                                                          : NULL;
}

const char *mecab_sparse_tostr(mecab_t *tagger, const char *text) {
    return mecab_sparse_tostr2(tagger, text, text ? strlen(text) : 0);
}

char *mecab_sparse_tostr3(mecab_t *tagger, const char *text, size_t length, char *out,
                          size_t room) {
    if (!mecab_sparse_tostr2(tagger, text, length)) return NULL;
    const bytes *printed = &tagger->lattice->printed;
    if (printed->length >= room) {
        fail(&tagger->error, "output buffer overflow");
        return NULL;
    }
    memcpy(out, printed->at, printed->length + 1);
    return out;
}

const mecab_node_t *mecab_sparse_tonode2(mecab_t *tagger, const char *text, size_t length) {
    return parse_sentence(tagger, text, length, 0, true)
               ? mecab_lattice_get_bos_node(tagger->lattice)
               : NULL;
}

const mecab_node_t *mecab_sparse_tonode(mecab_t *tagger, const char *text) {
    return mecab_sparse_tonode2(tagger, text, text ? strlen(text) : 0);
}

/* Adds or removes a request type. An unsupported one is rejected when a sentence is parsed. */
static void set_request(mecab_t *tagger, int type, bool wanted) {
    if (wanted)
        tagger->request |= type;
    else
        tagger->request &= ~type;
}

int mecab_get_partial(mecab_t *tagger) { return (tagger->request & MECAB_PARTIAL) != 0; }
void mecab_set_partial(mecab_t *tagger, int partial) {
    set_request(tagger, MECAB_PARTIAL, partial);
}
float mecab_get_theta(mecab_t *tagger) { return (float)tagger->theta; }
void mecab_set_theta(mecab_t *tagger, float theta) { tagger->theta = theta; }
int mecab_get_all_morphs(mecab_t *tagger) { return (tagger->request & MECAB_ALL_MORPHS) != 0; }
void mecab_set_all_morphs(mecab_t *tagger, int all_morphs) {
    set_request(tagger, MECAB_ALL_MORPHS, all_morphs);
}
int request_of_tagger(const mecab_t *tagger) { return tagger->request; }
void set_request_of_tagger(mecab_t *tagger, int request) { tagger->request = request; }

int mecab_get_lattice_level(mecab_t *tagger) {
    return tagger->request & MECAB_MARGINAL_PROB ? 2 : tagger->request & MECAB_NBEST ? 1 : 0;
}

/* Level 1 is N-best, level 2 is marginal probabilities. A lower level removes neither. (MeCab) */
void mecab_set_lattice_level(mecab_t *tagger, int level) {
    static const int TYPES[] = {MECAB_ONE_BEST, MECAB_NBEST, MECAB_MARGINAL_PROB};
    if (level >= 0 && level <= 2) tagger->request |= TYPES[level];
}

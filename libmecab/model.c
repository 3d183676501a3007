/* The calls of a model: dictionaries that taggers share. */
#include "layer.h"
#include <stdlib.h>
#include <string.h>

static const double THETA = 0.75;

/* Rejects settings that need more than the best path, before there is a sentence. */
static bool can_open(const settings *from, fault *error) {
    if (is_set(from, "partial")) return fail_left_out(error, "partial parsing");
    return number_of(from, "nbest", 1) <= 1 || fail_left_out(error, "N-best");
}

/* Returns the number in the setting `theta`, which may have blanks around it; 0 for another text.
   (MeCab) */
static double theta_of(const settings *from) {
    const char *text = setting_of(from, "theta");
    char *end = NULL;
    double theta = text ? strtod(text, &end) : THETA;
    return text && (end == text || !is_only_blanks(end)) ? 0 : theta;
}

/* Returns the request type of new taggers. (MeCab) */
static int request_of(const settings *from) {
    long level = number_of(from, "lattice-level", 0);
    int request = MECAB_ONE_BEST;
    if (is_set(from, "allocate-sentence")) request |= MECAB_ALLOCATE_SENTENCE;
    if (is_set(from, "all-morphs")) request |= MECAB_ALL_MORPHS;
    if (is_set(from, "marginal") || level >= 2) request |= MECAB_MARGINAL_PROB;
    if (level >= 1) request |= MECAB_NBEST;
    return request;
}

/* Chooses the format, and checks it over the dictionaries before there is a sentence. */
static bool take_texts(mecab_model_t *model, const settings *from, fault *error) {
    kumquatsieve_segmenter segmenter = KUMQUATSIEVE_EMPTY;
    if (!segmenter_over_tables(&segmenter, model->tables, error)) return false;
    bool chosen = choose_texts(&model->texts, from, &segmenter, error);
    kumquatsieve_segmenter_close(&segmenter);
    return chosen;
}

mecab_model_t *open_model(settings *from, fault *error) {
    mecab_model_t *model = calloc(1, sizeof *model);
    if (!model) {
        fail_memory(error);
        return NULL;
    }
    model->holders = 1;
    if ((model->tables = load_tables(from, error)) && can_open(from, error) &&
        take_texts(model, from, error)) {
        model->request = request_of(from);
        model->theta = theta_of(from);
        model->number = model->tables->number;
        return model;
    }
    mecab_model_destroy(model);
    return NULL;
}

mecab_model_t *mecab_model_new(int count, char **words) {
    settings from = {0};
    mecab_model_t *model = read_options(&from, count, words, common_fault())
                               ? open_model(&from, common_fault())
                               : NULL;
    free_settings(&from);
    return model;
}

mecab_model_t *mecab_model_new2(const char *line) {
    settings from = {0};
    mecab_model_t *model =
        read_options_of(&from, line, common_fault()) ? open_model(&from, common_fault()) : NULL;
    free_settings(&from);
    return model;
}

mecab_model_t *hold_model(mecab_model_t *model) {
    model->holders++;
    return model;
}

/* Removes a holder of a model: its owner, a tagger or a lattice. */
void mecab_model_destroy(mecab_model_t *model) {
    if (!model || --model->holders > 0) return;
    release_tables(model->tables);
    free_texts(&model->texts);
    free(model);
}

static bool is_given(const mecab_model_t *model) {
    return model != NULL || fail(common_fault(), "no model is given");
}

mecab_t *mecab_model_new_tagger(mecab_model_t *model) {
    return is_given(model) ? open_tagger(model, common_fault()) : NULL;
}

mecab_lattice_t *mecab_model_new_lattice(mecab_model_t *model) {
    mecab_lattice_t *lattice = is_given(model) ? mecab_lattice_new() : NULL;
    if (!lattice) return NULL;
    lattice->model = hold_model(model);
    return lattice;
}

/* Moves the dictionaries and the request type of `other` to `model`, and destroys `other`. The
   format stays. (MeCab) Later sentences are segmented by the new dictionaries. */
int mecab_model_swap(mecab_model_t *model, mecab_model_t *other) {
    if (!is_given(model) || !is_given(other)) return 0;
    if (model == other) return fail(common_fault(), "a model is swapped for itself");
    lock_shared();
    tables *kept = model->tables;
    model->tables = other->tables;
    model->number = model->tables->number;
    other->tables = kept;
    other->number = kept->number;
    model->request = other->request;
    model->theta = other->theta;
    unlock_shared();
    mecab_model_destroy(other);
    return 1;
}

const mecab_dictionary_info_t *mecab_model_dictionary_info(mecab_model_t *model) {
    lock_shared();
    const mecab_dictionary_info_t *infos = infos_of(model->tables->images);
    unlock_shared();
    return infos;
}

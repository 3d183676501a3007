/* Parses a sentence, to nodes, to text, or to both. */
#include "layer.h"
#include <string.h>

bool use_tables(mecab_model_t *model, mecab_lattice_t *lattice, fault *error) {
    if (lattice->tables && lattice->tables->number == model->number) return true;
    kumquatsieve_segmenter segmenter = KUMQUATSIEVE_EMPTY;
    tables *taken = hold_tables(model);
    if (!segmenter_over_tables(&segmenter, taken, error)) {
        release_tables(taken);
        return false;
    }
    kumquatsieve_segmenter_close(&lattice->segmenter);
    release_tables(lattice->tables);
    lattice->segmenter = segmenter;
    lattice->tables = taken;
    lattice->chosen = 0;
    return true;
}

/* Rejects requests that need more than the best path. A probability matters for nodes only. */
static bool can_parse(const mecab_lattice_t *lattice, bool nodes, fault *error) {
    int request = lattice->request;
    if (request & MECAB_PARTIAL) return fail_left_out(error, "partial parsing");
    if (nodes && request & MECAB_MARGINAL_PROB)
        return fail_left_out(error, "a marginal probability");
    if (lattice->is_constrained) return fail_left_out(error, "a constraint");
    return lattice->sentence != NULL || fail(error, "no sentence is set");
}

void forget_path(mecab_lattice_t *lattice) {
    lattice->count = lattice->invalid_bytes = 0;
    lattice->is_segmented = lattice->is_odd = lattice->has_long_word = lattice->is_printed = false;
    lattice->is_placed = lattice->is_chained = lattice->is_best_returned = false;
}

bool parse(mecab_model_t *model, mecab_lattice_t *lattice, bool nodes, fault *error) {
    forget_path(lattice);
    error->text[0] = '\0';
    if (!can_parse(lattice, nodes, error) || !use_tables(model, lattice, error)) return false;
    uint32_t code = kumquatsieve_segment(&lattice->segmenter, lattice->sentence, lattice->size,
                                         KUMQUATSIEVE_WHOLE, &lattice->line, NULL);
    lattice->is_odd = code != KUMQUATSIEVE_OK && is_odd(code);
    if (code != KUMQUATSIEVE_OK && !lattice->is_odd) return fail_code(error, "sentence", code);
    if ((nodes || lattice->is_odd) && !make_nodes(lattice, error)) return false;
    lattice->is_segmented = true;
    if (!(lattice->request & MECAB_ALL_MORPHS) || chain_all(lattice, error)) return true;
    forget_path(lattice);
    return false;
}

static bool print_into(mecab_lattice_t *lattice, const format *texts, fault *error) {
    const char *text = NULL;
    size_t length = 0;
    if (lattice->chosen != texts->number) {
        if (!accepts_texts(&lattice->segmenter, texts, error)) return false;
        lattice->chosen = texts->number;
    }
    uint32_t code = kumquatsieve_print(&lattice->segmenter, &text, &length, NULL);
    if (code != KUMQUATSIEVE_OK) return fail_code(error, "printing", code);
    return set_bytes(&lattice->printed, text, length) || fail_memory(error);
}

/* The library prints the text if it has the format and segmented the sentence as it is. Otherwise
   the text is printed of the nodes. */
static bool print_text(mecab_lattice_t *lattice, fault *error) {
    const format *texts = format_of(lattice);
    bool is_changed =
        lattice->is_odd || lattice->is_chained || lattice->tables->unk_feature != NULL;
    if (texts->is_proved && !is_changed) return print_into(lattice, texts, error);
    if (!make_nodes(lattice, error)) return false;
    return (set_bytes(&lattice->printed, "", 0) || fail_memory(error)) &&
           print_path(texts, lattice, &lattice->printed, error);
}

/* The text is printed when it is first requested. */
const char *text_of(mecab_lattice_t *lattice, fault *error) {
    if (!lattice->is_segmented) {
        fail(error, "no sentence was parsed");
        return NULL;
    }
    if (!lattice->is_printed) lattice->is_printed = print_text(lattice, error);
    return lattice->is_printed ? lattice->printed.at : NULL;
}

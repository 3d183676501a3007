/* The calls of a lattice: sentences and their best paths. */
#include "layer.h"
#include "layer_cpp.h"
#include <stdlib.h>
#include <string.h>

static const double THETA = 0.75;

mecab_lattice_t *mecab_lattice_new(void) {
    mecab_lattice_t *lattice = calloc(1, sizeof *lattice);
    if (!lattice) {
        fail_memory(common_fault());
        return NULL;
    }
    lattice->request = MECAB_ONE_BEST;
    lattice->theta = THETA;
    return lattice;
}

/* Returns the format of the lattice's model, whichever tagger parses the lattice. (MeCab) */
const format *format_of(const mecab_lattice_t *lattice) {
    return lattice->model ? &lattice->model->texts : default_format();
}

void mecab_lattice_destroy(mecab_lattice_t *lattice) {
    if (!lattice) return;
    kumquatsieve_segmenter_close(&lattice->segmenter);
    release_tables(lattice->tables);
    free_bytes(&lattice->own);
    free_bytes(&lattice->printed);
    free_bytes(&lattice->listed);
    free(lattice->words);
    free(lattice->nodes);
    free(lattice->found);
    free(lattice->entries);
    free(lattice->looked_up);
    free(lattice->others);
    free(lattice->begins);
    free(lattice->ends);
    mecab_model_destroy(lattice->model);
    free(lattice);
}

void mecab_lattice_clear(mecab_lattice_t *lattice) {
    forget_path(lattice);
    lattice->sentence = NULL;
    lattice->size = 0;
    lattice->is_constrained = false;
    lattice->theta = THETA;
    lattice->z = 0;
}

/* The sentence is copied only if the request type has MECAB_ALLOCATE_SENTENCE. (MeCab) */
void mecab_lattice_set_sentence2(mecab_lattice_t *lattice, const char *sentence, size_t size) {
    mecab_lattice_clear(lattice);
    if (!sentence) return;
    if (lattice->request & MECAB_ALLOCATE_SENTENCE) {
        if (!set_bytes(&lattice->own, sentence, size)) {
            fail_memory(&lattice->error);
            return;
        }
        sentence = lattice->own.at;
    }
    lattice->sentence = sentence;
    lattice->size = size;
}

void mecab_lattice_set_sentence(mecab_lattice_t *lattice, const char *sentence) {
    mecab_lattice_set_sentence2(lattice, sentence, sentence ? strlen(sentence) : 0);
}

const char *mecab_lattice_get_sentence(mecab_lattice_t *lattice) { return lattice->sentence; }
size_t mecab_lattice_get_size(mecab_lattice_t *lattice) { return lattice->size; }
/* A lattice is available once a sentence is set, even before the sentence is parsed. (MeCab) */
int mecab_lattice_is_available(mecab_lattice_t *lattice) { return lattice->sentence != NULL; }

mecab_node_t *mecab_lattice_get_bos_node(mecab_lattice_t *lattice) {
    return lattice->count > 0 ? lattice->nodes : NULL;
}

mecab_node_t *mecab_lattice_get_eos_node(mecab_lattice_t *lattice) {
    return lattice->count > 0 ? &lattice->nodes[lattice->count - 1] : NULL;
}

const char *mecab_lattice_tostr(mecab_lattice_t *lattice) {
    return text_of(lattice, &lattice->error);
}

const char *mecab_lattice_tostr2(mecab_lattice_t *lattice, char *out, size_t room) {
    if (!mecab_lattice_tostr(lattice)) return NULL;
    if (lattice->printed.length >= room) {
        fail(&lattice->error, "output buffer overflow");
        return NULL;
    }
    memcpy(out, lattice->printed.at, lattice->printed.length + 1);
    return out;
}

const char *mecab_lattice_strerror(mecab_lattice_t *lattice) { return lattice->error.text; }

int mecab_lattice_get_request_type(mecab_lattice_t *lattice) { return lattice->request; }
int mecab_lattice_has_request_type(mecab_lattice_t *lattice, int type) {
    return (lattice->request & type) != 0;
}
void mecab_lattice_set_request_type(mecab_lattice_t *lattice, int type) { lattice->request = type; }
void mecab_lattice_add_request_type(mecab_lattice_t *lattice, int type) {
    lattice->request |= type;
}
void mecab_lattice_remove_request_type(mecab_lattice_t *lattice, int type) {
    lattice->request &= ~type;
}

double mecab_lattice_get_theta(mecab_lattice_t *lattice) { return lattice->theta; }
void mecab_lattice_set_theta(mecab_lattice_t *lattice, double theta) { lattice->theta = theta; }
double mecab_lattice_get_z(mecab_lattice_t *lattice) { return lattice->z; }
void mecab_lattice_set_z(mecab_lattice_t *lattice, double z) { lattice->z = z; }

void set_error_of(mecab_lattice_t *lattice, const char *text) { fail(&lattice->error, "%s", text); }

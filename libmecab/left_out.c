/* Calls that are not supported, because they need more than the best path. Each sets the error, and
   returns NULL or 0. */
#include "layer.h"

#pragma GCC diagnostic ignored "-Wunused-parameter"

mecab_node_t *mecab_lattice_new_node(mecab_lattice_t *lattice) {
    fail_left_out(&lattice->error, __func__);
    return NULL;
}

int mecab_lattice_has_constraint(mecab_lattice_t *lattice) {
    return fail_left_out(&lattice->error, __func__);
}

int mecab_lattice_get_boundary_constraint(mecab_lattice_t *lattice, size_t at) {
    return fail_left_out(&lattice->error, __func__);
}

const char *mecab_lattice_get_feature_constraint(mecab_lattice_t *lattice, size_t at) {
    fail_left_out(&lattice->error, __func__);
    return NULL;
}

/* The calls that set a constraint return nothing. So the sentence is rejected when it is parsed,
   and an earlier result is forgotten. */
static void constrain(mecab_lattice_t *lattice, const char *what) {
    fail_left_out(&lattice->error, what);
    lattice->is_constrained = true;
    forget_path(lattice);
}

void mecab_lattice_set_boundary_constraint(mecab_lattice_t *lattice, size_t at, int type) {
    constrain(lattice, "mecab_lattice_set_boundary_constraint");
}

void mecab_lattice_set_feature_constraint(mecab_lattice_t *lattice, size_t from, size_t to,
                                          const char *feature) {
    constrain(lattice, "mecab_lattice_set_feature_constraint");
}

void mecab_lattice_set_result(mecab_lattice_t *lattice, const char *result) {
    constrain(lattice, "mecab_lattice_set_result");
}

int mecab_model_transition_cost(mecab_model_t *model, unsigned short right, unsigned short left) {
    fail_left_out(common_fault(), "mecab_model_transition_cost");
    return 0;
}

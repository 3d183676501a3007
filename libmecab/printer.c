/* Prints nodes in formats that the proved library doesn't have, and of sentences that it can't
 * print. */
#include "layer.h"
#include <stdlib.h>
#include <string.h>

enum { NUMBER_MAX = 64 };

/* The state of printing a node. The fields of its feature are found when a format needs them. */
typedef struct printing {
    const mecab_lattice_t *lattice;
    const mecab_node_t *node;
    bytes *to;
    const char **fields;
    size_t field_count;
} printing;

static bool put(printing *of, const char *from, size_t length, fault *error) {
    return add_bytes(of->to, from, length) || fail_memory(error);
}

static bool put_number(printing *of, long number, fault *error) {
    char text[NUMBER_MAX];
    return put(of, text, (size_t)snprintf(text, sizeof text, "%ld", number), error);
}

static const char *feature_of(const mecab_node_t *node) {
    return node->feature ? node->feature : "";
}

static bool put_field(printing *of, size_t number, char separator, bool *is_first, fault *error) {
    const char *field = number < of->field_count ? of->fields[number] : "*";
    bool is_shown = *field != '*', follows = !*is_first;
    *is_first = !is_shown;
    if (!is_shown) return true;
    return (!follows || put(of, &separator, 1, error)) && put(of, field, strlen(field), error);
}

/* Finds the fields of the feature, at most one more than it has commas. They point into a copy of
   the feature, which follows the list in the same block. */
static bool find_fields(printing *of, fault *error) {
    const char *feature = feature_of(of->node);
    size_t size = strlen(feature) + 1, most = 1;
    for (size_t i = 0; i < size; i++) most += feature[i] == ',';
    of->fields = malloc(most * sizeof *of->fields + size);
    if (!of->fields) return fail_memory(error);
    char *copy = (char *)(of->fields + most);
    memcpy(copy, feature, size);
    of->field_count = split_fields(copy, of->fields, most);
    return true;
}

/* Prints fields. Leaves out those that start with `*`, with the separator after them (MeCab), and
   those that are missing. */
static bool put_fields(printing *of, const item **at, const item *end, fault *error) {
    char separator = (*at)->separator;
    bool is_first = true;
    if (!of->fields && !find_fields(of, error)) return false;
    for (++*at; *at < end && (*at)->kind == FIELD; ++*at) {
        if (!put_field(of, (*at)->number, separator, &is_first, error)) return false;
    }
    --*at;
    return true;
}

static bool put_cost(printing *of, kind which, fault *error) {
    const mecab_node_t *node = of->node;
    if (!node->prev) return fail(error, "BOS has no preceding connection");
    return put_number(
        of, node->cost - node->prev->cost - (which == CONNECTION_COST ? node->wcost : 0), error);
}

static bool put_probability(printing *of, fault *error) {
    if (of->lattice->request & MECAB_MARGINAL_PROB)
        return fail_left_out(error, "a marginal probability");
    return put(of, "0.000000", strlen("0.000000"), error);
}

static bool put_text_item(printing *of, const items *format, const item *one, fault *error) {
    const mecab_node_t *node = of->node;
    size_t blanks = (size_t)(node->rlength - node->length);
    switch (one->kind) {
    case TEXT: return put(of, format->text.at + one->from, one->length, error);
    case SENTENCE: return put(of, of->lattice->sentence, of->lattice->size, error);
    case SURFACE: return put(of, node->surface, node->length, error);
    case SURFACE_WITH_BLANKS: return put(of, node->surface - blanks, node->rlength, error);
    case BLANKS: return put(of, node->surface - blanks, blanks, error);
    case FEATURE: return put(of, feature_of(node), strlen(feature_of(node)), error);
    case MARK: return put(of, node->isbest ? "*" : " ", 1, error);
    case PROBABILITY: return put_probability(of, error);
    case CONNECTION_COST:
    case COST_FROM_LAST: return put_cost(of, one->kind, error);
    default: return false;
    }
}

static bool is_number(kind which) { return which >= FIRST_NUMBER; }

static long number_in(const printing *of, kind which) {
    const mecab_node_t *node = of->node;
    long start = node->surface - of->lattice->sentence;
    switch (which) {
    case SENTENCE_SIZE: return (long)of->lattice->size;
    case POSID: return node->posid;
    case WORD_COST: return node->wcost;
    case CATEGORY: return node->char_type;
    case STATUS: return node->stat;
    case ID: return node->id;
    case START: return start;
    case END: return start + node->length;
    case COST: return node->cost;
    case LENGTH: return node->length;
    case LENGTH_WITH_BLANKS: return node->rlength;
    case LEFT_ID: return node->lcAttr;
    case RIGHT_ID: return node->rcAttr;
    default: return 0;
    }
}

bool print_node(const items *format, const mecab_lattice_t *lattice, const mecab_node_t *node,
                bytes *to, fault *error) {
    printing of = {.lattice = lattice, .node = node, .to = to};
    const item *end = format->all + format->count;
    bool is_put = true;
    for (const item *at = format->all; is_put && at < end; at++) {
        if (at->kind == FIELDS)
            is_put = put_fields(&of, &at, end, error);
        else if (is_number(at->kind))
            is_put = put_number(&of, number_in(&of, at->kind), error);
        else
            is_put = put_text_item(&of, format, at, error);
    }
    free(of.fields);
    return is_put;
}

/* Other styles than OWN_STYLE have no format of nodes. */
bool print_by_status(const format *texts, const mecab_lattice_t *lattice, const mecab_node_t *node,
                     bytes *to, fault *error) {
    static const int PARTS[] = {NODE_PART, UNK_PART, BOS_PART, EOS_PART, EON_PART};
    if (texts->style != OWN_STYLE || node->stat > MECAB_EON_NODE) return true;
    return print_node(&texts->items[PARTS[node->stat]], lattice, node, to, error);
}

static bool print_line(const mecab_node_t *node, style style, bytes *to) {
    if (style == NO_STYLE) return true;
    if (!add_bytes(to, node->surface, node->length)) return false;
    if (style == WAKATI_STYLE) return add_bytes(to, " ", 1);
    return add_bytes(to, "\t", 1) && add_bytes(to, feature_of(node), strlen(feature_of(node))) &&
           add_bytes(to, "\n", 1);
}

/* Prints the path in a style other than OWN_STYLE. */
static bool print_plain(style style, const mecab_lattice_t *lattice, bytes *to) {
    const char *end = style == LINES_STYLE ? "EOS\n" : style == WAKATI_STYLE ? "\n" : "";
    for (const mecab_node_t *node = lattice->nodes[0].next; node->next; node = node->next) {
        if (!print_line(node, style, to)) return false;
    }
    return add_bytes(to, end, strlen(end));
}

bool print_path(const format *texts, const mecab_lattice_t *lattice, bytes *to, fault *error) {
    if (texts->style != OWN_STYLE)
        return print_plain(texts->style, lattice, to) || fail_memory(error);
    for (const mecab_node_t *node = lattice->nodes; node; node = node->next) {
        if (!print_by_status(texts, lattice, node, to, error)) return false;
    }
    return true;
}

/* The parts of nodes that depend on the tokens of their words only: all but the places and the
   path's cost. They are made once for each token, when its first word appears. */
#include "layer.h"
#include <errno.h>
#include <stdlib.h>
#include <string.h>

/* Opens a file of rules. Sets *file to NULL if there is none. */
static bool open_rules(const char *path, FILE **file, identity *which, fault *error) {
    struct stat of;
    *file = fopen(path, "re");
    if (!*file) return errno == ENOENT || fail(error, "%s: %s", path, strerror(errno));
    if (fstat(fileno(*file), &of) == 0) {
        *which = identity_of(&of);
        return true;
    }
    fail(error, "%s: %s", path, strerror(errno));
    fclose(*file);
    return false;
}

/* Returns the tokens with these rules, or without rules, or NULL. */
static tokens *find(tokens *list, bool has_rules, const identity *rules) {
    while (list && ((list->posids != NULL) != has_rules || !are_same(&list->rules, rules)))
        list = list->next;
    return list;
}

static tokens *make(const size_t *starts, size_t count, const identity *rules, fault *error) {
    tokens *made = calloc(1, sizeof *made);
    if (made) made->nodes = calloc(count + 1, sizeof *made->nodes);
    if (made && made->nodes) {
        made->starts = starts;
        made->count = count;
        made->rules = *rules;
        return made;
    }
    free(made);
    fail_memory(error);
    return NULL;
}

/* Reads the rules of `new`, and puts it first in the list. Frees it after an error. */
static tokens *add(tokens **list, tokens *new, FILE *file, const char *path,
                   const unsigned char *checksum, fault *error) {
    if (!new) return NULL;
    if (path && !(new->posids = read_posids(file, path, checksum, error))) {
        free_tokens(new);
        return NULL;
    }
    new->next = *list;
    *list = new;
    return new;
}

/* Adds them to the list if they are not there yet. */
tokens *tokens_in(tokens **list, const size_t *starts, size_t count, const char *path,
                  const unsigned char *checksum, fault *error) {
    FILE *file = NULL;
    identity rules = {0};
    if (path && !open_rules(path, &file, &rules, error)) return NULL;
    tokens *found = find(*list, path != NULL, &rules);
    if (!found) found = add(list, make(starts, count, &rules, error), file, path, checksum, error);
    if (file) fclose(file);
    return found;
}

/* Returns a node, followed by its feature, which the caller frees, or NULL if memory runs out.
   Finding the id changes the feature, so that is copied twice. A feature with U+0000 ends there for
   C. */
static mecab_node_t *make_node(const posids *rules, const kumquatsieve_word *word,
                               const char *feature, size_t length) {
    mecab_node_t *made = malloc(sizeof *made + length + 1);
    if (!made) return NULL;
    char *text = (char *)(made + 1);
    *made = (mecab_node_t){.feature = text,
                           .rcAttr = word->right_id,
                           .lcAttr = word->left_id,
                           .isbest = 1,
                           .wcost = word->cost};
    made->stat = word->known ? MECAB_NOR_NODE : MECAB_UNK_NODE;
    text[length] = '\0';
    memcpy(text, feature, length);
    if (rules) {
        made->posid = posid_of(rules, text);
        memcpy(text, feature, length);
    }
    return made;
}

static mecab_node_t *node_of(const tokens *of, kumquatsieve_segmenter *segmenter,
                             const kumquatsieve_word *word, fault *error) {
    const char *feature = NULL;
    size_t length = 0;
    uint32_t code = kumquatsieve_feature(segmenter, word, &feature, &length, NULL);
    mecab_node_t *made =
        code == KUMQUATSIEVE_OK ? make_node(of->posids, word, feature, length) : NULL;
    if (code != KUMQUATSIEVE_OK)
        fail_code(error, "feature", code);
    else if (!made)
        fail_memory(error);
    return made;
}

/* If threads make the node of one token at the same time, the first one is kept. The number of
   tokens is read from the file separately, so a file that was overwritten may have fewer. */
bool add_token(const tokens *of, kumquatsieve_segmenter *segmenter, const kumquatsieve_word *word,
               fault *error) {
    size_t token = of->starts[word->dictionary] + word->token;
    if (token >= of->starts[word->dictionary + 1])
        return fail(error, "dictionary %zu was overwritten while it was being loaded",
                    word->dictionary);
    mecab_node_t *before = atomic_load_explicit(&of->nodes[token], memory_order_acquire),
                 *made = NULL;
    if (before) return true;
    if (!(made = node_of(of, segmenter, word, error))) return false;
    if (!atomic_compare_exchange_strong_explicit(&of->nodes[token], &before, made,
                                                 memory_order_acq_rel, memory_order_acquire))
        free(made);
    return true;
}

static void free_one(tokens *of) {
    for (size_t i = 0; i < of->count; i++) free(of->nodes[i]);
    free((void *)of->nodes);
    free_posids(of->posids);
    free(of);
}

void free_tokens(tokens *list) {
    while (list) {
        tokens *next = list->next;
        free_one(list);
        list = next;
    }
}

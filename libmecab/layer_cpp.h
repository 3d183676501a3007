/* Declarations for the C++ classes, in addition to MeCab's own calls. */
#ifndef LAYER_CPP_H
#define LAYER_CPP_H
#include <mecab.h>

#ifdef __cplusplus
extern "C" {
#endif

/* tagger.c. The request type of a tagger. */
int request_of_tagger(const mecab_t *tagger);
void set_request_of_tagger(mecab_t *tagger, int request);
/* lattice.c. Sets the error of a lattice. */
void set_error_of(mecab_lattice_t *lattice, const char *text);
/* nbest.c. Return a node in the format of the lattice or tagger, or NULL after an error: in a
   buffer of the lattice, or copied to `out`, which has `room` bytes. */
const char *text_of_node(mecab_lattice_t *lattice, const mecab_node_t *node);
const char *copy_text_of_node(mecab_lattice_t *lattice, const mecab_node_t *node, char *out,
                              size_t room);
const char *copy_format_node(mecab_t *tagger, const mecab_node_t *node, char *out, size_t room);

#ifdef __cplusplus
}
#endif
#endif

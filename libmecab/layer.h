/* MeCab's C interface over kumquatsieve.h. It is not proved. docs/LIBMECAB.md describes each call.
   The calls are declared in MeCab's own header. */
#ifndef LAYER_H
#define LAYER_H
#include "formats.h"
#include <kumquatsieve.h>
#include <mecab.h>
#include <stdatomic.h>
#include <sys/stat.h>

/* These declarations are private, so no other library of a program can replace them. */
#pragma GCC visibility push(hidden)

/* Open images. (images.c) */
typedef struct images images;

/* Identifies a file and its state. (identity.c) */
typedef struct identity {
    dev_t device;
    ino_t number;
    off_t size;
    struct timespec modified;
    struct timespec changed;
} identity;

/* The length of the header of an image in bytes (docs/FORMAT.md), and how often images are opened
   at most if files are replaced meanwhile. */
enum { HEADER = 104, TRIES = 8 };

/* The identity, header and checksum of a file, read before it is opened as an image. */
typedef struct heading {
    identity which;
    unsigned char header[HEADER];
    unsigned char checksum[CHECKSUM];
} heading;

/* Rules for part-of-speech ids. (posids.c) */
typedef struct posids posids;

/* The parts of nodes that depend on the tokens of their words: for each token a node without place
   and path, or NULL if no word of it appeared yet. `next` has other rules for ids. Without rules
   each id is 0. (tokens.c) */
typedef struct tokens {
    struct tokens *next;
    const size_t *starts;
    size_t count;
    _Atomic(mecab_node_t *) *nodes;
    posids *posids;
    identity rules;
} tokens;

/* The dictionaries of a model with their settings. They don't change. Each has a number of its own,
   above 0. `boundary` has what the nodes of BOS and EOS have in common. Holders are the model and
   the lattices that it parsed. Their count is under lock_shared. */
typedef struct tables {
    unsigned long number;
    unsigned long holders;
    images *images;
    tokens *tokens;
    uint32_t grouping;
    char *bos_feature;
    char *unk_feature;
    mecab_node_t boundary;
} tables;

/* The tables of its taggers, and the request type of new ones. It is freed with its last holder:
   its owner, its taggers and its lattices. All but the texts is under lock_shared. The number of
   its tables is also stored apart, so a lattice that has these tables needs no lock. */
struct mecab_model_t {
    atomic_ulong holders;
    tables *tables;
    atomic_ulong number;
    format texts;
    int request;
    double theta;
};

/* Only its own lattice changes in a parse, so several threads can parse other lattices with it. The
   request type is for its own lattice only. */
struct mecab_t {
    mecab_model_t *model;
    mecab_lattice_t *lattice;
    int request;
    double theta;
    fault error;
};

/* A sentence and, after a parse, its best path: the nodes from BOS to EOS. When they are first
   requested, also its text in the format of its model, or in the default format, and the nodes of
   the whole lattice, of which `others` are not on the path. The segmenter is over the tables of the
   tagger that parsed it last, and `chosen` is the number of the segmenter's format, or 0.

   `looked_up` has the nodes of mecab_model_lookup, and `entries` their words.

   - `is_odd`: the sentence was changed before it was segmented, or split
   - `has_long_word`: a word is too long for a node
   - `is_placed`: `begins` and `ends` list the nodes of the whole lattice
   - `is_chained`: all nodes are linked, instead of those of the path
   - `is_best_returned`: the best path was returned as the first of N */
struct mecab_lattice_t {
    mecab_model_t *model;
    tables *tables;
    kumquatsieve_segmenter segmenter;
    unsigned long chosen;
    const char *sentence;
    size_t size;
    bytes own;
    kumquatsieve_word *words;
    size_t words_room;
    mecab_node_t *nodes;
    size_t nodes_room;
    size_t count;
    kumquatsieve_node *found;
    size_t found_room;
    size_t found_count;
    mecab_node_t *others;
    size_t others_room;
    mecab_node_t **begins;
    mecab_node_t **ends;
    size_t places_room;
    kumquatsieve_line line;
    size_t invalid_bytes;
    kumquatsieve_word *entries;
    mecab_node_t *looked_up;
    size_t entries_room;
    bytes printed;
    bytes listed;
    bool is_segmented;
    bool is_odd;
    bool has_long_word;
    bool is_printed;
    bool is_placed;
    bool is_chained;
    bool is_best_returned;
    bool is_constrained;
    int request;
    double theta;
    double z;
    fault error;
};

/* A setting that is 1 if an image has settings beside it. No option and no file can set it. */
#define HAS_DICRC "=dicrc"

/* Unless a comment states otherwise, a function with `error` sets it, and returns false or NULL,
   after an error. */

/* options.c. Read options from arguments, or from a line. */
bool read_options(settings *to, int count, char *const *words, fault *error);
bool read_options_of(settings *to, const char *line, fault *error);

/* finding.c. Returns the path of the system image, which the caller frees. */
char *find_image(settings *to, fault *error);
bool read_image_settings(settings *to, const char *image, const unsigned char *checksum,
                         fault *error);

/* Returns the path of the image of a user dictionary, which the caller frees. */
char *find_user_image(const char *name, fault *error);
char *path_next_to(const char *image, const char *ending);

/* lock.c. The lock that is held while images are opened. Like the next one, it is free in a child
   that was forked while another thread held it. */
void lock_loads(void);
void unlock_loads(void);

/* The lock of the data that models and lattices share. It is held for a few steps, and never while
   a sentence is parsed. */
void lock_shared(void);
void unlock_shared(void);

/* identity.c */
identity identity_of(const struct stat *of);
bool are_same(const identity *one, const identity *other);

/* headings.c. number_at returns the number in the four bytes at an offset of the header. */
bool read_heading(heading *to, const char *path, fault *error);
uint32_t number_at(const heading *of, size_t at);
bool is_compiled_by_mecab(const heading *of);

/* images.c. Opens images, or adds a holder to open ones. release_images removes it. */
images *open_images(char *const *paths, size_t count, fault *error);
void release_images(images *of);
bool is_first_file(const images *of, const identity *which);
const mecab_dictionary_info_t *infos_of(const images *of);
/* Returns the tokens of images by the file `rules`, or without rules. The images own them. */
tokens *tokens_over(images *of, const char *rules, fault *error);
bool segmenter_over_images(kumquatsieve_segmenter *to, const images *from, fault *error);
kumquatsieve_dictionary *dictionary_of(const images *of);

/* tokens.c. Returns the tokens in a list by the file `rules`, or without rules. */
tokens *tokens_in(tokens **list, const size_t *starts, size_t count, const char *rules,
                  const unsigned char *checksum, fault *error);
/* Makes the node of the token of a word, unless there is one. */
bool add_token(const tokens *of, kumquatsieve_segmenter *segmenter, const kumquatsieve_word *word,
               fault *error);
void free_tokens(tokens *list);

/* posids.c. Reads rules. If there is no file, or it is for another image than the one with the
   checksum, each id is the one that MeCab's compiler has without rules. */
posids *read_posids(FILE *file, const char *path, const unsigned char *checksum, fault *error);
/* Returns the id of a feature, and changes the feature. */
uint16_t posid_of(const posids *of, char *feature);
void free_posids(posids *of);

/* dictionary.c. Returns new tables with one holder. */
tables *load_tables(settings *from, fault *error);
tables *hold_tables(mecab_model_t *model);
void release_tables(tables *of);
bool segmenter_over_tables(kumquatsieve_segmenter *to, const tables *from, fault *error);

/* texts.c. The format of a lattice without a model. */
const format *default_format(void);
/* Sets the format of a segmenter. Returns false if the library doesn't have it. */
bool accepts_texts(kumquatsieve_segmenter *segmenter, const format *texts, fault *error);
/* Sets *to to the format of the settings, which it checks with the segmenter. */
bool choose_texts(format *to, const settings *from, kumquatsieve_segmenter *segmenter,
                  fault *error);
void free_texts(format *of);

/* printer.c. Adds a node in the format of its status. */
bool print_by_status(const format *texts, const mecab_lattice_t *lattice, const mecab_node_t *node,
                     bytes *to, fault *error);
/* Adds the path of a lattice. */
bool print_path(const format *texts, const mecab_lattice_t *lattice, bytes *to, fault *error);

/* model.c. Returns a new model with one holder. mecab_model_destroy removes a holder. */
mecab_model_t *open_model(settings *from, fault *error);
mecab_model_t *hold_model(mecab_model_t *model);

/* tagger.c */
mecab_t *open_tagger(mecab_model_t *model, fault *error);
/* Parses a sentence with the lattice of the tagger. `request` is added to the request type of the
   tagger, and `nodes` is whether nodes are needed. */
bool parse_sentence(mecab_t *tagger, const char *text, size_t length, int request, bool nodes);

/* lattice.c. Returns the format of a lattice. */
const format *format_of(const mecab_lattice_t *lattice);

/* A part of a sentence that is segmented by itself: it starts at `at` of the sentence, after words
   that end at `place` and have the cost `cost`. If `is_whole`, it is the whole sentence. */
typedef struct part {
    bool is_whole;
    size_t at;
    size_t place;
    long cost;
    kumquatsieve_line line;
} part;

/* nodes.c. Sets the node of a word that is not on the best path. */
bool make_other(mecab_lattice_t *lattice, mecab_node_t *node, const kumquatsieve_word *word,
                const char *text, fault *error);
/* Replaces the features of unknown words by the setting `unk-feature`. */
void exchange_features(const char *feature, mecab_node_t *nodes, size_t count);

/* Moves to the end of the part. */
void end_part(part *of);
bool fit_in_node(kumquatsieve_word *word);
bool add_nodes(mecab_lattice_t *lattice, part *of, fault *error);

/* Makes the nodes of the path, unless there are some. */
bool make_nodes(mecab_lattice_t *lattice, fault *error);

/* Makes the nodes of the words in `found` that are not on the path. */
bool make_others(mecab_lattice_t *lattice, fault *error);

/* whole.c. Adds the words of the lattice of a part to `found`. */
bool add_found(mecab_lattice_t *lattice, part *of, fault *error);

/* Sets `found` to the words of the whole lattice. */
bool find_nodes(mecab_lattice_t *lattice, fault *error);

/* places.c. Links all nodes of the lattice, instead of those of the path. */
bool chain_all(mecab_lattice_t *lattice, fault *error);

/* odd.c. Returns whether a code means that the library rejects a sentence that MeCab accepts. */
bool is_odd(uint32_t code);

/* Adds the nodes of the path of such a sentence, and sets *cost to the cost of the path. */
bool add_odd(mecab_lattice_t *lattice, long *cost, fault *error);

/* Adds the words of the whole lattice of such a sentence to `found`. */
bool find_odd(mecab_lattice_t *lattice, fault *error);

/* parsing.c. Makes the segmenter of a lattice, if it has none yet, or the dictionaries of the model
   were swapped since. */
bool use_tables(mecab_model_t *model, mecab_lattice_t *lattice, fault *error);

/* Forgets the result of the last parse. */
void forget_path(mecab_lattice_t *lattice);

/* Parses the sentence of a lattice. `nodes` is whether nodes are needed. */
bool parse(mecab_model_t *model, mecab_lattice_t *lattice, bool nodes, fault *error);
/* Returns the text of the path, in a buffer of the lattice. */
const char *text_of(mecab_lattice_t *lattice, fault *error);

#pragma GCC visibility pop
#endif

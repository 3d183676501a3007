#ifndef KUMQUATSIEVE_H
#define KUMQUATSIEVE_H
/* Kumquatsieve segments Japanese text into words. Guide, and licence (none): docs/C_API.md.

   Any number of threads may use a dictionary at a time. A segmenter is over a dictionary and is
   used by one call at a time, on any thread. No call is made from a signal handler. A forked child
   may use dictionaries, and segmenters that no other thread was using.

   Texts are UTF-8, given as an address and a length in bytes. Names, paths and formats end with a
   zero byte. NULL is accepted for a text of length 0, for each output that is not wanted, and for
   `error`. No output overlaps another argument.

   Each call that can fail returns KUMQUATSIEVE_OK or a code, and fills *error. After a failure its
   outputs, the dictionary and the segmenter are unchanged unless its comment states otherwise. Each
   may return KUMQUATSIEVE_MEMORY, and K9 for a NULL that is not accepted or an unknown flag; its
   comment names the other codes. Unless it states otherwise, a borrowed result is valid until the
   next call with the segmenter. */
#include <stdbool.h>
#include <stddef.h>
#include <stdint.h>

/* The number is 10,000 times the first one of the version, 100 times the second, and the third. */
#define KUMQUATSIEVE_VERSION "0.1.0"
#define KUMQUATSIEVE_VERSION_NUMBER 100

#ifdef __cplusplus
extern "C" {
#endif

/* Dictionaries in their order: a system dictionary, which has number 0, and user dictionaries. */
typedef struct kumquatsieve_dictionary kumquatsieve_dictionary;

/* A segmenter, with private fields. It is empty if it is KUMQUATSIEVE_EMPTY or zeroed memory. It
   may be moved in memory between calls, but a copy of it must not be used beside it. */
typedef struct kumquatsieve_segmenter {
    bool held;
    void *core, *state;
} kumquatsieve_segmenter;

#define KUMQUATSIEVE_EMPTY                                                                         \
    { false, NULL, NULL }

/* Why a call failed. docs/C_API.md has a table of the codes that have a number, a position or an
   image; else these are 0. After KUMQUATSIEVE_OK `code` is 0 and `message` is empty. */
typedef struct kumquatsieve_error {
    uint32_t code;
    uint64_t number;
    size_t position;    /* in bytes, from 0 */
    size_t image;       /* of the dictionary: 0 for the system's, 1 and more for users' */
    char message[1024]; /* a sentence for the user; "..." replaces what does not fit */
} kumquatsieve_error;

/* The codes. Letter and number are those of `jseg --explain` and kumquatsieve_explain. */
enum {
    KUMQUATSIEVE_OK = 0,
    KUMQUATSIEVE_MEMORY = 1,                 /* an allocation or a mapping failed */
    KUMQUATSIEVE_FILE = 0x4601,              /* F1: no image of this name, or it can't be read */
    KUMQUATSIEVE_TRUNCATED = 0x4c01,         /* L1: the image is too short */
    KUMQUATSIEVE_BAD_MAGIC = 0x4c02,         /* L2: the file is not an image */
    KUMQUATSIEVE_BAD_LAYOUT = 0x4c03,        /* L3: an image of an unknown layout */
    KUMQUATSIEVE_BAD_SECTION = 0x4c04,       /* L4: an invalid image, as are L5 to L8 */
    KUMQUATSIEVE_BAD_KEY = 0x4c05,           /* L5 */
    KUMQUATSIEVE_BAD_TOKEN = 0x4c06,         /* L6 */
    KUMQUATSIEVE_BAD_TEXT = 0x4c07,          /* L7 */
    KUMQUATSIEVE_DIGEST = 0x4c08,            /* L8: its SHA-256 does not match */
    KUMQUATSIEVE_NOT_SYSTEM = 0x4f01,        /* O1: the first image is not a system dictionary */
    KUMQUATSIEVE_NOT_USER = 0x4f02,          /* O2: a later one is not a user dictionary */
    KUMQUATSIEVE_OTHER_SIZES = 0x4f03,       /* O3: compiled for another system dictionary */
    KUMQUATSIEVE_BAD_ESCAPE = 0x5001,        /* P1: an invalid escape in a format */
    KUMQUATSIEVE_BAD_ITEM = 0x5002,          /* P2: an invalid item in a format */
    KUMQUATSIEVE_BAD_INDEX = 0x5003,         /* P3: an invalid number of a field in a format */
    KUMQUATSIEVE_NOT_UTF8 = 0x4703,          /* G3: the text is not UTF-8 */
    KUMQUATSIEVE_TOO_LONG = 0x4704,          /* G4: the line has more than 1,048,576 bytes */
    KUMQUATSIEVE_LINE_FEED = 0x4b01,         /* K1: the line has a line feed */
    KUMQUATSIEVE_NOTHING_SEGMENTED = 0x4b02, /* K2: no line was segmented */
    KUMQUATSIEVE_BAD_GROUPING = 0x4b04,      /* K4: the grouping is more than 1,000 */
    KUMQUATSIEVE_EMPTY_SEGMENTER = 0x4b05,   /* K5: segmenter or dictionary is empty or NULL */
    KUMQUATSIEVE_FULL_SEGMENTER = 0x4b06,    /* K6: the segmenter is not empty */
    KUMQUATSIEVE_SHORT_BUFFER = 0x4b07,      /* K7: the buffer is too short */
    KUMQUATSIEVE_BAD_ARGUMENT = 0x4b09,      /* K9: an argument is NULL or out of range */
    KUMQUATSIEVE_NO_FIELD = 0x4b0a           /* K10: the dictionary has no field of this name */
};

/* Flags. Each call takes 0 or a sum of those that its comment names. */
enum {
    KUMQUATSIEVE_SKIP_DIGEST = 1, /* don't test the SHA-256 */
    KUMQUATSIEVE_TEST_DIGEST = 2, /* run all tests, the SHA-256 too, and ignore records of tests */
    KUMQUATSIEVE_COPY = 4,        /* read the file into memory instead of mapping it */
    KUMQUATSIEVE_TRUSTED = 8,     /* make no tests; undefined behavior if an image fails one */
    KUMQUATSIEVE_WHOLE = 16,      /* a line feed is a character like others, as in libmecab */
    KUMQUATSIEVE_PREFIXES = 32    /* also entries of prefixes, and unknown words */
};

typedef struct kumquatsieve_image {
    const void *bytes;
    size_t length;
} kumquatsieve_image;

/* An image of a dictionary. Its texts are valid until the dictionary is released. */
typedef struct kumquatsieve_info {
    const char *path;              /* of its file; NULL if it was loaded from memory */
    uint64_t size;                 /* in bytes */
    uint8_t sha256[32];            /* that the image has at its end; 0 before layout 3 */
    uint32_t layout;               /* 1 to 3 (docs/FORMAT.md) */
    uint32_t is_user;              /* 0 for a system dictionary, 1 for a user dictionary */
    uint32_t entries;              /* of the lexicon */
    uint32_t unknown_entries;      /* of unknown words */
    uint32_t surfaces;             /* distinct surfaces of the lexicon */
    uint32_t left_ids, right_ids;  /* numbers of context ids */
    uint32_t image_count;          /* of the dictionary */
    uint32_t category_count;       /* 0 for a user dictionary */
    uint32_t field_count;          /* 0 if the fields have no names */
    const char *const *categories; /* names by number, as in kumquatsieve_word */
    const char *const *fields;     /* names by number; NULL for a field without a name */
} kumquatsieve_info;

/* A line that was segmented. */
typedef struct kumquatsieve_line {
    size_t end;      /* where the next line starts in the text, or the length of the line */
    size_t count;    /* of its words */
    int64_t total;   /* cost of the best path */
    size_t replaced; /* how many invalid bytes were searched as U+FFFD */
} kumquatsieve_line;

/* A word. Offsets are in bytes from the start of the text that the caller gave. */
typedef struct kumquatsieve_word {
    size_t place;          /* where the blanks before the surface start */
    size_t start;          /* where the surface starts */
    size_t end;            /* where the surface ends */
    size_t dictionary;     /* of its entry: 0 for the system's, 1 and more for users' */
    uint32_t token;        /* number of its entry; unknown entries follow those of the lexicon */
    uint16_t left_id;      /* left context id */
    uint16_t right_id;     /* right context id */
    int16_t cost;          /* word cost */
    uint8_t known;         /* 1 if a lexicon has the word, 0 if it is an unknown word */
    uint8_t category;      /* first one of the first character, by the order of char.def */
    int64_t total;         /* least cost from the start of the line up to and with this word */
    size_t feature_length; /* in bytes */
    size_t feature_offset; /* in kumquatsieve_features; set by kumquatsieve_words, else 0 */
} kumquatsieve_word;

/* A node of the lattice: a word that a chain of words from the start of the line reaches. It lost
   against the best path by `through` minus the total of the line. */
typedef struct kumquatsieve_node {
    kumquatsieve_word word;
    int64_t through;     /* least cost of the paths of the whole line that have the word */
    uint8_t reaches_end; /* 1 if there is such a path; if it is 0, so is `through` */
    uint8_t on_best;     /* 1 if the word is on the best path */
} kumquatsieve_node;

/* Opens a dictionary: the image `name` and `count` user images, each a path or the bare name of an
   installed image. NULL is the name in the variable KUMQUATSIEVE_DICTIONARY, or else the only
   system dictionary that is installed. The caller releases *dictionary.
   Files are mapped: until the dictionary is freed nobody may write to them or truncate them, but
   rename(2) may replace them. Files that are open already, with the same flags, give the same
   dictionary. All tests but that of the SHA-256 are made, or none if kumquatsieve-import left a
   valid record. `flags`: TEST_DIGEST, SKIP_DIGEST, COPY, TRUSTED. Any threads. F1, L1 to O3. */
uint32_t kumquatsieve_dictionary_open(kumquatsieve_dictionary **dictionary, const char *name,
                                      const char *const *users, size_t count, uint32_t flags,
                                      kumquatsieve_error *error);

/* Loads a dictionary from the bytes of `count` images, which are copied: the system's, then users'.
   The caller releases it. `flags`: SKIP_DIGEST, TRUSTED. Any threads. L1 to L8, O1 to O3. */
uint32_t kumquatsieve_dictionary_load(kumquatsieve_dictionary **dictionary,
                                      const kumquatsieve_image *images, size_t count,
                                      uint32_t flags, kumquatsieve_error *error);

/* Adds a holder to a dictionary, which may be NULL, and returns it. Any threads. */
kumquatsieve_dictionary *kumquatsieve_dictionary_retain(kumquatsieve_dictionary *dictionary);

/* Removes a holder from a dictionary, which may be NULL. It is freed with its last holder; each
   segmenter is one. Any threads. */
void kumquatsieve_dictionary_release(kumquatsieve_dictionary *dictionary);

/* Describes image `number` of a dictionary, from 0. Any threads. K5, K9 if it has no such image. */
uint32_t kumquatsieve_dictionary_info(const kumquatsieve_dictionary *dictionary, size_t number,
                                      kumquatsieve_info *info, kumquatsieve_error *error);

/* Writes the entries of a surface, at most `room`, to `words`, and sets *count to their number. A
   text that is invalid or too long has none. `flags`: PREFIXES, for all words with which a line of
   this text may start. Any threads. K5. */
uint32_t kumquatsieve_lookup(kumquatsieve_dictionary *dictionary, const char *surface,
                             size_t length, uint32_t flags, kumquatsieve_word *words, size_t room,
                             size_t *count, kumquatsieve_error *error);

/* Fills an empty segmenter, which retains the dictionary, with the default format and a grouping of
   24 characters. No image is copied. The caller closes it. K5, K6. */
uint32_t kumquatsieve_segmenter_open(kumquatsieve_segmenter *segmenter,
                                     kumquatsieve_dictionary *dictionary,
                                     kumquatsieve_error *error);

/* Frees what a segmenter has, which is empty then. Does nothing if it is empty or NULL. */
void kumquatsieve_segmenter_close(kumquatsieve_segmenter *segmenter);

/* Frees the memory that a long line left, 135 MB after 1 MiB. Forgets the last line. K5. */
uint32_t kumquatsieve_shrink(kumquatsieve_segmenter *segmenter, kumquatsieve_error *error);

/* Sets the texts for a known word, an unknown word, the start and the end of a line, in MeCab's
   items. NULL is the default: `%m\t%H\n`, `node`, none, `EOS\n`. P1 to P3, G3, K5. */
uint32_t kumquatsieve_set_format(kumquatsieve_segmenter *segmenter, const char *node,
                                 const char *unk, const char *bos, const char *eos,
                                 kumquatsieve_error *error);

/* Sets how many characters, at most 1,000, may follow the first one of a grouped unknown word.
   Forgets the last line. K4, K5. */
uint32_t kumquatsieve_set_grouping(kumquatsieve_segmenter *segmenter, uint32_t grouping,
                                   kumquatsieve_error *error);

/* Segments one line, which replaces the last line. `flags`: WHOLE. K1, G3, G4, K5. */
uint32_t kumquatsieve_segment(kumquatsieve_segmenter *segmenter, const char *text, size_t length,
                              uint32_t flags, kumquatsieve_line *line, kumquatsieve_error *error);

/* Segments the line at byte `position` of a text of any length and bytes. It replaces the last
   line, and the offsets of its words count from the start of the text. For a whole text:

       for (size_t at = 0; at < length && code == KUMQUATSIEVE_OK; at = line.end)
           code = kumquatsieve_segment_text(segmenter, text, length, at, 0, &line, &error);

   A line ends after a line feed, or after at most 1,048,576 bytes at a full stop, at a blank or
   between two characters. A byte that is not UTF-8 is searched as U+FFFD, and a pair of surrogates
   of three bytes each as its character. `flags`: WHOLE. K5, K9 if `position` exceeds `length`. */
uint32_t kumquatsieve_segment_text(kumquatsieve_segmenter *segmenter, const char *text,
                                   size_t length, size_t position, uint32_t flags,
                                   kumquatsieve_line *line, kumquatsieve_error *error);

/* Segments all lines of a text that is UTF-8, and borrows what they print. Sets *lines to their
   number. A failure sets *lines to the number of the invalid line, from 1, and the output to that
   of the lines before it. Forgets the last line. G3, G4, K5 (sets nothing). */
uint32_t kumquatsieve_parse_lines(kumquatsieve_segmenter *segmenter, const char *text,
                                  size_t length, const char **output, size_t *output_length,
                                  uint64_t *lines, kumquatsieve_error *error);

/* Borrows the words of the last line, until that is replaced or forgotten. K2, K5. */
uint32_t kumquatsieve_words(kumquatsieve_segmenter *segmenter, const kumquatsieve_word **words,
                            size_t *count, kumquatsieve_error *error);

/* Borrows the nodes of the lattice of the last line, until that is replaced or forgotten, sorted by
   `place` and then as ties are decided. Builds the lattice at each call. K2, K5. */
uint32_t kumquatsieve_nodes(kumquatsieve_segmenter *segmenter, const kumquatsieve_node **nodes,
                            size_t *count, kumquatsieve_error *error);

/* Borrows the last line in the format. K2, K5. */
uint32_t kumquatsieve_print(kumquatsieve_segmenter *segmenter, const char **output, size_t *length,
                            kumquatsieve_error *error);

/* Borrows the features of the words of the last line, one after another. K2, K5. */
uint32_t kumquatsieve_features(kumquatsieve_segmenter *segmenter, const char **features,
                               size_t *length, kumquatsieve_error *error);

/* Borrows the feature of a word, which may be of kumquatsieve_words, kumquatsieve_nodes or
   kumquatsieve_lookup. It is empty if no entry has the numbers of the word. K5. */
uint32_t kumquatsieve_feature(kumquatsieve_segmenter *segmenter, const kumquatsieve_word *word,
                              const char **feature, size_t *length, kumquatsieve_error *error);

/* Borrows field `number`, from 0, of the feature of a word, without quotes. Sets *field to NULL if
   the feature has fewer fields. K5. */
uint32_t kumquatsieve_field(kumquatsieve_segmenter *segmenter, const kumquatsieve_word *word,
                            size_t number, const char **field, size_t *length,
                            kumquatsieve_error *error);

/* Borrows a field by its name in the file NAME.fields beside the system's image NAME.img, or by a
   common name, such as "base_form" (docs/C_API.md). Sets *field to NULL if the feature has fewer
   fields, or if the field is "*", which means none. K5, K10. */
uint32_t kumquatsieve_field_named(kumquatsieve_segmenter *segmenter, const kumquatsieve_word *word,
                                  const char *name, const char **field, size_t *length,
                                  kumquatsieve_error *error);

/* Writes the path of the image that `name` means in kumquatsieve_dictionary_open, with a zero byte,
   to the `room` bytes of `path`. Sets *needed to its length, with K7 too. Any threads. F1, K7. */
uint32_t kumquatsieve_find_image(const char *name, char *path, size_t room, size_t *needed,
                                 kumquatsieve_error *error);

/* Writes the paths of all installed images in the same way, in byte order of their names. K7. */
uint32_t kumquatsieve_list_images(char *paths, size_t room, size_t *needed,
                                  kumquatsieve_error *error);

/* Writes the paths of the image directories in the same way, in the order of the search. K7. */
uint32_t kumquatsieve_list_directories(char *paths, size_t room, size_t *needed,
                                       kumquatsieve_error *error);

/* Returns a static text on a code, or NULL: its letter, number and name in the first line, and then
   what it means, its usual cause, and what to do. Any threads. */
const char *kumquatsieve_explain(uint32_t code);

/* Returns the version of the library that runs, as KUMQUATSIEVE_VERSION_NUMBER. Any threads. */
uint32_t kumquatsieve_version(void);

#ifdef __cplusplus
}
#endif
#if UINTPTR_MAX == UINT64_MAX && (__STDC_VERSION__ + 0 >= 201112L || __cplusplus + 0 >= 201103L)
#include <assert.h>
static_assert(sizeof(kumquatsieve_segmenter) == 24, "layout of a segmenter");
static_assert(sizeof(kumquatsieve_error) == 1056, "layout of an error");
static_assert(sizeof(kumquatsieve_info) == 104, "layout of an info");
static_assert(sizeof(kumquatsieve_line) == 32, "layout of a line");
static_assert(sizeof(kumquatsieve_word) == 72, "layout of a word");
static_assert(sizeof(kumquatsieve_node) == 88, "layout of a node");
#endif
#endif

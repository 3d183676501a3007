/* Declarations that the files of the C library share. */
#ifndef LIBRARY_H
#define LIBRARY_H
#define _GNU_SOURCE
#include <kumquatsieve.h>
#include <sys/stat.h>

/* The exports of the proved core, by the names that packaging/build-library gives them. They read
   and write the first two fields of a segmenter only. A text has an address, also if its length is
   0, and so has each output. After an error the segmenter and all outputs are unchanged unless a
   comment states otherwise. */

/* A word and a node of the core. The public ones have the same fields and `feature_offset`. */
typedef struct core_word {
    size_t place, start, end, dictionary;
    uint32_t token;
    uint16_t left_id, right_id;
    int16_t cost;
    uint8_t known, category;
    int64_t total;
    size_t feature_length;
} core_word;

typedef struct core_node {
    core_word word;
    int64_t through;
    uint8_t reaches_end, on_best;
} core_node;

uint32_t proved_share(kumquatsieve_segmenter *segmenter, kumquatsieve_segmenter *other);
void proved_free(kumquatsieve_segmenter *segmenter);
uint32_t proved_set_format(kumquatsieve_segmenter *segmenter, const char *node, size_t node_length,
                           const char *unk, size_t unk_length, const char *bos, size_t bos_length,
                           const char *eos, size_t eos_length, uint32_t *part, size_t *at);
uint32_t proved_set_grouping(kumquatsieve_segmenter *segmenter, uint32_t grouping);
/* Set *at if the text is invalid: to the byte, or to the length if it is too long. */
uint32_t proved_segment(kumquatsieve_segmenter *segmenter, const char *line, size_t length,
                        size_t *count, int64_t *total, size_t *at);
uint32_t proved_segment_whole(kumquatsieve_segmenter *segmenter, const char *text, size_t length,
                              size_t *count, int64_t *total, size_t *at);
/* Write at most `room` items from number `first` on, and set *count to the number of all. */
uint32_t proved_words(kumquatsieve_segmenter *segmenter, size_t first, core_word *words,
                      size_t room, size_t *count);
uint32_t proved_nodes(kumquatsieve_segmenter *segmenter, size_t first, core_node *nodes,
                      size_t room, size_t *count);
/* Lend a text in the core's buffer until the next call of the core. */
uint32_t proved_features(kumquatsieve_segmenter *segmenter, const char **features, size_t *length);
uint32_t proved_entry_feature(kumquatsieve_segmenter *segmenter, bool known, size_t dictionary,
                              uint32_t token, const char **feature, size_t *length);
uint32_t proved_print(kumquatsieve_segmenter *segmenter, const char **text, size_t *length);
/* Sets all outputs with each code but KUMQUATSIEVE_EMPTY_SEGMENTER. */
uint32_t proved_parse_lines(kumquatsieve_segmenter *segmenter, const char *text, size_t length,
                            const char **out, size_t *out_length, uint64_t *lines);
/* Writes the name of a code, which has no zero byte. */
uint32_t proved_fault(uint32_t code, char *out, size_t room, size_t *needed);

/* The bytes of an image that are read in place. From the call on until the last segmenter over the
   image is freed:

   - `at` is not null, and `length` bytes lie there, at most PTRDIFF_MAX of them.
   - Nobody writes, unmaps or truncates the bytes, in this process or in another one.

   After an error the core keeps no pointer to them. proved_load_trusted and proved_add_user_trusted
   make no tests: the bytes are an image of layout 3 that passes all tests, that of the SHA-256
   included. With other bytes the behavior is undefined. */
typedef struct loan {
    const uint8_t *at;
    size_t length;
} loan;

uint32_t proved_load_borrowed(kumquatsieve_segmenter *segmenter, loan image, bool skip_digest,
                              uint64_t *number);
uint32_t proved_add_user_borrowed(kumquatsieve_segmenter *segmenter, loan image, bool skip_digest,
                                  uint64_t *number);
uint32_t proved_load_trusted(kumquatsieve_segmenter *segmenter, loan image, uint64_t *number);
uint32_t proved_add_user_trusted(kumquatsieve_segmenter *segmenter, loan image, uint64_t *number);

/* errors.c. Fill *error, which may be NULL, and return the code. */
uint32_t succeed(kumquatsieve_error *error);
uint32_t fail(kumquatsieve_error *error, uint32_t code);
uint32_t fail_at(kumquatsieve_error *error, uint32_t code, uint64_t number, size_t position);
/* `what` names what failed: the path of image `image`, or another subject. */
uint32_t fail_image(kumquatsieve_error *error, uint32_t code, uint64_t number, size_t image,
                    const char *what);
/* For an errno. ENOMEM is KUMQUATSIEVE_MEMORY. */
uint32_t fail_file(kumquatsieve_error *error, int why, size_t image, const char *what);
/* For a name without an image. `why` is the sentence. */
uint32_t fail_name(kumquatsieve_error *error, size_t image, const char *name, const char *why);

/* An image of a dictionary: its bytes, which are mapped, and what is known of it. The texts that
   `info` leads to are owned by `categories`, `fields` and `path`. `of` is the state of its file,
   and `file` its mapping, or NULL for bytes that the image alone has. */
typedef struct image {
    uint8_t *bytes;
    size_t length;
    size_t room;
    struct mapping *file;
    char *path;
    char **categories;
    char **fields;
    struct stat of;
    kumquatsieve_info info;
} image;

/* Dictionaries. `next` lists those that were opened from regular files, by `flags`, so that they
   are found if the files are opened again. The base is a segmenter that never segments. */
struct kumquatsieve_dictionary {
    kumquatsieve_dictionary *next;
    size_t holders;
    uint32_t flags;
    bool is_listed;
    kumquatsieve_segmenter base;
    size_t count;
    image images[];
};

/* dictionary.c. Returns a dictionary with one holder and `count` images that are zero, or NULL. */
kumquatsieve_dictionary *new_dictionary(size_t count, uint32_t flags);
/* Returns the listed dictionary with the flags and the files of `like`, with one more holder, or
   NULL. */
kumquatsieve_dictionary *find_dictionary(const kumquatsieve_dictionary *like);
/* Lists a dictionary, and returns it. If there is one with the same files already, releases it, and
   returns that one. */
kumquatsieve_dictionary *list_dictionary(kumquatsieve_dictionary *made);

/* Fills an empty segmenter with the dictionary, which has one more holder then. Returns a code. */
uint32_t share_base(kumquatsieve_segmenter *segmenter, kumquatsieve_dictionary *dictionary);

/* loading.c. The state of loading the images of a dictionary: the number of the next image, and the
   error of images that don't belong together, with the number of the rejected one. It is reported
   after the errors of each image by itself. */
typedef struct loading {
    kumquatsieve_dictionary *to;
    bool skip_digest;
    size_t number;
    uint32_t overlay;
    size_t rejected;
} loading;

/* Loads the next image, whose bytes are set. `is_tested` is whether it passed all tests. */
uint32_t load_next(loading *of, bool is_tested, kumquatsieve_error *error);
/* Reports the error of images that don't belong together, or describes the images. */
uint32_t end_loading(const loading *of, kumquatsieve_error *error);

/* Returns whether the flags vouch for all tests of an image, and its header has the newest layout
   and the length of the image. */
bool is_trusted(const image *of, uint32_t flags);

/* describing.c. Sets the info of an image that was loaded, and its categories. Returns false if
   memory runs out. */
bool describe(image *of);
/* Reads the names of the fields of a system image from the file beside it, if there is one. Returns
   false if memory runs out. */
bool read_field_names(image *of);
/* Returns the number of the field with a name, or SIZE_MAX. */
size_t field_number(const kumquatsieve_info *info, const char *name);

/* mapping.c. The lock of what dictionaries share. */
void lock_shared(void);
void unlock_shared(void);

/* Map bytes into an image that has none. Return 0 or an errno. map_file maps a file once
   for all images of the process. It returns ENODEV if the file has to be read: its file system maps
   no files, or the file has changed since its state in `to->of` was read. */
int map_file(int file, image *to);
/* Makes room for `length` bytes in all, which grows the mapping. */
int make_room(image *to, size_t length);
int append_bytes(image *to, const void *bytes, size_t length);
void unmap(image *of);

/* files.c. Call fstat and stat. glibc exports these names since 2.33, and the library runs with
   older versions. */
int state_of(int file, struct stat *of);
int state_at(const char *path, struct stat *of);

/* Returns whether both are states of the same file, with the same size and times. */
bool are_same_file(const struct stat *one, const struct stat *other);

/* record.c. Returns whether a valid record beside the image `name` in `directory` states that the
   open file `image` passed all tests. `of` is the state of the open file, and `layout` the layout
   in its header. */
bool has_record(int directory, const char *name, int image, const struct stat *of, uint64_t layout);

/* reading.c. The first bytes of an image, from which its length is known before the remainder is
   read or mapped. */
enum { HEADER_LENGTH = 104, NEWEST_LAYOUT = 3, SHA256_LENGTH = 32 };

typedef struct header {
    uint8_t bytes[HEADER_LENGTH];
    size_t length; /* of `bytes`: less than HEADER_LENGTH if the file is shorter */
    uint64_t layout;
    uint64_t image_length; /* in bytes, with the header */
} header;

/* Returns the little-endian number in `size` bytes. */
uint64_t number_at(const uint8_t *bytes, size_t size);

/* Reads the header. Returns 0 or an errno. */
int read_header(int file, header *to);

/* Sets the layout and the length of the image. Returns the error that every image with this header
   has, and sets *number. `length` is that of the whole image, or UINT64_MAX. Returns
   KUMQUATSIEVE_OK if the header is incomplete. */
uint32_t check_header(header *of, uint64_t length, uint64_t *number);

/* Returns the length of a file, or UINT64_MAX if it is unknown: some file systems report 0 for a
   regular file that has bytes. */
uint64_t known_length(const struct stat *file);

/* Appends the header and the remainder of the file to an image without bytes. Returns 0 or an
   errno. */
int read_remainder(int file, const header *first, image *to);
#endif

/* Errors, byte buffers, settings, lines and formats. */
#ifndef FORMATS_H
#define FORMATS_H
#include <stdarg.h>
#include <stdbool.h>
#include <stddef.h>
#include <stdint.h>
#include <stdio.h>

enum { ERROR_MAX = 2048 };

/* The text of the last error, which mecab_strerror returns. */
typedef struct fault {
    char text[ERROR_MAX];
} fault;

/* fault.c. Set the text of an error, and return false. */
bool fail(fault *error, const char *text, ...) __attribute__((format(printf, 2, 3)));
bool fail_memory(fault *error);
bool fail_code(fault *error, const char *what, uint32_t code);
bool fail_left_out(fault *error, const char *what);
/* Returns the calling thread's error for calls without a tagger, a model or a lattice. */
fault *common_fault(void);

/* A byte buffer that grows, with a zero byte after its `length` bytes. */
typedef struct bytes {
    char *at;
    size_t length;
    size_t room;
} bytes;

/* bytes.c. Makes room for `length` bytes and a zero byte. Like the next two, it returns false, and
   changes nothing, if memory runs out. */
bool grow_bytes(bytes *of, size_t length);
bool set_bytes(bytes *to, const void *from, size_t length);
bool add_bytes(bytes *to, const char *from, size_t length);
void free_bytes(bytes *of);

/* fields.c. Splits a text in place into at most `most` fields. Returns their number. */
size_t split_fields(char *text, const char **fields, size_t most);

typedef struct setting {
    char *name;
    char *value;
} setting;

/* Settings of a caller and of files. `others` are the arguments that are no options; the caller
   owns their texts. */
typedef struct settings {
    setting *all;
    size_t count;
    size_t room;
    char **others;
    int other_count;
} settings;

/* settings.c. Returns the value of a setting, or NULL. */
const char *setting_of(const settings *of, const char *name);

/* Returns the value of a setting as a number, or `otherwise` if it is not set. */
long number_of(const settings *of, const char *name, long otherwise);

/* Returns whether the value of a setting is 1. */
bool is_set(const settings *of, const char *name);
bool is_only_blanks(const char *text);
bool set(settings *to, const char *name, const char *value, fault *error);

/* Removes the settings after the first `count`. */
void forget_settings(settings *of, size_t count);
void free_settings(settings *of);

/* The length of the SHA-256 that ends an image. The first line of a file of settings beside an
   image may have the checksum of the image that they were made for. */
enum { CHECKSUM = 32 };
typedef enum stamp { NO_STAMP, OWN_STAMP, OTHER_STAMP } stamp;

/* settings.c. Returns whether a first line has the checksum of an image, another one, or none. */
stamp stamp_in(const char *line, const unsigned char *checksum);

/* Reads a file of settings. `checksum` is that of the image for settings beside an image, and NULL
   for others. If the settings are for another image, sets *is_other and reads none. */
bool read_settings(settings *to, const char *path, const unsigned char *checksum, bool *is_other,
                   fault *error);

/* The state of reading lines: `held` are bytes of the file, of which the first `returned` were
   returned as lines, and the first `seen` have no line end after those. `number` is the number of
   the line that was returned last, from 1. */
typedef struct lines {
    int from;
    bytes held;
    size_t returned;
    size_t seen;
    size_t number;
    bool is_over;
} lines;

/* lines.c. Sets *line to the next line without its end, or to NULL at the end of the file. Flushes
   `to` before it waits for the file, so that a program that writes a line and waits gets the
   result. Returns false after an error. */
bool next_line(lines *of, FILE *to, const char **line, size_t *length, fault *error);

/* What an item of a format prints. FIELDS is followed by its FIELDs. The kinds after FIRST_NUMBER
   print a number. */
typedef enum kind {
    TEXT,
    SENTENCE,
    SURFACE,
    SURFACE_WITH_BLANKS,
    BLANKS,
    FEATURE,
    FIELDS,
    FIELD,
    MARK,
    PROBABILITY,
    CONNECTION_COST,
    COST_FROM_LAST,
    FIRST_NUMBER,
    SENTENCE_SIZE,
    POSID,
    WORD_COST,
    CATEGORY,
    STATUS,
    ID,
    START,
    END,
    COST,
    LENGTH,
    LENGTH_WITH_BLANKS,
    LEFT_ID,
    RIGHT_ID,
} kind;

/* An item of a format: a TEXT has `length` bytes from `from` on, FIELDS has a separator, and a
   FIELD has its number from 0. */
typedef struct item {
    kind kind;
    char separator;
    uint32_t number;
    size_t from;
    size_t length;
} item;

typedef struct items {
    item *all;
    size_t count;
    size_t room;
    bytes text;
} items;

/* items.c. Parses the format `text`, which an error calls `name`. Returns false after an error. */
bool read_items(items *to, const char *text, const char *name, fault *error);
void free_items(items *of);

typedef enum style { LINES_STYLE, WAKATI_STYLE, NO_STYLE, OWN_STYLE } style;

enum { NODE_PART, UNK_PART, BOS_PART, EOS_PART, EON_PART, PART_COUNT };

/* An output format. Each has a number of its own, above 0. In OWN_STYLE it has items, and owns its
   texts. `is_proved` is true if the proved library can print it. */
typedef struct format {
    style style;
    const char *texts[PART_COUNT];
    char *own[PART_COUNT];
    items items[PART_COUNT];
    unsigned long number;
    bool is_proved;
} format;

#endif

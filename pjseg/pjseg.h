/* pjseg: declarations that its files share. N threads segment standard input over one
   dictionary, and write the bytes that jseg writes. */
#ifndef PJSEG_H
#define PJSEG_H
#define _GNU_SOURCE
#include <kumquatsieve.h>
#include <stdbool.h>
#include <stddef.h>
#include <stdint.h>

#define PROGRAM "pjseg"

enum {
    GROUPING_DEFAULT = 24,
    GROUPING_MOST = 1000,
    THREADS_MOST = 1000,
};

/* The exit statuses other than those of errors. */
enum { STATUS_DONE = 0, STATUS_USAGE = 2 };

/* Errors of this program, in addition to those of the library, with codes of the same form.
   KUMQUATSIEVE_FILE is reported with the path and the errno. */
enum {
    FAULT_OUTPUT = 0x4602,         /* F2 */
    FAULT_READ = 0x4701,           /* G1, with the line */
    FAULT_WRITE = 0x4702,          /* G2, with the number of bytes written before */
    FAULT_INPUT_TOO_LONG = 0x4705, /* G5, with the line */
};

/* An error. `code` is one of the library's or of those above, `path` the path of an image or NULL,
   `number` the line, byte, errno or other number of the error, and `part` the text of a format. */
typedef struct fault {
    uint32_t code;
    const char *path;
    uint64_t number;
    uint32_t part;
} fault;

/* The options of a command line. A format that was not given is NULL. `main` frees `dic` and
   `users`. `flags` are those of kumquatsieve_dictionary_open. */
typedef struct options {
    char *dic;
    char **users;
    size_t user_count;
    uint32_t flags;
    const char *node, *unk, *bos, *eos;
    bool is_wakati;
    uint32_t grouping;
    uint32_t threads;
    bool is_verbose;
} options;

/* options.c. Reads a command line. Returns whether there is a text to segment. If not, everything
   was printed, and the program ends with *status. */
bool read_options(int count, char **words, options *chosen, int *status);

/* rejected_options.c. Return what to do instead of an option of jseg or MeCab, by its letter, which
   is not 0, or by its word, or instead of the name of an output format; NULL if none is known. */
const char *instead_of_letter(char letter);
const char *instead_of_word(const char *word);
const char *instead_of_output(const char *name);
/* The texts of --help and --version. */
extern const char HELP[], VERSION[];

/* printing.c. Each message is one write on standard error, if there is memory for it. A write that
   fails is ignored. The line of the progress is erased before it. */

/* Prints a message. */
void print_message(const char *format, ...) __attribute__((format(printf, 1, 2)));

/* Prints a message about the command line, and a hint at --help. */
void print_usage_error(const char *format, ...) __attribute__((format(printf, 1, 2)));

/* Prints an error in one line. Returns the exit status. */
int print_fault(const fault *why);

/* Print hints for an error, on a terminal or with -v: its reason, and how to explain its code. */
void print_cause(const options *chosen, const fault *why);
void print_explanation(const fault *why);

/* Prints a text on standard output. Returns false if that fails. */
bool print_text(const char *text);

/* reporter.c. Turns the log messages of -v on. */
void start_log(void);

/* Returns whether log messages are on. */
bool is_verbose(void);

/* Returns whether a person reads standard error: with -v, and on a terminal. */
bool is_interactive(void);

/* Prints a log message with the seconds since the start, if these messages are on. */
void log_message(const char *format, ...) __attribute__((format(printf, 1, 2)));

/* texts.c. Returns whether a text is UTF-8. */
bool is_utf8(const char *text);

/* Returns a text with its control characters escaped, which the caller frees, or NULL if memory
   runs out. */
char *one_line(const char *text);

/* Texts one after another, each with its zero byte. */
typedef struct texts {
    char *first;
    size_t length; /* of all of them in bytes */
} texts;

/* paths.c. Returns the path of the image that -d or -u names, which the caller frees, or NULL if
   memory runs out. If no image has the name, it is the name itself. */
char *find_image(const char *name);

/* Returns whether a name is a bare one that neither a file nor an image has. */
bool is_missing(const char *name);

/* List the image directories, and the names of the images in them. The caller frees `first`. They
   return false if memory runs out. */
bool list_image_directories(texts *list);
bool list_image_names(texts *list);

/* Returns the text that follows `text`, the first one if that is NULL, or NULL after the last. */
const char *next_text(const texts *list, const char *text);

/* Returns whether a directory has a dictionary of MeCab. */
bool is_mecab_directory(const char *path);

/* missing.c. Prints the directories that were searched for an image, and the images in them, on a
   terminal or with -v. Prints nothing unless the error is that no image has the name. */
void print_image_directories(const fault *why);

/* formats.c. Checks the format of the options. Returns false, and sets *why, if it is invalid. */
bool check_format(const options *chosen, fault *why);

/* Sets the format of a segmenter with a dictionary. Returns false and sets *why after an error. */
bool set_format(const options *chosen, kumquatsieve_segmenter *segmenter, fault *why);

/* dictionary.c. Checks the format, and opens the images of the options. Returns false, and sets
 *why, after an error. */
bool open_dictionary(const options *chosen, kumquatsieve_dictionary **dictionary, fault *why);

/* Fills an empty segmenter with the dictionary, and the format and the grouping of the options,
   which are valid. Returns false if memory runs out. */
bool make_segmenter(const options *chosen, kumquatsieve_dictionary *dictionary,
                    kumquatsieve_segmenter *segmenter);

/* pieces.c. Reads standard input in pieces of whole lines. The limits are in bytes: READ_MOST for a
   read, LINE_MOST for a line, both as in jseg. Every piece but the last has PIECE_MOST bytes or
   more, unless the caller requests less. PIECE_ROOM has room for an incomplete line and one more
   read. */
enum {
    READ_MOST = 65536,
    LINE_MOST = 1048576,
    PIECE_MOST = LINE_MOST,
    PIECE_ROOM = PIECE_MOST + READ_MOST,
};

typedef enum ending { MORE, AT_END, READ_FAILED, LINE_TOO_LONG, ENDLESS } ending;

/* Whole lines of the text, and what follows. At AT_END the last line may lack its line feed. */
typedef struct piece {
    uint8_t *bytes;
    size_t length;
    ending ending;
} piece;

/* The state of reading: the bytes after the last line end, which start the next piece. */
typedef struct input {
    uint8_t *open;
    size_t open_length;
    uint64_t reads;
} input;

/* Returns false if memory runs out. The caller frees the input in each case. */
bool make_input(input *in);
void free_input(input *in);

/* Reads the next piece, of at least `least` bytes if the text has them. `least` is at most
 * PIECE_MOST. */
void read_piece(input *in, piece *next, size_t least);

/* groups.c. A piece that is segmented group by group, its segmenter, and the output that waits to
   be written.

   The output of the last group lies in the segmenter's own buffer: `out`, with the group's `lines`
   or, if `code` is an error, the number of the invalid line. The output of the groups before it is
   copied to `kept`. Both come from the text between `written_to` and `segmented_to`. `printed` is
   the output of the whole piece so far, in bytes. */
typedef struct worker {
    piece text;
    uint64_t number;
    kumquatsieve_segmenter segmenter;
    size_t group, written_to, segmented_to;
    uint8_t *kept;
    size_t kept_length, kept_room;
    uint64_t kept_lines;
    const char *out;
    size_t out_length;
    uint64_t lines;
    uint32_t code;
    uint64_t printed;
    bool is_segmented;
} worker;

/* How many bytes of output a worker keeps at most. */
enum { KEPT_MOST = 16777216 };

/* Makes a worker with a segmenter over the dictionary. Returns false if memory runs out. The caller
   frees the worker in each case. */
bool make_worker(worker *own, const options *chosen, kumquatsieve_dictionary *dictionary);
void free_worker(worker *own);

/* Prepares a worker for the piece that was read into it. */
void start_piece(worker *own);

/* Segments the next group. Returns whether another one follows: false at the end of the piece, and
   after an error. */
bool segment_group(worker *own);

/* Copies the output of the last group to what is kept. Returns false, and changes nothing, if it
   does not fit, or if no memory can be allocated for it. */
bool keep_group(worker *own);

/* Records that all waiting output was written. */
void mark_written(worker *own);

/* Returns how many bytes the next piece should have so that its output can be kept, if it prints as
   this one did. */
size_t fitting_length(const worker *own);

/* warnings.c. The warnings about the text that were not printed yet: of a byte order mark, and of a
   carriage return at the end of a line. */
typedef struct warnings {
    bool of_mark, of_return;
} warnings;

/* Returns all warnings if a person reads standard error, and none otherwise. */
warnings wanted_warnings(void);

/* Prints the warnings about the first `lines` lines of a part of the text, which starts with a line
   and follows `before` lines. Prints each warning once. */
void warn_of(warnings *left, const uint8_t *text, size_t length, uint64_t before, uint64_t lines);

/* progress.c. Prints on a terminal how much of the text was segmented and written. One thread at a
   time calls print_progress. */
void start_progress(void);
void print_progress(uint64_t bytes);
void erase_progress(void);

/* writing.c. Writes all bytes to standard output, and adds those that were written to *taken.
   Returns false if a write fails or writes none. */
bool write_out(const uint8_t *at, size_t length, uint64_t *taken);

/* queue.c. Segments standard input by the options, and writes its lines. Sets *lines to their
   number. An error of the text, of a read or of a write ends the program after the
   output before it was written. Returns false if memory runs out before the first read. */
bool segment_input(const options *chosen, kumquatsieve_dictionary *dictionary, uint64_t *lines);

#endif

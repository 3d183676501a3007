/* Declarations that the files of the SQLite extension share. */
#ifndef EXTENSION_H
#define EXTENSION_H
#include <kumquatsieve.h>
#include <sqlite3ext.h>
#include <string.h>
SQLITE_EXTENSION_INIT3

/* What a connection has: the table of kumquatsieve_words, the text of the last error, or NULL, and
   the dictionary that was opened last, or NULL. The next statement that names it finds it open. */
typedef struct connection {
    sqlite3_vtab words;
    char *error;
    kumquatsieve_dictionary *dictionary;
} connection;

/* A segmenter, and a text that it segments line by line: the next line starts at `next`. The words
   are those of a line. `number` is the current one, or at least `count` at the end of the text. */
typedef struct word_reader {
    connection *in;
    kumquatsieve_segmenter segmenter;
    const char *text;
    size_t length, next, count, number;
    const kumquatsieve_word *words;
    kumquatsieve_error error; /* of the last call of the library */
} word_reader;

/* Keeps `kumquatsieve: ` and a text, which it frees, as the last error. Returns SQLITE_ERROR, or
   SQLITE_NOMEM if memory ran out, for which SQLite has a text of its own. */
int keep_error(connection *of, char *text);
#define report(of, ...) keep_error(of, sqlite3_mprintf(__VA_ARGS__))
/* Reports the error of a call of the library, if it failed. */
int report_error(connection *of, const kumquatsieve_error *error);
/* Opens a segmenter, in place of the one before, over a list of dictionaries with commas between
   them: the system dictionary, which is the default if its name is empty, and user dictionaries. */
int open_segmenter(word_reader *of, const char *list, uint32_t flags);
/* Returns the SHA-256 and the number of entries of each image of the dictionary, such as `9c0d…
   392126`, with commas between them, or NULL if memory runs out. The caller frees it. */
char *make_fingerprint(const kumquatsieve_dictionary *of);
/* Moves to the next word, or to the end of the text. After an error there is no word. */
int read_word(word_reader *of);

extern fts5_tokenizer kumquatsieve_tokenizer;
#endif

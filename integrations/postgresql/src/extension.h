/* Declarations that the files of the extension share. */
#ifndef EXTENSION_H
#define EXTENSION_H
#include <postgres.h>

#include <fmgr.h>
#include <kumquatsieve.h>

/* The line that was segmented last. A process has one segmenter, so parsers take turns with it, and
   a dictionary finds the words of the parser that calls it. They count from `text`, which is NULL
   if there is no line. The next line starts at `end`. `longest` is the most bytes of a text since
   the last call of forget_line. */
extern struct segmented_line {
    const char *text;
    const kumquatsieve_word *words;
    size_t count, end, longest;
} last_line;
/* Why the last call of the library failed. */
extern kumquatsieve_error failure;
/* Reports this error. `subject` is the first line of the error. */
void report(const char *subject) pg_attribute_noreturn();
/* Returns the dictionary of the settings, which is open until they change. */
kumquatsieve_dictionary *current_dictionary(void);
/* Returns the segmenter over this dictionary. Reports an error if kumquatsieve.expected_sha256 has
   other checksums. */
kumquatsieve_segmenter *current_segmenter(void);
/* Forgets the last line. If its text was long, frees the memory that it took. */
void forget_line(void);
#endif

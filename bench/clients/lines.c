/* Segments each line of standard input, and prints its words as jseg does: lines IMAGE [wakati]. It
   reads all lines first, and writes in large pieces, because calls of stdio for each line would
   take longer than the calls of the library. */
#include <kumquatsieve.h>
#include <stdio.h>
#include <stdlib.h>
#include <string.h>

enum { PIECE = 1 << 20 };

static void stop(const char *what) {
    fprintf(stderr, "lines: %s\n", what);
    exit(1);
}

/* Reads standard input. Sets *length to its length. */
static char *read_all(size_t *length) {
    char *text = NULL;
    size_t got = 1;
    for (*length = 0; got > 0; *length += got) {
        char *grown = realloc(text, *length + PIECE);
        if (!grown) stop("out of memory");
        text = grown;
        got = fread(text + *length, 1, PIECE, stdin);
    }
    return text;
}

int main(int given, char **arguments) {
    static char buffer[PIECE];
    kumquatsieve_dictionary *dictionary = NULL;
    kumquatsieve_segmenter segmenter = KUMQUATSIEVE_EMPTY;
    kumquatsieve_error error;
    size_t length = 0, printed = 0;
    if (given < 2) stop("no image");
    const char *word = given > 2 ? "%m " : NULL, *end = given > 2 ? "\\n" : NULL, *output = NULL;
    if (kumquatsieve_dictionary_open(&dictionary, arguments[1], NULL, 0, 0, &error) ||
        kumquatsieve_segmenter_open(&segmenter, dictionary, &error) ||
        kumquatsieve_set_format(&segmenter, word, NULL, NULL, end, &error))
        stop(error.message);
    setvbuf(stdout, buffer, _IOFBF, sizeof buffer);
    char *text = read_all(&length);
    for (const char *line = text, *next; line < text + length; line = next) {
        const char *feed = memchr(line, '\n', (size_t)(text + length - line));
        size_t size = feed ? (size_t)(feed - line) : (size_t)(text + length - line);
        next = line + size + (feed != NULL);
        if (kumquatsieve_segment(&segmenter, line, size, 0, NULL, &error) ||
            kumquatsieve_print(&segmenter, &output, &printed, &error))
            stop(error.message);
        if (fwrite(output, 1, printed, stdout) != printed) stop("standard output");
    }
    free(text);
    kumquatsieve_segmenter_close(&segmenter);
    kumquatsieve_dictionary_release(dictionary);
    return fclose(stdout) == 0 ? 0 : 1;
}

/* The engine of a tokenizer for a search engine, such as SQLite's FTS5 or PostgreSQL: index
   [DICTIONARY] < TEXT

   A token is the base form of a word, or its surface if it has none. It is reported with the
   offsets of the surface in the text, which may have any bytes. */
#include <kumquatsieve.h>
#include <stdio.h>
#include <stdlib.h>

/* Takes a token, and returns whether to go on. */
typedef bool token_call(void *context, const char *token, size_t length, size_t start, size_t end);

typedef struct engine {
    kumquatsieve_dictionary *dictionary;
    kumquatsieve_segmenter segmenter;
    bool has_base_forms;
} engine;

static void close_engine(engine *of) {
    kumquatsieve_segmenter_close(&of->segmenter);
    kumquatsieve_dictionary_release(of->dictionary);
    of->dictionary = NULL;
}

/* Opens a dictionary by its path or its name; NULL is the default. */
static bool open_engine(engine *to, const char *name, kumquatsieve_error *error) {
    static const kumquatsieve_word NONE;
    *to = (engine){.dictionary = NULL};
    if (kumquatsieve_dictionary_open(&to->dictionary, name, NULL, 0, 0, error) ||
        kumquatsieve_segmenter_open(&to->segmenter, to->dictionary, error)) {
        close_engine(to);
        return false;
    }
    to->has_base_forms = kumquatsieve_field_named(&to->segmenter, &NONE, "base_form", NULL, NULL,
                                                  NULL) != KUMQUATSIEVE_NO_FIELD;
    return true;
}

/* Reports the words of the last line. */
static uint32_t report_line(engine *of, const char *text, token_call *token, void *context,
                            bool *goes_on, kumquatsieve_error *error) {
    const kumquatsieve_word *words = NULL;
    size_t count = 0;
    uint32_t code = kumquatsieve_words(&of->segmenter, &words, &count, error);
    for (size_t i = 0; code == KUMQUATSIEVE_OK && i < count && *goes_on; i++) {
        const kumquatsieve_word *word = &words[i];
        const char *base = NULL;
        size_t length = 0;
        if (of->has_base_forms)
            code =
                kumquatsieve_field_named(&of->segmenter, word, "base_form", &base, &length, error);
        if (!base) length = word->end - word->start;
        *goes_on = token(context, base ? base : text + word->start, length, word->start, word->end);
    }
    return code;
}

static bool tokenize(engine *of, const char *text, size_t length, token_call *token, void *context,
                     kumquatsieve_error *error) {
    kumquatsieve_line line;
    bool goes_on = true;
    for (size_t at = 0; at < length && goes_on; at = line.end) {
        if (kumquatsieve_segment_text(&of->segmenter, text, length, at, 0, &line, error) ||
            report_line(of, text, token, context, &goes_on, error))
            return false;
    }
    return true;
}

static bool print_token(void *to, const char *token, size_t length, size_t start, size_t end) {
    return fprintf(to, "%zu\t%zu\t%.*s\n", start, end, (int)length, token) > 0;
}

int main(int given, char **arguments) {
    static char text[1 << 20];
    kumquatsieve_error error;
    engine own;
    size_t length = fread(text, 1, sizeof text, stdin);
    bool is_done = open_engine(&own, given > 1 ? arguments[1] : NULL, &error) &&
                   tokenize(&own, text, length, print_token, stdout, &error);
    if (!is_done) fprintf(stderr, "index: %s\n", error.message);
    close_engine(&own);
    return is_done ? 0 : 1;
}

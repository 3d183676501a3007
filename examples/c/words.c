/* Prints the words of a line with their features: words DICTIONARY LINE

       cc words.c $(pkg-config --cflags --libs kumquatsieve) -o words */
#include <kumquatsieve.h>
#include <stdio.h>
#include <string.h>

int main(int given, char **arguments) {
    kumquatsieve_dictionary *dictionary = NULL;
    kumquatsieve_segmenter segmenter = KUMQUATSIEVE_EMPTY;
    kumquatsieve_error error;
    const kumquatsieve_word *words = NULL;
    const char *line = given == 3 ? arguments[2] : "", *features = NULL;
    size_t count = 0;

    if (given != 3) return fprintf(stderr, "usage: words DICTIONARY LINE\n"), 2;
    if (kumquatsieve_dictionary_open(&dictionary, arguments[1], NULL, 0, 0, &error) ||
        kumquatsieve_segmenter_open(&segmenter, dictionary, &error) ||
        kumquatsieve_segment(&segmenter, line, strlen(line), 0, NULL, &error) ||
        kumquatsieve_words(&segmenter, &words, &count, &error) ||
        kumquatsieve_features(&segmenter, &features, NULL, &error))
        fprintf(stderr, "words: %s\n", error.message);
    for (size_t i = 0; i < count && features; i++)
        printf("%.*s\t%.*s\n", (int)(words[i].end - words[i].start), line + words[i].start,
               (int)words[i].feature_length, features + words[i].feature_offset);
    kumquatsieve_segmenter_close(&segmenter);
    kumquatsieve_dictionary_release(dictionary);
    return error.code != KUMQUATSIEVE_OK;
}

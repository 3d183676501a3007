/* Segments lines on several threads over one dictionary, as a server does: threads DICTIONARY
   LINE.. Each line has a thread, and each thread a segmenter. */
#include <kumquatsieve.h>
#include <pthread.h>
#include <stdio.h>
#include <string.h>

static kumquatsieve_dictionary *dictionary;

static void *serve(void *line) {
    kumquatsieve_segmenter segmenter = KUMQUATSIEVE_EMPTY;
    kumquatsieve_error error;
    const char *output = NULL;
    size_t length = 0;
    if (kumquatsieve_segmenter_open(&segmenter, dictionary, &error) ||
        kumquatsieve_set_format(&segmenter, "%m ", NULL, NULL, "\\n", &error) ||
        kumquatsieve_segment(&segmenter, line, strlen(line), 0, NULL, &error) ||
        kumquatsieve_print(&segmenter, &output, &length, &error))
        fprintf(stderr, "threads: %s\n", error.message);
    if (output) fwrite(output, 1, length, stdout);
    kumquatsieve_segmenter_close(&segmenter);
    return NULL;
}

int main(int given, char **arguments) {
    enum { MOST = 64 };
    pthread_t threads[MOST];
    kumquatsieve_error error;
    int count = 0, lines = given - 2 < MOST ? given - 2 : MOST;
    if (given < 3) return fprintf(stderr, "usage: threads DICTIONARY LINE..\n"), 2;
    if (kumquatsieve_dictionary_open(&dictionary, arguments[1], NULL, 0, 0, &error))
        return fprintf(stderr, "threads: %s\n", error.message), 1;
    while (count < lines && !pthread_create(&threads[count], NULL, serve, arguments[count + 2]))
        count++;
    for (int i = 0; i < count; i++) pthread_join(threads[i], NULL);
    kumquatsieve_dictionary_release(dictionary);
    return count < lines;
}

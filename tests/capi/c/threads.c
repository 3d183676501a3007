/* Segments the lines of a file on four threads, each with a segmenter over shared dictionaries:
   threads IMG LINES. Their outputs are equal, and printed once. */
#include "helpers.h"
#include <pthread.h>

typedef struct work {
    kumquatsieve_segmenter segmenter;
    file lines;
    char *out;
    size_t length;
} work;

static void append(work *own, const char *text, size_t length) {
    own->out = realloc(own->out, own->length + length + 1);
    CHECK(own->out);
    memcpy(own->out + own->length, text, length);
    own->length += length;
}

static void *segment_all(void *given) {
    work *own = given;
    const char *text = NULL, *line = (const char *)own->lines.bytes,
               *end = line + own->lines.length;
    while (line < end) {
        const char *feed = memchr(line, '\n', (size_t)(end - line));
        size_t length = 0;
        CHECK(feed && kumquatsieve_segment(&own->segmenter, line, (size_t)(feed - line), 0, NULL,
                                           NULL) == KUMQUATSIEVE_OK);
        CHECK(kumquatsieve_print(&own->segmenter, &text, &length, NULL) == KUMQUATSIEVE_OK);
        append(own, text, length);
        line = feed + 1;
    }
    kumquatsieve_segmenter_close(&own->segmenter);
    return NULL;
}

int main(int given, char **paths) {
    enum { THREADS = 4 };
    CHECK(given == 3);
    file image = read_file(paths[1]), lines = read_file(paths[2]);
    work all[THREADS];
    pthread_t threads[THREADS];
    kumquatsieve_dictionary *dictionary = NULL;
    CHECK(open_images(&dictionary, &image, 1, NULL) == KUMQUATSIEVE_OK);
    for (int i = 0; i < THREADS; i++) {
        all[i] = (work){KUMQUATSIEVE_EMPTY, lines, NULL, 0};
        CHECK(kumquatsieve_segmenter_open(&all[i].segmenter, dictionary, NULL) == KUMQUATSIEVE_OK);
    }
    kumquatsieve_dictionary_release(dictionary);
    for (int i = 0; i < THREADS; i++)
        CHECK(pthread_create(&threads[i], NULL, segment_all, &all[i]) == 0);
    for (int i = 0; i < THREADS; i++) CHECK(pthread_join(threads[i], NULL) == 0);
    for (int i = 1; i < THREADS; i++)
        CHECK(all[i].length == all[0].length && memcmp(all[i].out, all[0].out, all[0].length) == 0);
    fwrite(all[0].out, 1, all[0].length, stdout);
    for (int i = 0; i < THREADS; i++) free(all[i].out);
    free(image.bytes);
    free(lines.bytes);
    return 0;
}

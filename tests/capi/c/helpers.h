/* Functions that the test programs share. If FLAGS is defined, they open images by their paths with
   these flags. Otherwise they load the bytes. */
#ifndef HELPERS_H
#define HELPERS_H
#include "../../support/check.h"
#include <kumquatsieve.h>
#include <stdio.h>
#include <stdlib.h>
#include <string.h>

enum { IMAGES_MOST = 32 };

/* A line of words of the sample, and what jseg prints for it. */
#define LINE "すもももも"
#define PRINTED "すもも\t名詞,すもも\nもも\t名詞,もも\nEOS\n"

/* What jseg prints for もも. */
#define MOMO "もも\t名詞,もも\nEOS\n"

/* The bytes of a file, which the caller frees, and its path. */
typedef struct file {
    uint8_t *bytes;
    size_t length;
    const char *path;
} file;

static inline file read_file(const char *path) {
    file whole = {NULL, 0, path};
    FILE *opened = fopen(path, "rb");
    CHECK(opened && fseek(opened, 0, SEEK_END) == 0);
    whole.length = (size_t)ftell(opened);
    rewind(opened);
    whole.bytes = malloc(whole.length + 1);
    CHECK(whole.bytes && fread(whole.bytes, 1, whole.length, opened) == whole.length);
    fclose(opened);
    return whole;
}

static inline bool is_text(const char *bytes, size_t length, const char *text) {
    return length == strlen(text) && memcmp(bytes, text, length) == 0;
}

static inline uint32_t segment_line(kumquatsieve_segmenter *segmenter, const char *line) {
    return kumquatsieve_segment(segmenter, line, strlen(line), 0, NULL, NULL);
}

/* Opens a dictionary of a system image and user images. */
static inline uint32_t open_images(kumquatsieve_dictionary **dictionary, const file *images,
                                   size_t count, kumquatsieve_error *error) {
    CHECK(count > 0 && count <= IMAGES_MOST);
#ifdef FLAGS
    const char *users[IMAGES_MOST] = {NULL};
    for (size_t i = 1; i < count; i++) users[i - 1] = images[i].path;
    return kumquatsieve_dictionary_open(dictionary, images[0].path, users, count - 1, FLAGS, error);
#else
    kumquatsieve_image bytes[IMAGES_MOST];
    for (size_t i = 0; i < count; i++)
        bytes[i] = (kumquatsieve_image){images[i].bytes, images[i].length};
    return kumquatsieve_dictionary_load(dictionary, bytes, count, 0, error);
#endif
}

/* Fills an empty segmenter over such a dictionary. */
static inline uint32_t load(kumquatsieve_segmenter *segmenter, const file *images, size_t count,
                            kumquatsieve_error *error) {
    kumquatsieve_dictionary *dictionary = NULL;
    uint32_t code = open_images(&dictionary, images, count, error);
    if (code == KUMQUATSIEVE_OK) code = kumquatsieve_segmenter_open(segmenter, dictionary, error);
    kumquatsieve_dictionary_release(dictionary);
    return code;
}

static inline kumquatsieve_segmenter loaded(file image) {
    kumquatsieve_segmenter segmenter = KUMQUATSIEVE_EMPTY;
    CHECK(load(&segmenter, &image, 1, NULL) == KUMQUATSIEVE_OK);
    return segmenter;
}

static inline kumquatsieve_segmenter loaded_with(file image, file user) {
    const file images[] = {image, user};
    kumquatsieve_segmenter segmenter = KUMQUATSIEVE_EMPTY;
    CHECK(load(&segmenter, images, 2, NULL) == KUMQUATSIEVE_OK);
    return segmenter;
}

static inline uint32_t set_texts(kumquatsieve_segmenter *segmenter, const char *node,
                                 const char *unk, const char *bos, const char *eos) {
    return kumquatsieve_set_format(segmenter, node, unk, bos, eos, NULL);
}

static inline bool prints(kumquatsieve_segmenter *segmenter, const char *wanted) {
    const char *text = NULL;
    size_t length = 0;
    return kumquatsieve_print(segmenter, &text, &length, NULL) == KUMQUATSIEVE_OK &&
           is_text(text, length, wanted);
}

/* Whether a line is segmented, and prints this. */
static inline bool segments_to(kumquatsieve_segmenter *segmenter, const char *line,
                               const char *wanted) {
    return segment_line(segmenter, line) == KUMQUATSIEVE_OK && prints(segmenter, wanted);
}
#endif

/* Paths of images by their names, and directories with a dictionary of MeCab. */
#include "pjseg.h"
#include <stdio.h>
#include <stdlib.h>
#include <string.h>
#include <sys/stat.h>

char *find_image(const char *name) {
    char *path = NULL;
    size_t room = 0;
    uint32_t code = kumquatsieve_find_image(name, NULL, 0, &room, NULL);
    while (code == KUMQUATSIEVE_SHORT_BUFFER) {
        free(path);
        path = malloc(room);
        if (!path) return NULL;
        code = kumquatsieve_find_image(name, path, room, &room, NULL);
    }
    if (code == KUMQUATSIEVE_OK) return path;
    free(path);
    return code == KUMQUATSIEVE_FILE ? strdup(name) : NULL;
}

bool is_missing(const char *name) {
    return kumquatsieve_find_image(name, NULL, 0, NULL, NULL) == KUMQUATSIEVE_FILE;
}

/* A call of the library that lists texts. */
typedef uint32_t list_call(char *texts, size_t room, size_t *needed, kumquatsieve_error *error);

/* Makes the list of a call. Returns false if memory runs out. */
static bool make_list(list_call *list_texts, texts *list) {
    *list = (texts){NULL, 0};
    uint32_t code = list_texts(NULL, 0, &list->length, NULL);
    while (code == KUMQUATSIEVE_SHORT_BUFFER) {
        free(list->first);
        list->first = malloc(list->length);
        if (!list->first) return false;
        code = list_texts(list->first, list->length, &list->length, NULL);
    }
    if (code != KUMQUATSIEVE_OK) free(list->first);
    return code == KUMQUATSIEVE_OK;
}

bool list_image_directories(texts *list) { return make_list(kumquatsieve_list_directories, list); }

/* Replaces the path of an image by its bare name. Returns the end of that, after its zero byte. */
static char *put_bare_name(const char *path, char *to) {
    const char *name = strrchr(path, '/') + 1;
    size_t length = strlen(name) - strlen(".img");
    memmove(to, name, length);
    to[length] = '\0';
    return to + length + 1;
}

bool list_image_names(texts *list) {
    if (!make_list(kumquatsieve_list_images, list)) return false;
    char *to = list->first;
    for (const char *path = next_text(list, NULL), *next; path; path = next) {
        next = next_text(list, path);
        to = put_bare_name(path, to);
    }
    list->length = list->first ? (size_t)(to - list->first) : 0;
    return true;
}

const char *next_text(const texts *list, const char *text) {
    text = text ? text + strlen(text) + 1 : list->first;
    return text && text < list->first + list->length ? text : NULL;
}

static bool has(const char *directory, const char *name) {
    char *path = NULL;
    struct stat found;
    if (asprintf(&path, "%s/%s", directory, name) < 0) return false;
    bool is_there = stat(path, &found) == 0;
    free(path);
    return is_there;
}

/* Recognizes compiled dictionaries and sources. */
bool is_mecab_directory(const char *path) {
    return has(path, "sys.dic") || has(path, "matrix.def");
}

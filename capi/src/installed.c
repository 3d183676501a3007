/* The images that are installed in the image directories. */
#include "image_dirs.h"
#include <dirent.h>
#include <errno.h>
#include <fcntl.h>
#include <stdio.h>
#include <stdlib.h>
#include <string.h>
#include <unistd.h>

static const char IMAGE_END[] = ".img";

/* The paths of images, in the order in which they were found. */
typedef struct image_paths {
    char **all;
    size_t count;
    size_t room;
} image_paths;

/* Adds a path, which it takes over. Returns false if memory runs out, or the path is NULL. */
static bool add_path(image_paths *paths, char *path) {
    if (path && paths->count == paths->room) {
        size_t room = 2 * paths->room + 8;
        char **all = realloc(paths->all, room * sizeof *all);
        if (!all) {
            free(path);
            return false;
        }
        paths->all = all;
        paths->room = room;
    }
    if (path) paths->all[paths->count++] = path;
    return path != NULL;
}

/* Adds a file of a directory, if it is an image. */
static bool add_image(image_paths *paths, const char *directory, const char *file) {
    size_t length = strlen(file), end = strlen(IMAGE_END);
    if (length <= end || strcmp(file + length - end, IMAGE_END) != 0) return true;
    char *path = path_in(directory, file, "");
    if (!path || is_regular_file(path)) return add_path(paths, path);
    free(path);
    return true;
}

/* Adds the images in a directory. One that can't be read has none. */
static bool add_images(image_paths *paths, const char *directory) {
    DIR *opened = opendir(directory);
    bool has_memory = true;
    if (!opened) return errno != ENOMEM;
    for (struct dirent *file = readdir(opened); file && has_memory; file = readdir(opened)) {
        has_memory = add_image(paths, directory, file->d_name);
    }
    closedir(opened);
    return has_memory;
}

static const char *file_of(const char *path) { return strrchr(path, '/') + 1; }

/* Compares the bare names of two images. */
static int by_name(const void *one, const void *other) {
    const char *first = file_of(*(char *const *)one), *second = file_of(*(char *const *)other);
    size_t length = strlen(first) - strlen(IMAGE_END), size = strlen(second) - strlen(IMAGE_END);
    int order = memcmp(first, second, length < size ? length : size);
    return order != 0 ? order : (length > size) - (length < size);
}

/* Removes the last path if an earlier directory, whose images are the first `before`, has an image
   of the same name. */
static void remove_hidden(image_paths *paths, size_t before) {
    size_t kept = before;
    for (size_t i = before; i < paths->count; i++) {
        bool is_hidden = false;
        for (size_t k = 0; k < before && !is_hidden; k++)
            is_hidden = by_name(&paths->all[k], &paths->all[i]) == 0;
        if (is_hidden)
            free(paths->all[i]);
        else
            paths->all[kept++] = paths->all[i];
    }
    paths->count = kept;
}

static void free_paths(image_paths *paths) {
    for (size_t i = 0; i < paths->count; i++) free(paths->all[i]);
    free(paths->all);
}

/* Finds the installed images, in byte order of their names. Returns false if memory runs out. The
   caller frees the paths in each case. */
static bool find_images(image_paths *paths) {
    image_dirs dirs;
    bool has_memory = true;
    *paths = (image_paths){.all = NULL};
    if (!find_image_dirs(&dirs)) return false;
    for (size_t i = 0; i < dirs.count && has_memory; i++) {
        size_t before = paths->count;
        has_memory = add_images(paths, dirs.paths[i]);
        remove_hidden(paths, before);
    }
    free_image_dirs(&dirs);
    if (paths->count > 0) qsort(paths->all, paths->count, sizeof *paths->all, by_name);
    return has_memory;
}

uint32_t kumquatsieve_list_images(char *paths, size_t room, size_t *needed,
                                  kumquatsieve_error *error) {
    image_paths found;
    uint32_t code = KUMQUATSIEVE_MEMORY;
    if (find_images(&found))
        code = copy_texts((const char *const *)found.all, found.count, paths, room, needed, error);
    else
        fail(error, code);
    free_paths(&found);
    return code;
}

/* Returns whether a file starts as the image of a system dictionary (docs/FORMAT.md). */
static bool is_system(const char *path) {
    static const uint8_t START[] = {'M', 'J', 'D', 'I', 'C', 'T', '\r', '\n'};
    enum { KIND_AT = 12, START_LENGTH = 16 };
    uint8_t bytes[START_LENGTH];
    int file = open(path, O_RDONLY | O_CLOEXEC | O_NOCTTY);
    if (file < 0) return false;
    bool is_whole = read(file, bytes, sizeof bytes) == sizeof bytes;
    close(file);
    return is_whole && memcmp(bytes, START, sizeof START) == 0 &&
           number_at(bytes + KIND_AT, 4) == 0;
}

bool only_system_image(char **path, size_t *count) {
    image_paths found;
    bool has_memory = find_images(&found);
    *path = NULL;
    *count = 0;
    for (size_t i = 0; has_memory && i < found.count; i++) {
        if (!is_system(found.all[i])) continue;
        free(*path);
        *path = strdup(found.all[i]);
        has_memory = *path != NULL;
        ++*count;
    }
    free_paths(&found);
    return has_memory;
}

/* The sentence of an error. What a message has no room for is left out. */
typedef struct sentence {
    char text[sizeof((kumquatsieve_error *)NULL)->message];
} sentence;

static void append(sentence *to, const char *between, const char *text) {
    size_t length = strlen(to->text);
    snprintf(to->text + length, sizeof to->text - length, "%s%s", between, text);
}

uint32_t fail_unknown(kumquatsieve_error *error, size_t number, const char *name) {
    sentence why = {"no such image"};
    image_dirs dirs = {.count = 0};
    image_paths found;
    if (!error) return KUMQUATSIEVE_FILE;
    bool has_memory = find_images(&found) && find_image_dirs(&dirs);
    for (size_t i = 0; i < dirs.count; i++)
        append(&why, i == 0 ? "; searched " : ", ", dirs.paths[i]);
    append(&why, "; available images: ", found.count == 0 ? "none" : "");
    for (size_t i = 0; i < found.count; i++) {
        char *path = found.all[i];
        path[strlen(path) - strlen(IMAGE_END)] = 0;
        append(&why, i == 0 ? "" : ", ", file_of(path));
    }
    free_image_dirs(&dirs);
    free_paths(&found);
    return has_memory ? fail_name(error, number, name, why.text) : fail(error, KUMQUATSIEVE_MEMORY);
}

/* Image directories, and which image a name means: the rule of jseg (image_dirs.rt of its crates),
   for all programs that use the library. */
#include "image_dirs.h"
#include <errno.h>
#include <stdlib.h>
#include <string.h>

static const char IMAGE_END[] = ".img";

/* Returns `text` with `suffix`, which the caller frees, or NULL if memory runs out. */
static char *joined(const char *text, const char *suffix) {
    char *whole = malloc(strlen(text) + strlen(suffix) + 1);
    if (whole) strcpy(stpcpy(whole, text), suffix);
    return whole;
}

char *path_in(const char *directory, const char *file, const char *suffix) {
    char *path = malloc(strlen(directory) + strlen(file) + strlen(suffix) + 2);
    if (path) strcpy(stpcpy(stpcpy(stpcpy(path, directory), "/"), file), suffix);
    return path;
}

bool is_regular_file(const char *path) {
    struct stat of;
    return state_at(path, &of) == 0 && S_ISREG(of.st_mode);
}

/* Returns whether `path` leads to something that is no directory. */
static bool is_file(const char *path) {
    struct stat of;
    return state_at(path, &of) == 0 && !S_ISDIR(of.st_mode);
}

/* Returns the value of a variable if it is an absolute path, and else NULL. (XDG Base Directory
   Specification) Whoever starts a setuid program must not choose its files, so the environment of
   such a process is ignored. */
static const char *absolute_path(const char *variable) {
    const char *path = secure_getenv(variable);
    return path && path[0] == '/' ? path : NULL;
}

/* Adds a directory, which it takes over, unless it is one of the others. Returns false if it is
   NULL. */
static bool add_dir(image_dirs *dirs, char *path) {
    if (!path) return false;
    for (size_t i = 0; i < dirs->count; i++) {
        if (strcmp(dirs->paths[i], path) != 0) continue;
        free(path);
        return true;
    }
    dirs->paths[dirs->count++] = path;
    return true;
}

/* Adds the user's own directory, if there is one. */
static bool add_user_dir(image_dirs *dirs) {
    const char *share = absolute_path("XDG_DATA_HOME"), *home = absolute_path("HOME");
    if (share) return add_dir(dirs, joined(share, "/kumquatsieve"));
    return !home || add_dir(dirs, joined(home, "/.local/share/kumquatsieve"));
}

/* Adds the directories of a prefix. What is compiled on the system is in /var if the prefix is that
   of the system's own programs. (Filesystem Hierarchy Standard) */
static bool add_installed(image_dirs *dirs, const char *prefix) {
    const char *root = strcmp(prefix, "/usr") == 0 ? "" : prefix;
    return add_dir(dirs, joined(root, "/var/lib/kumquatsieve")) &&
           add_dir(dirs, joined(prefix, "/share/kumquatsieve"));
}

bool find_image_dirs(image_dirs *found) {
    char *prefix = installed_prefix();
    *found = (image_dirs){.count = 0};
    bool is_found = prefix && add_user_dir(found) && add_installed(found, prefix);
    free(prefix);
    if (!is_found) free_image_dirs(found);
    return is_found;
}

void free_image_dirs(image_dirs *dirs) {
    for (size_t i = 0; i < dirs->count; i++) free(dirs->paths[i]);
    dirs->count = 0;
}

/* Sets *path to the path of the image `name` in the first directory that has it, which the caller
   frees, or to NULL if none has it. Returns false if memory runs out. */
static bool find_in_dirs(const image_dirs *dirs, const char *name, char **path) {
    *path = NULL;
    for (size_t i = 0; i < dirs->count; i++) {
        char *candidate = path_in(dirs->paths[i], name, IMAGE_END);
        if (!candidate) return false;
        if (is_regular_file(candidate)) {
            *path = candidate;
            return true;
        }
        free(candidate);
    }
    return true;
}

/* Sets *path to the path of the installed image with a bare name, or to NULL. Returns false if
   memory runs out. */
static bool find_installed(const char *name, char **path) {
    image_dirs dirs;
    *path = NULL;
    if (!*name || strchr(name, '/')) return true;
    if (!find_image_dirs(&dirs)) return false;
    bool has_memory = find_in_dirs(&dirs, name, path);
    free_image_dirs(&dirs);
    return has_memory;
}

/* Reports that no image has a bare name, by what is at this path. */
static uint32_t fail_path(const char *name, size_t number, kumquatsieve_error *error) {
    struct stat of;
    int why = state_at(name, &of) == 0 ? EISDIR : errno;
    return why == ENOENT ? fail_unknown(error, number, name) : fail_file(error, why, number, name);
}

/* Sets *path to the path that `name` means: its own, or that of an installed image. */
static uint32_t find_path(const char *name, size_t number, char **path, kumquatsieve_error *error) {
    bool is_path = !*name || strchr(name, '/') || is_file(name), has_memory = true;
    *path = is_path ? strdup(name) : NULL;
    if (is_path)
        has_memory = *path != NULL;
    else
        has_memory = find_installed(name, path);
    if (!has_memory) return fail(error, KUMQUATSIEVE_MEMORY);
    return *path ? KUMQUATSIEVE_OK : fail_path(name, number, error);
}

/* Sets *path to that of the image in a directory, which the variable may name. */
static uint32_t find_in_directory(const char *directory, char **path, kumquatsieve_error *error) {
    *path = path_in(directory, "kumquatsieve", IMAGE_END);
    return *path ? KUMQUATSIEVE_OK : fail(error, KUMQUATSIEVE_MEMORY);
}

/* Sets *path to that of the only system dictionary that is installed. */
static uint32_t find_only(char **path, kumquatsieve_error *error) {
    size_t count = 0;
    if (!only_system_image(path, &count)) return fail(error, KUMQUATSIEVE_MEMORY);
    if (count == 1) return KUMQUATSIEVE_OK;
    return fail_name(error, 0, NULL,
                     count == 0
                         ? "no dictionary is installed; compile an image with kumquatsieve-import"
                         : "several dictionaries are installed, and none is named by the caller or "
                           "by KUMQUATSIEVE_DICTIONARY");
}

uint32_t resolve_name(const char *name, size_t number, char **path, kumquatsieve_error *error) {
    struct stat of;
    if (name) return find_path(name, number, path, error);
    name = secure_getenv("KUMQUATSIEVE_DICTIONARY");
    if (!name || !*name) return find_only(path, error);
    bool is_directory = state_at(name, &of) == 0 && S_ISDIR(of.st_mode);
    return is_directory ? find_in_directory(name, path, error)
                        : find_path(name, number, path, error);
}

static size_t length_of(const char *const *texts, size_t count) {
    size_t length = 0;
    for (size_t i = 0; i < count; i++) length += strlen(texts[i]) + 1;
    return length;
}

uint32_t copy_texts(const char *const *texts, size_t count, char *out, size_t room, size_t *needed,
                    kumquatsieve_error *error) {
    size_t length = length_of(texts, count);
    if (!out && room > 0) return fail(error, KUMQUATSIEVE_BAD_ARGUMENT);
    if (needed) *needed = length;
    if (room < length) return fail(error, KUMQUATSIEVE_SHORT_BUFFER);
    for (size_t i = 0; i < count; i++) out = stpcpy(out, texts[i]) + 1;
    return succeed(error);
}

uint32_t kumquatsieve_find_image(const char *name, char *path, size_t room, size_t *needed,
                                 kumquatsieve_error *error) {
    char *found = NULL;
    uint32_t code = resolve_name(name, 0, &found, error);
    if (code == KUMQUATSIEVE_OK)
        code = copy_texts((const char *const *)&found, 1, path, room, needed, error);
    free(found);
    return code;
}

uint32_t kumquatsieve_list_directories(char *paths, size_t room, size_t *needed,
                                       kumquatsieve_error *error) {
    image_dirs dirs;
    if (!find_image_dirs(&dirs)) return fail(error, KUMQUATSIEVE_MEMORY);
    uint32_t code =
        copy_texts((const char *const *)dirs.paths, dirs.count, paths, room, needed, error);
    free_image_dirs(&dirs);
    return code;
}

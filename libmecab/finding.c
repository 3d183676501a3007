/* Finds the image of a model, and the settings for it. */
#define _GNU_SOURCE
#include "layer.h"
#include <errno.h>
#include <limits.h>
#include <stdlib.h>
#include <string.h>
#include <sys/stat.h>
#include <unistd.h>

/* The image directory of the system. */
#ifndef IMAGES
#define IMAGES "/usr/local/var/lib/kumquatsieve"
#endif

/* The name of the default image, and of the image in a directory that is given. */
static const char NAME[] = "kumquatsieve", IMAGE[] = "kumquatsieve.img";

/* The path of the system's default image, which is reported if there is no image. */
static const char AWAITED[] = IMAGES "/kumquatsieve.img";
static const char VARIABLE[] = "KUMQUATSIEVE_DICTIONARY";
static const char SYSTEM_SETTINGS[] = "/etc/mecabrc";
static const char RC_PATH[] = "$(rcpath)";
static const char HINT[] = "; compile an image with kumquatsieve-import";

/* The origin of the settings: the option, the user or the system. */
typedef enum source { NO_SOURCE, GIVEN_SOURCE, USERS_SOURCE, SYSTEM_SOURCE } source;

static bool is_folder(const char *path) {
    struct stat of;
    return stat(path, &of) == 0 && S_ISDIR(of.st_mode);
}

static bool is_regular_file(const char *path) {
    struct stat of;
    return stat(path, &of) == 0 && S_ISREG(of.st_mode);
}

/* Returns the path of a file in a directory, which the caller frees, or NULL if memory runs out. */
static char *in_folder(const char *folder, const char *name) {
    size_t length = strlen(folder) + strlen(name) + 2;
    char *path = malloc(length);
    if (path) snprintf(path, length, "%s/%s", folder, name);
    return path;
}

static bool is_in_folder(const char *folder, const char *name) {
    char *path = in_folder(folder, name);
    bool is_there = path && is_regular_file(path);
    free(path);
    return is_there;
}

/* Returns whether a directory has a dictionary of MeCab, compiled or not. */
static bool is_of_mecab(const char *folder) {
    return is_in_folder(folder, "sys.dic") || is_in_folder(folder, "matrix.def");
}

/* Returns the length of the part of a directory's name that kumquatsieve-import takes as the name
   of the image: without the character encoding, and `naist` of Debian's naist-jdic. */
static size_t length_of_name(const char *name) {
    static const char *const CODES[] = {"-utf8", "-utf-8", "-eucjp", "-euc-jp", "-sjis"};
    size_t length = strlen(name);
    for (size_t i = 0; i < sizeof CODES / sizeof *CODES; i++) {
        size_t code = strlen(CODES[i]);
        if (length > code && strcmp(name + length - code, CODES[i]) == 0) length -= code;
    }
    return length == strlen("naist-jdic") && strncmp(name, "naist-jdic", length) == 0
               ? strlen("naist")
               : length;
}

/* Returns whether kumquatsieve-import knows a dictionary by this name. */
static bool is_known(const char *name) {
    static const char *const NAMES[] = {"ipadic", "juman", "naist", "unidic"};
    for (size_t i = 0; i < sizeof NAMES / sizeof *NAMES; i++) {
        if (strcmp(NAMES[i], name) == 0) return true;
    }
    return false;
}

/* Reports that a directory has a dictionary of MeCab, and how to import it as `name`. */
static bool fail_not_imported(fault *error, const char *folder, const char *name) {
    if (is_known(name)) {
        return fail(error,
                    "%s is a MeCab dictionary, not an image: compile its sources with "
                    "`kumquatsieve-import %s`",
                    folder, name);
    }
    return fail(error,
                "%s is a MeCab dictionary, not an image: compile its sources with "
                "`kumquatsieve-import SOURCES %s/%s.img`",
                folder, IMAGES, name);
}

/* Writes the paths of all installed images, one after another, each with its zero byte, to *paths,
   which the caller frees, and sets *length. Returns false if memory runs out. */
static bool list_images(char **paths, size_t *length) {
    *paths = NULL;
    uint32_t code = kumquatsieve_list_images(NULL, 0, length, NULL);
    while (code == KUMQUATSIEVE_SHORT_BUFFER) {
        free(*paths);
        *paths = malloc(*length);
        if (!*paths) return false;
        code = kumquatsieve_list_images(*paths, *length, length, NULL);
    }
    return code == KUMQUATSIEVE_OK;
}

/* Sets *path to the path of the installed image with a bare name, which the caller frees, whether
   or not the name is also the path of a file, or to NULL if no image has the name. Returns false if
   memory runs out. */
static bool find_installed(const char *name, char **path) {
    char *all = NULL;
    size_t count = 0, length = strlen(name);
    bool has_memory = list_images(&all, &count);
    *path = NULL;
    for (size_t at = 0; has_memory && at < count && !*path; at += strlen(all + at) + 1) {
        const char *file = strrchr(all + at, '/') + 1;
        if (strncmp(file, name, length) != 0 || strcmp(file + length, ".img") != 0) continue;
        *path = strdup(all + at);
        has_memory = *path != NULL;
    }
    free(all);
    return has_memory;
}

/* Returns the path of the image that was imported from a directory of MeCab's, which the caller
   frees, or NULL after an error. */
static char *imported(const char *folder, fault *error) {
    char whole[PATH_MAX];
    const char *path = realpath(folder, whole) ? whole : folder;
    const char *last = strrchr(path, '/') ? strrchr(path, '/') + 1 : path;
    char *name = strndup(last, length_of_name(last)), *image = NULL;
    if (!name || !find_installed(name, &image))
        fail_memory(error);
    else if (!image)
        fail_not_imported(error, folder, name);
    free(name);
    return image;
}

/* Returns the path of the image with a name, which the caller frees, or NULL after an error. */
static char *path_of(const char *name, fault *error) {
    kumquatsieve_error why;
    char *path = NULL;
    size_t room = 0;
    uint32_t code = kumquatsieve_find_image(name, NULL, 0, &room, &why);
    while (code == KUMQUATSIEVE_SHORT_BUFFER) {
        free(path);
        path = malloc(room);
        if (!path) return fail_memory(error), NULL;
        code = kumquatsieve_find_image(name, path, room, &room, &why);
    }
    if (code == KUMQUATSIEVE_OK) return path;
    free(path);
    return fail(error, "%s%s", why.message, why.number == ENOENT ? HINT : ""), NULL;
}

/* Returns the path of the image that `name` means, which the caller frees, or NULL after an error:
   a file, the image in a directory, or an image by its bare name. */
static char *image_of(const char *name, fault *error) {
    if (!is_folder(name)) return path_of(name, error);
    if (!is_in_folder(name, IMAGE) && is_of_mecab(name)) return imported(name, error);
    char *path = in_folder(name, IMAGE);
    if (!path) fail_memory(error);
    return path;
}

/* Returns `value` with the first $(rcpath) replaced by the directory of `file`, which the caller
   frees, or NULL if memory runs out. (MeCab) */
static char *with_rc_path(const char *value, const char *file) {
    const char *found = strstr(value, RC_PATH);
    const char *slash = strrchr(file, '/');
    if (!found) return strdup(value);
    const char *folder = slash ? file : ".";
    size_t folder_length = slash ? (size_t)(slash - file) : 1, before = (size_t)(found - value);
    const char *suffix = found + strlen(RC_PATH);
    size_t length = before + folder_length + strlen(suffix) + 1;
    char *path = malloc(length);
    if (path)
        snprintf(path, length, "%.*s%.*s%s", (int)before, value, (int)folder_length, folder,
                 suffix);
    return path;
}

/* Sets *file to the path of the settings, which the caller frees, or to NULL if memory runs out: of
   the option, of the user, of the environment, or of the system. (MeCab) The files of the user and
   of the system need not exist. */
static source read_sources(settings *to, char **file, fault *error) {
    const char *given = setting_of(to, "rcfile"), *home = secure_getenv("HOME"),
               *named = secure_getenv("MECABRC");
    source from = given && *given ? GIVEN_SOURCE : USERS_SOURCE;
    char *own = home ? in_folder(home, ".mecabrc") : NULL;
    if (from == GIVEN_SOURCE)
        *file = strdup(given);
    else if (own && access(own, R_OK) == 0)
        *file = strdup(own);
    else if (named && *named)
        *file = strdup(named);
    else {
        from = access(SYSTEM_SETTINGS, R_OK) == 0 ? SYSTEM_SOURCE : NO_SOURCE;
        *file = strdup(SYSTEM_SETTINGS);
    }
    free(own);
    if (!*file) fail_memory(error);
    return from;
}

/* Returns the name of the image, which the caller frees, or NULL if memory runs out. Settings of
   the caller and the user come before those of the system. The dictionary of the system's settings
   comes last, because it is MeCab's own. */
static char *chosen_name(const char *option, const char *setting, source from) {
    const char *named = secure_getenv(VARIABLE);
    const char *chosen = option;
    char *own = NULL;
    if (!chosen && from == GIVEN_SOURCE) chosen = setting;
    if (!chosen && named && *named) chosen = named;
    if (!chosen && from == USERS_SOURCE) chosen = setting;
    if (chosen) return strdup(chosen);
    if (!find_installed(NAME, &own)) return NULL;
    if (own) return own;
    return strdup(setting ? setting : AWAITED);
}

/* Returns the path of the file beside NAME.img that is NAME with this ending, which the caller
   frees, or NULL if memory runs out. If the image is a link, the file is beside its target. */
char *path_next_to(const char *image, const char *ending) {
    char whole[PATH_MAX];
    const char *path = realpath(image, whole) ? whole : image;
    size_t length = strlen(path), img = strlen(".img");
    if (length > img && strcmp(path + length - img, ".img") == 0) length -= img;
    char *made = malloc(length + strlen(ending) + 1);
    if (made) snprintf(made, length + strlen(ending) + 1, "%.*s%s", (int)length, path, ending);
    return made;
}

/* Returns whether there is no file of this name, or can be none. A file that can't be read, such as
   a broken link, is not missing, so its reader reports it. */
static bool is_missing(const char *path) {
    struct stat of;
    return lstat(path, &of) != 0 && (errno == ENOENT || errno == ENOTDIR || errno == ENAMETOOLONG);
}

/* Reads the settings beside an image with this checksum. Settings for another image count as
   missing. */
bool read_image_settings(settings *to, const char *image, const unsigned char *checksum,
                         fault *error) {
    char *path = path_next_to(image, ".dicrc");
    bool is_other = false;
    if (!path) return fail_memory(error);
    bool is_there = !is_missing(path);
    bool is_read = !is_there || read_settings(to, path, checksum, &is_other, error);
    if (is_read && is_there && !is_other) is_read = set(to, HAS_DICRC, "1", error);
    free(path);
    return is_read;
}

/* Reads the settings, and returns the path of the image, or NULL after an error. `option` is the
   dictionary of the options, or NULL. */
static char *find_named(settings *to, const char *option, fault *error) {
    char *file = NULL, *setting = NULL, *image = NULL;
    source from = read_sources(to, &file, error);
    bool is_read = file && (from == NO_SOURCE || read_settings(to, file, NULL, NULL, error));
    const char *dictionary = setting_of(to, "dicdir");
    if (is_read && dictionary) setting = with_rc_path(dictionary, file);
    char *name = is_read && (!dictionary || setting) ? chosen_name(option, setting, from) : NULL;
    if (is_read && !name) fail_memory(error);
    if (name) image = image_of(name, error);
    free(name);
    free(setting);
    free(file);
    return image;
}

/* Returns the path of the system image, and adds the settings in MeCab's files to `to`. */
char *find_image(settings *to, fault *error) {
    const char *given = setting_of(to, "dicdir");
    char *option = given && *given ? strdup(given) : NULL;
    char *image = NULL;
    if (given && *given && !option)
        fail_memory(error);
    else
        image = find_named(to, option, error);
    free(option);
    return image;
}

char *find_user_image(const char *name, fault *error) { return path_of(name, error); }

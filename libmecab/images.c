/* The open images of the process. Each image is opened once and shared by all models. The images
   that the last model released stay open until others are needed, so a caller that makes one tagger
   after another opens them once. */
#include "layer.h"
#include <stdlib.h>
#include <string.h>

/* The offsets of sizes in the header of an image: of right ids, left ids, tokens of the lexicon,
   and unknown tokens, which follow those. (docs/FORMAT.md) */
enum { RIGHT_AT = 16, LEFT_AT = 20, TOKENS_AT = 32, UNKNOWN_AT = 36, VERSION = 102 };

/* A system image and user images, and what nodes copy of their tokens, for each set of
   part-of-speech rules that was used. Tokens are numbered through all images: those of image i from
   starts[i] up to starts[i + 1]. The holders and the list of all images are under lock_shared, and
   the tokens under lock_loads. */
struct images {
    images *next;
    unsigned long holders;
    size_t count;
    heading *files;
    size_t *starts;
    kumquatsieve_dictionary *dictionary;
    tokens *tokens;
    mecab_dictionary_info_t *infos;
};

/* All open images, and the ones of them that nobody holds, or NULL. */
static images *loaded;
static images *cached;

/* Returns the open images of these files with one more holder, or NULL. The caller holds
 * lock_shared. */
static images *find(const identity *files, size_t count) {
    for (images *one = loaded; one; one = one->next) {
        bool same = one->count == count;
        for (size_t i = 0; same && i < count; i++) same = are_same(&one->files[i].which, &files[i]);
        if (!same) continue;
        one->holders++;
        if (one == cached) cached = NULL;
        return one;
    }
    return NULL;
}

/* Returns the open images at these paths with one more holder, or NULL. NULL is also returned if a
   path has no state, and then opening it reports why. */
static images *find_at(char *const *paths, size_t count) {
    identity *files = calloc(count, sizeof *files);
    images *found = NULL;
    struct stat of;
    size_t known = 0;
    while (files && known < count && stat(paths[known], &of) == 0)
        files[known++] = identity_of(&of);
    if (files && known == count) {
        lock_shared();
        found = find(files, count);
        unlock_shared();
    }
    free(files);
    return found;
}

static bool fail_image(fault *error, const char *path, const heading *of, uint32_t code,
                       uint64_t number) {
    if (code == KUMQUATSIEVE_FILE) return fail(error, "%s: %s", path, strerror((int)number));
    if (!is_compiled_by_mecab(of)) return fail_code(error, path, code);
    return fail(error,
                "%s is a MeCab dictionary, not an image: compile the source of a user dictionary "
                "with `dictc user --dic IMG --out USER.img USER.csv`, and those of a system "
                "dictionary with kumquatsieve-import",
                path);
}

static bool add_info(mecab_dictionary_info_t **last, const char *path, const heading *of,
                     int type) {
    mecab_dictionary_info_t *info = calloc(1, sizeof *info);
    char *name = strdup(path);
    if (!info || !name) {
        free(info);
        free(name);
        return false;
    }
    *info = (mecab_dictionary_info_t){
        .filename = name,
        .charset = "UTF-8",
        .size = number_at(of, TOKENS_AT),
        .type = type,
        .lsize = number_at(of, LEFT_AT),
        .rsize = number_at(of, RIGHT_AT),
        .version = VERSION,
    };
    *last = info;
    return true;
}

/* Sets the starts and the infos by the headers. Returns false if memory runs out. */
static bool apply_headers(images *to, char *const *paths) {
    mecab_dictionary_info_t **last = &to->infos;
    for (size_t i = 0; i < to->count; i++) {
        const heading *of = &to->files[i];
        to->starts[i + 1] = to->starts[i] + number_at(of, TOKENS_AT) + number_at(of, UNKNOWN_AT);
        if (!add_info(last, paths[i], of, i == 0 ? MECAB_SYS_DIC : MECAB_USR_DIC)) return false;
        last = &(*last)->next;
    }
    return true;
}

static bool has_changed(const char *path, const heading *before) {
    struct stat of;
    if (stat(path, &of) != 0) return true;
    identity now = identity_of(&of);
    return !are_same(&before->which, &now);
}

/* Returns whether a file was replaced or changed since its header was read. */
static bool is_any_changed(const images *of, char *const *paths) {
    bool is_changed = false;
    for (size_t i = 0; !is_changed && i < of->count; i++)
        is_changed = has_changed(paths[i], &of->files[i]);
    return is_changed;
}

/* Opens the images as one dictionary. The first one is the system image. Like MeCab, it tests no
   checksum. Sets *is_changed and fails if a file has changed since its header was read, because
   that may be the header of another file. */
static bool open_all(images *to, char *const *paths, bool *is_changed, fault *error) {
    kumquatsieve_error why;
    for (size_t i = 0; i < to->count; i++) {
        if (!read_heading(&to->files[i], paths[i], error)) return false;
    }
    kumquatsieve_dictionary_release(to->dictionary);
    to->dictionary = NULL;
    uint32_t code = kumquatsieve_dictionary_open(
        &to->dictionary, paths[0], (const char *const *)paths + 1, to->count - 1, 0, &why);
    *is_changed = is_any_changed(to, paths);
    if (*is_changed) return fail(error, "%s: changed while it was being opened", paths[0]);
    if (code == KUMQUATSIEVE_MEMORY) return fail_memory(error);
    if (code != KUMQUATSIEVE_OK)
        return fail_image(error, paths[why.image], &to->files[why.image], code, why.number);
    return apply_headers(to, paths) || fail_memory(error);
}

/* Starts again if a file was changed meanwhile, at most TRIES times. */
static bool open_unchanged(images *to, char *const *paths, fault *error) {
    bool is_open = false, is_changed = true;
    for (int i = 0; is_changed && i < TRIES; i++) {
        is_changed = false;
        is_open = open_all(to, paths, &is_changed, error);
    }
    return is_open;
}

static void free_images(images *of) {
    kumquatsieve_dictionary_release(of->dictionary);
    free_tokens(of->tokens);
    for (mecab_dictionary_info_t *info = of->infos; info;) {
        mecab_dictionary_info_t *next = info->next;
        free((char *)info->filename);
        free(info);
        info = next;
    }
    free(of->files);
    free(of->starts);
    free(of);
}

static images *load_all(char *const *paths, size_t count, fault *error) {
    images *made = calloc(1, sizeof *made);
    if (!made) {
        fail_memory(error);
        return NULL;
    }
    made->count = count;
    made->holders = 1;
    made->files = calloc(count, sizeof *made->files);
    made->starts = calloc(count + 1, sizeof *made->starts);
    bool has_room = (made->files && made->starts) || fail_memory(error);
    if (has_room && open_unchanged(made, paths, error)) return made;
    free_images(made);
    return NULL;
}

/* Caches the images `by`, or none if it is NULL. Removes those that were cached before from the
   list, and returns them for the caller to free. The caller holds lock_shared. */
static images *replace_cached(images *by) {
    images *before = cached;
    for (images **at = &loaded; before && *at; at = &(*at)->next) {
        if (*at != before) continue;
        *at = before->next;
        break;
    }
    cached = by;
    return before;
}

/* Frees the cached images. Runs also at the end of the process, and when the library is closed. */
__attribute__((destructor)) static void free_cached(void) {
    lock_shared();
    images *before = replace_cached(NULL);
    unlock_shared();
    if (before) free_images(before);
}

/* A thread that needs images which another thread is opening waits for them. */
images *open_images(char *const *paths, size_t count, fault *error) {
    lock_loads();
    images *opened = find_at(paths, count);
    if (!opened) free_cached();
    if (!opened && (opened = load_all(paths, count, error))) {
        lock_shared();
        opened->next = loaded;
        loaded = opened;
        unlock_shared();
    }
    unlock_loads();
    return opened;
}

void release_images(images *of) {
    if (!of) return;
    lock_shared();
    images *before = --of->holders == 0 ? replace_cached(of) : NULL;
    unlock_shared();
    if (before) free_images(before);
}

tokens *tokens_over(images *of, const char *rules, fault *error) {
    lock_loads();
    size_t count = of->starts[of->count];
    tokens *found = tokens_in(&of->tokens, of->starts, count, rules, of->files->checksum, error);
    unlock_loads();
    return found;
}

bool is_first_file(const images *of, const identity *which) {
    return are_same(&of->files->which, which);
}

const mecab_dictionary_info_t *infos_of(const images *of) { return of->infos; }

kumquatsieve_dictionary *dictionary_of(const images *of) { return of->dictionary; }

bool segmenter_over_images(kumquatsieve_segmenter *to, const images *from, fault *error) {
    uint32_t code = kumquatsieve_segmenter_open(to, from->dictionary, NULL);
    return code == KUMQUATSIEVE_OK || fail_code(error, "dictionaries", code);
}

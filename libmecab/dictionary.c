/* The dictionaries of a model with their settings. */
#include "layer.h"
#include <stdlib.h>
#include <string.h>

static const char BOS_FEATURE[] = "BOS/EOS";

enum { GROUPING = 24 };

/* Opens the system image paths[0] and the images of user dictionaries with these names. */
static images *open_named(char **paths, const char **names, size_t count, fault *error) {
    size_t found = 0;
    images *opened = NULL;
    while (found < count && (paths[1 + found] = find_user_image(names[found], error))) found++;
    if (found == count) opened = open_images(paths, 1 + count, error);
    for (size_t i = 0; i < found; i++) free(paths[1 + i]);
    return opened;
}

/* Opens the system image and the user dictionaries in `users`, which are separated as the fields of
   a feature. (MeCab) */
static images *open_all(char *image, const char *users, fault *error) {
    char *list = strdup(users ? users : "");
    size_t most = list ? strlen(list) + 1 : 1;
    char **paths = calloc(most + 1, sizeof *paths);
    const char **names = calloc(most, sizeof *names);
    images *opened = NULL;
    if (list && paths && names) {
        paths[0] = image;
        opened = open_named(paths, names, split_fields(list, names, most), error);
    } else {
        fail_memory(error);
    }
    free(names);
    free(paths);
    free(list);
    return opened;
}

/* Sets the grouping. 0 means the default. (MeCab) */
static bool read_grouping(tables *to, const char *text, fault *error) {
    char *end = NULL;
    unsigned long grouping = text ? strtoul(text, &end, 10) : GROUPING;
    if (text && (end == text || !is_only_blanks(end) || grouping > UINT32_MAX)) {
        return fail(error, "max-grouping-size %s: not a number", text);
    }
    to->grouping = grouping > 0 ? (uint32_t)grouping : GROUPING;
    return true;
}

/* Sets the tokens. Without settings beside the image there are no part-of-speech ids. */
static bool take_tokens(tables *to, const char *image, const settings *from, fault *error) {
    bool has_settings = is_set(from, HAS_DICRC);
    char *rules = has_settings ? path_next_to(image, ".pos-id.def") : NULL;
    if (has_settings && !rules) return fail_memory(error);
    to->tokens = tokens_over(to->images, rules, error);
    free(rules);
    return to->tokens != NULL;
}

static bool copy_feature(char **to, const char *feature, fault *error) {
    *to = strdup(feature);
    return *to || fail_memory(error);
}

static void free_tables(tables *of) {
    release_images(of->images);
    free(of->bos_feature);
    free(of->unk_feature);
    free(of);
}

static bool fill_tables(tables *to, char *path, const settings *from, fault *error) {
    const char *bos = setting_of(from, "bos-feature"), *unk = setting_of(from, "unk-feature");
    if (!read_grouping(to, setting_of(from, "max-grouping-size"), error)) return false;
    if (bos && !*bos) return fail(error, "bos-feature is undefined in dicrc");
    if (!copy_feature(&to->bos_feature, bos ? bos : BOS_FEATURE, error)) return false;
    if (unk && *unk && !copy_feature(&to->unk_feature, unk, error)) return false;
    to->boundary = (mecab_node_t){.feature = to->bos_feature, .isbest = 1};
    to->images = open_all(path, setting_of(from, "userdic"), error);
    return to->images && take_tokens(to, path, from, error);
}

static tables *make_tables(char *path, const settings *from, fault *error) {
    static atomic_ulong last;
    tables *made = calloc(1, sizeof *made);
    if (!made) {
        fail_memory(error);
        return NULL;
    }
    made->number = ++last;
    made->holders = 1;
    if (fill_tables(made, path, from, error)) return made;
    free_tables(made);
    return NULL;
}

/* Reads the settings beside an image, and opens the image. If the image was replaced in between,
   the settings may belong to the other one: sets *is_other then, and returns NULL. */
static tables *load_with_settings(char *path, settings *from, bool *is_other, fault *error) {
    heading of;
    if (!read_heading(&of, path, error)) return NULL;
    if (!read_image_settings(from, path, of.checksum, error)) return NULL;
    tables *made = make_tables(path, from, error);
    *is_other = made && !is_first_file(made->images, &of.which);
    if (!*is_other) return made;
    release_tables(made);
    fail(error, "%s: changed while it was being opened", path);
    return NULL;
}

/* Starts again if the image was replaced, at most TRIES times. */
tables *load_tables(settings *from, fault *error) {
    char *path = find_image(from, error);
    size_t count = from->count;
    tables *made = NULL;
    bool is_other = path != NULL;
    for (int i = 0; is_other && i < TRIES; i++) {
        forget_settings(from, count);
        is_other = false;
        made = load_with_settings(path, from, &is_other, error);
    }
    free(path);
    return made;
}

tables *hold_tables(mecab_model_t *model) {
    lock_shared();
    tables *held = model->tables;
    held->holders++;
    unlock_shared();
    return held;
}

void release_tables(tables *of) {
    if (!of) return;
    lock_shared();
    unsigned long others = --of->holders;
    unlock_shared();
    if (others == 0) free_tables(of);
}

bool segmenter_over_tables(kumquatsieve_segmenter *to, const tables *from, fault *error) {
    if (!segmenter_over_images(to, from->images, error)) return false;
    uint32_t code = kumquatsieve_set_grouping(to, from->grouping, NULL);
    if (code == KUMQUATSIEVE_OK) return true;
    kumquatsieve_segmenter_close(to);
    return fail_code(error, "max-grouping-size", code);
}

/* Dictionaries, which segmenters on any number of threads share. The holders of each, the list of
   those that files opened, and the mapped files are under one lock (mapping.c). It is held only
   while one of these changes, or a segmenter is made: the core's base of a dictionary may be used
   by one thread at a time. */
#include "library.h"
#include <stdlib.h>

/* All dictionaries that may be found if their files are opened again. */
static kumquatsieve_dictionary *listed;

kumquatsieve_dictionary *new_dictionary(size_t count, uint32_t flags) {
    kumquatsieve_dictionary *made = NULL;
    if (count > (PTRDIFF_MAX - sizeof *made) / sizeof *made->images) return NULL;
    made = calloc(1, sizeof *made + count * sizeof *made->images);
    if (!made) return NULL;
    made->holders = 1;
    made->flags = flags;
    made->count = count;
    return made;
}

/* The core forgets the bytes of its images before they are unmapped. */
static void free_dictionary(kumquatsieve_dictionary *of) {
    proved_free(&of->base);
    for (size_t i = 0; i < of->count; i++) {
        unmap(&of->images[i]);
        free(of->images[i].path);
        free(of->images[i].categories);
        free(of->images[i].fields);
    }
    free(of);
}

static bool has_same_files(const kumquatsieve_dictionary *one,
                           const kumquatsieve_dictionary *other) {
    bool is_same = one->count == other->count && one->flags == other->flags;
    for (size_t i = 0; is_same && i < one->count; i++)
        is_same = are_same_file(&one->images[i].of, &other->images[i].of);
    return is_same;
}

/* The caller holds the lock. */
static kumquatsieve_dictionary *find(const kumquatsieve_dictionary *like) {
    kumquatsieve_dictionary *found = listed;
    while (found && !has_same_files(found, like)) found = found->next;
    if (found) found->holders++;
    return found;
}

kumquatsieve_dictionary *find_dictionary(const kumquatsieve_dictionary *like) {
    lock_shared();
    kumquatsieve_dictionary *found = find(like);
    unlock_shared();
    return found;
}

kumquatsieve_dictionary *list_dictionary(kumquatsieve_dictionary *made) {
    lock_shared();
    kumquatsieve_dictionary *found = find(made);
    if (!found) {
        made->is_listed = true;
        made->next = listed;
        listed = made;
    }
    unlock_shared();
    if (!found) return made;
    kumquatsieve_dictionary_release(made);
    return found;
}

kumquatsieve_dictionary *kumquatsieve_dictionary_retain(kumquatsieve_dictionary *dictionary) {
    if (!dictionary) return NULL;
    lock_shared();
    dictionary->holders++;
    unlock_shared();
    return dictionary;
}

/* Removes a dictionary from the list. The caller holds the lock. */
static void unlist(kumquatsieve_dictionary *of) {
    kumquatsieve_dictionary **at = &listed;
    while (*at != of) at = &(*at)->next;
    *at = of->next;
}

void kumquatsieve_dictionary_release(kumquatsieve_dictionary *dictionary) {
    if (!dictionary) return;
    lock_shared();
    bool is_last = --dictionary->holders == 0;
    if (is_last && dictionary->is_listed) unlist(dictionary);
    unlock_shared();
    if (is_last) free_dictionary(dictionary);
}

uint32_t share_base(kumquatsieve_segmenter *segmenter, kumquatsieve_dictionary *dictionary) {
    lock_shared();
    uint32_t code = proved_share(segmenter, &dictionary->base);
    if (code == KUMQUATSIEVE_OK) dictionary->holders++;
    unlock_shared();
    return code;
}

uint32_t kumquatsieve_dictionary_info(const kumquatsieve_dictionary *dictionary, size_t number,
                                      kumquatsieve_info *info, kumquatsieve_error *error) {
    if (!dictionary) return fail(error, KUMQUATSIEVE_EMPTY_SEGMENTER);
    if (number >= dictionary->count) return fail(error, KUMQUATSIEVE_BAD_ARGUMENT);
    if (info) *info = dictionary->images[number].info;
    return succeed(error);
}

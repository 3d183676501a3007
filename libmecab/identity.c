/* Distinguishes files, and a file from its earlier states. */
#include "layer.h"

identity identity_of(const struct stat *of) {
    return (identity){of->st_dev, of->st_ino, of->st_size, of->st_mtim, of->st_ctim};
}

static bool are_at(struct timespec one, struct timespec other) {
    return one.tv_sec == other.tv_sec && one.tv_nsec == other.tv_nsec;
}

bool are_same(const identity *one, const identity *other) {
    return one->device == other->device && one->number == other->number &&
           one->size == other->size && are_at(one->modified, other->modified) &&
           are_at(one->changed, other->changed);
}

/* What is open or mapped in this process. */
#ifndef MAPS_H
#define MAPS_H
#include "helpers.h"
#include <dirent.h>
#include <sys/stat.h>
#include <sys/sysmacros.h>

/* Returns how often the file at a path is mapped shared, as the library maps files, or any file if
   the path is NULL. */
static inline size_t mappings_of(const char *path) {
    char line[8192], flags[8];
    size_t count = 0;
    unsigned first, second;
    unsigned long inode;
    struct stat of = {0};
    FILE *maps = fopen("/proc/self/maps", "r");
    CHECK(maps && (!path || stat(path, &of) == 0));
    while (fgets(line, sizeof line, maps)) {
        CHECK(sscanf(line, "%*x-%*x %7s %*x %x:%x %lu", flags, &first, &second, &inode) == 4);
        bool is_device = first == major(of.st_dev) && second == minor(of.st_dev);
        count += flags[3] == 's' && (!path || (is_device && inode == of.st_ino));
    }
    fclose(maps);
    return count;
}

static inline size_t open_files(void) {
    size_t count = 0;
    DIR *all = opendir("/proc/self/fd");
    CHECK(all);
    while (readdir(all)) count++;
    closedir(all);
    return count;
}

/* Fills an empty segmenter over the dictionary in a file, with a user dictionary unless `user` is
   NULL. */
static inline uint32_t open_paths(kumquatsieve_segmenter *segmenter, const char *path,
                                  const char *user, uint32_t flags, kumquatsieve_error *error) {
    kumquatsieve_dictionary *dictionary = NULL;
    uint32_t code =
        kumquatsieve_dictionary_open(&dictionary, path, &user, user ? 1 : 0, flags, error);
    if (code == KUMQUATSIEVE_OK) code = kumquatsieve_segmenter_open(segmenter, dictionary, error);
    kumquatsieve_dictionary_release(dictionary);
    return code;
}

static inline void write_file(const char *path, const void *bytes, size_t length) {
    FILE *opened = fopen(path, "wb");
    CHECK_CASE(path, opened && fwrite(bytes, 1, length, opened) == length && fclose(opened) == 0);
}
#endif

/* Opens the image files of a dictionary. */
#include "image_dirs.h"
#include "library.h"
#include <errno.h>
#include <fcntl.h>
#include <limits.h>
#include <stdlib.h>
#include <string.h>
#include <unistd.h>

enum {
    OPEN_FILE = O_RDONLY | O_CLOEXEC | O_NOCTTY,
    OPEN_FLAGS = KUMQUATSIEVE_SKIP_DIGEST | KUMQUATSIEVE_TEST_DIGEST | KUMQUATSIEVE_COPY |
                 KUMQUATSIEVE_TRUSTED,
    NO_RECORD = KUMQUATSIEVE_TEST_DIGEST | KUMQUATSIEVE_COPY,
};

/* An open image file. A descriptor is -1 if there is none. `directory` is only open to look for a
   record; the file is then `name` in it, and no link. */
typedef struct opened {
    int directory;
    int file;
    const char *name;
    header first;
} opened;

static void close_file(int *file) {
    if (*file >= 0) close(*file);
    *file = -1;
}

static void close_all(opened *files, size_t count) {
    for (size_t i = 0; i < count; i++) {
        close_file(&files[i].file);
        close_file(&files[i].directory);
    }
    free(files);
}

/* Opens the directory in which the first `length` bytes of a path end. It need not be readable. */
static int open_directory(const char *path, size_t length) {
    char directory[PATH_MAX];
    errno = ENAMETOOLONG;
    if (length >= sizeof directory) return -1;
    memcpy(directory, path, length);
    directory[length] = 0;
    return open(length > 0 ? directory : ".", O_PATH | O_DIRECTORY | O_CLOEXEC);
}

/* Opens the directory of a file, and the file in it. Returns 0, or an errno: ELOOP for a link. */
static int open_in_directory(const char *path, opened *to) {
    to->directory = open_directory(path, (size_t)(to->name - path));
    if (to->directory < 0) return errno;
    to->file = openat(to->directory, to->name, OPEN_FILE | O_NOFOLLOW);
    return to->file >= 0 ? 0 : errno;
}

/* Opens a file, and its directory if a record is wanted and the file is no link. Returns 0 or an
   errno. An open that a signal interrupts, as of a pipe, is not repeated. */
static int open_file(const char *path, bool wants_record, opened *to) {
    const char *slash = strrchr(path, '/');
    to->name = slash ? slash + 1 : path;
    int error = wants_record ? open_in_directory(path, to) : ELOOP;
    if (error == 0 || error == EINTR) return error;
    close_file(&to->directory);
    to->file = open(path, OPEN_FILE);
    return to->file >= 0 ? 0 : errno;
}

/* Sets the path of an image to the one that a name means, and opens its file. */
static uint32_t open_image(kumquatsieve_dictionary *to, size_t number, const char *name,
                           opened *file, kumquatsieve_error *error) {
    image *one = &to->images[number];
    uint32_t code = resolve_name(name, number, &one->path, error);
    if (code != KUMQUATSIEVE_OK) return code;
    int why = open_file(one->path, !(to->flags & NO_RECORD), file);
    if (why == 0 && state_of(file->file, &one->of) != 0) why = errno;
    return why == 0 ? code : fail_file(error, why, number, one->path);
}

/* Maps an image or reads it. A regular file with the length in its header is mapped. Sets
 *is_tested to whether it passed all tests. */
static uint32_t take_bytes(kumquatsieve_dictionary *to, size_t number, opened *from,
                           bool *is_tested, kumquatsieve_error *error) {
    image *one = &to->images[number];
    header *first = &from->first;
    uint64_t detail = 0;
    int why = read_header(from->file, first);
    if (why != 0) return fail_file(error, why, number, one->path);
    uint32_t code = check_header(first, known_length(&one->of), &detail);
    if (code != KUMQUATSIEVE_OK) return fail_image(error, code, detail, number, one->path);
    bool is_whole =
        first->length == HEADER_LENGTH && (uint64_t)one->of.st_size == first->image_length;
    bool is_mapped = S_ISREG(one->of.st_mode) && is_whole && !(to->flags & KUMQUATSIEVE_COPY);
    why = is_mapped ? map_file(from->file, one) : ENODEV;
    *is_tested =
        why == 0 && has_record(from->directory, from->name, from->file, &one->of, first->layout);
    if (why == ENODEV) why = read_remainder(from->file, first, one);
    if (why != 0) return fail_file(error, why, number, one->path);
    *is_tested = *is_tested || is_trusted(one, to->flags);
    return code;
}

/* Opens the files of all images up to the first that can't be opened, and sets *count to their
   number. */
static uint32_t open_files(kumquatsieve_dictionary *to, const char *name, const char *const *users,
                           opened *files, size_t *count, kumquatsieve_error *error) {
    uint32_t code = KUMQUATSIEVE_OK;
    for (*count = 0; *count < to->count; ++*count) {
        const char *one = *count == 0 ? name : users[*count - 1];
        code = open_image(to, *count, one, &files[*count], error);
        if (code != KUMQUATSIEVE_OK) break;
    }
    return code;
}

/* Returns whether all files are regular. Others have their bytes once. */
static bool is_regular(const kumquatsieve_dictionary *of) {
    for (size_t i = 0; i < of->count; i++) {
        if (!S_ISREG(of->images[i].of.st_mode)) return false;
    }
    return true;
}

/* Returns an open dictionary that has the same files, with one more holder, or NULL. */
static kumquatsieve_dictionary *find_open(const kumquatsieve_dictionary *like) {
    return is_regular(like) ? find_dictionary(like) : NULL;
}

/* Loads the images of the first `count` files. */
static uint32_t load_files(loading *of, opened *files, size_t count, kumquatsieve_error *error) {
    uint32_t code = KUMQUATSIEVE_OK;
    bool is_tested = false;
    while (code == KUMQUATSIEVE_OK && of->number < count) {
        code = take_bytes(of->to, of->number, &files[of->number], &is_tested, error);
        if (code == KUMQUATSIEVE_OK) code = load_next(of, is_tested, error);
    }
    return code;
}

/* Fills a new dictionary, and sets *found to it, or to an open one that has the same files. If an
   image can't be opened, the errors of those before it are reported first. */
static uint32_t open_all(kumquatsieve_dictionary *made, const char *name, const char *const *users,
                         kumquatsieve_dictionary **found, kumquatsieve_error *error) {
    size_t count = 0;
    kumquatsieve_error later;
    loading of = {.to = made, .skip_digest = !(made->flags & KUMQUATSIEVE_TEST_DIGEST)};
    opened *files = malloc(made->count * sizeof *files);
    if (!files) return fail(error, KUMQUATSIEVE_MEMORY);
    for (size_t i = 0; i < made->count; i++) files[i] = (opened){.directory = -1, .file = -1};
    uint32_t open_code = open_files(made, name, users, files, &count, &later);
    *found = open_code == KUMQUATSIEVE_OK ? find_open(made) : NULL;
    uint32_t code = *found ? KUMQUATSIEVE_OK : load_files(&of, files, count, error);
    close_all(files, made->count);
    if (*found || code != KUMQUATSIEVE_OK) return code;
    if (open_code == KUMQUATSIEVE_OK) return end_loading(&of, error);
    if (error) *error = later;
    return open_code;
}

uint32_t kumquatsieve_dictionary_open(kumquatsieve_dictionary **dictionary, const char *name,
                                      const char *const *users, size_t count, uint32_t flags,
                                      kumquatsieve_error *error) {
    bool is_valid = (flags & ~(uint32_t)OPEN_FLAGS) == 0 && count < SIZE_MAX;
    for (size_t i = 0; is_valid && i < count; i++) is_valid = users && users[i];
    if (!is_valid) return fail(error, KUMQUATSIEVE_BAD_ARGUMENT);
    kumquatsieve_dictionary *found = NULL,
                            *made = new_dictionary(count + 1,
                                                   flags & ~(uint32_t)KUMQUATSIEVE_SKIP_DIGEST);
    if (!made) return fail(error, KUMQUATSIEVE_MEMORY);
    uint32_t code = open_all(made, name, users, &found, error);
    bool is_new = code == KUMQUATSIEVE_OK && !found;
    if (!is_new) kumquatsieve_dictionary_release(made);
    if (is_new) found = is_regular(made) ? list_dictionary(made) : made;
    if (code == KUMQUATSIEVE_OK) succeed(error);
    if (code == KUMQUATSIEVE_OK && dictionary)
        *dictionary = found;
    else
        kumquatsieve_dictionary_release(found);
    return code;
}

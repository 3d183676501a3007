/* What is known of an image: the numbers of its header, the names of its categories, and the names
   of its fields, which are in a file beside it. docs/FORMAT.md has the layout. */
#include "library.h"
#include <fcntl.h>
#include <limits.h>
#include <stdio.h>
#include <stdlib.h>
#include <string.h>
#include <unistd.h>

/* Offsets in the header, the bytes of a category before its name, and the most bytes of a file of
   names. */
enum {
    LAYOUT_AT = 8,
    KIND_AT = 12,
    RIGHT_AT = 16,
    LEFT_AT = 20,
    CATEGORIES_AT = 24,
    SURFACES_AT = 28,
    ENTRIES_AT = 32,
    UNKNOWN_AT = 36,
    LENGTHS_AT = 40,
    BEFORE_NAME = 4,
    NAMES_MOST = 65536,
};

static const char IMAGE_END[] = ".img", NAMES_END[] = ".fields", CHECKSUM[] = "; image-sha256 ";
static const char BYTE_ORDER_MARK[] = "\xef\xbb\xbf";

static uint32_t header_number(const image *of, size_t at) {
    return (uint32_t)number_at(of->bytes + at, 4);
}

/* Returns the names of the categories in `length` bytes, in one block that the caller frees, or
   NULL if memory runs out. A category that the bytes don't have has no name. */
static char **category_names(const uint8_t *bytes, size_t length, size_t count) {
    char **names = calloc(1, count * sizeof *names + length + count);
    char *text = names ? (char *)(names + count) : NULL;
    for (size_t i = 0; names && i < count; i++) {
        names[i] = text;
        if (length < BEFORE_NAME || length - BEFORE_NAME < bytes[BEFORE_NAME - 1]) {
            length = 0;
            text++;
            continue;
        }
        size_t named = bytes[BEFORE_NAME - 1];
        memcpy(text, bytes + BEFORE_NAME, named);
        text += named + 1;
        bytes += BEFORE_NAME + named;
        length -= BEFORE_NAME + named;
    }
    return names;
}

bool describe(image *of) {
    uint64_t costs = number_at(of->bytes + LENGTHS_AT, 8),
             categories = number_at(of->bytes + LENGTHS_AT + 8, 8);
    kumquatsieve_info *info = &of->info;
    *info = (kumquatsieve_info){
        .path = of->path,
        .size = of->length,
        .layout = header_number(of, LAYOUT_AT),
        .is_user = header_number(of, KIND_AT),
        .entries = header_number(of, ENTRIES_AT),
        .unknown_entries = header_number(of, UNKNOWN_AT),
        .surfaces = header_number(of, SURFACES_AT),
        .left_ids = header_number(of, LEFT_AT),
        .right_ids = header_number(of, RIGHT_AT),
        .category_count = header_number(of, CATEGORIES_AT),
    };
    if (info->layout == NEWEST_LAYOUT && of->length >= HEADER_LENGTH + SHA256_LENGTH)
        memcpy(info->sha256, of->bytes + of->length - SHA256_LENGTH, SHA256_LENGTH);
    if (info->category_count == 0) return true;
    of->categories =
        category_names(of->bytes + HEADER_LENGTH + costs, (size_t)categories, info->category_count);
    info->categories = (const char *const *)of->categories;
    return of->categories != NULL;
}

/* Writes the path of the file of names beside an image. If the image is a link, the file is beside
   its target. Returns false if the image has no such path. */
static bool find_names(const char *image, char path[static PATH_MAX + sizeof NAMES_END]) {
    if (!realpath(image, path)) return false;
    size_t length = strlen(path), end = strlen(IMAGE_END);
    if (length > end && strcmp(path + length - end, IMAGE_END) == 0) length -= end;
    strcpy(path + length, NAMES_END);
    return true;
}

/* Reads the regular file at a path, at most `room` bytes. Returns how many, or 0 if there is none
   or it is longer. */
static size_t read_text(const char *path, char *text, size_t room) {
    struct stat of;
    int file = open(path, O_RDONLY | O_CLOEXEC | O_NOCTTY | O_NONBLOCK);
    if (file < 0) return 0;
    size_t length = 0;
    if (state_of(file, &of) == 0 && S_ISREG(of.st_mode)) {
        ssize_t got = 1;
        while (got > 0 && length < room) {
            got = read(file, text + length, room - length);
            if (got > 0) length += (size_t)got;
        }
        if (got != 0) length = 0;
    }
    close(file);
    return length;
}

/* Returns whether a line names the SHA-256 of another image. */
static bool is_of_another(const char *line, size_t length, const uint8_t sha256[SHA256_LENGTH]) {
    char wanted[sizeof CHECKSUM + 2 * SHA256_LENGTH];
    size_t start = strlen(CHECKSUM);
    strcpy(wanted, CHECKSUM);
    for (size_t i = 0; i < SHA256_LENGTH; i++) sprintf(wanted + start + 2 * i, "%02x", sha256[i]);
    return length != strlen(wanted) || memcmp(line, wanted, length) != 0;
}

/* Returns the length of the line at `at` without its end, and moves *next past it. */
static size_t line_length(char *at, char *end, char **next) {
    char *feed = memchr(at, '\n', (size_t)(end - at));
    *next = feed ? feed + 1 : end;
    size_t length = (size_t)((feed ? feed : end) - at);
    return length > 0 && at[length - 1] == '\r' ? length - 1 : length;
}

/* Sets the names of the fields to the lines of a text. An empty line is a field without a name. */
static bool set_names(image *of, char *at, char *end) {
    size_t count = 0, bytes = (size_t)(end - at);
    char *next = at;
    for (char *line = at; line < end; line = next, count++) line_length(line, end, &next);
    if (count == 0) return true;
    of->fields = calloc(1, count * sizeof *of->fields + bytes + count);
    if (!of->fields) return false;
    char *text = (char *)(of->fields + count);
    for (size_t i = 0; i < count; i++, at = next) {
        size_t length = line_length(at, end, &next);
        memcpy(text, at, length);
        if (length > 0) of->fields[i] = text;
        text += length + 1;
    }
    of->info.fields = (const char *const *)of->fields;
    of->info.field_count = (uint32_t)count;
    return true;
}

/* Returns where the names start in a text: after a byte order mark, and after a line that names the
   image. If that is another image, returns the end. */
static char *first_name(char *at, char *end, const image *of) {
    size_t mark = strlen(BYTE_ORDER_MARK), checksum = strlen(CHECKSUM);
    char *next = at;
    if ((size_t)(end - at) >= mark && memcmp(at, BYTE_ORDER_MARK, mark) == 0) at += mark;
    if ((size_t)(end - at) < checksum || memcmp(at, CHECKSUM, checksum) != 0) return at;
    size_t length = line_length(at, end, &next);
    return is_of_another(at, length, of->info.sha256) ? end : next;
}

bool read_field_names(image *of) {
    char path[PATH_MAX + sizeof NAMES_END];
    if (!find_names(of->path, path)) return true;
    char *text = malloc(NAMES_MOST);
    if (!text) return false;
    char *end = text + read_text(path, text, NAMES_MOST);
    bool has_memory = set_names(of, first_name(text, end, of), end);
    free(text);
    return has_memory;
}

/* Names by which the fields of each dictionary can be read, and the names that some dictionaries
   give these fields. */
static const struct {
    const char *common, *own;
} COMMON[] = {
    {"conjugation_type", "cType"}, {"conjugation_form", "cForm"}, {"base_form", "orthBase"},
    {"lemma", "base_form"},        {"reading", "lForm"},          {"pronunciation", "pron"},
};

static size_t number_of(const kumquatsieve_info *info, const char *name) {
    for (size_t i = 0; i < info->field_count; i++) {
        if (info->fields[i] && strcmp(info->fields[i], name) == 0) return i;
    }
    return SIZE_MAX;
}

size_t field_number(const kumquatsieve_info *info, const char *name) {
    size_t found = number_of(info, name);
    for (size_t i = 0; found == SIZE_MAX && i < sizeof COMMON / sizeof *COMMON; i++) {
        if (strcmp(COMMON[i].common, name) == 0) found = number_of(info, COMMON[i].own);
    }
    return found;
}

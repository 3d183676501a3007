/* Settings by their names, from a caller's options and from MeCab's files of settings. */
#include "formats.h"
#include <errno.h>
#include <limits.h>
#include <stdlib.h>
#include <string.h>

/* Settings that MeCab's files can't change, because MeCab sets their defaults before it reads
 * files. */
static const char *const NOT_IN_FILES[] = {
    "node-format",   "unk-format", "bos-format",        "eos-format", "eon-format",
    "lattice-level", "nbest",      "max-grouping-size", "theta",      "cost-factor",
};

static setting *find(const settings *of, const char *name, size_t length) {
    for (size_t i = 0; i < of->count; i++) {
        if (strncmp(of->all[i].name, name, length) == 0 && of->all[i].name[length] == '\0')
            return &of->all[i];
    }
    return NULL;
}

const char *setting_of(const settings *of, const char *name) {
    const setting *found = find(of, name, strlen(name));
    return found ? found->value : NULL;
}

static bool is_blank(char byte) { return byte == ' ' || (byte >= '\t' && byte <= '\r'); }

bool is_only_blanks(const char *text) {
    while (is_blank(*text)) text++;
    return *text == '\0';
}

/* Blanks around the number, such as a carriage return, are allowed. Another text, or a number that
   is no int, counts as 0. (MeCab) */
long number_of(const settings *of, const char *name, long otherwise) {
    const char *text = setting_of(of, name);
    char *end = NULL;
    if (!text) return otherwise;
    long number = strtol(text, &end, 10);
    bool is_int = number >= INT_MIN && number <= INT_MAX;
    return end != text && is_int && is_only_blanks(end) ? number : 0;
}

bool is_set(const settings *of, const char *name) { return number_of(of, name, 0) == 1; }

static bool add(settings *to, const char *name, size_t length, const char *value, fault *error) {
    if (to->count == to->room) {
        setting *all = realloc(to->all, (2 * to->room + 8) * sizeof *all);
        if (!all) return fail_memory(error);
        to->all = all;
        to->room = 2 * to->room + 8;
    }
    setting new = {strndup(name, length), strdup(value)};
    if (!new.name || !new.value) {
        free(new.name);
        free(new.value);
        return fail_memory(error);
    }
    to->all[to->count++] = new;
    return true;
}

bool set(settings *to, const char *name, const char *value, fault *error) {
    setting *found = find(to, name, strlen(name));
    if (!found) return add(to, name, strlen(name), value, error);
    char *copy = strdup(value);
    if (!copy) return fail_memory(error);
    free(found->value);
    found->value = copy;
    return true;
}

static bool is_in_files(const char *name, size_t length) {
    for (size_t i = 0; i < sizeof NOT_IN_FILES / sizeof *NOT_IN_FILES; i++) {
        if (strncmp(NOT_IN_FILES[i], name, length) == 0 && NOT_IN_FILES[i][length] == '\0')
            return false;
    }
    return true;
}

/* Reads a line: a name, `=` and a value. Ignores empty lines and lines that start with `;` or `#`.
   (MeCab) */
static bool read_line(settings *to, const char *line, fault *error) {
    if (*line == '\0' || *line == ';' || *line == '#') return true;
    const char *value = strchr(line, '=');
    if (!value) return fail(error, "no `=` in %s", line);
    size_t length = (size_t)(value - line);
    while (length > 0 && is_blank(line[length - 1])) length--;
    do value++;
    while (is_blank(*value));
    return find(to, line, length) || !is_in_files(line, length) ||
           add(to, line, length, value, error);
}

/* Such a line has the checksum in lowercase hexadecimal digits and nothing after it. */
stamp stamp_in(const char *line, const unsigned char *checksum) {
    static const char START[] = "; image-sha256 ", DIGITS[] = "0123456789abcdef";
    const char *digits = line + strlen(START);
    if (strncmp(line, START, strlen(START)) != 0) return NO_STAMP;
    if (strspn(digits, DIGITS) != 2 * CHECKSUM || digits[2 * CHECKSUM]) return NO_STAMP;
    for (size_t i = 0; i < CHECKSUM; i++) {
        bool is_high = digits[2 * i] == DIGITS[checksum[i] >> 4];
        if (!is_high || digits[2 * i + 1] != DIGITS[checksum[i] & 15]) return OTHER_STAMP;
    }
    return OWN_STAMP;
}

/* A file of settings that is read, and the checksum of the image beside it, or NULL. */
typedef struct reading {
    FILE *file;
    const char *path;
    const unsigned char *checksum;
    size_t number;
    bool is_other;
} reading;

/* Reads a line. The first one may have the checksum of another image. */
static bool take_line(reading *from, const char *line, settings *to, fault *error) {
    fault wrong;
    bool is_stamped = from->number == 1 && from->checksum;
    from->is_other = is_stamped && stamp_in(line, from->checksum) == OTHER_STAMP;
    if (from->is_other || read_line(to, line, &wrong)) return true;
    return fail(error, "%s: line %zu: %.200s", from->path, from->number, wrong.text);
}

static bool read_lines(reading *from, settings *to, fault *error) {
    char *line = NULL;
    size_t room = 0;
    ssize_t length = 0;
    bool is_read = true;
    errno = 0;
    while (is_read && !from->is_other && (length = getline(&line, &room, from->file)) >= 0) {
        if (length > 0 && line[length - 1] == '\n') line[length - 1] = '\0';
        from->number++;
        is_read = take_line(from, line, to, error);
    }
    bool is_whole = from->is_other || feof(from->file);
    if (is_read && !is_whole) {
        is_read = fail(error, "%s: line %zu: %s", from->path, from->number + 1, strerror(errno));
    }
    free(line);
    return is_read;
}

/* Settings that are set already stay unchanged. */
bool read_settings(settings *to, const char *path, const unsigned char *checksum, bool *is_other,
                   fault *error) {
    reading from = {.file = fopen(path, "re"), .path = path, .checksum = checksum};
    if (!from.file) return fail(error, "%s: %s", path, strerror(errno));
    bool is_read = read_lines(&from, to, error);
    if (is_other) *is_other = from.is_other;
    fclose(from.file);
    return is_read;
}

/* The first `count` settings stay. */
void forget_settings(settings *of, size_t count) {
    while (of->count > count) {
        of->count--;
        free(of->all[of->count].name);
        free(of->all[of->count].value);
    }
}

void free_settings(settings *of) {
    forget_settings(of, 0);
    free(of->all);
    free(of->others);
    *of = (settings){0};
}

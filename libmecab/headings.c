/* Reads the header and the checksum of an image before the library opens it. */
#include "layer.h"
#include <errno.h>
#include <fcntl.h>
#include <string.h>
#include <unistd.h>

static const unsigned OF_MECAB = 0xef718f77U;

/* Reads up to `length` bytes from offset `at` on. Returns false if a read fails. */
static bool read_from(int file, unsigned char *to, size_t length, off_t at) {
    ssize_t got = 1;
    while (length > 0 && got != 0) {
        got = pread(file, to, length, at);
        if (got < 0 && errno != EINTR) return false;
        if (got < 0) continue;
        to += got;
        at += got;
        length -= (size_t)got;
    }
    return true;
}

static bool read_opened(int file, const char *path, heading *to, fault *error) {
    struct stat of;
    if (fstat(file, &of) != 0) return fail(error, "%s: cannot be read", path);
    if (!S_ISREG(of.st_mode)) return fail(error, "%s: not a regular file", path);
    *to = (heading){.which = identity_of(&of)};
    off_t checksum = of.st_size > CHECKSUM ? of.st_size - CHECKSUM : 0;
    bool is_read = read_from(file, to->header, HEADER, 0);
    is_read = is_read && read_from(file, to->checksum, CHECKSUM, checksum);
    return is_read || fail(error, "%s: cannot be read", path);
}

/* Opens a pipe without waiting for a writer, and rejects it. */
bool read_heading(heading *to, const char *path, fault *error) {
    int file = open(path, O_RDONLY | O_CLOEXEC | O_NONBLOCK | O_NOCTTY);
    if (file < 0) {
        return fail(error, "%s: cannot be opened; compile an image with kumquatsieve-import", path);
    }
    bool is_read = read_opened(file, path, to, error);
    close(file);
    return is_read;
}

uint32_t number_at(const heading *of, size_t at) {
    const unsigned char *bytes = of->header + at;
    return bytes[0] | (uint32_t)bytes[1] << 8 | (uint32_t)bytes[2] << 16 | (uint32_t)bytes[3] << 24;
}

/* A compiled dictionary of MeCab starts with its size, XORed with a constant. */
bool is_compiled_by_mecab(const heading *of) {
    return of->which.size >= HEADER && (number_at(of, 0) ^ OF_MECAB) == (uint64_t)of->which.size;
}

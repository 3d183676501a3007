/* Reads the header of an image, and the remainder of one that can't be mapped. The header is tested
   before the remainder is read, so a wrong file of any length is rejected at once. docs/FORMAT.md
   has its layout. */
#include "library.h"
#include <endian.h>
#include <errno.h>
#include <stdlib.h>
#include <string.h>
#include <unistd.h>

static const char MAGIC[] = "MJDICT\r\n";

enum { BLOCK = 65536, LAYOUT_AT = 8, LENGTHS_AT = 40, SECTIONS = 8, AFTER_SECTIONS = 9 };

int read_header(int file, header *to) {
    ssize_t got = 1;
    *to = (header){.length = 0};
    while (got > 0 && to->length < HEADER_LENGTH) {
        got = read(file, to->bytes + to->length, HEADER_LENGTH - to->length);
        if (got < 0) return errno;
        to->length += (size_t)got;
    }
    return 0;
}

uint64_t number_at(const uint8_t *bytes, size_t size) {
    uint64_t number = 0;
    memcpy(&number, bytes, size);
    return le64toh(number);
}

/* Sets the length of the whole image. Returns false if it exceeds 64 bits. */
static bool sum_lengths(header *of) {
    of->image_length = HEADER_LENGTH + (of->layout == NEWEST_LAYOUT ? SHA256_LENGTH : 0);
    for (size_t section = 0; section < SECTIONS; section++) {
        uint64_t length = number_at(of->bytes + LENGTHS_AT + 8 * section, 8);
        if (__builtin_add_overflow(of->image_length, length, &of->image_length)) return false;
    }
    return true;
}

uint64_t known_length(const struct stat *file) {
    bool is_known = S_ISREG(file->st_mode) && file->st_size >= HEADER_LENGTH;
    return is_known ? (uint64_t)file->st_size : UINT64_MAX;
}

uint32_t check_header(header *of, uint64_t length, uint64_t *number) {
    if (of->length < HEADER_LENGTH) return KUMQUATSIEVE_OK;
    of->layout = number_at(of->bytes + LAYOUT_AT, 4);
    if (memcmp(of->bytes, MAGIC, sizeof MAGIC - 1) != 0) return KUMQUATSIEVE_BAD_MAGIC;
    if (of->layout < 1 || of->layout > NEWEST_LAYOUT) {
        *number = of->layout;
        return KUMQUATSIEVE_BAD_LAYOUT;
    }
    if (!sum_lengths(of)) return KUMQUATSIEVE_TRUNCATED;
    if (length == UINT64_MAX || length == of->image_length) return KUMQUATSIEVE_OK;
    if (length < of->image_length) return KUMQUATSIEVE_TRUNCATED;
    *number = AFTER_SECTIONS;
    return KUMQUATSIEVE_BAD_SECTION;
}

/* Appends the remainder of a file. Stops when more than `most` bytes were read in all. Returns 0 or
   an errno. */
static int read_past(int file, uint64_t most, image *to) {
    ssize_t got = 1;
    int error = 0;
    uint8_t *block = malloc(BLOCK);
    if (!block) return ENOMEM;
    while (error == 0 && got > 0 && to->length <= most) {
        got = read(file, block, BLOCK);
        error = got < 0 ? errno : append_bytes(to, block, (size_t)got);
    }
    free(block);
    return error;
}

/* Makes room for all bytes at once if the length is known, so that none is moved. */
int read_remainder(int file, const header *first, image *to) {
    bool is_short = first->length < HEADER_LENGTH;
    bool is_known = !is_short && known_length(&to->of) == first->image_length;
    int error = 0;
    if (is_known && first->image_length > PTRDIFF_MAX) return ENOMEM;
    if (is_known) error = make_room(to, (size_t)first->image_length);
    if (error == 0) error = append_bytes(to, first->bytes, first->length);
    return error != 0 || is_short ? error : read_past(file, first->image_length, to);
}

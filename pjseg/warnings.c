/* Warnings about a text that is segmented as it is, but perhaps not as its author means. */
#include "pjseg.h"
#include <string.h>

static const uint8_t MARK[] = {0xef, 0xbb, 0xbf};

warnings wanted_warnings(void) {
    bool is_wanted = is_interactive();
    return (warnings){.of_mark = is_wanted, .of_return = is_wanted};
}

/* Returns the number of line feeds. */
static uint64_t count_feeds(const uint8_t *at, const uint8_t *end) {
    uint64_t feeds = 0;
    while (at < end && (at = memchr(at, '\n', (size_t)(end - at)))) {
        feeds++;
        at++;
    }
    return feeds;
}

/* Returns the number, from 1, of the first line that ends with a carriage return, or 0. */
static uint64_t first_return(const uint8_t *text, size_t length) {
    const uint8_t *at = text, *end = text + length;
    while (at < end && (at = memchr(at, '\r', (size_t)(end - at)))) {
        at++;
        if (at == end || *at == '\n') return count_feeds(text, at) + 1;
    }
    return 0;
}

void warn_of(warnings *left, const uint8_t *text, size_t length, uint64_t before, uint64_t lines) {
    if (lines == 0 || !(left->of_mark || left->of_return)) return;
    bool has_mark = length >= sizeof MARK && memcmp(text, MARK, sizeof MARK) == 0;
    if (left->of_mark && before == 0 && has_mark) {
        print_message(
            "warning: the text begins with a byte order mark (U+FEFF); it is segmented as text");
    }
    left->of_mark = false;
    uint64_t number = left->of_return ? first_return(text, length) : 0;
    if (number == 0 || number > lines) return;
    unsigned long long line = before + number;
    print_message("warning: line %llu ends with a carriage return; it is segmented as text", line);
    left->of_return = false;
}

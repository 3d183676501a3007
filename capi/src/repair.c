/* Replaces what is not UTF-8 (RFC 3629) in a line, and splits lines that are too long. */
#include "segmenter.h"
#include <stdlib.h>
#include <string.h>

static const char REPLACEMENT[] = "\xef\xbf\xbd";
static const char FULL_STOP[] = "\xe3\x80\x82";

enum { REPLACEMENT_LENGTH = 3, SURROGATE_LENGTH = 3, PAIR_LENGTH = 6, PAIRED_LENGTH = 4 };

static bool continues_character(unsigned char byte) { return (byte & 0xc0) == 0x80; }

/* Returns the length in bytes of the character at the start of a text, or 0 if none starts there.
   `left` is the length of the text, and not 0. */
static size_t character_length(const unsigned char *at, size_t left) {
    unsigned char first = at[0];
    if (first < 0x80) return 1;
    size_t length = first >= 0xf0 ? 4 : first >= 0xe0 ? 3 : 2;
    if (first < 0xc2 || first > 0xf4 || left < length) return 0;
    for (size_t i = 1; i < length; i++) {
        if (!continues_character(at[i])) return 0;
    }
    if ((first == 0xe0 && at[1] < 0xa0) || (first == 0xed && at[1] > 0x9f)) return 0;
    if ((first == 0xf0 && at[1] < 0x90) || (first == 0xf4 && at[1] > 0x8f)) return 0;
    return length;
}

static bool is_surrogate(const unsigned char *at, unsigned char least) {
    return at[0] == 0xed && at[1] >= least && at[1] <= least + 0x0f && continues_character(at[2]);
}

/* Reads a pair of surrogates of three bytes each, as Java writes characters after U+FFFF. Returns
   false if there is none. */
static bool read_pair(const unsigned char *at, size_t left, char *character) {
    if (left < PAIR_LENGTH || !is_surrogate(at, 0xa0) || !is_surrogate(at + SURROGATE_LENGTH, 0xb0))
        return false;
    unsigned high = (at[1] & 0x0fu) << 6 | (at[2] & 0x3fu),
             low = (at[4] & 0x0fu) << 6 | (at[5] & 0x3fu);
    unsigned code = 0x10000u + (high << 10 | low);
    character[0] = (char)(0xf0u | code >> 18);
    character[1] = (char)(0x80u | (code >> 12 & 0x3fu));
    character[2] = (char)(0x80u | (code >> 6 & 0x3fu));
    character[3] = (char)(0x80u | (code & 0x3fu));
    return true;
}

static bool add_text(repaired *to, const char *text, size_t length) {
    if (length > to->room - to->length) {
        size_t room = 2 * to->room + length;
        char *grown = realloc(to->text, room);
        if (!grown) return false;
        to->text = grown;
        to->room = room;
    }
    memcpy(to->text + to->length, text, length);
    to->length += length;
    return true;
}

/* Adds a replacement to the last exchange if it continues that one, or else as a new exchange. */
static bool add_exchange(repaired *to, size_t given_at, uint8_t length, uint8_t given) {
    exchange *last = to->count > 0 ? &to->exchanges[to->count - 1] : NULL;
    if (last && last->length == length && last->given == given &&
        last->at + last->times * last->length == to->length) {
        last->times++;
        return true;
    }
    if (to->count == to->exchange_room) {
        size_t room = 2 * to->exchange_room + 8;
        exchange *exchanges = realloc(to->exchanges, room * sizeof *exchanges);
        if (!exchanges) return false;
        to->exchanges = exchanges;
        to->exchange_room = room;
    }
    to->exchanges[to->count++] =
        (exchange){(uint32_t)to->length, (uint32_t)given_at, 1, length, given};
    return true;
}

/* Adds the replacement of bytes that are no character: the character of a pair of surrogates, or
   U+FFFD for one byte. */
static bool add_other(repaired *to, const unsigned char *text, size_t *at, size_t size) {
    char pair[PAIRED_LENGTH];
    bool is_pair = read_pair(text + *at, size - *at, pair);
    uint8_t length = is_pair ? PAIRED_LENGTH : REPLACEMENT_LENGTH,
            given = is_pair ? PAIR_LENGTH : 1;
    if (!add_exchange(to, *at, length, given)) return false;
    if (!add_text(to, is_pair ? pair : REPLACEMENT, length)) return false;
    to->invalid_count += !is_pair;
    *at += given;
    return true;
}

size_t valid_length(const char *text, size_t length) {
    const unsigned char *bytes = (const unsigned char *)text;
    size_t at = 0, one = 0;
    while (at < length && (one = character_length(bytes + at, length - at)) > 0) at += one;
    return at;
}

bool repair(repaired *to, const char *given, size_t length) {
    to->length = to->count = to->invalid_count = 0;
    for (size_t at = 0; at < length;) {
        size_t good = valid_length(given + at, length - at);
        if (good > 0 && !add_text(to, given + at, good)) return false;
        at += good;
        if (at < length && !add_other(to, (const unsigned char *)given, &at, length)) return false;
    }
    return true;
}

void free_repaired(repaired *of) {
    free(of->text);
    free(of->exchanges);
    *of = (repaired){0};
}

/* Returns how many exchanges start before or at a place. */
static size_t exchanges_up_to(const repaired *of, size_t at) {
    size_t low = 0, high = of->count;
    while (low < high) {
        size_t middle = low + (high - low) / 2;
        if (of->exchanges[middle].at <= at)
            low = middle + 1;
        else
            high = middle;
    }
    return low;
}

size_t given_place(const repaired *of, size_t at) {
    size_t before = exchanges_up_to(of, at);
    if (before == 0) return at;
    const exchange *last = &of->exchanges[before - 1];
    size_t after = at - last->at, replaced = (size_t)last->times * last->length;
    if (after < replaced) return last->given_at + after / last->length * last->given;
    return last->given_at + (size_t)last->times * last->given + (after - replaced);
}

void cut_repaired(repaired *of, size_t length) {
    of->length = length;
    while (of->count > 0 && of->exchanges[of->count - 1].at >= length) {
        const exchange *last = &of->exchanges[--of->count];
        if (last->given == 1) of->invalid_count -= last->times;
    }
    exchange *last = of->count > 0 ? &of->exchanges[of->count - 1] : NULL;
    if (!last || last->at + last->times * last->length <= length) return;
    uint32_t kept = (uint32_t)(length - last->at) / last->length;
    if (last->given == 1) of->invalid_count -= last->times - kept;
    last->times = kept;
}

/* Returns the offset of the last `byte` after the first byte of a text, or 0. */
static size_t last_place_of(const char *text, size_t length, char byte) {
    while (length > 1 && text[length - 1] != byte) length--;
    return length > 1 ? length - 1 : 0;
}

/* Returns the offset after the last full stop, or 0. */
static size_t after_last_stop(const char *text, size_t length) {
    for (size_t at = length; at >= REPLACEMENT_LENGTH; at--) {
        if (memcmp(text + at - REPLACEMENT_LENGTH, FULL_STOP, REPLACEMENT_LENGTH) == 0) return at;
    }
    return 0;
}

/* Returns the end of the last whole character in the first `most` bytes of a longer text. Bytes
   that continue no character end anywhere. A pair of surrogates is one character. */
static size_t last_whole(const char *text, size_t length, size_t most) {
    const unsigned char *bytes = (const unsigned char *)text;
    size_t end = most;
    while (end > most - SURROGATE_LENGTH && continues_character(bytes[end])) end--;
    if (continues_character(bytes[end])) return most;
    size_t before = end - SURROGATE_LENGTH;
    char character[PAIRED_LENGTH];
    return read_pair(bytes + before, length - before, character) ? before : end;
}

/* The part ends before the last line feed in reach, or else after the last full stop, before the
   last blank, or after the last character. */
size_t part_of(const char *text, size_t length, size_t most) {
    if (length <= most) return length;
    size_t end = last_place_of(text, most, '\n');
    if (end == 0) end = after_last_stop(text, most);
    if (end == 0) end = last_place_of(text, most, ' ');
    return end > 0 ? end : last_whole(text, length, most);
}

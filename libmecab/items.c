/* Parses formats in MeCab's items and escapes. */
#include "formats.h"
#include <kumquatsieve.h>
#include <stdlib.h>
#include <string.h>

enum { LARGEST_INDEX = 65535 };

typedef struct letter {
    char letter;
    kind kind;
} letter;

static const letter AFTER_PERCENT[] = {
    {'S', SENTENCE}, {'L', SENTENCE_SIZE}, {'m', SURFACE}, {'M', SURFACE_WITH_BLANKS},
    {'h', POSID},    {'c', WORD_COST},     {'H', FEATURE}, {'t', CATEGORY},
    {'s', STATUS},   {'P', PROBABILITY},   {'\0', TEXT},
};
static const letter AFTER_P[] = {
    {'i', ID},
    {'S', BLANKS},
    {'s', START},
    {'e', END},
    {'C', CONNECTION_COST},
    {'w', WORD_COST},
    {'c', COST},
    {'n', COST_FROM_LAST},
    {'b', MARK},
    {'P', PROBABILITY},
    {'A', PROBABILITY},
    {'B', PROBABILITY},
    {'l', LENGTH},
    {'L', LENGTH_WITH_BLANKS},
    {'\0', TEXT},
};
static const letter AFTER_H[] = {{'l', LEFT_ID}, {'r', RIGHT_ID}, {'\0', TEXT}};
static const char ESCAPES[][2] = {
    {'0', '\0'}, {'a', '\a'}, {'b', '\b'}, {'t', '\t'}, {'n', '\n'},
    {'v', '\v'}, {'f', '\f'}, {'r', '\r'}, {'s', ' '},  {'\\', '\\'},
};

static bool add(items *to, item new, fault *error) {
    if (to->count == to->room) {
        item *all = realloc(to->all, (2 * to->room + 8) * sizeof *all);
        if (!all) return fail_memory(error);
        to->all = all;
        to->room = 2 * to->room + 8;
    }
    to->all[to->count++] = new;
    return true;
}

static uint32_t escaped(const char **at, char *byte) {
    for (size_t i = 0; i < sizeof ESCAPES / sizeof *ESCAPES; i++) {
        if (**at == '\0' || ESCAPES[i][0] != **at) continue;
        *byte = ESCAPES[i][1];
        ++*at;
        return KUMQUATSIEVE_OK;
    }
    return KUMQUATSIEVE_BAD_ESCAPE;
}

static uint32_t add_letter(items *to, const letter *of, const char **at, fault *error) {
    while (of->letter != **at && of->letter != '\0') of++;
    if (of->letter == '\0') return KUMQUATSIEVE_BAD_ITEM;
    ++*at;
    return add(to, (item){.kind = of->kind}, error) ? KUMQUATSIEVE_OK : KUMQUATSIEVE_MEMORY;
}

/* Adds the numbers of fields between `[` and `]`, separated by commas. A number without digits is
   0. (MeCab) */
static uint32_t add_fields(items *to, const char **at, char separator, fault *error) {
    if (**at != '[') return KUMQUATSIEVE_BAD_INDEX;
    ++*at;
    if (!add(to, (item){.kind = FIELDS, .separator = separator}, error)) return KUMQUATSIEVE_MEMORY;
    for (uint32_t number = 0;; ++*at) {
        if (**at >= '0' && **at <= '9') {
            number = 10 * number + (uint32_t)(**at - '0');
            if (number > LARGEST_INDEX) return KUMQUATSIEVE_BAD_INDEX;
            continue;
        }
        if (**at != ',' && **at != ']') return KUMQUATSIEVE_BAD_INDEX;
        if (!add(to, (item){.kind = FIELD, .number = number}, error)) return KUMQUATSIEVE_MEMORY;
        if (*(*at) == ']') break;
        number = 0;
    }
    ++*at;
    return KUMQUATSIEVE_OK;
}

static uint32_t add_separated(items *to, const char **at, fault *error) {
    char separator = **at;
    if (separator == '\0') return KUMQUATSIEVE_BAD_INDEX;
    ++*at;
    if (separator == '\\' && escaped(at, &separator) != KUMQUATSIEVE_OK)
        return KUMQUATSIEVE_BAD_ESCAPE;
    return add_fields(to, at, separator, error);
}

static uint32_t add_after_p(items *to, const char **at, fault *error) {
    if (**at != 'h') return add_letter(to, AFTER_P, at, error);
    ++*at;
    return add_letter(to, AFTER_H, at, error);
}

static uint32_t add_item(items *to, const char **at, fault *error) {
    char letter = **at;
    if (letter != 'f' && letter != 'F' && letter != 'p')
        return add_letter(to, AFTER_PERCENT, at, error);
    ++*at;
    if (letter == 'p') return add_after_p(to, at, error);
    return letter == 'f' ? add_fields(to, at, '\t', error) : add_separated(to, at, error);
}

/* Adds a byte to the last item, if that is a text, or else a new text. */
static uint32_t add_byte(items *to, char byte, fault *error) {
    item *last = to->count > 0 ? &to->all[to->count - 1] : NULL;
    size_t at = to->text.length;
    if (!add_bytes(&to->text, &byte, 1)) return KUMQUATSIEVE_MEMORY;
    if (last && last->kind == TEXT) {
        last->length++;
        return KUMQUATSIEVE_OK;
    }
    return add(to, (item){.kind = TEXT, .from = at, .length = 1}, error) ? KUMQUATSIEVE_OK
                                                                         : KUMQUATSIEVE_MEMORY;
}

static uint32_t add_next(items *to, const char **at, fault *error) {
    char byte = *(*at)++;
    if (byte == '%' && **at != '%') return add_item(to, at, error);
    if (byte == '%') ++*at;
    if (byte == '\\' && escaped(at, &byte) != KUMQUATSIEVE_OK) return KUMQUATSIEVE_BAD_ESCAPE;
    return add_byte(to, byte, error);
}

bool read_items(items *to, const char *text, const char *name, fault *error) {
    uint32_t code = KUMQUATSIEVE_OK;
    while (*text && code == KUMQUATSIEVE_OK) code = add_next(to, &text, error);
    return code == KUMQUATSIEVE_OK || fail_code(error, name, code);
}

void free_items(items *of) {
    free(of->all);
    free_bytes(&of->text);
    *of = (items){0};
}

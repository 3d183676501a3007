/* MeCab's options. */
#include "layer.h"
#include <ctype.h>
#include <stdlib.h>
#include <string.h>

enum { NOWHERE = -1 };

static const struct {
    char letter;
    const char *name;
    bool has_value;
} KNOWN[] = {
    {'r', "rcfile", true},
    {'d', "dicdir", true},
    {'u', "userdic", true},
    {'l', "lattice-level", true},
    {'D', "dictionary-info", false},
    {'O', "output-format-type", true},
    {'a', "all-morphs", false},
    {'N', "nbest", true},
    {'p', "partial", false},
    {'m', "marginal", false},
    {'M', "max-grouping-size", true},
    {'F', "node-format", true},
    {'U', "unk-format", true},
    {'B', "bos-format", true},
    {'E', "eos-format", true},
    {'S', "eon-format", true},
    {'x', "unk-feature", true},
    {'b', "input-buffer-size", true},
    {'P', "dump-config", false},
    {'C', "allocate-sentence", false},
    {'t', "theta", true},
    {'c', "cost-factor", true},
    {'o', "output", true},
    {'v', "version", false},
    {'h', "help", false},
};

/* Returns the index of the option that a word is, or NOWHERE. Sets *value_at to the offset of a
   value in the word. */
static int find(const char *word, size_t *value_at) {
    for (int i = 0; i < (int)(sizeof KNOWN / sizeof *KNOWN); i++) {
        size_t length = strlen(KNOWN[i].name);
        if (word[1] == '-' && strncmp(word + 2, KNOWN[i].name, length) == 0 &&
            (word[2 + length] == '\0' || word[2 + length] == '=')) {
            *value_at = 2 + length + (word[2 + length] == '=');
            return i;
        }
        if (word[1] == KNOWN[i].letter) {
            *value_at = 2;
            return i;
        }
    }
    return NOWHERE;
}

/* Reads the option at words[i]. Returns how many words it takes, or 0 if it is rejected. */
static int read_option(settings *to, int i, int count, char *const *words, fault *error) {
    size_t value_at = 0;
    int found = find(words[i], &value_at);
    if (found == NOWHERE) {
        fail_left_out(error, words[i]);
        return 0;
    }
    const char *name = KNOWN[found].name;
    bool has_value = words[i][value_at] != '\0' || words[i][value_at - 1] == '=';
    if (!KNOWN[found].has_value && has_value) {
        fail(error, "%s: takes no value", words[i]);
        return 0;
    }
    if (!KNOWN[found].has_value) return set(to, name, "1", error) ? 1 : 0;
    if (has_value) return set(to, name, words[i] + value_at, error) ? 1 : 0;
    if (i + 1 == count) {
        fail(error, "%s: a value is required", words[i]);
        return 0;
    }
    return set(to, name, words[i + 1], error) ? 2 : 0;
}

/* The first word is the name of the program. Options may follow other words, and what follows `--`
   is ignored. (MeCab) */
bool read_options(settings *to, int count, char *const *words, fault *error) {
    int i = 1;
    to->others = malloc((size_t)(count > 0 ? count : 1) * sizeof *to->others);
    if (!to->others) return fail_memory(error);
    while (i < count && strcmp(words[i], "--") != 0) {
        bool is_option = words[i][0] == '-' && words[i][1] != '\0';
        int taken = is_option ? read_option(to, i, count, words, error) : 1;
        if (taken == 0) return false;
        if (!is_option) to->others[to->other_count++] = words[i];
        i += taken;
    }
    return true;
}

/* Splits a line at blanks into words[1] and the following. Quotes have no meaning. (MeCab) Returns
   the number of words, the program's name included. */
static int split_words(char *line, char **words) {
    int count = 1;
    for (char *at = line; *at;) {
        while (isspace((unsigned char)*at)) at++;
        if (!*at) break;
        words[count++] = at;
        while (*at && !isspace((unsigned char)*at)) at++;
        if (*at) *at++ = '\0';
    }
    return count;
}

bool read_options_of(settings *to, const char *line, fault *error) {
    static char program[] = "mecab";
    char *copy = strdup(line ? line : "");
    char **words = copy ? malloc((strlen(copy) + 2) * sizeof *words) : NULL;
    bool read = false;
    if (words) {
        words[0] = program;
        read = read_options(to, split_words(copy, words), words, error);
        to->other_count = 0;
    } else {
        fail_memory(error);
    }
    free(words);
    free(copy);
    return read;
}

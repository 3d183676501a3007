/* The command line. As in jseg, the value of an option follows its letter, with or without `=`, or
   is the next word. */
#include "pjseg.h"
#include <limits.h>
#include <sched.h>
#include <stdio.h>
#include <stdlib.h>
#include <string.h>
#include <unistd.h>

/* An option. A value that is a text may be empty or start with `-`. */
typedef struct row {
    char letter;
    const char *value;
    bool is_text, is_repeated;
} row;

static const row ROWS[] = {
    {'d', "IMG", false, false},   {'u', "IMG", false, true},    {'j', "N", false, false},
    {'M', "N", false, false},     {'O', "NAME", false, false},  {'F', "FORMAT", true, false},
    {'U', "FORMAT", true, false}, {'B', "FORMAT", true, false}, {'E', "FORMAT", true, false},
    {'v', NULL, false, false},
};

/* The state of reading a command line: `at` is the next word, and `given` is true for each letter
   that was given. `users` has chosen->user_count names. */
typedef struct reading {
    char **words;
    int count, at;
    options *chosen;
    const char *dic, *output, **users;
    int *status;
    bool given[UCHAR_MAX + 1];
} reading;

typedef enum step { NEXT, ENDED, WRONG } step;

static step no_memory(reading *of) {
    *of->status = print_fault(&(fault){.code = KUMQUATSIEVE_MEMORY});
    return ENDED;
}

/* Prints that a word is wrong, in one line between two texts. */
static step wrong_with(reading *of, const char *before, const char *word, const char *after) {
    char *line = one_line(word);
    if (!line) return no_memory(of);
    print_usage_error("%s '%s' %s", before, line, after);
    free(line);
    return WRONG;
}

/* Prints that an argument is unexpected, or `instead`, what to do in place of it, unless that is
   NULL. */
static step unexpected(reading *of, const char *word, const char *instead) {
    if (!instead) return wrong_with(of, "unexpected argument", word, "found");
    print_usage_error("%s", instead);
    return WRONG;
}

static step wrong_word(reading *of, const char *word) {
    return unexpected(of, word, instead_of_word(word));
}

/* Prints the text of --help or --version, after which the program ends. */
static step print_and_end(reading *of, const char *text) {
    *of->status = print_text(text) ? STATUS_DONE : print_fault(&(fault){.code = FAULT_OUTPUT});
    return ENDED;
}

/* Reads a number from `least` to `most`: digits with or without a sign before them. */
static step read_number(reading *of, const row *option, const char *text, long least, long most,
                        uint32_t *number) {
    const char *digits = text + (*text == '+' || *text == '-');
    if (*digits == '\0' || digits[strspn(digits, "0123456789")] != '\0') {
        char after[64];
        snprintf(after, sizeof after, "for '-%c <%s>': not a number", option->letter,
                 option->value);
        return wrong_with(of, "invalid value", text, after);
    }
    /* A number that is too large for a long is the largest one. */
    long found = strtol(text, NULL, 10);
    if (found < least || found > most) {
        print_usage_error("invalid value '%s' for '-%c <%s>': %s is not in %ld..=%ld", text,
                          option->letter, option->value, text, least, most);
        return WRONG;
    }
    *number = (uint32_t)found;
    return NEXT;
}

static step set_value(reading *of, const row *option, const char *value) {
    options *chosen = of->chosen;
    switch (option->letter) {
    case 'd': of->dic = value; break;
    case 'u': of->users[chosen->user_count++] = value; break;
    case 'j': return read_number(of, option, value, 1, THREADS_MOST, &chosen->threads);
    case 'M': return read_number(of, option, value, 0, GROUPING_MOST, &chosen->grouping);
    case 'O': of->output = value; break;
    case 'F': chosen->node = value; break;
    case 'U': chosen->unk = value; break;
    case 'B': chosen->bos = value; break;
    default: chosen->eos = value; break;
    }
    return NEXT;
}

/* Returns the value of an option: the rest of its word, without a `=` before it, or the next word,
   or NULL if there is none. */
static const char *value_of(reading *of, const row *option, const char *rest) {
    if (*rest) return rest + (*rest == '=');
    if (of->at == of->count) return NULL;
    const char *next = of->words[of->at];
    if (!option->is_text && next[0] == '-' && next[1] != '\0') return NULL;
    of->at++;
    return next;
}

/* Prints that a value is missing. If the next word starts with `-`, prints how to write it as the
   name of a file. */
static step missing_value(reading *of, const row *option) {
    bool may_be_file = of->at < of->count && strcmp(option->value, "IMG") == 0;
    char *line = may_be_file ? one_line(of->words[of->at]) : NULL;
    if (may_be_file && !line) return no_memory(of);
    if (line) {
        print_usage_error(
            "a value is required for '-%c <%s>' but none was supplied\n\n  tip: for the "
            "file '%s' write './%s'",
            option->letter, option->value, line, line);
    } else {
        print_usage_error("a value is required for '-%c <%s>' but none was supplied",
                          option->letter, option->value);
    }
    free(line);
    return WRONG;
}

static step read_value(reading *of, const row *option, const char *rest) {
    const char *value = value_of(of, option, rest);
    return value ? set_value(of, option, value) : missing_value(of, option);
}

static const row *row_of(char letter) {
    for (size_t i = 0; i < sizeof ROWS / sizeof *ROWS; i++) {
        if (ROWS[i].letter == letter) return &ROWS[i];
    }
    return NULL;
}

/* Prints that an option was given twice. `value` is the name of its value, or NULL. */
static step given_twice(const char *name, const char *value) {
    const char *before = value ? " <" : "", *after = value ? ">" : "";
    print_usage_error("the argument '%s%s%s%s' cannot be used multiple times", name, before,
                      value ? value : "", after);
    return WRONG;
}

/* Reads the letters of a word that starts with one `-`. */
static step read_letters(reading *of, const char *word) {
    for (const char *at = word + 1; *at; at++) {
        const row *option = row_of(*at);
        if (*at == 'h') return print_and_end(of, HELP);
        if (*at == 'V') return print_and_end(of, VERSION);
        if (!option) return unexpected(of, word, instead_of_letter(*at));
        if (of->given[(unsigned char)*at] && !option->is_repeated)
            return given_twice((char[]){'-', *at, '\0'}, option->value);
        of->given[(unsigned char)*at] = true;
        if (option->value) return read_value(of, option, at + 1);
        of->chosen->is_verbose = true;
    }
    return NEXT;
}

/* The options without a letter, each with the flag of kumquatsieve_dictionary_open that it sets. */
static const struct {
    const char *word;
    unsigned how;
} OPENINGS[] = {
    {"--skip-digest", KUMQUATSIEVE_SKIP_DIGEST},
    {"--test-digest", KUMQUATSIEVE_TEST_DIGEST},
    {"--copy", KUMQUATSIEVE_COPY},
};

/* Returns the flag of such an option, or 0 if a word is none. */
static unsigned opening_of(const char *word) {
    for (size_t i = 0; i < sizeof OPENINGS / sizeof *OPENINGS; i++) {
        if (strcmp(word, OPENINGS[i].word) == 0) return OPENINGS[i].how;
    }
    return 0;
}

static step read_opening(reading *of, const char *word, unsigned how) {
    const unsigned either = KUMQUATSIEVE_SKIP_DIGEST | KUMQUATSIEVE_TEST_DIGEST;
    if (of->chosen->flags & how) return given_twice(word, NULL);
    of->chosen->flags |= how;
    if ((of->chosen->flags & either) != either) return NEXT;
    print_usage_error("the argument '--test-digest' cannot be used with '--skip-digest'");
    return WRONG;
}

static step read_word(reading *of) {
    const char *word = of->words[of->at++];
    unsigned how = opening_of(word);
    if (how) return read_opening(of, word, how);
    if (strcmp(word, "--help") == 0) return print_and_end(of, HELP);
    if (strcmp(word, "--version") == 0) return print_and_end(of, VERSION);
    if (strcmp(word, "--") == 0)
        return of->at == of->count ? NEXT : wrong_word(of, of->words[of->at]);
    if (word[0] != '-' || word[1] == '\0' || word[1] == '-') return wrong_word(of, word);
    return read_letters(of, word);
}

/* Returns how many processors this process may use, from 1 to THREADS_MOST. */
static uint32_t processors(void) {
    cpu_set_t set;
    long count = sched_getaffinity(0, sizeof set, &set) == 0 ? CPU_COUNT(&set)
                                                             : sysconf(_SC_NPROCESSORS_ONLN);
    return count < 1 ? 1 : count > THREADS_MOST ? THREADS_MOST : (uint32_t)count;
}

static step wrong_directory(reading *of, const char *path) {
    char *line = one_line(path);
    if (!line) return no_memory(of);
    print_usage_error("%s is a MeCab dictionary, not an image: compile its sources with "
                      "'kumquatsieve-import SOURCES IMG', and use that image with -d",
                      line);
    free(line);
    return WRONG;
}

/* Finds the images by their names. Returns false if memory runs out. */
static bool find_images(reading *of) {
    options *chosen = of->chosen;
    chosen->dic = find_image(of->dic);
    for (size_t i = 0; chosen->dic && i < chosen->user_count; i++) {
        chosen->users[i] = find_image(of->users[i]);
        if (!chosen->users[i]) return false;
    }
    return chosen->dic != NULL;
}

/* Checks the options together, and finds the images. */
static step finish(reading *of) {
    const char *instead = of->output ? instead_of_output(of->output) : NULL;
    of->chosen->is_wakati = of->output != NULL;
    if (instead || !of->dic) {
        print_usage_error("%s", instead ? instead : "-d IMG is required");
        return WRONG;
    }
    if (!find_images(of)) return no_memory(of);
    if (!is_mecab_directory(of->chosen->dic)) return NEXT;
    return wrong_directory(of, of->chosen->dic);
}

static bool are_utf8(char **words, int count) {
    for (int i = 1; i < count; i++) {
        if (!is_utf8(words[i])) return false;
    }
    return true;
}

static bool read_words(reading *of) {
    step now = NEXT;
    if (!are_utf8(of->words, of->count)) {
        print_message("an argument is not UTF-8");
        return false;
    }
    while (now == NEXT && of->at < of->count) now = read_word(of);
    if (now == NEXT) now = finish(of);
    return now == NEXT;
}

bool read_options(int count, char **words, options *chosen, int *status) {
    size_t room = (size_t)count + 1;
    *chosen = (options){.users = calloc(room, sizeof *chosen->users),
                        .grouping = GROUPING_DEFAULT,
                        .threads = processors()};
    reading own = {.words = words,
                   .count = count,
                   .at = 1,
                   .chosen = chosen,
                   .users = calloc(room, sizeof *own.users),
                   .status = status};
    bool is_read = false;
    *status = STATUS_USAGE;
    if (chosen->users && own.users) {
        is_read = read_words(&own);
    } else {
        *status = print_fault(&(fault){.code = KUMQUATSIEVE_MEMORY});
    }
    free(own.users);
    return is_read;
}

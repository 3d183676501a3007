/* Prints messages and errors on standard error, and texts on standard output. */
#include "pjseg.h"
#include <errno.h>
#include <stdarg.h>
#include <stdio.h>
#include <stdlib.h>
#include <string.h>
#include <unistd.h>

static const char *const OPTION_OF_PART[] = {"-F", "-U", "-B", "-E"};

static void write_once(const char *text) {
    erase_progress();
    ssize_t taken = write(STDERR_FILENO, text, strlen(text));
    (void)taken;
}

/* Prints a message between two texts, in one write if there is memory for it. */
static void print_between(const char *before, const char *after, const char *format,
                          va_list words) {
    char *text = NULL, *whole = NULL;
    if (vasprintf(&text, format, words) < 0) {
        write_once(PROGRAM ": Memory\n");
        return;
    }
    if (asprintf(&whole, "%s%s%s", before, text, after) < 0) {
        write_once(text);
    } else {
        write_once(whole);
        free(whole);
    }
    free(text);
}

void print_message(const char *format, ...) {
    va_list words;
    va_start(words, format);
    print_between(PROGRAM ": ", "\n", format, words);
    va_end(words);
}

void print_usage_error(const char *format, ...) {
    va_list words;
    va_start(words, format);
    print_between(PROGRAM ": ", "\n\nFor more information, try '--help'.\n", format, words);
    va_end(words);
}

bool print_text(const char *text) {
    uint64_t taken = 0;
    return write_out((const uint8_t *)text, strlen(text), &taken);
}

/* Writes the letter, number and name of an error, of the library or of this program. */
static void name_of(uint32_t code, char *name, size_t room) {
    static const struct {
        uint32_t code;
        const char *name;
    } OTHERS[] = {
        {FAULT_OUTPUT, "F2 Output"},
        {FAULT_READ, "G1 Read"},
        {FAULT_WRITE, "G2 Write"},
        {FAULT_INPUT_TOO_LONG, "G5 InputTooLong"},
    };
    const char *text = kumquatsieve_explain(code);
    for (size_t i = 0; i < sizeof OTHERS / sizeof *OTHERS; i++) {
        if (OTHERS[i].code == code) snprintf(name, room, "%s", OTHERS[i].name);
    }
    if (text) snprintf(name, room, "%.*s", (int)strcspn(text, "\n"), text);
}

static bool has_number(uint32_t code) {
    switch (code) {
    case KUMQUATSIEVE_TRUNCATED:
    case KUMQUATSIEVE_BAD_MAGIC:
    case KUMQUATSIEVE_DIGEST:
    case KUMQUATSIEVE_NOT_SYSTEM:
    case KUMQUATSIEVE_FILE: return false;
    default: return true;
    }
}

static void print_path_error(const fault *why, const char *name) {
    char *path = one_line(why->path);
    if (!path) {
        print_message("Memory");
    } else if (has_number(why->code)) {
        print_message("%s: %s %llu", path, name, (unsigned long long)why->number);
    } else {
        print_message("%s: %s", path, name);
    }
    free(path);
}

static int status_of(uint32_t code) {
    if (code == KUMQUATSIEVE_MEMORY) return 4;
    if (code == FAULT_READ || code == FAULT_WRITE) return 3;
    switch (code >> 8) {
    case 'P': return 2;
    case 'F': return 3;
    default: return 1;
    }
}

/* Prints an error. Returns the exit status. */
int print_fault(const fault *why) {
    char name[64] = "";
    name_of(why->code, name, sizeof name);
    if (why->path) {
        print_path_error(why, name);
    } else if (why->code == KUMQUATSIEVE_MEMORY || why->code == FAULT_OUTPUT) {
        print_message("%s", name);
    } else if (why->code == FAULT_WRITE || why->code >> 8 == 'P') {
        print_message("%s %llu", name, (unsigned long long)why->number);
    } else {
        print_message("line %llu: %s", (unsigned long long)why->number, name);
    }
    return status_of(why->code);
}

/* Returns how many columns of a terminal a text takes: two for each character from U+1100 on, where
   Hangul starts, and one for each before it. */
static int columns_of(const char *text) {
    int columns = 0;
    for (const unsigned char *at = (const unsigned char *)text; *at; at++) {
        bool is_first = (*at & 0xc0) != 0x80,
             is_wide = *at > 0xe1 || (*at == 0xe1 && at[1] >= 0x84);
        if (is_first) columns += is_wide ? 2 : 1;
    }
    return columns;
}

/* Prints a text in one line, and a mark below the byte `at`. */
static void print_mark(const char *text, size_t at) {
    char *front = strndup(text, at), *before = front ? one_line(front) : NULL,
         *line = one_line(text);
    if (before && line) {
        print_message("%s", line);
        print_message("%*s^", columns_of(before), "");
    }
    free(line);
    free(before);
    free(front);
}

static void print_format(const options *chosen, const fault *why) {
    const char *const texts[] = {chosen->node, chosen->unk, chosen->bos, chosen->eos};
    print_message("the error is in the format of %s", OPTION_OF_PART[why->part % 4]);
    if (texts[why->part % 4]) print_mark(texts[why->part % 4], why->number);
}

/* Returns why a file can't be opened, read or mapped, by its errno. */
static const char *reason_of(uint64_t error) {
    switch (error) {
    case ENOENT: return "no such file or directory";
    case EISDIR: return "is a directory";
    case EACCES:
    case EPERM: return "permission denied";
    case EIO: return "a read failed";
    default: return strerror((int)error);
    }
}

static void print_reason(const char *of, uint64_t error) {
    char *path = one_line(of);
    if (path) print_message("%s: %s", path, reason_of(error));
    free(path);
}

/* Prints why a file can't be read, or which option has the invalid format, and where. */
void print_cause(const options *chosen, const fault *why) {
    if (!is_interactive()) return;
    if (why->code == KUMQUATSIEVE_FILE) print_reason(why->path, why->number);
    if (why->code >> 8 == 'P') print_format(chosen, why);
}

/* Prints the command of jseg that explains an error. */
void print_explanation(const fault *why) {
    char name[64] = "";
    name_of(why->code, name, sizeof name);
    if (is_interactive())
        print_message("'jseg --explain %.*s' explains this error", (int)strcspn(name, " "), name);
}

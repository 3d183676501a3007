/* The error that a call fills: its numbers, and a sentence for the user. */
#include "library.h"
#include <errno.h>
#include <stdio.h>
#include <string.h>

/* What a sentence is followed by: nothing, the number, the position, or both as those of a format.
 */
typedef enum detail { PLAIN, NUMBER, POSITION, FORMAT } detail;

static const struct {
    uint32_t code;
    detail detail;
    const char *text;
} SENTENCES[] = {
    {KUMQUATSIEVE_FILE, PLAIN, "can't be read"},
    {KUMQUATSIEVE_TRUNCATED, PLAIN, "the image is truncated"},
    {KUMQUATSIEVE_BAD_MAGIC, PLAIN, "not a Kumquatsieve image"},
    {KUMQUATSIEVE_BAD_LAYOUT, NUMBER, "this library can't read images of layout"},
    {KUMQUATSIEVE_BAD_SECTION, NUMBER, "the image is invalid in section"},
    {KUMQUATSIEVE_BAD_KEY, NUMBER, "the image is invalid in the key of group"},
    {KUMQUATSIEVE_BAD_TOKEN, NUMBER, "the image is invalid in token"},
    {KUMQUATSIEVE_BAD_TEXT, NUMBER, "the image is invalid in the feature of token"},
    {KUMQUATSIEVE_DIGEST, PLAIN, "the image is damaged: its SHA-256 does not match"},
    {KUMQUATSIEVE_NOT_SYSTEM, PLAIN, "not a system dictionary"},
    {KUMQUATSIEVE_NOT_USER, PLAIN, "not a user dictionary"},
    {KUMQUATSIEVE_OTHER_SIZES, PLAIN, "compiled for another system dictionary"},
    {KUMQUATSIEVE_BAD_ESCAPE, FORMAT, "invalid escape"},
    {KUMQUATSIEVE_BAD_ITEM, FORMAT, "invalid item"},
    {KUMQUATSIEVE_BAD_INDEX, FORMAT, "invalid number of a field"},
    {KUMQUATSIEVE_NOT_UTF8, POSITION, "not UTF-8"},
    {KUMQUATSIEVE_TOO_LONG, PLAIN, "the line has more than 1,048,576 bytes"},
    {KUMQUATSIEVE_LINE_FEED, POSITION, "line feed in a line"},
    {KUMQUATSIEVE_NOTHING_SEGMENTED, PLAIN, "no line was segmented"},
    {KUMQUATSIEVE_BAD_GROUPING, PLAIN, "the grouping is more than 1,000 characters"},
    {KUMQUATSIEVE_EMPTY_SEGMENTER, PLAIN, "the segmenter, or the dictionary, is empty"},
    {KUMQUATSIEVE_FULL_SEGMENTER, PLAIN, "the segmenter is not empty"},
    {KUMQUATSIEVE_SHORT_BUFFER, PLAIN, "the buffer is too short"},
    {KUMQUATSIEVE_BAD_ARGUMENT, PLAIN, "an argument is NULL or out of range"},
    {KUMQUATSIEVE_NO_FIELD, PLAIN, "the dictionary has no field of this name"},
};

static const char *const PARTS[] = {"known words", "unknown words", "the start of a line",
                                    "the end of a line"};

/* The longest name of a code, and how much of the end of a path is shown. */
enum { NAME_ROOM = 64, SHOWN_MOST = 120 };

/* Writes the name of a code: that of the core, or of a code that only this layer has. */
static void write_name(uint32_t code, char name[NAME_ROOM]) {
    size_t length = 0;
    const char *own = code == KUMQUATSIEVE_FILE           ? "F1 File"
                      : code == KUMQUATSIEVE_BAD_ARGUMENT ? "K9 BadArgument"
                      : code == KUMQUATSIEVE_NO_FIELD     ? "K10 NoField"
                                                          : NULL;
    if (!own && proved_fault(code, name, NAME_ROOM - 1, &length) != KUMQUATSIEVE_OK) length = 0;
    name[length] = 0;
    if (own) strcpy(name, own);
}

/* Writes the sentence for an error, with its number or position, and without its name. */
static void write_sentence(const kumquatsieve_error *of, char *text, size_t room) {
    size_t i = 0, last = sizeof SENTENCES / sizeof *SENTENCES - 1;
    while (i < last && SENTENCES[i].code != of->code) i++;
    unsigned long long number = of->number;
    bool is_format = SENTENCES[i].detail == FORMAT && number < sizeof PARTS / sizeof *PARTS;
    if (is_format)
        snprintf(text, room, "%s in the format of %s at byte %zu", SENTENCES[i].text, PARTS[number],
                 of->position);
    else if (SENTENCES[i].detail == NUMBER)
        snprintf(text, room, "%s %llu", SENTENCES[i].text, number);
    else if (SENTENCES[i].detail == POSITION)
        snprintf(text, room, "%s at byte %zu", SENTENCES[i].text, of->position);
    else
        snprintf(text, room, "%s", SENTENCES[i].text);
}

static bool continues_character(char byte) { return ((unsigned char)byte & 0xc0) == 0x80; }

/* Returns the end of a path that is shown, from the start of a character. */
static const char *shown_end(const char *what) {
    size_t length = strlen(what);
    if (length <= SHOWN_MOST) return what;
    const char *end = what + length - SHOWN_MOST;
    while (continues_character(*end)) end++;
    return end;
}

/* Writes the message: what failed, the sentence, and the name of the code. If it is too long, "..."
   replaces the end of the sentence, from the start of a character. */
static void write_message(kumquatsieve_error *error, const char *what, const char *sentence) {
    static const char DOTS[] = "...";
    char name[NAME_ROOM];
    const char *shown = what ? shown_end(what) : "";
    int written = snprintf(error->message, sizeof error->message, "%s%s%s%s",
                           shown != what && what ? DOTS : "", shown, what ? ": " : "", sentence);
    size_t room = sizeof error->message, length = written > 0 ? (size_t)written : 0;
    write_name(error->code, name);
    size_t most = room - 1 - strlen(name) - strlen(" ()");
    bool is_long = length > most;
    if (is_long) {
        length = most - strlen(DOTS);
        while (length > 0 && continues_character(error->message[length])) length--;
    }
    snprintf(error->message + length, room - length, "%s (%s)", is_long ? DOTS : "", name);
}

uint32_t succeed(kumquatsieve_error *error) {
    if (!error) return KUMQUATSIEVE_OK;
    error->code = KUMQUATSIEVE_OK;
    error->number = 0;
    error->position = error->image = 0;
    error->message[0] = 0;
    return KUMQUATSIEVE_OK;
}

/* Fills an error with the sentence of its code. Calls that succeed end here too, so the numbers are
   passed one by one: to copy an error takes longer than some of these calls. */
static uint32_t fill(kumquatsieve_error *error, uint32_t code, uint64_t number, size_t position,
                     size_t image, const char *what) {
    char sentence[NAME_ROOM + SHOWN_MOST];
    if (code == KUMQUATSIEVE_OK) return succeed(error);
    if (!error) return code;
    *error =
        (kumquatsieve_error){.code = code, .number = number, .position = position, .image = image};
    if (code == KUMQUATSIEVE_MEMORY) {
        strcpy(error->message, "out of memory");
    } else {
        write_sentence(error, sentence, sizeof sentence);
        write_message(error, what, sentence);
    }
    return code;
}

uint32_t fail(kumquatsieve_error *error, uint32_t code) { return fill(error, code, 0, 0, 0, NULL); }

uint32_t fail_at(kumquatsieve_error *error, uint32_t code, uint64_t number, size_t position) {
    return fill(error, code, number, position, 0, NULL);
}

uint32_t fail_image(kumquatsieve_error *error, uint32_t code, uint64_t number, size_t image,
                    const char *what) {
    return fill(error, code, number, 0, image, what);
}

uint32_t fail_file(kumquatsieve_error *error, int why, size_t image, const char *what) {
    char text[NAME_ROOM + SHOWN_MOST];
    if (why == ENOMEM) return fail_image(error, KUMQUATSIEVE_MEMORY, 0, image, what);
    if (!error) return KUMQUATSIEVE_FILE;
    *error =
        (kumquatsieve_error){.code = KUMQUATSIEVE_FILE, .number = (uint64_t)why, .image = image};
    write_message(error, what, strerror_r(why, text, sizeof text));
    return KUMQUATSIEVE_FILE;
}

uint32_t fail_name(kumquatsieve_error *error, size_t image, const char *name, const char *why) {
    if (!error) return KUMQUATSIEVE_FILE;
    *error = (kumquatsieve_error){.code = KUMQUATSIEVE_FILE, .number = ENOENT, .image = image};
    write_message(error, name, why);
    return KUMQUATSIEVE_FILE;
}

/* Tests what the other errors have, in tables, and what explains them: errors SYSTEM.img, which is
   compiled from the sample. */
#include "check_error.h"

enum { LONGEST = 1048576 };

static char long_line[LONGEST + 1];
static kumquatsieve_segmenter segmenter, none;

static const struct {
    const char *what, *texts[4];
    uint32_t code;
    uint64_t part;
    size_t at;
    const char *message;
} FORMATS[] = {
    {"escape",
     {"a\\q"},
     KUMQUATSIEVE_BAD_ESCAPE,
     0,
     1,
     "invalid escape in the format of known words at byte 1 (P1 BadEscape)"},
    {"item",
     {NULL, "%z"},
     KUMQUATSIEVE_BAD_ITEM,
     1,
     0,
     "invalid item in the format of unknown words at byte 0 (P2 BadItem)"},
    {"index",
     {NULL, "ab%f[x]"},
     KUMQUATSIEVE_BAD_INDEX,
     1,
     2,
     "invalid number of a field in the format of unknown words at byte 2 (P3 BadIndex)"},
    {"start",
     {NULL, NULL, "%f[0]"},
     KUMQUATSIEVE_BAD_ITEM,
     2,
     0,
     "invalid item in the format of the start of a line at byte 0 (P2 BadItem)"},
    {"end",
     {NULL, NULL, NULL, "a\xff"},
     KUMQUATSIEVE_NOT_UTF8,
     3,
     1,
     "not UTF-8 at byte 1 (G3 NotUtf8)"},
};

static void formats(void) {
    for (size_t i = 0; i < COUNT_OF(FORMATS); i++) {
        const char *const *of = FORMATS[i].texts;
        kumquatsieve_error error;
        CHECK_CASE(FORMATS[i].what, kumquatsieve_set_format(&segmenter, of[0], of[1], of[2], of[3],
                                                            &error) == FORMATS[i].code);
        check_error(FORMATS[i].what, &error, FORMATS[i].code, FORMATS[i].part, FORMATS[i].at, 0,
                    FORMATS[i].message);
    }
}

/* Texts, and whether kumquatsieve_parse_lines takes them. */
static const struct {
    const char *what, *text;
    size_t length;
    bool is_text;
    uint32_t code;
    uint64_t number;
    size_t position;
    const char *message;
} TEXTS[] = {
    {"a line feed", "も\nも\n", 8, false, KUMQUATSIEVE_LINE_FEED, 0, 3,
     "line feed in a line at byte 3 (K1 LineFeed)"},
    {"not UTF-8", "も\xff", 4, false, KUMQUATSIEVE_NOT_UTF8, 0, 3,
     "not UTF-8 at byte 3 (G3 NotUtf8)"},
    {"too long", long_line, LONGEST + 1, false, KUMQUATSIEVE_TOO_LONG, LONGEST + 1, 0,
     "the line has more than 1,048,576 bytes (G4 TooLong)"},
    {"line 3 is not UTF-8", "a\n\nも\xff\nb", 9, true, KUMQUATSIEVE_NOT_UTF8, 0, 6,
     "not UTF-8 at byte 6 (G3 NotUtf8)"},
    {"line 1 is too long", long_line, LONGEST + 1, true, KUMQUATSIEVE_TOO_LONG, LONGEST + 1, 0,
     "the line has more than 1,048,576 bytes (G4 TooLong)"},
};

static void texts(void) {
    memset(long_line, 'z', sizeof long_line);
    for (size_t i = 0; i < COUNT_OF(TEXTS); i++) {
        kumquatsieve_error error;
        uint32_t code =
            TEXTS[i].is_text
                ? kumquatsieve_parse_lines(&segmenter, TEXTS[i].text, TEXTS[i].length, NULL, NULL,
                                           NULL, &error)
                : kumquatsieve_segment(&segmenter, TEXTS[i].text, TEXTS[i].length, 0, NULL, &error);
        CHECK_CASE(TEXTS[i].what, code == TEXTS[i].code);
        check_error(TEXTS[i].what, &error, code, TEXTS[i].number, TEXTS[i].position, 0,
                    TEXTS[i].message);
    }
}

#define CHECK_PLAIN(wanted, call, message)                                                         \
    do {                                                                                           \
        kumquatsieve_error error;                                                                  \
        CHECK_CASE(#call, (call) == KUMQUATSIEVE_##wanted);                                        \
        check_error(#call, &error, KUMQUATSIEVE_##wanted, 0, 0, 0, message);                       \
    } while (0)

static void others(void) {
    size_t needed = 0;
    CHECK_PLAIN(OK, kumquatsieve_set_grouping(&segmenter, 24, &error), "");
    CHECK_PLAIN(NOTHING_SEGMENTED, kumquatsieve_print(&segmenter, NULL, NULL, &error),
                "no line was segmented (K2 NothingSegmented)");
    CHECK_PLAIN(BAD_GROUPING, kumquatsieve_set_grouping(&segmenter, 1001, &error),
                "the grouping is more than 1,000 characters (K4 BadGrouping)");
    CHECK_PLAIN(EMPTY_SEGMENTER, kumquatsieve_shrink(&none, &error),
                "the segmenter, or the dictionary, is empty (K5 EmptySegmenter)");
    CHECK_PLAIN(SHORT_BUFFER, kumquatsieve_find_image("./x", NULL, 0, &needed, &error),
                "the buffer is too short (K7 ShortBuffer)");
    CHECK_PLAIN(BAD_ARGUMENT, kumquatsieve_segment(&segmenter, NULL, 1, 0, NULL, &error),
                "an argument is NULL or out of range (K9 BadArgument)");
    CHECK_PLAIN(NO_FIELD,
                kumquatsieve_field_named(&segmenter, NULL, "no such field", NULL, NULL, &error),
                "the dictionary has no field of this name (K10 NoField)");
}

/* Each code has an explanation in four lines, which starts with the name that messages have. */
static void explanations(void) {
    static const uint32_t CODES[] = {
        KUMQUATSIEVE_FILE,         KUMQUATSIEVE_TRUNCATED,       KUMQUATSIEVE_BAD_MAGIC,
        KUMQUATSIEVE_BAD_LAYOUT,   KUMQUATSIEVE_BAD_SECTION,     KUMQUATSIEVE_BAD_KEY,
        KUMQUATSIEVE_BAD_TOKEN,    KUMQUATSIEVE_BAD_TEXT,        KUMQUATSIEVE_DIGEST,
        KUMQUATSIEVE_NOT_SYSTEM,   KUMQUATSIEVE_NOT_USER,        KUMQUATSIEVE_OTHER_SIZES,
        KUMQUATSIEVE_BAD_ESCAPE,   KUMQUATSIEVE_BAD_ITEM,        KUMQUATSIEVE_BAD_INDEX,
        KUMQUATSIEVE_NOT_UTF8,     KUMQUATSIEVE_TOO_LONG,        KUMQUATSIEVE_LINE_FEED,
        KUMQUATSIEVE_BAD_GROUPING, KUMQUATSIEVE_EMPTY_SEGMENTER, KUMQUATSIEVE_FULL_SEGMENTER,
        KUMQUATSIEVE_SHORT_BUFFER, KUMQUATSIEVE_BAD_ARGUMENT,    KUMQUATSIEVE_NOTHING_SEGMENTED,
        KUMQUATSIEVE_NO_FIELD,     KUMQUATSIEVE_MEMORY,
    };
    for (size_t i = 0; i < COUNT_OF(CODES); i++) {
        const char *text = kumquatsieve_explain(CODES[i]);
        size_t lines = 0;
        CHECK(text && text[strlen(text) - 1] == '\n');
        for (const char *at = text; (at = strchr(at, '\n')); at++) lines++;
        CHECK_CASE(text, lines == 4 && strstr(text, "\nMeaning: ") &&
                             strstr(text, "\nUsual cause: ") && strstr(text, "\nWhat to do: "));
    }
    CHECK(!kumquatsieve_explain(KUMQUATSIEVE_OK));
}

int main(int given, char **paths) {
    CHECK(given == 2);
    file system = read_file(paths[1]);
    segmenter = loaded(system);
    formats();
    texts();
    others();
    explanations();
    kumquatsieve_segmenter_close(&segmenter);
    free(system.bytes);
    printf("errors: %zu other errors with their numbers and messages\n",
           COUNT_OF(FORMATS) + COUNT_OF(TEXTS) + 6);
    return 0;
}

/* Tests lines, their words and their errors in tables: lines SYSTEM.img, which is compiled from the
   sample. */
#include "helpers.h"

#define LONGEST 1048576

static const struct {
    const char *what, *line;
    size_t count;
    int64_t total;
} SIZES[] = {
    {"sumomo", "すもももも", 2, 152},  {"one word", "すもも", 1, 115},
    {"an unknown word", "z", 1, 1015}, {"empty line", "", 0, 0},
    {"only_blanks", "   ", 0, 0},
};

static uint32_t segment(kumquatsieve_segmenter *segmenter, const char *text, size_t length,
                        uint32_t flags, kumquatsieve_line *line) {
    return kumquatsieve_segment(segmenter, text, length, flags, line, NULL);
}

static void sizes_and_costs(kumquatsieve_segmenter *segmenter) {
    kumquatsieve_line line;
    for (size_t i = 0; i < COUNT_OF(SIZES); i++) {
        size_t length = strlen(SIZES[i].line);
        for (uint32_t flags = 0; flags <= KUMQUATSIEVE_WHOLE; flags += KUMQUATSIEVE_WHOLE) {
            line = (kumquatsieve_line){9, 9, 99, 9};
            CHECK_CASE(SIZES[i].what,
                       segment(segmenter, SIZES[i].line, length, flags, &line) == KUMQUATSIEVE_OK);
            CHECK_CASE(SIZES[i].what, line.count == SIZES[i].count &&
                                          line.total == SIZES[i].total && line.end == length &&
                                          line.replaced == 0);
        }
    }
    CHECK(segment(segmenter, "も\nも", strlen("も\nも"), KUMQUATSIEVE_WHOLE, &line) ==
              KUMQUATSIEVE_OK &&
          line.count == 3 && line.total == 1069);
}

static const struct {
    const char *what, *line, *output;
} PRINTED_LINES[] = {
    {"sumomo", LINE, PRINTED},
    {"empty line", "", "EOS\n"},
    {"only_blanks", "   ", "EOS\n"},
    {"blanks between words", " すもも  もも ", PRINTED},
    {"an unknown word", "x", "x\t未知\nEOS\n"},
    {"an ideographic space is a character", "\u3000すもも\u3000",
     "\u3000\t未知\nすもも\t名詞,すもも\n\u3000\t未知\nEOS\n"},
    {"tokyo_tie", "東京都", "東京\t未知\n都\t未知\nEOS\n"},
};

static void printed_lines(kumquatsieve_segmenter *segmenter) {
    for (size_t i = 0; i < COUNT_OF(PRINTED_LINES); i++) {
        const char *line = PRINTED_LINES[i].line;
        CHECK_CASE(PRINTED_LINES[i].what, segment_line(segmenter, line) == KUMQUATSIEVE_OK &&
                                              prints(segmenter, PRINTED_LINES[i].output));
        CHECK_CASE(PRINTED_LINES[i].what, segment(segmenter, line, strlen(line), KUMQUATSIEVE_WHOLE,
                                                  NULL) == KUMQUATSIEVE_OK);
        CHECK_CASE(PRINTED_LINES[i].what, prints(segmenter, PRINTED_LINES[i].output));
    }
}

static char letters[LONGEST + 1], invalid_bytes[LONGEST + 1];

static const struct {
    const char *what;
    const char *bytes;
    size_t length;
    uint32_t as_line, as_text;
} REJECTED[] = {
    {"a line feed", "も\nも", 7, KUMQUATSIEVE_LINE_FEED, KUMQUATSIEVE_OK},
    {"a line feed alone", "\n", 1, KUMQUATSIEVE_LINE_FEED, KUMQUATSIEVE_OK},
    {"a line feed, then no text", "ab\n\xff", 4, KUMQUATSIEVE_LINE_FEED, KUMQUATSIEVE_NOT_UTF8},
    {"no text", "a\xff", 2, KUMQUATSIEVE_NOT_UTF8, KUMQUATSIEVE_NOT_UTF8},
    {"too long", letters, sizeof letters, KUMQUATSIEVE_TOO_LONG, KUMQUATSIEVE_TOO_LONG},
    {"too long, no text", invalid_bytes, sizeof invalid_bytes, KUMQUATSIEVE_TOO_LONG,
     KUMQUATSIEVE_TOO_LONG},
};

static void rejected_texts(kumquatsieve_segmenter *segmenter) {
    memset(letters, 'z', sizeof letters);
    memset(invalid_bytes, 0xff, sizeof invalid_bytes);
    CHECK(segment_line(segmenter, "もも") == KUMQUATSIEVE_OK);
    for (size_t i = 0; i < COUNT_OF(REJECTED); i++) {
        CHECK_CASE(REJECTED[i].what, segment(segmenter, REJECTED[i].bytes, REJECTED[i].length, 0,
                                             NULL) == REJECTED[i].as_line);
        if (REJECTED[i].as_text != KUMQUATSIEVE_OK) {
            CHECK_CASE(REJECTED[i].what, segment(segmenter, REJECTED[i].bytes, REJECTED[i].length,
                                                 KUMQUATSIEVE_WHOLE, NULL) == REJECTED[i].as_text);
        }
        CHECK_CASE(REJECTED[i].what, prints(segmenter, MOMO));
    }
    CHECK(segment(segmenter, letters, LONGEST, 0, NULL) == KUMQUATSIEVE_OK);
}

/* The words of ` すもも z`. The first one is the first line of the lexicon. The second one is the
   entry of ALPHA, which follows the three of the lexicon and those of DEFAULT and SPACE. The
   connection from BOS costs 10, and the one between the words 7. */
static const kumquatsieve_word WORDS[] = {
    {
        .place = 0,
        .start = 1,
        .end = 10,
        .token = 0,
        .left_id = 1,
        .right_id = 1,
        .cost = 100,
        .known = 1,
        .category = 5,
        .total = 110,
        .feature_length = 16,
        .feature_offset = 0,
    },
    {
        .place = 10,
        .start = 11,
        .end = 12,
        .token = 5,
        .left_id = 1,
        .right_id = 1,
        .cost = 1000,
        .known = 0,
        .category = 2,
        .total = 1117,
        .feature_length = 6,
        .feature_offset = 16,
    },
};

static bool is_word(const kumquatsieve_word *word, const kumquatsieve_word *wanted) {
    return word->place == wanted->place && word->start == wanted->start &&
           word->end == wanted->end && word->dictionary == wanted->dictionary &&
           word->token == wanted->token && word->left_id == wanted->left_id &&
           word->right_id == wanted->right_id && word->cost == wanted->cost &&
           word->known == wanted->known && word->category == wanted->category &&
           word->total == wanted->total && word->feature_length == wanted->feature_length &&
           word->feature_offset == wanted->feature_offset;
}

/* The words stay while other results are borrowed. */
static void words_and_features(kumquatsieve_segmenter *segmenter) {
    const kumquatsieve_word *words = NULL, *again = NULL;
    const char *features = NULL, *feature = NULL;
    size_t count = 99, length = 0;
    CHECK(segment_line(segmenter, " すもも z") == KUMQUATSIEVE_OK);
    CHECK(kumquatsieve_words(segmenter, &words, &count, NULL) == KUMQUATSIEVE_OK && count == 2);
    CHECK(kumquatsieve_nodes(segmenter, NULL, NULL, NULL) == KUMQUATSIEVE_OK);
    CHECK(kumquatsieve_words(segmenter, &again, &count, NULL) == KUMQUATSIEVE_OK && again == words);
    for (size_t i = 0; i < COUNT_OF(WORDS); i++) {
        CHECK(kumquatsieve_feature(segmenter, &words[i], &feature, &length, NULL) ==
              KUMQUATSIEVE_OK);
        CHECK(is_text(feature, length, i == 0 ? "名詞,すもも" : "未知"));
    }
    CHECK(kumquatsieve_features(segmenter, &features, &length, NULL) == KUMQUATSIEVE_OK &&
          is_text(features, length, "名詞,すもも未知"));
    for (size_t i = 0; i < COUNT_OF(WORDS); i++) CHECK(is_word(&words[i], &WORDS[i]));
    CHECK(segment_line(segmenter, "   ") == KUMQUATSIEVE_OK &&
          kumquatsieve_features(segmenter, &features, &length, NULL) == KUMQUATSIEVE_OK &&
          length == 0);
    CHECK(kumquatsieve_words(segmenter, &words, &count, NULL) == KUMQUATSIEVE_OK && count == 0);
}

static uint32_t words_code(kumquatsieve_segmenter *segmenter) {
    return kumquatsieve_words(segmenter, NULL, NULL, NULL);
}

static uint32_t print_code(kumquatsieve_segmenter *segmenter) {
    return kumquatsieve_print(segmenter, NULL, NULL, NULL);
}

/* Each call that forgets the line, and one that keeps it. */
static void forgotten(kumquatsieve_segmenter *segmenter) {
    for (int i = 0; i < 5; i++) {
        CHECK(i == 0 || segment_line(segmenter, LINE) == KUMQUATSIEVE_OK);
        CHECK(i == 0 || words_code(segmenter) == KUMQUATSIEVE_OK);
        if (i == 1) CHECK(kumquatsieve_set_grouping(segmenter, 24, NULL) == KUMQUATSIEVE_OK);
        if (i == 2)
            CHECK(kumquatsieve_parse_lines(segmenter, "a", 1, NULL, NULL, NULL, NULL) ==
                  KUMQUATSIEVE_OK);
        if (i == 3) CHECK(kumquatsieve_shrink(segmenter, NULL) == KUMQUATSIEVE_OK);
        if (i == 4) CHECK(set_texts(segmenter, "%m", NULL, NULL, "") == KUMQUATSIEVE_OK);
        uint32_t wanted = i < 4 ? KUMQUATSIEVE_NOTHING_SEGMENTED : KUMQUATSIEVE_OK;
        CHECK(words_code(segmenter) == wanted && print_code(segmenter) == wanted);
    }
    CHECK(prints(segmenter, LINE) &&
          set_texts(segmenter, NULL, NULL, NULL, NULL) == KUMQUATSIEVE_OK);
}

/* A text of several lines: the code, the number of its lines or of the invalid line, and the
   output. */
static const struct {
    const char *what, *text;
    uint32_t code;
    uint64_t lines;
    const char *printed;
} TEXT_LINES[] = {
    {"an empty text", "", KUMQUATSIEVE_OK, 0, ""},
    {"a line feed alone", "\n", KUMQUATSIEVE_OK, 1, "EOS\n"},
    {"empty lines", "\n\n", KUMQUATSIEVE_OK, 2, "EOS\nEOS\n"},
    {"blanks alone", "  \n ", KUMQUATSIEVE_OK, 2, "EOS\nEOS\n"},
    {"CR LF: the CR is no blank", "\r\n\n", KUMQUATSIEVE_OK, 2, "\r\t未知\nEOS\nEOS\n"},
    {"one line", LINE "\n", KUMQUATSIEVE_OK, 1, PRINTED},
    {"two lines", LINE "\n" LINE "\n", KUMQUATSIEVE_OK, 2, PRINTED PRINTED},
    {"no line feed at the end", "\n" LINE, KUMQUATSIEVE_OK, 2, "EOS\n" PRINTED},
    {"CR LF: the CR is a character", "\r\n" LINE "\n", KUMQUATSIEVE_OK, 2,
     "\r\t未知\nEOS\n" PRINTED},
    {"bad UTF-8 in line 3", LINE "\n\na\xff\n" LINE "\n", KUMQUATSIEVE_NOT_UTF8, 3,
     PRINTED "EOS\n"},
    {"invalid UTF-8 after empty lines", "\n\na\xff\nb\n", KUMQUATSIEVE_NOT_UTF8, 3, "EOS\nEOS\n"},
    {"invalid UTF-8 in a last line after an empty one", "\n\xff", KUMQUATSIEVE_NOT_UTF8, 2,
     "EOS\n"},
    {"bad UTF-8 in a last line without a line feed", LINE "\na\xff", KUMQUATSIEVE_NOT_UTF8, 2,
     PRINTED},
};

static void text_lines(kumquatsieve_segmenter *segmenter) {
    for (size_t i = 0; i < COUNT_OF(TEXT_LINES); i++) {
        const char *text = TEXT_LINES[i].text, *output = NULL;
        size_t length = 0;
        uint64_t lines = 0;
        CHECK_CASE(TEXT_LINES[i].what,
                   kumquatsieve_parse_lines(segmenter, text, strlen(text), &output, &length, &lines,
                                            NULL) == TEXT_LINES[i].code);
        CHECK_CASE(TEXT_LINES[i].what,
                   lines == TEXT_LINES[i].lines && is_text(output, length, TEXT_LINES[i].printed));
    }
}

static void line_feed_in_a_text(kumquatsieve_segmenter *segmenter) {
    CHECK(set_texts(segmenter, "%m|", "%m|", "", "\\n") == KUMQUATSIEVE_OK);
    CHECK(segment(segmenter, "も\nも", strlen("も\nも"), KUMQUATSIEVE_WHOLE, NULL) ==
              KUMQUATSIEVE_OK &&
          prints(segmenter, "も|\n|も|\n"));
}

int main(int given, char **paths) {
    CHECK(given == 2);
    file system = read_file(paths[1]);
    kumquatsieve_segmenter segmenter = loaded(system);
    forgotten(&segmenter);
    sizes_and_costs(&segmenter);
    printed_lines(&segmenter);
    rejected_texts(&segmenter);
    words_and_features(&segmenter);
    text_lines(&segmenter);
    line_feed_in_a_text(&segmenter);
    kumquatsieve_segmenter_close(&segmenter);
    free(system.bytes);
    puts("lines: each row is as its table says");
    return 0;
}

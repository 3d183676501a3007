/* Tests texts of any bytes and lengths: text SYSTEM.img, which is compiled from the sample. The
   words of each text are compared with those of kumquatsieve_segment for its lines. */
#include "helpers.h"
#include <malloc.h>

enum { LONGEST = 1048576, MOST_WORDS = 16, PIECE = 4096 };

/* The words of a text, each with its offsets before and after `:`, and the offset of its blanks
   before `/`; and the end of each line, after `|`, with the number of replacements. */
static const struct {
    const char *what, *text;
    size_t length;
    uint32_t flags;
    const char *wanted;
} TEXTS[] = {
    {"no text", "", 0, 0, ""},
    {"one line", "すもももも", 15, 0, "0/0:9 9/9:15 |15,0 "},
    {"a line feed", "すもももも\n", 16, 0, "0/0:9 9/9:15 |16,0 "},
    {"empty lines", "\n\nもも\n\n", 10, 0, "|1,0 |2,0 2/2:8 |9,0 |10,0 "},
    {"two lines", "もも\nもも", 13, 0, "0/0:6 |7,0 7/7:13 |13,0 "},
    {"blanks", " もも \n  もも", 17, 0, "0/1:7 |9,0 9/11:17 |17,0 "},
    {"a carriage return", "もも\r\nもも", 14, 0, "0/0:6 6/6:7 |8,0 8/8:14 |14,0 "},
    {"a zero byte", "もも\0もも", 13, 0, "0/0:6 6/6:7 7/7:13 |13,0 "},
    {"a whole text", "もも\nもも", 13, KUMQUATSIEVE_WHOLE, "0/0:6 6/6:7 7/7:13 |13,0 "},
    {"an invalid byte", "もも\xffもも", 13, 0, "0/0:6 6/6:7 7/7:13 |13,1 "},
    {"the first byte", "\xffもも", 7, 0, "0/0:1 1/1:7 |7,1 "},
    {"the last byte", "もも\xff", 7, 0, "0/0:6 6/6:7 |7,1 "},
    {"a cut character", "もも\xe3\x81", 8, 0, "0/0:6 6/6:8 |8,2 "},
    {"in the second line", "もも\n\xffもも\nもも", 21, 0,
     "0/0:6 |7,0 7/7:8 8/8:14 |15,1 15/15:21 |21,0 "},
    {"nothing but invalid bytes", "\xff\xfe\xff", 3, 0, "0/0:3 |3,3 "},
    {"a surrogate", "もも\xed\xa0\xbd", 9, 0, "0/0:6 6/6:9 |9,3 "},
    {"a pair of surrogates", "\xed\xa0\xbd\xed\xb8\x80もも", 12, 0, "0/0:6 6/6:12 |12,0 "},
    {"pairs and bytes", "\xed\xa0\xbd\xed\xb8\x80\xff \xed\xa0\xbd\xed\xb8\x80", 14, 0, NULL},
};

static void add_words(kumquatsieve_segmenter *segmenter, char *to, size_t room) {
    const kumquatsieve_word *words = NULL;
    size_t count = 0;
    CHECK(kumquatsieve_words(segmenter, &words, &count, NULL) == KUMQUATSIEVE_OK);
    for (size_t i = 0; i < count; i++) {
        size_t used = strlen(to);
        snprintf(to + used, room - used, "%zu/%zu:%zu ", words[i].place, words[i].start,
                 words[i].end);
    }
}

static void small_texts(kumquatsieve_segmenter *segmenter) {
    for (size_t i = 0; i < COUNT_OF(TEXTS); i++) {
        char found[512] = "";
        size_t length = TEXTS[i].length;
        kumquatsieve_line line;
        for (size_t at = 0; at < length; at = line.end) {
            CHECK_CASE(TEXTS[i].what,
                       kumquatsieve_segment_text(segmenter, TEXTS[i].text, length, at,
                                                 TEXTS[i].flags, &line, NULL) == KUMQUATSIEVE_OK);
            CHECK_CASE(TEXTS[i].what, line.end > at && line.end <= length);
            add_words(segmenter, found, sizeof found);
            size_t used = strlen(found);
            snprintf(found + used, sizeof found - used, "|%zu,%zu ", line.end, line.replaced);
        }
        if (TEXTS[i].wanted && strcmp(found, TEXTS[i].wanted) != 0)
            fprintf(stderr, "text: %s: %s\n", TEXTS[i].what, found);
        CHECK_CASE(TEXTS[i].what, !TEXTS[i].wanted || strcmp(found, TEXTS[i].wanted) == 0);
    }
}

/* Segments a text, and checks that its words have places in it, one after another, and that each
   line has at most LONGEST bytes. Returns the number of lines. */
static size_t check_text(const char *what, kumquatsieve_segmenter *segmenter, const char *text,
                         size_t length, size_t replaced) {
    kumquatsieve_line line;
    size_t lines = 0, bad = 0;
    for (size_t at = 0; at < length; at = line.end, lines++) {
        const kumquatsieve_word *words = NULL;
        size_t count = 0, end = at;
        CHECK_CASE(what, kumquatsieve_segment_text(segmenter, text, length, at, 0, &line, NULL) ==
                             KUMQUATSIEVE_OK);
        CHECK_CASE(what, line.end > at && line.end - at <= LONGEST + 1);
        CHECK_CASE(what, kumquatsieve_words(segmenter, &words, &count, NULL) == KUMQUATSIEVE_OK &&
                             count == line.count);
        for (size_t i = 0; i < count; i++) {
            CHECK_CASE(what, words[i].place == end && words[i].start >= words[i].place &&
                                 words[i].end > words[i].start && words[i].end <= line.end);
            end = words[i].end;
        }
        CHECK_CASE(what, count == 0 || words[count - 1].total <= line.total);
        bad += line.replaced;
    }
    CHECK_CASE(what, bad == replaced);
    return lines;
}

/* A text of a byte, or of a character, that is repeated. */
static char *repeated(const char *unit, size_t unit_length, size_t length) {
    char *text = malloc(length + 1);
    CHECK(text);
    for (size_t i = 0; i < length; i++) text[i] = unit[i % unit_length];
    return text;
}

/* Long texts of one unit: how many bytes, how many lines, and how many replacements. Each character
   of the last one is three bytes, so LONGEST is no end of a character. */
static const struct {
    const char *what, *unit;
    size_t length, lines, replaced;
} LONG_TEXTS[] = {
    {"the longest line", "z", LONGEST, 1, 0},
    {"a byte more", "z", LONGEST + 1, 2, 0},
    {"two lines and a byte", "z", 2 * LONGEST + 1, 3, 0},
    {"characters of three bytes", "も", LONGEST + 2, 2, 0},
    {"full stops", "もも。", LONGEST + 5, 2, 0},
    {"blanks", "もも ", LONGEST + 10, 2, 0},
    {"invalid bytes", "\xff", LONGEST, 4, LONGEST},
    {"bytes that continue no character", "\x80", LONGEST + 5, 4, LONGEST + 5},
};

static void long_texts(kumquatsieve_segmenter *segmenter) {
    for (size_t i = 0; i < COUNT_OF(LONG_TEXTS); i++) {
        size_t length = LONG_TEXTS[i].length;
        char *text = repeated(LONG_TEXTS[i].unit, strlen(LONG_TEXTS[i].unit), length);
        size_t lines =
            check_text(LONG_TEXTS[i].what, segmenter, text, length, LONG_TEXTS[i].replaced);
        if (lines != LONG_TEXTS[i].lines) fprintf(stderr, "text: %zu lines\n", lines);
        CHECK_CASE(LONG_TEXTS[i].what, lines == LONG_TEXTS[i].lines);
        free(text);
    }
}

/* Bytes of any kind, always the same. */
static void random_texts(kumquatsieve_segmenter *segmenter) {
    static const char BYTES[] =
        "\xe3\x81\x99\xe3\x82\x82 \n\xff\xed\xa0\xbd\xed\xb8\x80z\0\xf0\x9f";
    char text[PIECE];
    uint32_t state = 1;
    for (int round = 0; round < 200; round++) {
        size_t length = 0;
        for (; length < sizeof text; length++) {
            state = state * 1664525u + 1013904223u;
            text[length] = BYTES[(state >> 16) % (sizeof BYTES - 1)];
        }
        kumquatsieve_line line;
        for (size_t at = 0; at < length; at = line.end)
            CHECK(kumquatsieve_segment_text(segmenter, text, length, at, 0, &line, NULL) ==
                  KUMQUATSIEVE_OK);
    }
}

/* A strict call, a failed one, and nodes after a text. */
static void mixed(kumquatsieve_segmenter *segmenter) {
    const kumquatsieve_word *words = NULL;
    const kumquatsieve_node *nodes = NULL;
    const char *text = "\xff\n\xffもも", *features = NULL;
    size_t count = 0, length = strlen(text);
    CHECK(kumquatsieve_segment_text(segmenter, text, length, 2, 0, NULL, NULL) == KUMQUATSIEVE_OK);
    CHECK(segment_line(segmenter, "\xff") == KUMQUATSIEVE_NOT_UTF8);
    CHECK(kumquatsieve_words(segmenter, &words, &count, NULL) == KUMQUATSIEVE_OK && count == 2 &&
          words[0].start == 2 && words[1].start == 3 && words[1].end == length);
    CHECK(kumquatsieve_nodes(segmenter, &nodes, &count, NULL) == KUMQUATSIEVE_OK && count == 4 &&
          nodes[0].word.end == 3 && nodes[3].word.start == 6 && nodes[3].word.end == length);
    CHECK(kumquatsieve_features(segmenter, &features, &count, NULL) == KUMQUATSIEVE_OK &&
          is_text(features + words[1].feature_offset, words[1].feature_length, "名詞,もも"));
    CHECK(segment_line(segmenter, "もも") == KUMQUATSIEVE_OK);
    CHECK(kumquatsieve_words(segmenter, &words, &count, NULL) == KUMQUATSIEVE_OK && count == 1 &&
          words[0].start == 0 && words[0].end == 6 && words[0].feature_offset == 0);
}

/* The memory of a long line is freed, and the format and the grouping stay. */
static void shrunk(kumquatsieve_segmenter *segmenter) {
    char *text = repeated("もz", 4, LONGEST);
    CHECK(set_texts(segmenter, "%m|", NULL, NULL, "") == KUMQUATSIEVE_OK);
    CHECK(kumquatsieve_set_grouping(segmenter, 1, NULL) == KUMQUATSIEVE_OK);
    size_t before = mallinfo2().uordblks + mallinfo2().hblkhd;
    CHECK(kumquatsieve_segment(segmenter, text, LONGEST, 0, NULL, NULL) == KUMQUATSIEVE_OK);
    CHECK(kumquatsieve_words(segmenter, NULL, NULL, NULL) == KUMQUATSIEVE_OK);
    size_t most = mallinfo2().uordblks + mallinfo2().hblkhd;
    CHECK(kumquatsieve_shrink(segmenter, NULL) == KUMQUATSIEVE_OK);
    size_t after = mallinfo2().uordblks + mallinfo2().hblkhd;
    CHECK(kumquatsieve_words(segmenter, NULL, NULL, NULL) == KUMQUATSIEVE_NOTHING_SEGMENTED);
    CHECK(segments_to(segmenter, "もzzz", "も|z|zz|"));
    if (most > before) CHECK(most - before > (16u << 20) && after <= before + (1u << 20));
    free(text);
}

/* A segmenter is moved in memory between calls. */
static void moved(kumquatsieve_segmenter *segmenter) {
    kumquatsieve_segmenter *other = malloc(sizeof *other);
    CHECK(other && set_texts(segmenter, NULL, NULL, NULL, NULL) == KUMQUATSIEVE_OK);
    CHECK(segment_line(segmenter, LINE) == KUMQUATSIEVE_OK);
    memcpy(other, segmenter, sizeof *other);
    memset(segmenter, 0, sizeof *segmenter);
    CHECK(prints(other, PRINTED) && segments_to(other, "もも", MOMO));
    CHECK(segment_line(segmenter, LINE) == KUMQUATSIEVE_EMPTY_SEGMENTER);
    kumquatsieve_segmenter_close(other);
    free(other);
}

int main(int given, char **paths) {
    CHECK(given == 2);
    file system = read_file(paths[1]);
    kumquatsieve_segmenter segmenter = loaded(system);
    small_texts(&segmenter);
    long_texts(&segmenter);
    random_texts(&segmenter);
    mixed(&segmenter);
    shrunk(&segmenter);
    moved(&segmenter);
    free(system.bytes);
    printf("text: %zu texts of any bytes, and %zu long ones\n", COUNT_OF(TEXTS),
           COUNT_OF(LONG_TEXTS));
    return 0;
}

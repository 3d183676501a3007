/* Tests user dictionaries, formats, groupings and sharing in tables: settings SYSTEM.img
   USER.img SECOND.img. The images are compiled from the sample, and from user dictionaries with
   another feature and cost of もも. */
#include "helpers.h"

#define USERS_MOMO "もも\t名詞,ユーザ\nEOS\n"

static void users(file system, file user, file second) {
    const file images[] = {system, user, second};
    kumquatsieve_segmenter segmenter = loaded(system);
    CHECK(segments_to(&segmenter, "もも", MOMO));
    kumquatsieve_segmenter_close(&segmenter);
    CHECK(load(&segmenter, images, 2, NULL) == KUMQUATSIEVE_OK);
    CHECK(segments_to(&segmenter, "もも", USERS_MOMO));
    kumquatsieve_segmenter_close(&segmenter);
    CHECK(load(&segmenter, images, 3, NULL) == KUMQUATSIEVE_OK);
    CHECK(segments_to(&segmenter, "もも", USERS_MOMO));
    kumquatsieve_segmenter_close(&segmenter);
}

static void users_words(file system, file user) {
    kumquatsieve_segmenter segmenter = loaded(system);
    static const char FORMAT[] = "%m/%f[1]/%pc ";
    CHECK(set_texts(&segmenter, FORMAT, FORMAT, "", "%pc\\n") == KUMQUATSIEVE_OK);
    CHECK(segments_to(&segmenter, LINE, "すもも/すもも/110 もも/もも/147 152\n"));
    kumquatsieve_segmenter_close(&segmenter);
    segmenter = loaded_with(system, user);
    CHECK(set_texts(&segmenter, FORMAT, FORMAT, "", "%pc\\n") == KUMQUATSIEVE_OK);
    CHECK(segments_to(&segmenter, LINE, "すもも/すもも/110 もも/ユーザ/118 123\n"));
    CHECK(segments_to(&segmenter, "もも", "もも/ユーザ/11 16\n"));
    kumquatsieve_segmenter_close(&segmenter);
}

/* Segmenters over one dictionary have their own formats and lines. */
static void sharing(file system) {
    kumquatsieve_dictionary *dictionary = NULL;
    kumquatsieve_segmenter first = KUMQUATSIEVE_EMPTY, second = KUMQUATSIEVE_EMPTY;
    CHECK(open_images(&dictionary, &system, 1, NULL) == KUMQUATSIEVE_OK);
    CHECK(kumquatsieve_segmenter_open(&first, dictionary, NULL) == KUMQUATSIEVE_OK);
    CHECK(segments_to(&first, "もも", MOMO));
    CHECK(kumquatsieve_segmenter_open(&second, dictionary, NULL) == KUMQUATSIEVE_OK);
    kumquatsieve_dictionary_release(dictionary);
    CHECK(!prints(&second, MOMO) && segments_to(&second, "すもも", "すもも\t名詞,すもも\nEOS\n"));
    CHECK(prints(&first, MOMO) && set_texts(&second, "%m ", NULL, "", "") == KUMQUATSIEVE_OK);
    CHECK(prints(&second, "すもも ") && prints(&first, MOMO));
    kumquatsieve_segmenter_close(&first);
    CHECK(segments_to(&second, "もも", "もも "));
    kumquatsieve_segmenter_close(&second);
}

static const struct {
    const char *what, *texts[4];
    uint32_t code, part;
    size_t at;
} REFUSED_FORMATS[] = {
    {"no item in the first", {"%m%", "%m", "", ""}, KUMQUATSIEVE_BAD_ITEM, 0, 2},
    {"no item in the second", {"%m", "ab%z", "", ""}, KUMQUATSIEVE_BAD_ITEM, 1, 2},
    {"a field at the beginning", {"%m", "%m", "%f[0]", ""}, KUMQUATSIEVE_BAD_ITEM, 2, 0},
    {"no escape in the third", {"%m", "%m", "\\q", ""}, KUMQUATSIEVE_BAD_ESCAPE, 2, 0},
    {"no escape in the fourth", {"%m", "%m", "", "x\\q"}, KUMQUATSIEVE_BAD_ESCAPE, 3, 1},
    {"no index", {"a%f[x]", "%m", "", ""}, KUMQUATSIEVE_BAD_INDEX, 0, 1},
    {"no text in the first", {"ab\xff", "\xff", "", ""}, KUMQUATSIEVE_NOT_UTF8, 0, 2},
    {"no text in the second", {"%z", "\xff", "\xff", ""}, KUMQUATSIEVE_NOT_UTF8, 1, 0},
    {"a cut character, the third", {"", "", "a\xe3\x81", ""}, KUMQUATSIEVE_NOT_UTF8, 2, 1},
    {"no text in the fourth", {"", "", "", "abc\xc0"}, KUMQUATSIEVE_NOT_UTF8, 3, 3},
};

static uint32_t set_format(kumquatsieve_segmenter *segmenter, const char *const texts[4],
                           kumquatsieve_error *error) {
    return kumquatsieve_set_format(segmenter, texts[0], texts[1], texts[2], texts[3], error);
}

static void rejected_formats(file system) {
    kumquatsieve_segmenter segmenter = loaded(system);
    CHECK(segment_line(&segmenter, "もも") == KUMQUATSIEVE_OK);
    for (size_t i = 0; i < COUNT_OF(REFUSED_FORMATS); i++) {
        kumquatsieve_error error;
        CHECK_CASE(REFUSED_FORMATS[i].what, set_format(&segmenter, REFUSED_FORMATS[i].texts,
                                                       &error) == REFUSED_FORMATS[i].code);
        CHECK_CASE(REFUSED_FORMATS[i].what, error.number == REFUSED_FORMATS[i].part &&
                                                error.position == REFUSED_FORMATS[i].at &&
                                                prints(&segmenter, MOMO));
    }
    kumquatsieve_segmenter_close(&segmenter);
}

static const struct {
    const char *what, *texts[4], *output;
} FORMATS[] = {
    {"each of the four", {"%m,", "<%m>", "[", "]\\n"}, "[も,<z>]\n"},
    {"nothing", {"", "", "", ""}, ""},
    {"the whole line", {"", "", "%S|", "%L"}, "もz|4"},
    {"no text", {NULL, NULL, NULL, NULL}, "も\t助詞,も\nz\t未知\nEOS\n"},
    {"one for both words", {"%m|", NULL, NULL, NULL}, "も|z|EOS\n"},
    {"the end alone", {NULL, NULL, NULL, "]"}, "も\t助詞,も\nz\t未知\n]"},
};

static void formats(file system) {
    kumquatsieve_segmenter segmenter = loaded(system);
    CHECK(segment_line(&segmenter, "もz") == KUMQUATSIEVE_OK);
    for (size_t i = 0; i < COUNT_OF(FORMATS); i++) {
        CHECK_CASE(FORMATS[i].what,
                   set_format(&segmenter, FORMATS[i].texts, NULL) == KUMQUATSIEVE_OK);
        CHECK_CASE(FORMATS[i].what, prints(&segmenter, FORMATS[i].output));
    }
    CHECK(segment_line(&segmenter, LINE) == KUMQUATSIEVE_OK);
    CHECK(set_texts(&segmenter, "%m ", "%m ", "", "\\n") == KUMQUATSIEVE_OK &&
          prints(&segmenter, "すもも もも \n"));
    CHECK(set_texts(&segmenter, "%m", "%m", "", "x\\q") == KUMQUATSIEVE_BAD_ESCAPE &&
          prints(&segmenter, "すもも もも \n"));
    kumquatsieve_segmenter_close(&segmenter);
}

static const struct {
    const char *what;
    uint32_t grouping, code;
    const char *output;
} GROUPINGS[] = {
    {"one may follow", 1, KUMQUATSIEVE_OK, "z|zz|"},
    {"two may follow", 2, KUMQUATSIEVE_OK, "zzz|"},
    {"the default", 24, KUMQUATSIEVE_OK, "zzz|"},
    {"none may follow", 0, KUMQUATSIEVE_OK, "z|z|z|"},
    {"too many", 1001, KUMQUATSIEVE_BAD_GROUPING, "z|z|z|"},
    {"the most", 1000, KUMQUATSIEVE_OK, "zzz|"},
    {"24 in its 16 lowest", 0x10018, KUMQUATSIEVE_BAD_GROUPING, "zzz|"},
};

static void groupings(file system) {
    kumquatsieve_segmenter segmenter = loaded(system);
    CHECK(set_texts(&segmenter, "%m|", "%m|", "", "") == KUMQUATSIEVE_OK);
    for (size_t i = 0; i < COUNT_OF(GROUPINGS); i++) {
        CHECK_CASE(GROUPINGS[i].what, kumquatsieve_set_grouping(&segmenter, GROUPINGS[i].grouping,
                                                                NULL) == GROUPINGS[i].code);
        if (GROUPINGS[i].code == KUMQUATSIEVE_OK) {
            CHECK_CASE(GROUPINGS[i].what, kumquatsieve_print(&segmenter, NULL, NULL, NULL) ==
                                              KUMQUATSIEVE_NOTHING_SEGMENTED);
        }
        CHECK_CASE(GROUPINGS[i].what, segment_line(&segmenter, "zzz") == KUMQUATSIEVE_OK &&
                                          prints(&segmenter, GROUPINGS[i].output));
    }
    CHECK(kumquatsieve_set_grouping(&segmenter, 1001, NULL) == KUMQUATSIEVE_BAD_GROUPING &&
          prints(&segmenter, "zzz|"));
    kumquatsieve_segmenter_close(&segmenter);
}

int main(int given, char **paths) {
    CHECK(given == 4);
    file system = read_file(paths[1]), user = read_file(paths[2]), second = read_file(paths[3]);
    users(system, user, second);
    users_words(system, user);
    sharing(system);
    rejected_formats(system);
    formats(system);
    groupings(system);
    free(system.bytes);
    free(user.bytes);
    free(second.bytes);
    puts("settings: each row is as its table says");
    return 0;
}

/* Tests fields, their names, entries and information: fields QUOTED.img USER.img FIELDS.img. The
   first image is the sample's with features that cases/images.py changes, without names of fields;
   the last one is the same with a file of names beside it. */
#include "helpers.h"

/* The fields of the three entries and of the unknown words, up to the first that is absent. */
static const struct {
    const char *what, *line, *fields[6];
} FIELDS[] = {
    {"plain", "すもも", {"名詞", "す,も", "", "*", NULL}},
    {"quotes in quotes", "もも", {"名詞", "a\"b", "後", NULL}},
    {"blanks and an empty last field", "も", {"助詞", "も", NULL}},
    {"an unknown word", "z", {"未知", NULL}},
};

static void by_number(kumquatsieve_segmenter *segmenter) {
    for (size_t i = 0; i < COUNT_OF(FIELDS); i++) {
        const kumquatsieve_word *words = NULL;
        size_t number = 0, length = 0;
        const char *field = "";
        CHECK(segment_line(segmenter, FIELDS[i].line) == KUMQUATSIEVE_OK);
        CHECK(kumquatsieve_words(segmenter, &words, NULL, NULL) == KUMQUATSIEVE_OK);
        for (; FIELDS[i].fields[number]; number++) {
            CHECK_CASE(FIELDS[i].what, kumquatsieve_field(segmenter, words, number, &field, &length,
                                                          NULL) == KUMQUATSIEVE_OK);
            if (!field || !is_text(field, length, FIELDS[i].fields[number]))
                fprintf(stderr, "fields: %zu is %.*s\n", number, (int)length, field ? field : "");
            CHECK_CASE(FIELDS[i].what, field && is_text(field, length, FIELDS[i].fields[number]));
        }
        for (; number < 8; number++) {
            field = "";
            CHECK_CASE(FIELDS[i].what, kumquatsieve_field(segmenter, words, number, &field, &length,
                                                          NULL) == KUMQUATSIEVE_OK);
            CHECK_CASE(FIELDS[i].what, !field && length == 0);
        }
    }
}

/* The names are pos1, none, cType, orthBase. "*" is no field. */
static const struct {
    const char *line, *name;
    uint32_t code;
    const char *field;
} NAMED[] = {
    {"すもも", "pos1", KUMQUATSIEVE_OK, "名詞"},
    {"すもも", "cType", KUMQUATSIEVE_OK, ""},
    {"すもも", "conjugation_type", KUMQUATSIEVE_OK, ""},
    {"すもも", "orthBase", KUMQUATSIEVE_OK, NULL},
    {"すもも", "base_form", KUMQUATSIEVE_OK, NULL},
    {"もも", "cType", KUMQUATSIEVE_OK, "後"},
    {"もも", "base_form", KUMQUATSIEVE_OK, NULL},
    {"z", "pos1", KUMQUATSIEVE_OK, "未知"},
    {"z", "base_form", KUMQUATSIEVE_OK, NULL},
    {"z", "", KUMQUATSIEVE_NO_FIELD, NULL},
    {"z", "reading", KUMQUATSIEVE_NO_FIELD, NULL},
    {"z", "lemma", KUMQUATSIEVE_NO_FIELD, NULL},
};

static void by_name(kumquatsieve_segmenter *segmenter) {
    for (size_t i = 0; i < COUNT_OF(NAMED); i++) {
        const kumquatsieve_word *words = NULL;
        const char *field = "unset";
        size_t length = 5;
        CHECK(segment_line(segmenter, NAMED[i].line) == KUMQUATSIEVE_OK);
        CHECK(kumquatsieve_words(segmenter, &words, NULL, NULL) == KUMQUATSIEVE_OK);
        CHECK_CASE(NAMED[i].name, kumquatsieve_field_named(segmenter, words, NAMED[i].name, &field,
                                                           &length, NULL) == NAMED[i].code);
        const char *wanted = NAMED[i].code == KUMQUATSIEVE_OK ? NAMED[i].field : "unset";
        CHECK_CASE(NAMED[i].name,
                   wanted ? field && is_text(field, length, wanted) : !field && length == 0);
    }
}

/* Entries: of the system's lexicon, of the user's, prefixes, and none. */
static const struct {
    const char *what, *text;
    uint32_t flags;
    size_t count;
    struct {
        size_t dictionary, end;
        uint32_t token;
        uint8_t known;
    } words[4];
} ENTRIES[] = {
    {"one", "すもも", 0, 1, {{0, 9, 0, 1}}},
    {"of two dictionaries", "もも", 0, 2, {{0, 6, 2, 1}, {1, 6, 0, 1}}},
    {"none", "すも", 0, 0, {{0}}},
    {"an unknown word", "z", 0, 0, {{0}}},
    {"a longer text", "すももも", 0, 0, {{0}}},
    {"blanks before it", " もも", 0, 0, {{0}}},
    {"no text", "", KUMQUATSIEVE_PREFIXES, 0, {{0}}},
    {"prefixes", "すももも", KUMQUATSIEVE_PREFIXES, 1, {{0, 9, 0, 1}}},
    {"prefixes of two",
     "もももも",
     KUMQUATSIEVE_PREFIXES,
     3,
     {{0, 3, 1, 1}, {0, 6, 2, 1}, {1, 6, 0, 1}}},
    {"unknown ones", "zz", KUMQUATSIEVE_PREFIXES, 1, {{0, 2, 5, 0}}},
};

static void entries(kumquatsieve_dictionary *dictionary) {
    for (size_t i = 0; i < COUNT_OF(ENTRIES); i++) {
        kumquatsieve_word words[4];
        size_t count = 99, length = strlen(ENTRIES[i].text);
        memset(words, 0xaa, sizeof words);
        CHECK_CASE(ENTRIES[i].what,
                   kumquatsieve_lookup(dictionary, ENTRIES[i].text, length, ENTRIES[i].flags, words,
                                       4, &count, NULL) == KUMQUATSIEVE_OK &&
                       count == ENTRIES[i].count);
        for (size_t k = 0; k < count; k++) {
            CHECK_CASE(ENTRIES[i].what, words[k].dictionary == ENTRIES[i].words[k].dictionary &&
                                            words[k].end == ENTRIES[i].words[k].end &&
                                            words[k].token == ENTRIES[i].words[k].token &&
                                            words[k].known == ENTRIES[i].words[k].known);
        }
        CHECK_CASE(ENTRIES[i].what,
                   count == 4 || memchr(&words[count], 0xaa, 1) == (void *)&words[count]);
        CHECK_CASE(ENTRIES[i].what,
                   kumquatsieve_lookup(dictionary, ENTRIES[i].text, length, ENTRIES[i].flags, NULL,
                                       0, &count, NULL) == KUMQUATSIEVE_OK &&
                       count == ENTRIES[i].count);
    }
}

static void infos(kumquatsieve_dictionary *dictionary, const char *path, const file *images,
                  bool has_names) {
    static const char *const CATEGORIES[] = {"DEFAULT", "SPACE", "ALPHA"};
    kumquatsieve_info info;
    for (size_t i = 0; i < 2; i++) {
        CHECK(kumquatsieve_dictionary_info(dictionary, i, &info, NULL) == KUMQUATSIEVE_OK);
        CHECK(info.size == images[i].length && info.layout == 3 && info.is_user == i &&
              info.image_count == 2);
        CHECK(memcmp(info.sha256, images[i].bytes + info.size - 32, 32) == 0);
        CHECK(info.left_ids == 2 && info.right_ids == 2);
        CHECK(info.field_count == (has_names ? 4 : 0));
        if (!has_names) continue;
        CHECK(strcmp(info.fields[0], "pos1") == 0 && !info.fields[1] &&
              strcmp(info.fields[2], "cType") == 0 && strcmp(info.fields[3], "orthBase") == 0);
    }
    CHECK(info.entries == 1 && info.surfaces == 1 && info.unknown_entries == 0 &&
          info.category_count == 0 && !info.categories);
    CHECK(kumquatsieve_dictionary_info(dictionary, 0, &info, NULL) == KUMQUATSIEVE_OK);
    CHECK(path ? strcmp(info.path, path) == 0 : !info.path);
    CHECK(info.entries == 3 && info.surfaces == 3 && info.unknown_entries >= 4);
    for (size_t i = 0; i < COUNT_OF(CATEGORIES); i++)
        CHECK_CASE(CATEGORIES[i], strcmp(info.categories[i], CATEGORIES[i]) == 0);
}

/* Opens a segmenter over a system image alone. */
static kumquatsieve_segmenter alone(const char *path) {
    kumquatsieve_dictionary *dictionary = NULL;
    kumquatsieve_segmenter segmenter = KUMQUATSIEVE_EMPTY;
    CHECK(kumquatsieve_dictionary_open(&dictionary, path, NULL, 0, 0, NULL) == KUMQUATSIEVE_OK);
    CHECK(kumquatsieve_segmenter_open(&segmenter, dictionary, NULL) == KUMQUATSIEVE_OK);
    kumquatsieve_dictionary_release(dictionary);
    return segmenter;
}

int main(int given, char **paths) {
    CHECK(given == 4);
    const file images[] = {read_file(paths[1]), read_file(paths[2])};
    kumquatsieve_dictionary *dictionary = NULL, *named = NULL;
    kumquatsieve_segmenter segmenter = loaded(images[0]), other = alone(paths[3]);
    kumquatsieve_info info;
    const char *const users[] = {paths[2]};
    by_number(&segmenter);
    by_name(&other);
    CHECK(open_images(&dictionary, images, 2, NULL) == KUMQUATSIEVE_OK);
    CHECK(kumquatsieve_dictionary_open(&named, paths[3], users, 1, 0, NULL) == KUMQUATSIEVE_OK);
    entries(dictionary);
    CHECK(kumquatsieve_dictionary_info(dictionary, 0, &info, NULL) == KUMQUATSIEVE_OK);
    infos(dictionary, info.path ? paths[1] : NULL, images, false);
    infos(named, paths[3], images, true);
    kumquatsieve_segmenter_close(&segmenter);
    kumquatsieve_segmenter_close(&other);
    kumquatsieve_dictionary_release(dictionary);
    kumquatsieve_dictionary_release(named);
    free(images[0].bytes);
    free(images[1].bytes);
    printf("fields: %zu features, %zu names and %zu lookups\n", COUNT_OF(FIELDS), COUNT_OF(NAMED),
           COUNT_OF(ENTRIES));
    return 0;
}

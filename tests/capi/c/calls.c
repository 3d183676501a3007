/* Makes each call with each code that it can return but KUMQUATSIEVE_MEMORY, and with each NULL:
   calls SYSTEM.img USER.img NOTHING.img. The first two are compiled from the sample, and the last
   one does not exist. Each call fills the error with its code, and with a message if it fails. A
   call that fails leaves all outputs unchanged, but for those that a row names. */
#include "helpers.h"

enum { UNSET = 0xaa, LONGEST = 1048576, ROOM = 4 };

/* All outputs. */
static struct outputs {
    kumquatsieve_dictionary *dictionary;
    kumquatsieve_info info;
    kumquatsieve_word words[ROOM];
    kumquatsieve_line line;
    const kumquatsieve_word *borrowed_words;
    const kumquatsieve_node *borrowed_nodes;
    const char *text;
    char path[4096];
    size_t length, count;
    uint64_t lines;
} out, before;

static kumquatsieve_error error;
static kumquatsieve_segmenter full, empty, idle;
static kumquatsieve_dictionary *dictionary;
static const kumquatsieve_word *word;
static char long_line[LONGEST + 1];
static size_t rows;

static void prepare(void) {
    memset(&out, UNSET, sizeof out);
    memset(&before, UNSET, sizeof before);
    memset(&error, UNSET, sizeof error);
}

/* Checks the error that a call filled, and that it set no output if it failed. */
static void check_result(const char *what, uint32_t wanted, uint32_t code) {
    CHECK_CASE(what, code == wanted && error.code == code);
    CHECK_CASE(what, (code == KUMQUATSIEVE_OK) == (error.message[0] == 0));
    CHECK_CASE(what, memchr(error.message, 0, sizeof error.message));
    if (code != KUMQUATSIEVE_OK) CHECK_CASE(what, memcmp(&out, &before, sizeof out) == 0);
    if (code == KUMQUATSIEVE_OK) CHECK_CASE(what, memcmp(&out, &before, sizeof out) != 0);
    rows++;
}

/* A call that sets outputs if it succeeds. */
#define ROW(wanted, call)                                                                          \
    do {                                                                                           \
        prepare();                                                                                 \
        check_result(#call, KUMQUATSIEVE_##wanted, call);                                          \
    } while (0)

/* A call without outputs, or with NULL for them. */
#define PLAIN(wanted, call)                                                                        \
    do {                                                                                           \
        memset(&error, UNSET, sizeof error);                                                       \
        uint32_t code = (call);                                                                    \
        CHECK_CASE(#call, code == KUMQUATSIEVE_##wanted);                                          \
        rows++;                                                                                    \
    } while (0)

static void opened(file system, file user, const char *nothing) {
    const char *const users[] = {user.path, NULL};
#define OPEN kumquatsieve_dictionary_open
    ROW(OK, OPEN(&out.dictionary, system.path, users, 1, 0, &error));
    kumquatsieve_dictionary_release(out.dictionary);
    ROW(FILE, OPEN(&out.dictionary, nothing, NULL, 0, 0, &error));
    ROW(FILE, OPEN(&out.dictionary, "no-such-name", NULL, 0, 0, &error));
    ROW(NOT_SYSTEM, OPEN(&out.dictionary, user.path, NULL, 0, 0, &error));
    ROW(BAD_ARGUMENT, OPEN(&out.dictionary, system.path, users, 1, 1u << 31, &error));
    ROW(BAD_ARGUMENT, OPEN(&out.dictionary, system.path, users, 1, KUMQUATSIEVE_WHOLE, &error));
    ROW(BAD_ARGUMENT, OPEN(&out.dictionary, system.path, users, 2, 0, &error));
    ROW(BAD_ARGUMENT, OPEN(&out.dictionary, system.path, NULL, 1, 0, &error));
    ROW(BAD_ARGUMENT, OPEN(&out.dictionary, system.path, users, SIZE_MAX, 0, &error));
    PLAIN(OK, OPEN(NULL, system.path, users, 1, 0, &error));
    PLAIN(OK, OPEN(NULL, system.path, NULL, 0, 0, NULL));
    PLAIN(FILE, OPEN(NULL, nothing, NULL, 0, 0, NULL));
    PLAIN(BAD_ARGUMENT, OPEN(NULL, system.path, NULL, 0, 64, NULL));
#undef OPEN
}

static void from_memory(file system, file user) {
    const kumquatsieve_image images[] = {{system.bytes, system.length}, {user.bytes, user.length}};
    const kumquatsieve_image none[] = {{NULL, 0}, {NULL, 1}};
#define LOAD kumquatsieve_dictionary_load
    ROW(OK, LOAD(&out.dictionary, images, 2, KUMQUATSIEVE_SKIP_DIGEST, &error));
    kumquatsieve_dictionary_release(out.dictionary);
    ROW(TRUNCATED, LOAD(&out.dictionary, none, 1, 0, &error));
    ROW(TRUNCATED, LOAD(&out.dictionary, none, 1, KUMQUATSIEVE_TRUSTED, &error));
    ROW(NOT_SYSTEM, LOAD(&out.dictionary, images + 1, 1, 0, &error));
    ROW(BAD_ARGUMENT, LOAD(&out.dictionary, none + 1, 1, 0, &error));
    ROW(BAD_ARGUMENT, LOAD(&out.dictionary, images, 0, 0, &error));
    ROW(BAD_ARGUMENT, LOAD(&out.dictionary, NULL, 1, 0, &error));
    ROW(BAD_ARGUMENT, LOAD(&out.dictionary, images, 1, KUMQUATSIEVE_COPY, &error));
    ROW(MEMORY, LOAD(&out.dictionary, images, SIZE_MAX, 0, &error));
    PLAIN(OK, LOAD(NULL, images, 2, 0, NULL));
    PLAIN(TRUNCATED, LOAD(NULL, none, 1, 0, NULL));
#undef LOAD
}

static void infos(void) {
    ROW(OK, kumquatsieve_dictionary_info(dictionary, 1, &out.info, &error));
    ROW(BAD_ARGUMENT, kumquatsieve_dictionary_info(dictionary, 2, &out.info, &error));
    ROW(BAD_ARGUMENT, kumquatsieve_dictionary_info(dictionary, SIZE_MAX, &out.info, &error));
    ROW(EMPTY_SEGMENTER, kumquatsieve_dictionary_info(NULL, 0, &out.info, &error));
    PLAIN(OK, kumquatsieve_dictionary_info(dictionary, 0, NULL, NULL));
    PLAIN(EMPTY_SEGMENTER, kumquatsieve_dictionary_info(NULL, 0, NULL, NULL));
    CHECK(!kumquatsieve_dictionary_retain(NULL));
    kumquatsieve_dictionary_release(NULL);
}

static void lookups(void) {
#define LOOKUP kumquatsieve_lookup
    ROW(OK, LOOKUP(dictionary, "もも", 6, 0, out.words, ROOM, &out.count, &error));
    ROW(OK, LOOKUP(dictionary, NULL, 0, 0, out.words, ROOM, &out.count, &error));
    CHECK(out.count == 0);
    ROW(OK, LOOKUP(dictionary, "\xff", 1, 0, out.words, ROOM, &out.count, &error));
    CHECK(out.count == 0);
    ROW(OK, LOOKUP(dictionary, long_line, LONGEST + 1, 0, out.words, ROOM, &out.count, &error));
    CHECK(out.count == 0);
    ROW(EMPTY_SEGMENTER, LOOKUP(NULL, "もも", 6, 0, out.words, ROOM, &out.count, &error));
    ROW(BAD_ARGUMENT, LOOKUP(dictionary, NULL, 1, 0, out.words, ROOM, &out.count, &error));
    ROW(BAD_ARGUMENT, LOOKUP(dictionary, "もも", 6, 1, out.words, ROOM, &out.count, &error));
    ROW(BAD_ARGUMENT, LOOKUP(dictionary, "もも", 6, 0, NULL, 1, &out.count, &error));
    PLAIN(OK, LOOKUP(dictionary, "もも", 6, 0, NULL, 0, NULL, NULL));
    PLAIN(EMPTY_SEGMENTER, LOOKUP(NULL, NULL, 0, 0, NULL, 0, NULL, NULL));
#undef LOOKUP
}

static void segmenters(void) {
    kumquatsieve_segmenter own = KUMQUATSIEVE_EMPTY;
    PLAIN(OK, kumquatsieve_segmenter_open(&own, dictionary, &error));
    PLAIN(FULL_SEGMENTER, kumquatsieve_segmenter_open(&own, dictionary, &error));
    PLAIN(EMPTY_SEGMENTER, kumquatsieve_segmenter_open(&empty, NULL, &error));
    PLAIN(BAD_ARGUMENT, kumquatsieve_segmenter_open(NULL, dictionary, &error));
    PLAIN(BAD_ARGUMENT, kumquatsieve_segmenter_open(NULL, NULL, NULL));
    PLAIN(OK, kumquatsieve_shrink(&own, &error));
    PLAIN(OK, kumquatsieve_shrink(&own, NULL));
    PLAIN(EMPTY_SEGMENTER, kumquatsieve_shrink(&empty, &error));
    PLAIN(EMPTY_SEGMENTER, kumquatsieve_shrink(NULL, &error));
    PLAIN(OK, kumquatsieve_set_format(&own, NULL, NULL, NULL, NULL, &error));
    PLAIN(OK, kumquatsieve_set_format(&own, "%m", "", "[", "]", NULL));
    PLAIN(BAD_ESCAPE, kumquatsieve_set_format(&own, "\\q", NULL, NULL, NULL, &error));
    PLAIN(BAD_ITEM, kumquatsieve_set_format(&own, "%m", "%q", NULL, NULL, &error));
    PLAIN(BAD_INDEX, kumquatsieve_set_format(&own, "%f[x]", NULL, NULL, NULL, &error));
    PLAIN(NOT_UTF8, kumquatsieve_set_format(&own, NULL, NULL, "\xff", NULL, NULL));
    PLAIN(EMPTY_SEGMENTER, kumquatsieve_set_format(&empty, NULL, NULL, NULL, NULL, &error));
    PLAIN(EMPTY_SEGMENTER, kumquatsieve_set_format(NULL, "%q", NULL, NULL, NULL, NULL));
    PLAIN(OK, kumquatsieve_set_grouping(&own, 1000, &error));
    PLAIN(BAD_GROUPING, kumquatsieve_set_grouping(&own, 1001, &error));
    PLAIN(BAD_GROUPING, kumquatsieve_set_grouping(&own, UINT32_MAX, NULL));
    PLAIN(EMPTY_SEGMENTER, kumquatsieve_set_grouping(&empty, 1, &error));
    PLAIN(EMPTY_SEGMENTER, kumquatsieve_set_grouping(NULL, 1001, NULL));
    kumquatsieve_segmenter_close(&own);
    kumquatsieve_segmenter_close(&own);
    kumquatsieve_segmenter_close(NULL);
    CHECK(!own.held && !own.core && !own.state);
}

static void lines(void) {
#define SEGMENT kumquatsieve_segment
    ROW(OK, SEGMENT(&full, NULL, 0, 0, &out.line, &error));
    ROW(OK, SEGMENT(&full, "a\nb", 3, KUMQUATSIEVE_WHOLE, &out.line, &error));
    ROW(OK, SEGMENT(&full, long_line, LONGEST, 0, &out.line, &error));
    ROW(LINE_FEED, SEGMENT(&full, "a\nb", 3, 0, &out.line, &error));
    ROW(NOT_UTF8, SEGMENT(&full, "a\xff", 2, 0, &out.line, &error));
    ROW(NOT_UTF8, SEGMENT(&full, "\n\xff", 2, KUMQUATSIEVE_WHOLE, &out.line, &error));
    ROW(TOO_LONG, SEGMENT(&full, long_line, LONGEST + 1, 0, &out.line, &error));
    ROW(EMPTY_SEGMENTER, SEGMENT(&empty, "a\nb", 3, 0, &out.line, &error));
    ROW(EMPTY_SEGMENTER, SEGMENT(NULL, "a", 1, 0, &out.line, &error));
    ROW(BAD_ARGUMENT, SEGMENT(&full, NULL, 1, 0, &out.line, &error));
    ROW(BAD_ARGUMENT, SEGMENT(&full, "a", 1, KUMQUATSIEVE_PREFIXES, &out.line, &error));
    PLAIN(OK, SEGMENT(&full, LINE, strlen(LINE), 0, NULL, &error));
    PLAIN(NOT_UTF8, SEGMENT(&full, "\xff", 1, 0, NULL, NULL));
#undef SEGMENT
#define SEGMENT_TEXT kumquatsieve_segment_text
    ROW(OK, SEGMENT_TEXT(&full, NULL, 0, 0, 0, &out.line, &error));
    ROW(OK, SEGMENT_TEXT(&full, "\xff\n\xff", 3, 1, 0, &out.line, &error));
    ROW(OK, SEGMENT_TEXT(&full, "a", 1, 1, KUMQUATSIEVE_WHOLE, &out.line, &error));
    ROW(BAD_ARGUMENT, SEGMENT_TEXT(&full, "a", 1, 2, 0, &out.line, &error));
    ROW(BAD_ARGUMENT, SEGMENT_TEXT(&full, NULL, 1, 0, 0, &out.line, &error));
    ROW(BAD_ARGUMENT, SEGMENT_TEXT(&full, "a", 1, 0, ~0u, &out.line, &error));
    ROW(EMPTY_SEGMENTER, SEGMENT_TEXT(&empty, "a", 1, 2, 0, &out.line, &error));
    ROW(EMPTY_SEGMENTER, SEGMENT_TEXT(NULL, "a", 1, 0, 0, &out.line, &error));
    PLAIN(OK, SEGMENT_TEXT(&full, LINE, strlen(LINE), 0, 0, NULL, NULL));
#undef SEGMENT_TEXT
#define PARSE kumquatsieve_parse_lines
    ROW(OK, PARSE(&idle, "a\n", 2, &out.text, &out.length, &out.lines, &error));
    ROW(OK, PARSE(&idle, NULL, 0, &out.text, &out.length, &out.lines, &error));
    ROW(EMPTY_SEGMENTER, PARSE(&empty, "a", 1, &out.text, &out.length, &out.lines, &error));
    ROW(EMPTY_SEGMENTER, PARSE(NULL, "a", 1, &out.text, &out.length, &out.lines, &error));
    ROW(BAD_ARGUMENT, PARSE(&idle, NULL, 1, &out.text, &out.length, &out.lines, &error));
    PLAIN(NOT_UTF8, PARSE(&idle, "a\n\xff\n", 4, &out.text, &out.length, &out.lines, &error));
    CHECK(out.lines == 2 && is_text(out.text, out.length, "a\t未知\nEOS\n"));
    PLAIN(TOO_LONG, PARSE(&idle, long_line, LONGEST + 1, NULL, NULL, NULL, &error));
    PLAIN(NOT_UTF8, PARSE(&idle, "\xff", 1, NULL, NULL, NULL, NULL));
    PLAIN(OK, PARSE(&idle, "a", 1, NULL, NULL, NULL, NULL));
#undef PARSE
}

static void results(void) {
#define WORDS kumquatsieve_words
#define NODES kumquatsieve_nodes
#define PRINT kumquatsieve_print
#define FEATURES kumquatsieve_features
    ROW(OK, WORDS(&full, &out.borrowed_words, &out.count, &error));
    ROW(NOTHING_SEGMENTED, WORDS(&idle, &out.borrowed_words, &out.count, &error));
    ROW(EMPTY_SEGMENTER, WORDS(&empty, &out.borrowed_words, &out.count, &error));
    ROW(EMPTY_SEGMENTER, WORDS(NULL, &out.borrowed_words, &out.count, &error));
    PLAIN(OK, WORDS(&full, NULL, NULL, NULL));
    ROW(OK, NODES(&full, &out.borrowed_nodes, &out.count, &error));
    ROW(NOTHING_SEGMENTED, NODES(&idle, &out.borrowed_nodes, &out.count, &error));
    ROW(EMPTY_SEGMENTER, NODES(&empty, &out.borrowed_nodes, &out.count, &error));
    ROW(EMPTY_SEGMENTER, NODES(NULL, &out.borrowed_nodes, &out.count, &error));
    PLAIN(OK, NODES(&full, NULL, NULL, NULL));
    ROW(OK, PRINT(&full, &out.text, &out.length, &error));
    ROW(NOTHING_SEGMENTED, PRINT(&idle, &out.text, &out.length, &error));
    ROW(EMPTY_SEGMENTER, PRINT(&empty, &out.text, &out.length, &error));
    ROW(EMPTY_SEGMENTER, PRINT(NULL, &out.text, &out.length, &error));
    PLAIN(OK, PRINT(&full, NULL, NULL, NULL));
    ROW(OK, FEATURES(&full, &out.text, &out.length, &error));
    ROW(NOTHING_SEGMENTED, FEATURES(&idle, &out.text, &out.length, &error));
    ROW(EMPTY_SEGMENTER, FEATURES(&empty, &out.text, &out.length, &error));
    ROW(EMPTY_SEGMENTER, FEATURES(NULL, &out.text, &out.length, &error));
    PLAIN(OK, FEATURES(&full, NULL, NULL, NULL));
#undef WORDS
#undef NODES
#undef PRINT
#undef FEATURES
}

static void fields(void) {
#define FEATURE kumquatsieve_feature
#define FIELD kumquatsieve_field
#define NAMED kumquatsieve_field_named
    CHECK(kumquatsieve_words(&full, &word, NULL, NULL) == KUMQUATSIEVE_OK);
    ROW(OK, FEATURE(&full, word, &out.text, &out.length, &error));
    ROW(OK, FEATURE(&idle, word, &out.text, &out.length, &error));
    ROW(EMPTY_SEGMENTER, FEATURE(&empty, word, &out.text, &out.length, &error));
    ROW(EMPTY_SEGMENTER, FEATURE(NULL, NULL, &out.text, &out.length, &error));
    ROW(BAD_ARGUMENT, FEATURE(&full, NULL, &out.text, &out.length, &error));
    PLAIN(OK, FEATURE(&full, word, NULL, NULL, NULL));
    ROW(OK, FIELD(&full, word, 1, &out.text, &out.length, &error));
    ROW(OK, FIELD(&full, word, SIZE_MAX, &out.text, &out.length, &error));
    CHECK(!out.text && out.length == 0);
    ROW(EMPTY_SEGMENTER, FIELD(&empty, word, 1, &out.text, &out.length, &error));
    ROW(EMPTY_SEGMENTER, FIELD(NULL, word, 1, &out.text, &out.length, &error));
    ROW(BAD_ARGUMENT, FIELD(&full, NULL, 1, &out.text, &out.length, &error));
    PLAIN(OK, FIELD(&full, word, 1, NULL, NULL, NULL));
    ROW(NO_FIELD, NAMED(&full, word, "no such field", &out.text, &out.length, &error));
    ROW(EMPTY_SEGMENTER, NAMED(&empty, word, "pos1", &out.text, &out.length, &error));
    ROW(EMPTY_SEGMENTER, NAMED(NULL, word, "pos1", &out.text, &out.length, &error));
    ROW(BAD_ARGUMENT, NAMED(&full, word, NULL, &out.text, &out.length, &error));
    PLAIN(NO_FIELD, NAMED(&full, word, "no such field", NULL, NULL, NULL));
}

static void names(void) {
    char room[4096];
    size_t needed = 0;
    ROW(OK, kumquatsieve_find_image("./x", out.path, sizeof out.path, &out.length, &error));
    ROW(FILE, kumquatsieve_find_image("no-such-name", out.path, 4, &out.length, &error));
    ROW(BAD_ARGUMENT, kumquatsieve_find_image("./x", NULL, 4, &out.length, &error));
    PLAIN(SHORT_BUFFER, kumquatsieve_find_image("./x", room, 3, &needed, &error));
    CHECK(needed == 4);
    PLAIN(SHORT_BUFFER, kumquatsieve_find_image("./x", NULL, 0, NULL, NULL));
    PLAIN(OK, kumquatsieve_list_images(room, sizeof room, NULL, &error));
    PLAIN(BAD_ARGUMENT, kumquatsieve_list_images(NULL, 1, &needed, &error));
    PLAIN(OK, kumquatsieve_list_directories(room, sizeof room, &needed, &error));
    PLAIN(BAD_ARGUMENT, kumquatsieve_list_directories(NULL, 1, NULL, &error));
    PLAIN(SHORT_BUFFER, kumquatsieve_list_directories(NULL, 0, NULL, NULL));
    CHECK(!kumquatsieve_explain(2) && kumquatsieve_explain(KUMQUATSIEVE_NO_FIELD));
    CHECK(kumquatsieve_version() == KUMQUATSIEVE_VERSION_NUMBER);
}

int main(int given, char **paths) {
    CHECK(given == 4);
    file system = read_file(paths[1]), user = read_file(paths[2]);
    const file both[] = {system, user};
    memset(long_line, 'z', sizeof long_line);
    CHECK(open_images(&dictionary, both, 2, NULL) == KUMQUATSIEVE_OK);
    CHECK(kumquatsieve_segmenter_open(&full, dictionary, NULL) == KUMQUATSIEVE_OK);
    CHECK(kumquatsieve_segmenter_open(&idle, dictionary, NULL) == KUMQUATSIEVE_OK);
    opened(system, user, paths[3]);
    from_memory(system, user);
    infos();
    lookups();
    segmenters();
    lines();
    results();
    fields();
    names();
    kumquatsieve_segmenter_close(&full);
    kumquatsieve_segmenter_close(&idle);
    kumquatsieve_dictionary_release(dictionary);
    free(system.bytes);
    free(user.bytes);
    printf("calls: %zu calls with each code and each NULL; a failure leaves the outputs\n", rows);
    return 0;
}

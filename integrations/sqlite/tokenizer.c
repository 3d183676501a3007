/* The tokenizer `kumquatsieve` of FTS5. */
#include "extension.h"
#include <utf8proc.h>

enum { LONG_TEXT = 65536 }; /* bytes, after which the segmenter's memory is freed */

/* What utf8proc_NFKC_Casefold does. */
#define NFKC_CASEFOLD                                                                              \
    (UTF8PROC_STABLE | UTF8PROC_COMPOSE | UTF8PROC_COMPAT | UTF8PROC_CASEFOLD | UTF8PROC_IGNORE)

/* The options that have one of a few values, of which the first is the default. Then those that are
   texts, of which several are joined with commas: names of dictionaries, prefixes of features, in
   which `-` also stands for a comma, and the fingerprint of the dictionary of the index. */
enum { BASE, FOLD, DIGEST, DICT, USERS, STOP, EXPECT, OPTIONS };
enum { BASE_OFF, BASE_COLOCATED, BASE_ONLY };
static const char *const NAMES[] = {"base", "fold", "digest", "dict", "users", "stop", "expect"};
static const char *const CHOICES[] = {"off, colocated or only", "off or on", "skip or test"};
static const char *const VALUES[][4] = {
    {"off", "colocated", "only"}, {"off", "on"}, {"skip", "test"}};
static const char UNKNOWN[] =
    "unknown option '%s'; the options are dict, users, stop, base, fold, digest and expect";
static const char UNNAMED[] =
    "option base needs the names of the fields of '%s', which kumquatsieve-import writes";
static const char IS_OTHER[] = "'%s' is not the dictionary of the index, which expects %s; install "
                               "that one again, or create the table again for this one";

typedef struct span {
    const char *text;
    size_t length;
} span;

/* A tokenizer of a table. An option has the number of its value, or a text, or NULL. `is_other` is
   whether the index has another dictionary. The buffers are for a folded surface and base form. A
   call has its text in `reader`, where it is NULL between calls, and FTS5's callback in `take`. */
typedef struct tokenizer {
    word_reader reader;
    size_t values[DICT];
    char *texts[OPTIONS];
    int32_t *buffers[2];
    int (*take)(void *context, int flags, const char *token, int length, int start, int end);
    void *context;
    bool is_other, is_query;
} tokenizer;

static void delete_tokenizer(Fts5Tokenizer *made) {
    tokenizer *of = (tokenizer *)made;
    kumquatsieve_segmenter_close(&of->reader.segmenter);
    for (size_t i = 0; i < OPTIONS; i++) sqlite3_free(of->texts[i]);
    for (size_t i = 0; i < 2; i++) sqlite3_free(of->buffers[i]);
    sqlite3_free(of);
}

/* Sets an option to one of its values, or appends a value to its text. */
static int read_option(tokenizer *of, const char *name, const char *value) {
    connection *in = of->reader.in;
    size_t option = 0, chosen = 0;
    while (option < OPTIONS && sqlite3_stricmp(name, NAMES[option]) != 0) option++;
    if (option == OPTIONS) return report(in, UNKNOWN, name);
    if (!value) return report(in, "option '%s' has no value", name);
    if (option >= DICT) {
        char *before = of->texts[option];
        of->texts[option] = sqlite3_mprintf("%z%s%s", before, before ? "," : "", value);
        return of->texts[option] ? SQLITE_OK : SQLITE_NOMEM;
    }
    const char *const *values = VALUES[option];
    while (values[chosen] && sqlite3_stricmp(value, values[chosen]) != 0) chosen++;
    of->values[option] = chosen;
    if (values[chosen]) return SQLITE_OK;
    return report(in, "option %s takes %s, not '%s'", NAMES[option], CHOICES[option], value);
}

/* Tests that the dictionary has base forms if the index has them. Another dictionary than the one
   of the index is no error here, so that rows can be read and the table can be dropped. */
static int check_dictionary(tokenizer *of) {
    kumquatsieve_error error = {.code = KUMQUATSIEVE_OK};
    if (of->values[BASE] != BASE_OFF)
        kumquatsieve_field_named(&of->reader.segmenter, &(kumquatsieve_word){.known = 1},
                                 "base_form", NULL, NULL, &error);
    if (error.code == KUMQUATSIEVE_NO_FIELD) return report(of->reader.in, UNNAMED, of->texts[DICT]);
    if (error.code != KUMQUATSIEVE_OK) return report_error(of->reader.in, &error);
    char *found = make_fingerprint(of->reader.in->dictionary);
    of->is_other = found && of->texts[EXPECT] && strcmp(of->texts[EXPECT], found) != 0;
    sqlite3_free(found);
    return found ? SQLITE_OK : SQLITE_NOMEM;
}

/* The arguments are those of `tokenize`, in which names and values alternate. */
static int create_tokenizer(void *held, const char **arguments, int count, Fts5Tokenizer **made) {
    tokenizer *of = sqlite3_malloc(sizeof *of);
    int code = SQLITE_OK;
    if (!of) return SQLITE_NOMEM;
    *of = (tokenizer){.reader = {.in = held}};
    for (int i = 0; i < count && code == SQLITE_OK; i += 2)
        code = read_option(of, arguments[i], i + 1 < count ? arguments[i + 1] : NULL);
    if (code == SQLITE_OK && !of->texts[DICT]) code = read_option(of, "dict", "");
    if (code == SQLITE_OK && of->texts[USERS]) code = read_option(of, "dict", of->texts[USERS]);
    uint32_t flags = of->values[DIGEST] ? KUMQUATSIEVE_TEST_DIGEST : 0;
    if (code == SQLITE_OK) code = open_segmenter(&of->reader, of->texts[DICT], flags);
    if (code == SQLITE_OK) code = check_dictionary(of);
    *made = code == SQLITE_OK ? (Fts5Tokenizer *)of : NULL;
    if (code != SQLITE_OK) delete_tokenizer((Fts5Tokenizer *)of);
    return code;
}

/* Returns whether a feature starts with a stop of a list, in which `-` also stands for a comma. */
static bool is_stopped(const char *stops, const char *feature, size_t feature_length) {
    for (size_t at, length; *stops; stops += length + (stops[length] == ',')) {
        length = strcspn(stops, ",");
        for (at = 0; at < length && at < feature_length; at++)
            if (feature[at] != stops[at] && !(feature[at] == ',' && stops[at] == '-')) break;
        if (length > 0 && at == length) return true;
    }
    return false;
}

/* Replaces a text by its NFKC_Casefold, in the buffer. Leaves a text that is not UTF-8, or of which
   nothing would remain. */
static int fold(int32_t **buffer, span *text) {
    const utf8proc_uint8_t *bytes = (const utf8proc_uint8_t *)text->text;
    /* Three bytes become 18 characters at most, and a zero byte follows the last one. */
    const size_t room = 6 * text->length + 1;
    if (sqlite3_msize(*buffer) < room * sizeof **buffer) {
        sqlite3_free(*buffer);
        *buffer = sqlite3_malloc64(room * sizeof **buffer);
        if (!*buffer) return SQLITE_NOMEM;
    }
    utf8proc_ssize_t length = utf8proc_decompose(bytes, text->length, *buffer, room, NFKC_CASEFOLD);
    if ((size_t)length >= room) return SQLITE_OK;
    length = utf8proc_reencode(*buffer, length, NFKC_CASEFOLD);
    if (length > 0) *text = (span){(const char *)*buffer, (size_t)length};
    return SQLITE_OK;
}

/* Gives FTS5 the tokens of the current word: its surface, or its base form, or both. */
static int take_word(tokenizer *of) {
    const kumquatsieve_word *word = &of->reader.words[of->reader.number];
    kumquatsieve_segmenter *segmenter = &of->reader.segmenter;
    kumquatsieve_error *error = &of->reader.error;
    const char *stops = of->texts[STOP];
    span feature = {"", 0}, base = {NULL, 0};
    if (stops) kumquatsieve_feature(segmenter, word, &feature.text, &feature.length, error);
    if (stops && is_stopped(stops, feature.text, feature.length)) return SQLITE_OK;
    if (of->values[BASE] != BASE_OFF && error->code == KUMQUATSIEVE_OK)
        kumquatsieve_field_named(segmenter, word, "base_form", &base.text, &base.length, error);
    int code = report_error(of->reader.in, error);
    bool has_base = base.text && base.length > 0, is_only = of->values[BASE] == BASE_ONLY;
    span tokens[] = {{of->reader.text + word->start, word->end - word->start}, base};
    size_t count = has_base && !is_only && !of->is_query ? 2 : 1;
    if (has_base && is_only) tokens[0] = base;
    for (size_t i = 0; i < count && code == SQLITE_OK; i++) {
        if (of->values[FOLD]) code = fold(&of->buffers[i], &tokens[i]);
        bool is_same = i > 0 && tokens[0].length == tokens[1].length &&
                       memcmp(tokens[0].text, tokens[1].text, tokens[0].length) == 0;
        if (code == SQLITE_OK && !is_same)
            code = of->take(of->context, i > 0 ? FTS5_TOKEN_COLOCATED : 0, tokens[i].text,
                            (int)tokens[i].length, (int)word->start, (int)word->end);
    }
    return code;
}

static int tokenize(Fts5Tokenizer *made, void *context, int flags, const char *text, int length,
                    int (*take)(void *, int, const char *, int, int, int)) {
    tokenizer *of = (tokenizer *)made;
    word_reader *reader = &of->reader;
    const size_t size = length > 0 ? (size_t)length : 0;
    int code = SQLITE_OK;
    if (reader->text) return SQLITE_MISUSE;
    if (of->is_other) return report(reader->in, IS_OTHER, of->texts[DICT], of->texts[EXPECT]);
    *reader = (word_reader){.in = reader->in, .segmenter = reader->segmenter, .text = text};
    of->take = take;
    of->context = context;
    of->is_query = (flags & FTS5_TOKENIZE_QUERY) != 0;
    /* FTS5's index has no token with a zero byte, so such a byte ends a line. */
    for (; reader->next < size && code == SQLITE_OK; reader->next = reader->length + 1) {
        reader->length = reader->next + strnlen(text + reader->next, size - reader->next);
        while ((code = read_word(reader)) == SQLITE_OK && reader->number < reader->count)
            if ((code = take_word(of)) != SQLITE_OK) break;
    }
    reader->text = NULL;
    if (size > LONG_TEXT) kumquatsieve_shrink(&reader->segmenter, NULL);
    return code;
}

fts5_tokenizer kumquatsieve_tokenizer = {create_tokenizer, delete_tokenizer, tokenize};

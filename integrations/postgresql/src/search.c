/* The text search parser and templates of dictionaries. Japanese words are tokens by their part of
   speech. Other text, such as English words, numbers and addresses, has the tokens of PostgreSQL's
   default parser. kumquatsieve_base returns base forms, and kumquatsieve_stop drops words. */
#include "extension.h"

#include <commands/defrem.h>
#include <common/unicode_norm.h>
#include <mb/pg_wchar.h>
#include <miscadmin.h>
#include <tsearch/ts_locale.h>
#include <tsearch/ts_public.h>
#include <utils/fmgrprotos.h>

PG_FUNCTION_INFO_V1(parser_start);
PG_FUNCTION_INFO_V1(parser_next);
PG_FUNCTION_INFO_V1(parser_end);
PG_FUNCTION_INFO_V1(parser_types);
PG_FUNCTION_INFO_V1(dictionary_init);
PG_FUNCTION_INFO_V1(base_lexize);
PG_FUNCTION_INFO_V1(stop_lexize);

/* The types that follow those of PostgreSQL's default parser: their names, their descriptions, and
   the first fields of their features in IPADIC, NAIST, UniDic and Juman. A word whose feature
   starts with none of them has the type `other`. The last row has the features of blanks. */
enum { BLANK = 12, USUAL_LAST = 23 }; /* the default parser's type of blanks, and its last type */
enum { NAME, DESCRIPTION, PARTS, COLUMNS = 8 };
static const char *const TYPES[][COLUMNS] = {
    {"noun", "Noun", "名詞", "記号,アルファベット", "記号,文字"},
    {"proper_noun", "Proper noun", "名詞,固有名詞", "名詞,地名", "名詞,人名", "名詞,組織名"},
    {"pronoun", "Pronoun", "名詞,代名詞", "代名詞", "指示詞"},
    {"numeral", "Numeral", "名詞,数", "名詞,数詞"},
    {"verb", "Verb", "動詞"},
    {"adjective", "Adjective", "形容詞", "形状詞"},
    {"adverb", "Adverb", "副詞"},
    {"adnominal", "Adnominal", "連体詞"},
    {"conjunction", "Conjunction", "接続詞"},
    {"interjection", "Interjection", "感動詞", "フィラー"},
    {"prefix", "Prefix", "接頭詞", "接頭辞"},
    {"suffix", "Suffix", "接尾辞", "名詞,接尾", "形容詞,接尾"},
    {"dependent", "Dependent noun, verb or adjective", "名詞,非自立", "名詞,形式名詞",
     "名詞,助動詞語幹", "動詞,非自立", "形容詞,非自立"},
    {"particle", "Particle", "助詞"},
    {"auxiliary", "Auxiliary verb", "助動詞", "判定詞", "動詞,接尾"},
    {"symbol", "Punctuation or symbol", "記号", "補助記号", "特殊"},
    {"other", "Word of another part of speech"},
    {NULL, NULL, "記号,空白", "特殊,空白", "空白"},
};
enum { BLANKS = lengthof(TYPES) - 1, OTHER = BLANKS - 1 };

/* The text before `at` has been returned as tokens. The current line starts at `line` and ends
   before `line_end`, and `next` is the number of its next word. `run` is the default parser over
   the text up to `at`, or 0. */
typedef struct parser {
    const char *text;
    size_t length, line, line_end, at, next;
    Datum run;
} parser;

/* Returns all types. */
Datum parser_types(PG_FUNCTION_ARGS) {
    Datum usual = DirectFunctionCall1(prsd_lextype, PG_GETARG_DATUM(0));
    LexDescr *all = repalloc(DatumGetPointer(usual), (USUAL_LAST + BLANKS + 1) * sizeof *all);
    for (int i = 0; i < BLANKS; i++)
        all[USUAL_LAST + i] =
            (LexDescr){USUAL_LAST + 1 + i, pstrdup(TYPES[i][NAME]), pstrdup(TYPES[i][DESCRIPTION])};
    all[USUAL_LAST + BLANKS].lexid = 0;
    PG_RETURN_POINTER(all);
}

/* Returns the type that has the most fields at the start of a word's feature. */
static int type_of(const kumquatsieve_word *word) {
    const char *feature = NULL;
    size_t length = 0, longest = 0;
    int found = OTHER;
    if (kumquatsieve_feature(current_segmenter(), word, &feature, &length, &failure))
        report("could not find the feature of a word");
    for (int i = 0; i <= BLANKS; i++)
        for (const char *const *part = &TYPES[i][PARTS]; *part; part++) {
            size_t end = strlen(*part);
            if (end <= longest || end > length || memcmp(feature, *part, end) != 0) continue;
            if (end < length && feature[end] != ',') continue;
            found = i;
            longest = end;
        }
    return found == BLANKS ? BLANK : USUAL_LAST + 1 + found;
}

/* Another text may have had the address of this one, so the last line is forgotten. */
Datum parser_start(PG_FUNCTION_ARGS) {
    parser *made = palloc0(sizeof *made);
    made->text = (const char *)PG_GETARG_POINTER(0);
    made->length = (size_t)PG_GETARG_INT32(1);
    last_line.text = NULL;
    current_segmenter();
    PG_RETURN_POINTER(made);
}

Datum parser_end(PG_FUNCTION_ARGS) {
    parser *of = (parser *)PG_GETARG_POINTER(0);
    if (of->run) DirectFunctionCall1(prsd_end, of->run);
    pfree(of);
    forget_line();
    PG_RETURN_VOID();
}

/* Makes the line with the next token the last line. Segments it again if another parser has used
   the segmenter. */
static void go_to_line(parser *of) {
    kumquatsieve_segmenter *segmenter = current_segmenter();
    kumquatsieve_line line;
    if (of->at == of->line_end) of->line = of->at;
    if (last_line.text == of->text && last_line.end > of->at) return;
    last_line.text = NULL;
    last_line.longest = Max(last_line.longest, of->length - of->line);
    if (kumquatsieve_segment_text(segmenter, of->text, of->length, of->line, 0, &line, &failure) ||
        kumquatsieve_words(segmenter, &last_line.words, &last_line.count, &failure))
        report("could not segment a text");
    last_line.text = of->text;
    last_line.end = of->line_end = line.end;
    of->next = 0;
    while (of->next < last_line.count && last_line.words[of->next].start < of->at) of->next++;
}

/* Returns whether the default parser splits a word, because all characters up to its end are ASCII,
   or letters of U+00C0 to U+024F. A word of a user dictionary stays whole. */
static bool is_foreign(const parser *of, const kumquatsieve_word *word) {
    const unsigned char *at = (const unsigned char *)of->text + of->at;
    for (; at < (const unsigned char *)of->text + word->end; at += pg_utf_mblen(at)) {
        pg_wchar character = utf8_to_unicode(at);
        bool is_sign = character < 0xc0 || character == 0xd7 || character == 0xf7;
        if (character > 0x24f || (character >= 0x80 && is_sign)) return false;
    }
    return word->dictionary == 0;
}

/* Returns the next token of the default parser. If it is not open, opens it over the next word and
   those that follow and that it splits. After its last token, closes it and returns 0. */
static int run_token(parser *of, Datum text, Datum length) {
    const kumquatsieve_word *words = last_line.words;
    if (!of->run) {
        const char *start = of->text + of->at;
        do of->at = words[of->next++].end;
        while (of->next < last_line.count && is_foreign(of, &words[of->next]));
        of->run = DirectFunctionCall2(prsd_start, PointerGetDatum(start),
                                      Int32GetDatum((int32)(of->text + of->at - start)));
    }
    int type = DatumGetInt32(DirectFunctionCall3(prsd_nexttoken, of->run, text, length));
    if (type > 0) return type;
    DirectFunctionCall1(prsd_end, of->run);
    of->run = (Datum)0;
    return 0;
}

Datum parser_next(PG_FUNCTION_ARGS) {
    parser *of = (parser *)PG_GETARG_POINTER(0);
    Datum text = PG_GETARG_DATUM(1), length = PG_GETARG_DATUM(2);
    int type = of->run ? run_token(of, text, length) : 0;
    CHECK_FOR_INTERRUPTS();
    if (type > 0 || of->at == of->length) PG_RETURN_INT32(type);
    go_to_line(of);
    const kumquatsieve_word *word = &last_line.words[of->next];
    const char *start = of->text + of->at;
    size_t end = of->next < last_line.count ? word->start : of->line_end;
    if (of->at < end) {
        type = BLANK; /* no more of them than PostgreSQL accepts in a token */
        of->at += pg_mbcliplen(start, (int)(end - of->at), MAXSTRLEN - 1);
    } else if (is_foreign(of, word)) {
        PG_RETURN_INT32(run_token(of, text, length));
    } else {
        type = type_of(word);
        of->at = word->end;
        of->next++;
    }
    *(const char **)DatumGetPointer(text) = start;
    *(int *)DatumGetPointer(length) = (int)(of->text + of->at - start);
    PG_RETURN_INT32(type);
}

/* The options of a dictionary: the words that are dropped, the field of the feature that is the
   base form, and whether the form NFKC replaces it. */
typedef struct options {
    StopList stop;
    const char *field;
    bool folds;
} options;

Datum dictionary_init(PG_FUNCTION_ARGS) {
    options *made = palloc(sizeof *made);
    ListCell *cell;
    *made = (options){.field = "base_form", .folds = true};
    foreach (cell, (List *)PG_GETARG_POINTER(0)) {
        DefElem *option = lfirst(cell);
        if (strcmp(option->defname, "field") == 0)
            made->field = defGetString(option);
        else if (strcmp(option->defname, "fold") == 0)
            made->folds = defGetBoolean(option);
        else if (strcmp(option->defname, "stopwords") == 0)
            readstoplist(defGetString(option), &made->stop, lowerstr);
        else
            ereport(ERROR, (errcode(ERRCODE_INVALID_PARAMETER_VALUE),
                            errmsg("unrecognized option \"%s\"", option->defname),
                            errhint("The options are Field, Fold and StopWords.")));
    }
    PG_RETURN_POINTER(made);
}

/* Compares an offset with the start of a word. */
static int compare_start(const void *offset, const void *word) {
    size_t wanted = *(const size_t *)offset, start = ((const kumquatsieve_word *)word)->start;
    return (wanted > start) - (wanted < start);
}

/* Finds the word that a token is: the word of the last line if the token lies in its text, and else
   the entry of least cost with this surface. Returns false if there is none. */
static bool find_word(const char *token, size_t length, kumquatsieve_word *word) {
    kumquatsieve_word entries[128], *found = NULL;
    size_t start = (uintptr_t)token - (uintptr_t)last_line.text, count = 0;
    if (last_line.text && start < last_line.end && last_line.count > 0)
        found = bsearch(&start, last_line.words, last_line.count, sizeof *found, compare_start);
    if (found && found->end == start + length)
        entries[count++] = *found;
    else if (kumquatsieve_lookup(current_dictionary(), token, length, 0, entries, lengthof(entries),
                                 &count, &failure))
        report("could not look up a word");
    for (size_t i = 0; i < Min(count, lengthof(entries)); i++)
        if (i == 0 || entries[i].cost < word->cost) *word = entries[i];
    return count > 0;
}

/* Returns a text in the form NFKC and in lower case. */
static char *folded(const char *text, size_t length) {
    pg_wchar *given = palloc((length + 1) * sizeof *given), *wide = given;
    pg_mb2wchar_with_len(text, given, (int)length);
    if (unicode_is_normalized_quickcheck(UNICODE_NFKC, given) != UNICODE_NORM_QC_YES)
        wide = unicode_normalize(UNICODE_NFKC, given);
    size_t count = pg_wchar_strlen(wide);
    char *form = palloc(count * MAX_MULTIBYTE_CHAR_LEN + 1);
    pg_wchar2mb_with_len(wide, form, (int)count);
    char *made = lowerstr(form);
    if (wide != given) pfree(wide);
    pfree(given);
    pfree(form);
    return made;
}

/* Returns the base form of a token in lower case, or the token if it has none. Frees all but the
   lexeme, because a text may have millions of words. */
static char *lexeme_of(const options *of, const char *token, size_t length) {
    kumquatsieve_word word;
    const char *base = NULL;
    size_t size = 0;
    if (find_word(token, length, &word) &&
        kumquatsieve_field_named(current_segmenter(), &word, of->field, &base, &size, &failure))
        report(psprintf("could not find the field \"%s\" of a word", of->field));
    if (!base || size == 0) base = token, size = length;
    return of->folds ? folded(base, size) : lowerstr_with_len(base, (int)size);
}

/* Returns the base form, or drops a stop word. A lexeme that is too long for a tsvector is dropped,
   as PostgreSQL drops such tokens. */
Datum base_lexize(PG_FUNCTION_ARGS) {
    options *of = (options *)PG_GETARG_POINTER(0);
    TSLexeme *made = palloc0(2 * sizeof *made);
    char *lexeme = lexeme_of(of, PG_GETARG_POINTER(1), (size_t)PG_GETARG_INT32(2));
    bool is_kept = *lexeme && strlen(lexeme) < MAXSTRLEN && !searchstoplist(&of->stop, lexeme);
    if (is_kept) made->lexeme = lexeme;
    if (!is_kept) pfree(lexeme);
    PG_RETURN_POINTER(made);
}

/* Drops a word whose base form is in the list, or each word if there is no list. Others go to the
   next dictionary. */
Datum stop_lexize(PG_FUNCTION_ARGS) {
    options *of = (options *)PG_GETARG_POINTER(0);
    if (of->stop.len == 0) PG_RETURN_POINTER(palloc0(2 * sizeof(TSLexeme)));
    char *lexeme = lexeme_of(of, PG_GETARG_POINTER(1), (size_t)PG_GETARG_INT32(2));
    bool is_dropped = searchstoplist(&of->stop, lexeme);
    pfree(lexeme);
    PG_RETURN_POINTER(is_dropped ? palloc0(2 * sizeof(TSLexeme)) : NULL);
}

/* A loadable extension of SQLite: a tokenizer for FTS5, and functions on dictionaries and words
   (docs/SEARCH.md). What a connection registers is freed when it is closed, so SQLite may unload
   the extension then. For static use compile with SQLITE_CORE, and call
   sqlite3_kumquatsieve_init(database, NULL, NULL) or register it with sqlite3_auto_extension. */
#include "extension.h"
SQLITE_EXTENSION_INIT1

int keep_error(connection *of, char *text) {
    sqlite3_free(of->error);
    of->error = text ? sqlite3_mprintf("kumquatsieve: %z", text) : NULL;
    if (!of->error) return SQLITE_NOMEM;
    sqlite3_log(SQLITE_ERROR, "%s", of->error);
    return SQLITE_ERROR;
}

int report_error(connection *of, const kumquatsieve_error *error) {
    static const char ADVICE[] = "\nWhat to do: ";
    if (error->code == KUMQUATSIEVE_OK) return SQLITE_OK;
    if (error->code == KUMQUATSIEVE_MEMORY) return SQLITE_NOMEM;
    const char *text = kumquatsieve_explain(error->code), *at = text ? strstr(text, ADVICE) : NULL;
    const char *advice = at ? at + strlen(ADVICE) : "";
    return report(of, "%s. %.*s", error->message, (int)strcspn(advice, "\n"), advice);
}

int open_segmenter(word_reader *of, const char *list, uint32_t flags) {
    kumquatsieve_dictionary *opened = NULL;
    size_t most = strlen(list) + 1, count = 0;
    const char **names = sqlite3_malloc64(most * (sizeof *names + 1));
    kumquatsieve_segmenter_close(&of->segmenter);
    if (!names) return SQLITE_NOMEM;
    char *rest = strcpy((char *)(names + most), list);
    while (rest) names[count++] = strsep(&rest, ",");
    if (!*names[0]) names[0] = NULL;
    if (!kumquatsieve_dictionary_open(&opened, names[0], names + 1, count - 1, flags, &of->error)) {
        kumquatsieve_dictionary_release(of->in->dictionary);
        of->in->dictionary = opened;
        kumquatsieve_segmenter_open(&of->segmenter, opened, &of->error);
    }
    sqlite3_free(names);
    return report_error(of->in, &of->error);
}

char *make_fingerprint(const kumquatsieve_dictionary *of) {
    kumquatsieve_info info = {.image_count = 1};
    sqlite3_str *text = sqlite3_str_new(NULL);
    for (size_t i = 0; i < info.image_count; i++) {
        kumquatsieve_dictionary_info(of, i, &info, NULL);
        for (size_t k = 0; k < sizeof info.sha256; k++)
            sqlite3_str_appendf(text, "%s%02x", i > 0 && k == 0 ? "," : "", info.sha256[k]);
        sqlite3_str_appendf(text, " %u", info.entries);
    }
    return sqlite3_str_finish(text);
}

int read_word(word_reader *of) {
    kumquatsieve_line line;
    for (of->number++; of->number >= of->count && of->next < of->length; of->next = line.end) {
        of->number = of->count = 0;
        kumquatsieve_segment_text(&of->segmenter, of->text, of->length, of->next, 0, &line,
                                  &of->error);
        if (of->error.code == KUMQUATSIEVE_OK)
            kumquatsieve_words(&of->segmenter, &of->words, &of->count, &of->error);
        if (of->error.code != KUMQUATSIEVE_OK) return report_error(of->in, &of->error);
    }
    return SQLITE_OK;
}

/* kumquatsieve_dictionary(LIST): the fingerprint of its images. */
static void call_dictionary(sqlite3_context *context, int count, sqlite3_value **arguments) {
    word_reader reader = {.in = sqlite3_user_data(context)};
    const char *list = (const char *)sqlite3_value_text(arguments[0]);
    (void)count;
    int code = open_segmenter(&reader, list ? list : "", 0);
    char *text = code == SQLITE_OK ? make_fingerprint(reader.in->dictionary) : NULL;
    kumquatsieve_segmenter_close(&reader.segmenter);
    sqlite3_result_text(context, text, -1, sqlite3_free);
    if (code == SQLITE_ERROR) sqlite3_result_error(context, reader.in->error, -1);
    if (!text && code != SQLITE_ERROR) sqlite3_result_error_nomem(context);
}

/* kumquatsieve_error(): the text of the connection's last error, or NULL. */
static void call_error(sqlite3_context *context, int count, sqlite3_value **arguments) {
    connection *of = sqlite3_user_data(context);
    (void)count, (void)arguments;
    sqlite3_result_text(context, of->error, -1, SQLITE_TRANSIENT);
}

/* kumquatsieve_words(DICTIONARIES, TEXT): a row for each word. The arguments are hidden columns. */
enum { SURFACE, FEATURE, START, END, COST, FIRST_ARGUMENT, ARGUMENTS = 2 };
static const char COLUMNS[] = "CREATE TABLE words(surface TEXT, feature TEXT, start INTEGER, "
                              "\"end\" INTEGER, cost INTEGER, dictionary HIDDEN, text HIDDEN)";

/* A cursor over the words of a text. It has copies of the arguments, which the text is in. The
   segmenter is kept for the next text if the list of dictionaries is the same. */
typedef struct cursor {
    sqlite3_vtab_cursor base;
    sqlite3_value *arguments[ARGUMENTS];
    word_reader reader;
} cursor;

/* A connection has one table, because the module has no xCreate. */
static int connect(sqlite3 *database, void *held, int count, const char *const *arguments,
                   sqlite3_vtab **made, char **message) {
    (void)count, (void)arguments, (void)message;
    *made = &((connection *)held)->words;
    return sqlite3_declare_vtab(database, COLUMNS);
}

static int disconnect(sqlite3_vtab *base) { return (void)base, SQLITE_OK; }

/* Takes both arguments. A plan in which one is not known yet can't be used. */
static int choose_plan(sqlite3_vtab *base, sqlite3_index_info *plan) {
    int given = 0, known = 0;
    for (int i = 0; i < plan->nConstraint; i++) {
        int number = plan->aConstraint[i].iColumn - FIRST_ARGUMENT + 1;
        if (number < 1 || plan->aConstraint[i].op != SQLITE_INDEX_CONSTRAINT_EQ) continue;
        given |= number;
        if (!plan->aConstraint[i].usable || known & number) continue;
        known |= number;
        plan->aConstraintUsage[i] = (struct sqlite3_index_constraint_usage){number, .omit = 1};
    }
    if (given == (1 | 2)) return known == given ? SQLITE_OK : SQLITE_CONSTRAINT;
    sqlite3_free(base->zErrMsg);
    base->zErrMsg = sqlite3_mprintf("kumquatsieve_words takes dictionaries and a text");
    return SQLITE_ERROR;
}

static int open_cursor(sqlite3_vtab *base, sqlite3_vtab_cursor **made) {
    cursor *of = sqlite3_malloc(sizeof *of);
    if (!of) return SQLITE_NOMEM;
    *of = (cursor){.reader = {.in = (connection *)base}};
    *made = &of->base;
    return SQLITE_OK;
}

static int close_cursor(sqlite3_vtab_cursor *base) {
    cursor *of = (cursor *)base;
    kumquatsieve_segmenter_close(&of->reader.segmenter);
    for (int i = 0; i < ARGUMENTS; i++) sqlite3_value_free(of->arguments[i]);
    sqlite3_free(of);
    return SQLITE_OK;
}

/* Returns a text, which is empty for NULL. Returns NULL if memory runs out. */
static const char *text_of(sqlite3_value *value) {
    return sqlite3_value_type(value) == SQLITE_NULL ? "" : (const char *)sqlite3_value_text(value);
}

/* Gives the text of an error to the statement that runs, and returns the code. */
static int end_call(cursor *of, int code) {
    if (code != SQLITE_ERROR) return code;
    sqlite3_free(of->base.pVtab->zErrMsg);
    of->base.pVtab->zErrMsg = sqlite3_mprintf("%s", of->reader.in->error);
    return code;
}

static int next(sqlite3_vtab_cursor *base) {
    return end_call((cursor *)base, read_word(&((cursor *)base)->reader));
}

static int start(sqlite3_vtab_cursor *base, int plan, const char *plan_text, int count,
                 sqlite3_value **arguments) {
    cursor *of = (cursor *)base;
    const char *list = text_of(arguments[0]);
    (void)plan, (void)plan_text, (void)count;
    bool is_open = list && of->arguments[0] && of->reader.segmenter.held &&
                   strcmp(list, text_of(of->arguments[0])) == 0;
    of->reader.next = of->reader.count = of->reader.length = 0;
    for (int i = 0; i < ARGUMENTS; i++) {
        sqlite3_value_free(of->arguments[i]);
        of->arguments[i] = text_of(arguments[i]) ? sqlite3_value_dup(arguments[i]) : NULL;
        if (!of->arguments[i]) return SQLITE_NOMEM;
    }
    of->reader.text = text_of(of->arguments[1]);
    of->reader.length = (size_t)sqlite3_value_bytes(of->arguments[1]);
    int code = is_open ? SQLITE_OK : open_segmenter(&of->reader, list, 0);
    return code == SQLITE_OK ? next(base) : end_call(of, code);
}

static int is_at_end(sqlite3_vtab_cursor *base) {
    return ((cursor *)base)->reader.number >= ((cursor *)base)->reader.count;
}

static int get_column(sqlite3_vtab_cursor *base, sqlite3_context *context, int column) {
    cursor *of = (cursor *)base;
    const kumquatsieve_word *word = &of->reader.words[of->reader.number];
    const sqlite3_int64 numbers[] = {word->start, word->end, word->cost};
    const char *text = of->reader.text + word->start;
    size_t length = word->end - word->start;
    of->reader.error.code = KUMQUATSIEVE_OK;
    if (column >= FIRST_ARGUMENT)
        sqlite3_result_value(context, of->arguments[column - FIRST_ARGUMENT]);
    else if (column >= START)
        sqlite3_result_int64(context, numbers[column - START]);
    else if (column == SURFACE ||
             !kumquatsieve_feature(&of->reader.segmenter, word, &text, &length, &of->reader.error))
        sqlite3_result_text64(context, text, length, SQLITE_TRANSIENT, SQLITE_UTF8);
    return end_call(of, report_error(of->reader.in, &of->reader.error));
}

/* The number of a row is where the surface starts. */
static int get_row(sqlite3_vtab_cursor *base, sqlite3_int64 *row) {
    const word_reader *of = &((cursor *)base)->reader;
    *row = of->words[of->number].start;
    return SQLITE_OK;
}

/* Without xCreate it is only a function, of which no table can be created. */
static const sqlite3_module WORDS = {.xConnect = connect,
                                     .xBestIndex = choose_plan,
                                     .xDisconnect = disconnect,
                                     .xOpen = open_cursor,
                                     .xClose = close_cursor,
                                     .xFilter = start,
                                     .xNext = next,
                                     .xEof = is_at_end,
                                     .xColumn = get_column,
                                     .xRowid = get_row};

static void free_connection(void *held) {
    connection *of = held;
    kumquatsieve_dictionary_release(of->dictionary);
    sqlite3_free(of->error);
    sqlite3_free(of);
}

/* Registers everything, or nothing, because SQLite unloads an extension that fails. Removes the
   functions if `of` is NULL. The first one owns the connection, because it stays until that is
   closed: a program may drop modules, such as FTS5. A tokenizer can't be removed, so it is last. In
   a statement that calls load_extension functions can't be removed either, and everything stays. */
static int register_all(sqlite3 *database, fts5_api *fts5, connection *of) {
    int code =
        sqlite3_create_function_v2(database, "kumquatsieve_error", 0, SQLITE_UTF8, of,
                                   of ? call_error : NULL, NULL, NULL, of ? free_connection : NULL);
    if (code == SQLITE_OK)
        code = sqlite3_create_function(database, "kumquatsieve_dictionary", 1, SQLITE_UTF8, of,
                                       of ? call_dictionary : NULL, NULL, NULL);
    if (code == SQLITE_OK)
        code = sqlite3_create_module(database, "kumquatsieve_words", of ? &WORDS : NULL, of);
    if (code == SQLITE_OK && of)
        code = fts5->xCreateTokenizer(fts5, "kumquatsieve", of, &kumquatsieve_tokenizer, NULL);
    if (code != SQLITE_OK && of && register_all(database, fts5, NULL) != SQLITE_OK)
        return SQLITE_OK_LOAD_PERMANENTLY;
    return code;
}

/* If the connection has the extension already, changes nothing. */
__attribute__((visibility("default"))) int
sqlite3_kumquatsieve_init(sqlite3 *database, char **message, const sqlite3_api_routines *api) {
    fts5_api *fts5 = NULL;
    fts5_tokenizer found;
    sqlite3_stmt *statement = NULL;
    void *other = NULL;
    (void)api;
    SQLITE_EXTENSION_INIT2(api);
    int code = sqlite3_prepare_v2(database, "SELECT fts5(?1)", -1, &statement, NULL);
    if (code == SQLITE_OK) {
        sqlite3_bind_pointer(statement, 1, &fts5, "fts5_api_ptr", NULL);
        sqlite3_step(statement);
        code = sqlite3_finalize(statement);
    }
    if (code == SQLITE_NOMEM) return code;
    if (!fts5 || fts5->iVersion < 2) {
        if (message) *message = sqlite3_mprintf("kumquatsieve: this SQLite has no FTS5");
        return SQLITE_ERROR;
    }
    if (!fts5->xFindTokenizer(fts5, "kumquatsieve", &other, &found)) return SQLITE_OK;
    connection *of = sqlite3_malloc(sizeof *of);
    if (!of) return SQLITE_NOMEM;
    *of = (connection){.error = NULL};
    return register_all(database, fts5, of);
}

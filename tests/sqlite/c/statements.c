/* Runs the statements in a file, one a line, in a new connection: statements FILE [EXTENSION]

   Loads EXTENSION, unless it is `-`: then statements may call load_extension. Without the argument
   the extension is linked in (SQLITE_CORE). Prints the rows, with `|` between the columns, and the
   message of each statement that fails. The status is 1 if one fails
   otherwise than because memory ran out, unless the line starts with `!`, which has to fail. */
#define _GNU_SOURCE
#include "../../support/check.h"
#include <sqlite3.h>
#include <string.h>

int sqlite3_kumquatsieve_init(sqlite3 *database, char **message, const void *calls);

/* How many statements failed, and whether memory ran out. Then others may lack a table. */
static int failures, is_out_of_memory;

/* Whether a code is that of a lack of memory. */
static int is_memory(int code) { return (code & 0xff) == SQLITE_NOMEM; }

/* Returns the code of loading an extension, which SQLite makes an error of each kind. */
static int load_code(int code) {
    return code == SQLITE_ERROR && getenv("FAIL_ALLOCATION") ? SQLITE_NOMEM : code;
}

static void judge(sqlite3 *database, int code, const char *sql, int has_to_fail) {
    int failed = code != SQLITE_OK && code != SQLITE_DONE;
    if (failed) printf("%s\n", sqlite3_errmsg(database));
    is_out_of_memory |= is_memory(code);
    if (failed == has_to_fail || is_out_of_memory) return;
    printf("status %d of: %s\n", code, sql);
    failures++;
}

static void print_row(sqlite3_stmt *statement) {
    for (int i = 0; i < sqlite3_column_count(statement); i++) {
        const void *text = sqlite3_column_blob(statement, i);
        int length = sqlite3_column_bytes(statement, i);
        if (i > 0) putchar('|');
        if (text) fwrite(text, 1, (size_t)length, stdout);
    }
    putchar('\n');
}

static void run(sqlite3 *database, const char *line) {
    sqlite3_stmt *statement = NULL;
    int has_to_fail = *line == '!';
    const char *sql = line + has_to_fail;
    int code = sqlite3_prepare_v2(database, sql, -1, &statement, NULL);
    while (code == SQLITE_OK || code == SQLITE_ROW) {
        code = sqlite3_step(statement);
        if (code == SQLITE_ROW) print_row(statement);
    }
    if (strstr(sql, "load_extension")) code = load_code(code);
    judge(database, code, sql, has_to_fail);
    sqlite3_finalize(statement);
}

/* Loads the extension, which may fail for a lack of memory only. */
static int load(sqlite3 *database, const char *extension) {
    int code = SQLITE_OK;
#ifdef SQLITE_CORE
    CHECK(!extension);
    code = sqlite3_kumquatsieve_init(database, NULL, NULL);
#else
    char *message = NULL;
    sqlite3_enable_load_extension(database, 1);
    if (strcmp(extension, "-") == 0) return SQLITE_OK;
    code = load_code(sqlite3_load_extension(database, extension, NULL, &message));
    if (code != SQLITE_OK) printf("%s\n", message ? message : "no message");
    sqlite3_free(message);
#endif
    CHECK(code == SQLITE_OK || is_memory(code));
    return code;
}

int main(int given, char **arguments) {
    static char line[1 << 16], buffer[BUFSIZ];
    sqlite3 *database = NULL;
    CHECK(given == 2 || given == 3);
    CHECK(setvbuf(stdout, buffer, _IOFBF, sizeof buffer) == 0);
    FILE *file = fopen(arguments[1], "r");
    if (!file && getenv("FAIL_ALLOCATION")) return 0;
    CHECK(file);
    int code = sqlite3_open(":memory:", &database);
    CHECK(code == SQLITE_OK || is_memory(code));
    if (code == SQLITE_OK) code = load(database, given == 3 ? arguments[2] : NULL);
    while (fgets(line, sizeof line, file)) {
        line[strcspn(line, "\n")] = '\0';
        /* Without the extension, its names are unknown. */
        if (code == SQLITE_OK)
            run(database, line);
        else if (database)
            sqlite3_exec(database, line + (*line == '!'), NULL, NULL, NULL);
    }
    fclose(file);
    if (code == SQLITE_OK) {
        /* The functions stay without FTS5. */
        CHECK(sqlite3_drop_modules(database, NULL) == SQLITE_OK);
        run(database, "SELECT kumquatsieve_error()");
    }
    CHECK(sqlite3_close(database) == SQLITE_OK);
    CHECK(sqlite3_shutdown() == SQLITE_OK);
    return failures > 0;
}

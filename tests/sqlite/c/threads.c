/* Threads with connections of their own index the same lines and query them: threads FILE TOKENIZE

   The extension is linked in (SQLITE_CORE), and each thread registers it with its connection.
   Prints how many rows match each of the first lines as a phrase, which has to be the same in each
   thread. */
#include "../../support/check.h"
#include <pthread.h>
#include <sqlite3.h>
#include <string.h>

enum { THREADS = 4, ROUNDS = 3, LINES_MOST = 200, QUERIES = 20 };

int sqlite3_kumquatsieve_init(sqlite3 *database, char **message, const void *calls);

static char lines[LINES_MOST][4096];
static int line_count;
static const char *tokenize;

typedef struct result {
    int matches[QUERIES];
} result;

static void bind_and_step(sqlite3_stmt *statement, const char *text, int wanted) {
    CHECK(sqlite3_bind_text(statement, 1, text, -1, SQLITE_STATIC) == SQLITE_OK);
    CHECK(sqlite3_step(statement) == wanted);
}

static void fill(sqlite3 *database) {
    sqlite3_stmt *insert = NULL;
    char *create = sqlite3_mprintf("CREATE VIRTUAL TABLE t USING fts5(a, tokenize=%Q)", tokenize);
    CHECK(create && sqlite3_exec(database, create, NULL, NULL, NULL) == SQLITE_OK);
    sqlite3_free(create);
    CHECK(sqlite3_prepare_v2(database, "INSERT INTO t VALUES(?1)", -1, &insert, NULL) == SQLITE_OK);
    for (int i = 0; i < line_count; i++) {
        bind_and_step(insert, lines[i], SQLITE_DONE);
        CHECK(sqlite3_reset(insert) == SQLITE_OK);
    }
    sqlite3_finalize(insert);
}

static void query(sqlite3 *database, result *to) {
    static const char SQL[] = "SELECT count(*) FROM t WHERE t MATCH '\"' || ?1 || '\"'";
    sqlite3_stmt *search = NULL;
    CHECK(sqlite3_prepare_v2(database, SQL, -1, &search, NULL) == SQLITE_OK);
    for (int i = 0; i < QUERIES && i < line_count; i++) {
        bind_and_step(search, lines[i], SQLITE_ROW);
        to->matches[i] = sqlite3_column_int(search, 0);
        CHECK(sqlite3_reset(search) == SQLITE_OK);
    }
    sqlite3_finalize(search);
}

static void *work(void *to) {
    for (int round = 0; round < ROUNDS; round++) {
        sqlite3 *database = NULL;
        CHECK(sqlite3_open(":memory:", &database) == SQLITE_OK);
        CHECK(sqlite3_kumquatsieve_init(database, NULL, NULL) == SQLITE_OK);
        fill(database);
        query(database, to);
        CHECK(sqlite3_close(database) == SQLITE_OK);
    }
    return NULL;
}

int main(int given, char **arguments) {
    static result results[THREADS];
    pthread_t threads[THREADS];
    CHECK(given == 3);
    tokenize = arguments[2];
    FILE *file = fopen(arguments[1], "r");
    CHECK(file);
    while (line_count < LINES_MOST && fgets(lines[line_count], sizeof lines[0], file)) {
        lines[line_count][strcspn(lines[line_count], "\n")] = '\0';
        line_count++;
    }
    fclose(file);
    for (int i = 0; i < THREADS; i++)
        CHECK(pthread_create(&threads[i], NULL, work, &results[i]) == 0);
    for (int i = 0; i < THREADS; i++) CHECK(pthread_join(threads[i], NULL) == 0);
    for (int i = 0; i < THREADS; i++)
        CHECK(memcmp(&results[i], &results[0], sizeof results[0]) == 0);
    for (int i = 0; i < QUERIES; i++)
        printf("%d%c", results[0].matches[i], i + 1 < QUERIES ? ' ' : '\n');
    return 0;
}

/* The settings, and the dictionary and the segmenter that a process has open for them. */
#include "extension.h"

#include <access/parallel.h>
#include <access/xact.h>
#include <funcapi.h>
#include <mb/pg_wchar.h>
#include <miscadmin.h>
#include <utils/builtins.h>
#include <utils/guc.h>
#include <utils/resowner.h>
#include <utils/varlena.h>

PG_MODULE_MAGIC;
PG_FUNCTION_INFO_V1(dictionary_info);
void _PG_init(void);
enum { LONG_TEXT = 65536 }; /* bytes, after which the segmenter may have megabytes of memory */
struct segmented_line last_line;
kumquatsieve_error failure;
/* The settings. The last one is NULL until all are defined. */
static char *dictionary_name, *user_names, *expected;
/* Whether dictionary and segmenter are those of the settings, and have the expected checksums. */
static bool is_current, is_expected;
static kumquatsieve_segmenter segmenter = KUMQUATSIEVE_EMPTY;
/* The dictionary that was checked last stays open, because it is opened again if it is used. */
static kumquatsieve_dictionary *dictionary, *checked;

/* Returns the SQLSTATE of the last error. */
static int error_state(void) {
    if (failure.code == KUMQUATSIEVE_MEMORY) return ERRCODE_OUT_OF_MEMORY;
    if (failure.code == KUMQUATSIEVE_FILE) return ERRCODE_UNDEFINED_FILE;
    return failure.code >> 8 == 'L' ? ERRCODE_DATA_CORRUPTED : ERRCODE_INVALID_PARAMETER_VALUE;
}

/* Returns what the user can do about the last error, which may be empty. */
static const char *error_hint(void) {
    static const char START[] = "What to do: ";
    if (failure.code == KUMQUATSIEVE_FILE && failure.number == EACCES)
        return "Let the user that runs the server read the image and search its directories.";
    if (failure.code == KUMQUATSIEVE_FILE)
        return "Name an image that kumquatsieve-import has installed, or the path of an image.";
    if (failure.code == KUMQUATSIEVE_NO_FIELD)
        return "Change the option Field, or import the dictionary with kumquatsieve-import.";
    const char *text = kumquatsieve_explain(failure.code), *at = text ? strstr(text, START) : NULL;
    return at ? pnstrdup(at + strlen(START), strcspn(at, "\n") - strlen(START)) : "";
}

void report(const char *subject) {
    ereport(ERROR, (errcode(error_state()), errmsg("%s", subject),
                    errdetail("%s.", failure.message), errhint("%s", error_hint())));
}

/* Opens the dictionary of a name and a list of names of user dictionaries, and replaces the one of
   `*to`. Returns whether that succeeded. */
static bool open_names(const char *name, const char *users, kumquatsieve_dictionary **to) {
    kumquatsieve_dictionary *opened = NULL;
    List *names = NIL;
    ListCell *cell;
    size_t count = 0;
    failure = (kumquatsieve_error){KUMQUATSIEVE_FILE, .message = "invalid list of names"};
    if (!SplitDirectoriesString(pstrdup(users), ',', &names)) return false;
    const char **images = palloc((list_length(names) + 1) * sizeof *images);
    foreach (cell, names) images[count++] = lfirst(cell);
    if (kumquatsieve_dictionary_open(&opened, *name ? name : NULL, images, count, 0, &failure))
        return false;
    kumquatsieve_dictionary_release(*to);
    *to = opened;
    return true;
}

/* Rejects an invalid value that a command sets. One of a configuration file is accepted, because
   the server would use another dictionary without it. Each use reports the error then. */
static bool check_names(const char *name, const char *users, GucSource source) {
    bool is_command = source >= PGC_S_INTERACTIVE || (source == PGC_S_FILE && IsTransactionState());
    if (!is_command || !expected || InitializingParallelWorker) return true;
    if (open_names(name, users, &checked)) return true;
    GUC_check_errcode(error_state());
    GUC_check_errdetail("%s.", failure.message);
    GUC_check_errhint("%s", error_hint());
    return false;
}

static bool check_dictionary(char **name, void **extra pg_attribute_unused(), GucSource source) {
    return check_names(*name, "", source);
}

static bool check_users(char **users, void **extra pg_attribute_unused(), GucSource source) {
    return check_names(dictionary_name ? dictionary_name : "", *users, source);
}

static void assign(const char *value pg_attribute_unused(), void *extra pg_attribute_unused()) {
    is_current = false;
}

void forget_line(void) {
    last_line.text = NULL;
    /* An empty segmenter has nothing to free. */
    if (last_line.longest > LONG_TEXT) kumquatsieve_shrink(&segmenter, NULL);
    last_line.longest = 0;
}

/* Forgets the last line when a transaction ends, because its text may be freed, and what a parser
   that was cancelled has allocated. */
static void end_transaction(ResourceReleasePhase phase, bool is_commit, bool is_top, void *data) {
    (void)phase, (void)is_commit, (void)is_top, (void)data;
    forget_line();
}

void _PG_init(void) {
    DefineCustomStringVariable("kumquatsieve.dictionary",
                               "The dictionary: an installed image, or a path.",
                               "If it is empty, the only system dictionary that is installed.",
                               &dictionary_name, "", PGC_SUSET, 0, check_dictionary, assign, NULL);
    DefineCustomStringVariable("kumquatsieve.user_dictionaries",
                               "User dictionaries, with commas between them.", NULL, &user_names,
                               "", PGC_SUSET, 0, check_users, assign, NULL);
    DefineCustomStringVariable("kumquatsieve.expected_sha256",
                               "The SHA-256 of each image, with commas between them.",
                               "With other images each use is an error, unless the list is empty.",
                               &expected, "", PGC_SUSET, 0, NULL, assign, NULL);
    MarkGUCPrefixReserved("kumquatsieve");
    RegisterResourceReleaseCallback(end_transaction, NULL);
    /* The processes of a server have what the server has opened. */
    if (process_shared_preload_libraries_in_progress &&
        !open_names(dictionary_name, user_names, &checked))
        ereport(WARNING, (errmsg("could not open the dictionary of kumquatsieve"),
                          errdetail("%s.", failure.message), errhint("%s", error_hint())));
}

/* Describes an image of the dictionary, and returns its SHA-256 in hexadecimal digits. */
static char *describe(size_t number, kumquatsieve_info *info) {
    char *digits = palloc0(2 * sizeof info->sha256 + 1);
    if (kumquatsieve_dictionary_info(dictionary, number, info, &failure))
        report("could not describe an image");
    hex_encode((const char *)info->sha256, sizeof info->sha256, digits);
    return digits;
}

/* Returns the SHA-256 of each image, with commas between them. */
static char *checksums(void) {
    kumquatsieve_info info;
    char *all = describe(0, &info);
    for (size_t i = 1; i < info.image_count; i++) all = psprintf("%s,%s", all, describe(i, &info));
    return all;
}

kumquatsieve_dictionary *current_dictionary(void) {
    if (is_current) return dictionary;
    if (GetDatabaseEncoding() != PG_UTF8)
        ereport(ERROR, (errcode(ERRCODE_FEATURE_NOT_SUPPORTED),
                        errmsg("kumquatsieve needs a database with the encoding UTF8"),
                        errdetail("This database has the encoding %s.", GetDatabaseEncodingName()),
                        errhint("Create a database with ENCODING 'UTF8' TEMPLATE template0.")));
    if (!open_names(dictionary_name, user_names, &dictionary))
        report("could not open the dictionary of kumquatsieve");
    last_line.text = NULL;
    kumquatsieve_segmenter_close(&segmenter);
    if (kumquatsieve_segmenter_open(&segmenter, dictionary, &failure))
        report("could not open a segmenter");
    is_expected = !*expected || strcmp(expected, checksums()) == 0;
    is_current = true;
    return dictionary;
}

kumquatsieve_segmenter *current_segmenter(void) {
    current_dictionary();
    if (!is_expected)
        ereport(ERROR, (errcode(ERRCODE_OBJECT_NOT_IN_PREREQUISITE_STATE),
                        errmsg("the dictionary is not the one that is expected"),
                        errdetail("kumquatsieve.expected_sha256 is %s, and the images have %s.",
                                  expected, checksums()),
                        errhint("Set kumquatsieve.dictionary to the expected dictionary, or index "
                                "the texts again and set kumquatsieve.expected_sha256.")));
    return &segmenter;
}

/* Returns a row for each image of the dictionary. */
Datum dictionary_info(PG_FUNCTION_ARGS) {
    ReturnSetInfo *result = (ReturnSetInfo *)fcinfo->resultinfo;
    kumquatsieve_info image = {.image_count = 1};
    current_dictionary();
    InitMaterializedSRF(fcinfo, 0);
    for (uint32_t i = 0; i < image.image_count; i++) {
        Datum sha256 = CStringGetTextDatum(describe(i, &image));
        Datum path = CStringGetTextDatum(image.path), is_user = BoolGetDatum(image.is_user);
        Datum entries = Int64GetDatum(image.entries), size = Int64GetDatum(image.size);
        Datum values[] = {Int32GetDatum(i), path, is_user, sha256, entries, size};
        tuplestore_putvalues(result->setResult, result->setDesc, values, (bool[6]){false});
    }
    return (Datum)0;
}

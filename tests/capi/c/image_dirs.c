/* Tests the calls that find installed images: image_dirs FOLDER. FOLDER has the files that
   tests/capi/cases/image_dirs.py makes, and is the current directory. It is linked with the sources
   of these calls, and says itself where the library is installed. */
#define _GNU_SOURCE
#include "helpers.h"
#include <errno.h>

/* The prefix, or NULL if memory runs out. */
static const char *prefix;

char *installed_prefix(void);
uint32_t proved_fault(uint32_t code, char *out, size_t room, size_t *needed);

char *installed_prefix(void) { return prefix ? strdup(prefix) : NULL; }

uint32_t proved_fault(uint32_t code, char *out, size_t room, size_t *needed) {
    (void)code, (void)out, (void)room;
    *needed = 0;
    return KUMQUATSIEVE_OK;
}

typedef uint32_t list_call(char *texts, size_t room, size_t *needed, kumquatsieve_error *error);

/* A call with its argument: `list`, or kumquatsieve_find_image if that is NULL. */
typedef struct request {
    list_call *list;
    const char *name;
} request;

static uint32_t call(const request *of, char *out, size_t room, size_t *needed) {
    return of->list ? of->list(out, room, needed, NULL)
                    : kumquatsieve_find_image(of->name, out, room, needed, NULL);
}

/* Whether a result is the wanted one, which has `|` in place of each zero byte. */
static bool is_result(const char *out, size_t length, const char *wanted) {
    bool is_same = length == strlen(wanted);
    for (size_t i = 0; is_same && i < length; i++) is_same = (out[i] ? out[i] : '|') == wanted[i];
    return is_same;
}

enum { ROOM = 4096, UNSET = 77 };

/* Checks that a call writes nothing if there is less room than it needs. */
static void check_short(const char *what, const request *of, size_t length) {
    char out[ROOM];
    memset(out, UNSET, sizeof out);
    for (size_t room = 0; room < length; room++) {
        size_t needed = UNSET;
        CHECK_CASE(what, call(of, out, room, &needed) == KUMQUATSIEVE_SHORT_BUFFER);
        CHECK_CASE(what, needed == length && out[0] == UNSET);
        CHECK_CASE(what, memcmp(out, out + 1, sizeof out - 1) == 0);
    }
    if (length > 0) CHECK_CASE(what, call(of, NULL, 0, NULL) == KUMQUATSIEVE_SHORT_BUFFER);
}

/* Checks a call with less room than it needs, and with as much. */
static void check_result(const char *what, const request *of, const char *wanted) {
    size_t length = strlen(wanted), needed = UNSET;
    char *out = malloc(length + 1);
    CHECK(out);
    out[length] = UNSET;
    check_short(what, of, length);
    CHECK_CASE(what, call(of, length > 0 ? out : NULL, length, &needed) == KUMQUATSIEVE_OK);
    CHECK_CASE(what, needed == length && is_result(out, length, wanted));
    CHECK_CASE(what, call(of, out, length + 1, NULL) == KUMQUATSIEVE_OK && out[length] == UNSET);
    free(out);
}

/* Checks that no image has the name, and that no output is set. */
static void check_none(const char *what, const request *of) {
    char out[ROOM] = {UNSET};
    size_t needed = UNSET;
    CHECK_CASE(what, call(of, out, sizeof out, &needed) == KUMQUATSIEVE_FILE);
    CHECK_CASE(what, needed == UNSET && out[0] == UNSET);
    CHECK_CASE(what, call(of, NULL, 0, NULL) == KUMQUATSIEVE_FILE);
}

static void set_variable(const char *name, const char *value) {
    CHECK((value ? setenv(name, value, 1) : unsetenv(name)) == 0);
}

/* The image directories by the variables and the prefix. (XDG Base Directory Specification;
   Filesystem Hierarchy Standard) */
#define PREFIX_DIRS "/p/var/lib/kumquatsieve|/p/share/kumquatsieve|"
static const struct {
    const char *what, *data_home, *home, *prefix, *wanted;
} DIRECTORIES[] = {
    {"XDG_DATA_HOME before HOME", "/d", "/h", "/p", "/d/kumquatsieve|" PREFIX_DIRS},
    {"XDG_DATA_HOME alone", "/d", NULL, "/p", "/d/kumquatsieve|" PREFIX_DIRS},
    {"a relative XDG_DATA_HOME", "d", "/h", "/p", "/h/.local/share/kumquatsieve|" PREFIX_DIRS},
    {"an empty XDG_DATA_HOME", "", "/h", "/p", "/h/.local/share/kumquatsieve|" PREFIX_DIRS},
    {"HOME alone", NULL, "/h", "/p", "/h/.local/share/kumquatsieve|" PREFIX_DIRS},
    {"a relative HOME", NULL, "h", "/p", PREFIX_DIRS},
    {"no variable", NULL, NULL, "/p", PREFIX_DIRS},
    {"the prefix /usr", NULL, NULL, "/usr", "/var/lib/kumquatsieve|/usr/share/kumquatsieve|"},
    {"the prefix of /bin", NULL, NULL, "", "/var/lib/kumquatsieve|/share/kumquatsieve|"},
    {"share/ is the user's own", "/p/share", NULL, "/p",
     "/p/share/kumquatsieve|/p/var/lib/kumquatsieve|"},
    {"var/lib/ is the user's own", "/p/var/lib", NULL, "/p", PREFIX_DIRS},
};

static void check_directories(void) {
    for (size_t i = 0; i < COUNT_OF(DIRECTORIES); i++) {
        const request of = {kumquatsieve_list_directories, NULL};
        prefix = DIRECTORIES[i].prefix;
        set_variable("XDG_DATA_HOME", DIRECTORIES[i].data_home);
        set_variable("HOME", DIRECTORIES[i].home);
        check_result(DIRECTORIES[i].what, &of, DIRECTORIES[i].wanted);
    }
}

/* The images by their names: a path below FOLDER, the name itself, or no image. */
#define OWN "/data/kumquatsieve/"
#define MADE "/prefix/var/lib/kumquatsieve/"
#define SHARED "/prefix/share/kumquatsieve/"
#define ITSELF ""
#define NONE NULL
static const struct {
    const char *what, *name, *image;
} NAMES[] = {
    {"in the first directory", "own", OWN "own.img"},
    {"in the second one", "made", MADE "made.img"},
    {"in the third one", "shared", SHARED "shared.img"},
    {"in all of them", "all", OWN "all.img"},
    {"in the last two", "both", MADE "both.img"},
    {"a link to an image", "link", OWN "link.img"},
    {"with a blank and a dot", "a b.c", OWN "a b.c.img"},
    {"no ASCII", "あ", SHARED "あ.img"},
    {"a file here", "here", ITSELF},
    {"a pipe here", "fifo", ITSELF},
    {"a directory here", "folder", MADE "folder.img"},
    {"a broken link here", "broken", MADE "broken.img"},
    {"a file here that is no image", "text", ITSELF},
    {"an image that is a directory", "directory", NONE},
    {"an image that is a pipe", "pipe", NONE},
    {"an image that is a broken link", "lost", NONE},
    {"a name with its ending", "own.img", NONE},
    {"no image", "none", NONE},
    {"no name", "", ITSELF},
    {"a path", "./own", ITSELF},
    {"a path of no file", "no/own", ITSELF},
    {"an absolute path", "/own", ITSELF},
};

static void check_find(const char *what, const request *of, const char *folder,
                       const char *wanted) {
    char path[ROOM];
    if (wanted) {
        bool is_itself = *wanted == 0;
        snprintf(path, sizeof path, "%s%s|", is_itself ? of->name : folder, wanted);
        check_result(what, of, path);
    } else {
        check_none(what, of);
    }
}

static void check_names(const char *folder) {
    for (size_t i = 0; i < COUNT_OF(NAMES); i++)
        check_find(NAMES[i].what, &(request){NULL, NAMES[i].name}, folder, NAMES[i].image);
}

/* The images, those of the first directory that has the name, in byte order of the names. */
static void check_lists(const char *folder) {
    static const char *const ALL[] = {
        MADE "0",    MADE "1",      MADE "2",        MADE "3",      MADE "4",    MADE "5",
        MADE "6",    MADE "7",      MADE "8",        MADE "9",      OWN "a b.c", OWN "all",
        MADE "both", MADE "broken", MADE "fifo",     MADE "folder", MADE "here", OWN "link",
        MADE "made", OWN "own",     SHARED "shared", SHARED "あ"};
    static char wanted[16 * ROOM];
    const request list = {kumquatsieve_list_images, NULL};
    for (size_t i = 0; i < COUNT_OF(ALL); i++) {
        size_t used = strlen(wanted);
        snprintf(wanted + used, sizeof wanted - used, "%s%s.img|", folder, ALL[i]);
    }
    size_t length = strlen(wanted), needed = 0;
    char *out = malloc(length);
    CHECK(out && call(&list, out, length - 1, &needed) == KUMQUATSIEVE_SHORT_BUFFER);
    CHECK(needed == length && call(&list, out, length, &needed) == KUMQUATSIEVE_OK);
    CHECK(is_result(out, needed, wanted));
    free(out);
}

/* The messages of a name that no image has: the directories and the names in their order.
   XDG_DATA_HOME is `/`, `zeros` zeros, and `last`. `wanted` is the whole message, or the end of one
   of `length` bytes. At most 1,023 bytes fit. */
#define DIRS "/d/kumquatsieve, prefix/var/lib/kumquatsieve, prefix/share/kumquatsieve"
#define ASCII_NAMES                                                                                \
    "0, 1, 2, 3, 4, 5, 6, 7, 8, 9, all, both, broken, fifo, folder, here, made, own, shared"
static const struct {
    const char *prefix, *last, *wanted;
    size_t zeros, length;
} MESSAGES[] = {
    {"/p", "d",
     "none: no such image; searched /d/kumquatsieve, /p/var/lib/kumquatsieve, "
     "/p/share/kumquatsieve; available images: none (F1 File)",
     0, 0},
    {"prefix", "d",
     "none: no such image; searched " DIRS "; available images: " ASCII_NAMES ", あ (F1 File)", 0,
     0},
    {"prefix", "", ", shared, あ (F1 File)", 802, 1023},
    {"prefix", "", ", shared,... (F1 File)", 803, 1023},
    {"prefix", "", ", shared... (F1 File)", 804, 1023},
    {"prefix", "ああ", "0あ... (F1 File)", 976, 1023},
    {"prefix", "ああ", "0あ... (F1 File)", 975, 1022},
    {"prefix", "ああ", "0あ... (F1 File)", 974, 1021},
};

static void check_messages(void) {
    static const char START[] = "none: no such image; searched /";
    char home[ROOM] = "/";
    kumquatsieve_error error;
    for (size_t i = 0; i < COUNT_OF(MESSAGES); i++) {
        const char *wanted = MESSAGES[i].wanted;
        size_t end = strlen(wanted), length = MESSAGES[i].length > 0 ? MESSAGES[i].length : end;
        memset(home + 1, '0', MESSAGES[i].zeros);
        strcpy(home + 1 + MESSAGES[i].zeros, MESSAGES[i].last);
        set_variable("XDG_DATA_HOME", home);
        prefix = MESSAGES[i].prefix;
        memset(&error, UNSET, sizeof error);
        CHECK(kumquatsieve_find_image("none", NULL, 0, NULL, &error) == KUMQUATSIEVE_FILE);
        CHECK_CASE(wanted, error.number == ENOENT && error.position == 0 && error.image == 0);
        CHECK_CASE(wanted, strlen(error.message) == length);
        CHECK_CASE(wanted, strncmp(error.message, START, strlen(START)) == 0);
        CHECK_CASE(wanted, strcmp(error.message + length - end, wanted) == 0);
    }
}

/* Which directories are searched without a variable, and elsewhere. */
static void check_searched(const char *folder) {
    const request made = {NULL, "made"}, own = {NULL, "own"},
                  list = {kumquatsieve_list_images, NULL};
    set_variable("XDG_DATA_HOME", NULL);
    check_find("own, no variable", &own, folder, SHARED "own.img");
    check_find("made, no variable", &made, folder, MADE "made.img");
    prefix = "/nowhere";
    check_find("made, elsewhere", &made, folder, NONE);
    check_result("names, no directory", &list, "");
    prefix = NULL;
    CHECK(call(&made, NULL, 0, NULL) == KUMQUATSIEVE_MEMORY);
    CHECK(call(&list, NULL, 0, NULL) == KUMQUATSIEVE_MEMORY);
}

/* The image of a caller who names none. Only a file that starts as a system dictionary counts. */
static void check_default(const char *folder) {
    static const char SYSTEM[16] = "MJDICT\r\n\x03", USER[16] = "MJDICT\r\n\x03\0\0\0\x01";
    const request none = {NULL, NULL};
    char path[ROOM];
    snprintf(path, sizeof path, "%s/default", folder);
    prefix = path;
    set_variable("KUMQUATSIEVE_DICTIONARY", NULL);
    check_none("no image", &none);
    CHECK(system("mkdir -p default/share/kumquatsieve") == 0);
    for (int count = 0; count < 4; count++) {
        char name[64];
        snprintf(name, sizeof name, "default/share/kumquatsieve/%d.img", count);
        FILE *to = fopen(name, "wb");
        CHECK(to && fwrite(count % 2 ? SYSTEM : USER, 1, sizeof SYSTEM, to) == sizeof SYSTEM);
        CHECK(fclose(to) == 0);
        if (count == 0) check_none("a user's alone", &none);
        if (count == 1 || count == 2)
            check_find("one system image", &none, path, "/share/kumquatsieve/1.img");
        if (count == 3) check_none("two system images", &none);
    }
    set_variable("KUMQUATSIEVE_DICTIONARY", "");
    check_none("an empty variable", &none);
    set_variable("KUMQUATSIEVE_DICTIONARY", "2");
    check_find("a name", &none, path, "/share/kumquatsieve/2.img");
    set_variable("KUMQUATSIEVE_DICTIONARY", "no-such-name");
    check_none("a name of no image", &none);
    set_variable("KUMQUATSIEVE_DICTIONARY", "./x");
    check_find("a path", &none, ".", "/x");
    set_variable("KUMQUATSIEVE_DICTIONARY", "default");
    check_find("a folder", &none, "default", "/kumquatsieve.img");
}

int main(int given, char **arguments) {
    char path[ROOM], installed[ROOM];
    CHECK(given == 2);
    check_directories();
    snprintf(path, sizeof path, "%s/data", arguments[1]);
    set_variable("XDG_DATA_HOME", path);
    set_variable("HOME", NULL);
    snprintf(installed, sizeof installed, "%s/prefix", arguments[1]);
    prefix = installed;
    check_names(arguments[1]);
    check_lists(arguments[1]);
    check_searched(arguments[1]);
    check_default(arguments[1]);
    check_messages();
    printf("%zu cases of image directories, and %zu of names of images\n", COUNT_OF(DIRECTORIES),
           COUNT_OF(NAMES) + COUNT_OF(MESSAGES));
    return 0;
}

/* Tests what the errors of images have, in a table: image_errors SYSTEM.img USER.img FOLDER. The
   images are compiled from the sample. FOLDER is empty. */
#include "check_error.h"
#include <errno.h>
#include <fcntl.h>
#include <unistd.h>

static file sys, user;

/* A copy of the system image or the user image as a file, with another byte or another length. */
typedef struct made {
    const char *path;
    bool is_user;
    size_t less, at;
    uint8_t byte;
} made;

static const made MADE[] = {
    {"system.img", false, 0, 0, 'M'},    {"user.img", true, 0, 0, 'M'},
    {"truncated.img", false, 1, 0, 'M'}, {"magic.img", false, 0, 0, 'X'},
    {"layout.img", false, 0, 8, 9},      {"section.img", false, 0, 16, 0},
    {"user_layout.img", true, 0, 8, 9},  {"digest.img", false, 0, SIZE_MAX, 1},
};

static void make_files(void) {
    for (size_t i = 0; i < COUNT_OF(MADE); i++) {
        const file *of = MADE[i].is_user ? &user : &sys;
        uint8_t *bytes = malloc(of->length);
        CHECK(bytes);
        memcpy(bytes, of->bytes, of->length);
        bytes[MADE[i].at < of->length ? MADE[i].at : of->length - 1] = MADE[i].byte;
        int to = open(MADE[i].path, O_WRONLY | O_CREAT | O_TRUNC, 0600);
        ssize_t length = (ssize_t)(of->length - MADE[i].less);
        CHECK_CASE(MADE[i].path, to >= 0 && write(to, bytes, (size_t)length) == length);
        close(to);
        free(bytes);
    }
}

/* Images to open: the system's and up to two users'; and the error. */
static const struct {
    const char *what, *names[3];
    uint32_t flags, code;
    uint64_t number;
    size_t image;
    const char *message;
} OPENED[] = {
    {"no path",
     {"./none.img"},
     0,
     KUMQUATSIEVE_FILE,
     ENOENT,
     0,
     "./none.img: No such file or directory (F1 File)"},
    {"a user's file",
     {"system.img", "user.img", "./none"},
     0,
     KUMQUATSIEVE_FILE,
     ENOENT,
     2,
     "./none: No such file or directory (F1 File)"},
    {"truncated",
     {"truncated.img"},
     0,
     KUMQUATSIEVE_TRUNCATED,
     0,
     0,
     "truncated.img: the image is truncated (L1 Truncated)"},
    {"magic",
     {"magic.img"},
     0,
     KUMQUATSIEVE_BAD_MAGIC,
     0,
     0,
     "magic.img: not a Kumquatsieve image (L2 BadMagic)"},
    {"layout",
     {"layout.img"},
     0,
     KUMQUATSIEVE_BAD_LAYOUT,
     9,
     0,
     "layout.img: this library can't read images of layout 9 (L3 BadLayout)"},
    {"a user's layout",
     {"system.img", "user.img", "user_layout.img"},
     0,
     KUMQUATSIEVE_BAD_LAYOUT,
     9,
     2,
     "user_layout.img: this library can't read images of layout 9 (L3 BadLayout)"},
    {"section",
     {"section.img"},
     0,
     KUMQUATSIEVE_BAD_SECTION,
     0,
     0,
     "section.img: the image is invalid in section 0 (L4 BadSection)"},
    {"digest",
     {"digest.img"},
     KUMQUATSIEVE_TEST_DIGEST,
     KUMQUATSIEVE_DIGEST,
     0,
     0,
     "digest.img: the image is damaged: its SHA-256 does not match (L8 Digest)"},
    {"a user's first",
     {"user.img"},
     0,
     KUMQUATSIEVE_NOT_SYSTEM,
     0,
     0,
     "user.img: not a system dictionary (O1 NotSystem)"},
    {"a system's second",
     {"system.img", "user.img", "system.img"},
     0,
     KUMQUATSIEVE_NOT_USER,
     0,
     2,
     "system.img: not a user dictionary (O2 NotUser)"},
    {"an error by itself comes first",
     {"user.img", "system.img", "user_layout.img"},
     0,
     KUMQUATSIEVE_BAD_LAYOUT,
     9,
     2,
     "user_layout.img: this library can't read images of layout 9 (L3 BadLayout)"},
    {"a missing file comes after an error",
     {"layout.img", "./none"},
     0,
     KUMQUATSIEVE_BAD_LAYOUT,
     9,
     0,
     "layout.img: this library can't read images of layout 9 (L3 BadLayout)"},
    {"a missing file comes before",
     {"user.img", "./none"},
     0,
     KUMQUATSIEVE_FILE,
     ENOENT,
     1,
     "./none: No such file or directory (F1 File)"},
};

static void opened(void) {
    for (size_t i = 0; i < COUNT_OF(OPENED); i++) {
        kumquatsieve_dictionary *dictionary = NULL;
        kumquatsieve_error error;
        size_t users = 0;
        while (users < 2 && OPENED[i].names[1 + users]) users++;
        CHECK_CASE(OPENED[i].what, kumquatsieve_dictionary_open(
                                       &dictionary, OPENED[i].names[0], OPENED[i].names + 1, users,
                                       OPENED[i].flags, &error) == OPENED[i].code);
        check_error(OPENED[i].what, &error, OPENED[i].code, OPENED[i].number, 0, OPENED[i].image,
                    OPENED[i].message);
    }
}

/* The name of a user dictionary that no image has. image_dirs.c tests the rest of the message. */
static void unknown_name(void) {
    static const char START[] = "none.img: no such image; searched /";
    static const char *const USER = "none.img";
    kumquatsieve_error error;
    CHECK(kumquatsieve_dictionary_open(NULL, "system.img", &USER, 1, 0, &error) ==
          KUMQUATSIEVE_FILE);
    CHECK(error.number == ENOENT && error.image == 1);
    CHECK(strncmp(error.message, START, strlen(START)) == 0);
}

/* Images in memory have no name. */
static void from_memory(void) {
    kumquatsieve_error error;
    sys.bytes[8] = 9;
    const kumquatsieve_image images[] = {{sys.bytes, sys.length}};
    CHECK(kumquatsieve_dictionary_load(NULL, images, 1, 0, &error) == KUMQUATSIEVE_BAD_LAYOUT);
    check_error("memory", &error, KUMQUATSIEVE_BAD_LAYOUT, 9, 0, 0,
                "this library can't read images of layout 9 (L3 BadLayout)");
    sys.bytes[8] = 3;
}

/* A long path is shown by its end, from the start of a character. */
static void long_paths(void) {
    char path[3000] = "./";
    kumquatsieve_error error;
    while (strlen(path) < 2000) strcat(path, "もも/");
    strcat(path, "x.img");
    CHECK(kumquatsieve_dictionary_open(NULL, path, NULL, 0, 0, &error) == KUMQUATSIEVE_FILE);
    CHECK(strncmp(error.message, "...\xe3", 4) == 0 || strncmp(error.message, ".../", 4) == 0);
    CHECK(strstr(error.message, "もも/x.img: No such file or directory (F1 File)"));
    CHECK(strlen(error.message) < sizeof error.message);
}

int main(int given, char **paths) {
    CHECK(given == 4);
    sys = read_file(paths[1]);
    user = read_file(paths[2]);
    CHECK(chdir(paths[3]) == 0);
    make_files();
    opened();
    unknown_name();
    from_memory();
    long_paths();
    free(sys.bytes);
    free(user.bytes);
    printf("errors: %zu errors of images with their numbers and messages\n", COUNT_OF(OPENED));
    return 0;
}

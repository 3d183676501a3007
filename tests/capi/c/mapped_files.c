/* Tests how long files stay mapped, and which calls share a dictionary: mapped_files SYSTEM.img
   USER.img FOLDER. The user dictionary has the word すもももも. FOLDER is empty. */
#define _GNU_SOURCE
#include "maps.h"
#include <fcntl.h>
#include <unistd.h>

#define USERS "すもももも\t名詞,すもももも\nEOS\n"

enum { OFTEN = 1000 };

static const char SYSTEM[] = "system.img", USER[] = "user.img", OTHER[] = "other.img";
static const char *const PATHS[] = {"system.img", "./system.img", "link.img", "hard.img",
                                    "folder/../system.img"};
static file sys, user;
static size_t maps_before, files_before;

static kumquatsieve_dictionary *opened(const char *path, const char *one, uint32_t flags) {
    kumquatsieve_dictionary *dictionary = NULL;
    CHECK_CASE(path, kumquatsieve_dictionary_open(&dictionary, path, &one, one ? 1 : 0, flags,
                                                  NULL) == KUMQUATSIEVE_OK);
    return dictionary;
}

static bool dictionary_segments_to(kumquatsieve_dictionary *dictionary, const char *wanted) {
    kumquatsieve_segmenter segmenter = KUMQUATSIEVE_EMPTY;
    CHECK(kumquatsieve_segmenter_open(&segmenter, dictionary, NULL) == KUMQUATSIEVE_OK);
    bool is_printed = segments_to(&segmenter, LINE, wanted);
    kumquatsieve_segmenter_close(&segmenter);
    return is_printed;
}

/* Checks that nothing is open or mapped that was not before. */
static void check_nothing_left(const char *what) {
    CHECK_CASE(what, mappings_of(NULL) == maps_before && open_files() == files_before);
}

/* A file that is opened by several paths is one dictionary, until the last holder releases it. */
static void one_file(void) {
    kumquatsieve_dictionary *all[COUNT_OF(PATHS)];
    CHECK(symlink(SYSTEM, "link.img") == 0 && link(SYSTEM, "hard.img") == 0 &&
          mkdir("folder", 0700) == 0);
    for (size_t i = 0; i < COUNT_OF(PATHS); i++) {
        all[i] = opened(PATHS[i], NULL, 0);
        CHECK_CASE(PATHS[i], all[i] == all[0]);
        CHECK_CASE(PATHS[i], mappings_of(SYSTEM) == 1 && open_files() == files_before);
    }
    for (size_t i = 0; i < COUNT_OF(PATHS); i++) {
        CHECK_CASE(PATHS[i], dictionary_segments_to(all[i], PRINTED) && mappings_of(SYSTEM) == 1);
        kumquatsieve_dictionary_release(all[i]);
    }
    CHECK(mappings_of(SYSTEM) == 0);
    CHECK(unlink("link.img") == 0 && unlink("hard.img") == 0 && rmdir("folder") == 0);
    check_nothing_left("one file");
}

/* Which pairs of calls give one dictionary. Each file is mapped once for both. */
static const struct {
    const char *what;
    const char *users[2];
    uint32_t flags[2];
    bool is_shared;
} PAIRS[] = {
    {"the same", {NULL, NULL}, {0, 0}, true},
    {"the same user", {"user.img", "./user.img"}, {0, 0}, true},
    {"a flag without effect", {NULL, NULL}, {0, KUMQUATSIEVE_SKIP_DIGEST}, true},
    {"both copied", {NULL, NULL}, {KUMQUATSIEVE_COPY, KUMQUATSIEVE_COPY}, true},
    {"one with a user", {NULL, "user.img"}, {0, 0}, false},
    {"another user", {"user.img", "other.img"}, {0, 0}, false},
    {"one tested", {NULL, NULL}, {0, KUMQUATSIEVE_TEST_DIGEST}, false},
    {"one trusted", {NULL, NULL}, {0, KUMQUATSIEVE_TRUSTED}, false},
    {"one copied", {NULL, NULL}, {0, KUMQUATSIEVE_COPY}, false},
};

static void pairs(void) {
    for (size_t i = 0; i < COUNT_OF(PAIRS); i++) {
        kumquatsieve_dictionary *first = opened(SYSTEM, PAIRS[i].users[0], PAIRS[i].flags[0]),
                                *second = opened(SYSTEM, PAIRS[i].users[1], PAIRS[i].flags[1]);
        CHECK_CASE(PAIRS[i].what, (first == second) == PAIRS[i].is_shared);
        bool is_copied = PAIRS[i].flags[0] & PAIRS[i].flags[1] & KUMQUATSIEVE_COPY;
        CHECK_CASE(PAIRS[i].what, mappings_of(SYSTEM) == (is_copied ? 0 : 1));
        kumquatsieve_dictionary_release(first);
        CHECK_CASE(PAIRS[i].what,
                   dictionary_segments_to(second, PAIRS[i].users[1] ? USERS : PRINTED));
        kumquatsieve_dictionary_release(second);
        check_nothing_left(PAIRS[i].what);
    }
}

/* Each segmenter keeps the files of its dictionary. */
static void kept(void) {
    kumquatsieve_dictionary *dictionary = opened(SYSTEM, USER, 0);
    kumquatsieve_segmenter first = KUMQUATSIEVE_EMPTY, second = KUMQUATSIEVE_EMPTY;
    CHECK(mappings_of(SYSTEM) == 1 && mappings_of(USER) == 1);
    CHECK(kumquatsieve_segmenter_open(&first, dictionary, NULL) == KUMQUATSIEVE_OK);
    CHECK(kumquatsieve_segmenter_open(&first, dictionary, NULL) == KUMQUATSIEVE_FULL_SEGMENTER);
    CHECK(kumquatsieve_segmenter_open(&second, dictionary, NULL) == KUMQUATSIEVE_OK);
    kumquatsieve_dictionary_release(dictionary);
    kumquatsieve_segmenter_close(&first);
    CHECK(mappings_of(SYSTEM) == 1 && mappings_of(USER) == 1);
    CHECK(kumquatsieve_shrink(&second, NULL) == KUMQUATSIEVE_OK);
    CHECK(segments_to(&second, LINE, USERS) && mappings_of(SYSTEM) == 1);
    kumquatsieve_segmenter_close(&second);
    check_nothing_left("kept");
}

/* A file that is replaced stays mapped for the dictionaries that have it, and the next one gets the
   new file. */
static void replaced(void) {
    kumquatsieve_dictionary *before = opened(SYSTEM, NULL, 0), *after;
    uint8_t *feature = memmem(sys.bytes, sys.length, "名詞,もも", strlen("名詞,もも"));
    CHECK(feature);
    memcpy(feature, "動", strlen("動"));
    write_file("new.img", sys.bytes, sys.length);
    memcpy(feature, "名", strlen("名"));
    CHECK(rename("new.img", SYSTEM) == 0 && mappings_of(SYSTEM) == 0 &&
          dictionary_segments_to(before, PRINTED));
    after = opened(SYSTEM, NULL, 0);
    CHECK(after != before && mappings_of(SYSTEM) == 1 && unlink(SYSTEM) == 0);
    CHECK(dictionary_segments_to(before, PRINTED) &&
          dictionary_segments_to(after, "すもも\t名詞,すもも\nもも\t動詞,もも\nEOS\n"));
    kumquatsieve_dictionary_release(before);
    kumquatsieve_dictionary_release(after);
    check_nothing_left("replaced");
    write_file(SYSTEM, sys.bytes, sys.length);
}

/* Changes the times of a file: all of them, or only the time of its state, which a file system may
   keep in steps of some milliseconds. */
static void touch(bool is_state_alone) {
    const struct timespec times[] = {{1, 0}, {1, 0}};
    struct stat before, now;
    if (!is_state_alone) CHECK(utimensat(AT_FDCWD, SYSTEM, times, 0) == 0);
    CHECK(stat(SYSTEM, &before) == 0);
    now = before;
    while (is_state_alone && memcmp(&now.st_ctim, &before.st_ctim, sizeof now.st_ctim) == 0)
        CHECK(chmod(SYSTEM, 0600) == 0 && stat(SYSTEM, &now) == 0);
}

/* A file with other times may have other bytes, so it is another dictionary. */
static void touched(bool is_state_alone) {
    kumquatsieve_dictionary *before = opened(SYSTEM, NULL, 0), *after;
    touch(is_state_alone);
    after = opened(SYSTEM, NULL, 0);
    CHECK(after != before && mappings_of(SYSTEM) == 2);
    CHECK(dictionary_segments_to(before, PRINTED) && dictionary_segments_to(after, PRINTED));
    kumquatsieve_dictionary_release(before);
    CHECK(mappings_of(SYSTEM) == 1 && dictionary_segments_to(after, PRINTED));
    kumquatsieve_dictionary_release(after);
    check_nothing_left("touched");
}

static void often(void) {
    for (int i = 0; i < OFTEN; i++) {
        uint32_t flags = i % 5 == 0 ? KUMQUATSIEVE_COPY : 0;
        kumquatsieve_dictionary_release(opened(SYSTEM, i % 3 == 0 ? OTHER : USER, flags));
    }
    check_nothing_left("often");
}

int main(int given, char **paths) {
    CHECK(given == 4);
    sys = read_file(paths[1]);
    user = read_file(paths[2]);
    CHECK(chdir(paths[3]) == 0);
    write_file(SYSTEM, sys.bytes, sys.length);
    write_file(USER, user.bytes, user.length);
    write_file(OTHER, user.bytes, user.length);
    kumquatsieve_dictionary_release(opened(SYSTEM, NULL, 0));
    maps_before = mappings_of(NULL);
    files_before = open_files();
    one_file();
    pairs();
    kept();
    replaced();
    touched(false);
    touched(true);
    often();
    free(sys.bytes);
    free(user.bytes);
    printf("mapped: a file is mapped once, until its last holder releases it; %d opens left "
           "nothing\n",
           OFTEN);
    return 0;
}

/* Tests dictionaries of images in memory, and segmenters over them, also on several threads:
   dictionaries SYSTEM.img USER.img [FORKS]. The user dictionary has the word すもももも. With
   FORKS, so many children are forked while the threads run, and open segmenters too. */
#include "helpers.h"
#include <pthread.h>
#include <sys/wait.h>
#include <unistd.h>

#define USERS "すもももも\t名詞,すもももも\nEOS\n"

enum { THREADS = 4, ROUNDS = 50, USER_COUNT = 17 };

/* Images that make no dictionary: the code, the number of the rejected image, and the number of the
   error. */
typedef struct rejected_row {
    const char *what;
    kumquatsieve_image images[2];
    size_t count;
    uint32_t flags, code;
    size_t image;
    uint64_t number;
} rejected_row;

static kumquatsieve_image image_of(file whole) {
    return (kumquatsieve_image){whole.bytes, whole.length};
}

static file copy_of(file whole) {
    file copy = {malloc(whole.length), whole.length, NULL};
    CHECK(copy.bytes);
    memcpy(copy.bytes, whole.bytes, whole.length);
    return copy;
}

static void check_rejected(const rejected_row *row) {
    kumquatsieve_dictionary *dictionary = NULL;
    kumquatsieve_error error;
    CHECK_CASE(row->what, kumquatsieve_dictionary_load(&dictionary, row->images, row->count,
                                                       row->flags, &error) == row->code);
    CHECK_CASE(row->what, !dictionary && error.image == row->image && error.number == row->number);
    CHECK_CASE(row->what, kumquatsieve_dictionary_load(NULL, row->images, row->count, row->flags,
                                                       NULL) == row->code);
}

static void rejected_images(file system, file user) {
    file bad = copy_of(system), odd = copy_of(system), old = copy_of(system);
    bad.bytes[8] = 9;
    old.bytes[8] = 1;
    odd.bytes[system.length - 1] ^= 1;
    const rejected_row rows[] = {
        {"an empty one", {{NULL, 0}}, 1, 0, KUMQUATSIEVE_TRUNCATED, 0, 0},
        {"an empty one, trusted",
         {{NULL, 0}},
         1,
         KUMQUATSIEVE_TRUSTED,
         KUMQUATSIEVE_TRUNCATED,
         0,
         0},
        {"a byte less, trusted",
         {{system.bytes, system.length - 1}},
         1,
         KUMQUATSIEVE_TRUSTED,
         KUMQUATSIEVE_TRUNCATED,
         0,
         0},
        {"another layout, trusted",
         {image_of(old)},
         1,
         KUMQUATSIEVE_TRUSTED,
         KUMQUATSIEVE_BAD_SECTION,
         0,
         9},
        {"a user's first", {image_of(user)}, 1, 0, KUMQUATSIEVE_NOT_SYSTEM, 0, 0},
        {"a user's first, trusted",
         {image_of(user)},
         1,
         KUMQUATSIEVE_TRUSTED,
         KUMQUATSIEVE_NOT_SYSTEM,
         0,
         0},
        {"another layout", {image_of(bad)}, 1, 0, KUMQUATSIEVE_BAD_LAYOUT, 0, 9},
        {"another layout, its digest skipped",
         {image_of(bad)},
         1,
         KUMQUATSIEVE_SKIP_DIGEST,
         KUMQUATSIEVE_BAD_LAYOUT,
         0,
         9},
        {"a system's second",
         {image_of(system), image_of(system)},
         2,
         0,
         KUMQUATSIEVE_NOT_USER,
         1,
         0},
        {"another layout second",
         {image_of(system), image_of(bad)},
         2,
         0,
         KUMQUATSIEVE_BAD_LAYOUT,
         1,
         9},
        {"another layout after a user's",
         {image_of(user), image_of(bad)},
         2,
         0,
         KUMQUATSIEVE_BAD_LAYOUT,
         1,
         9},
        {"another digest", {image_of(odd)}, 1, 0, KUMQUATSIEVE_DIGEST, 0, 0},
        {"another digest, which is skipped, second",
         {image_of(system), image_of(odd)},
         2,
         KUMQUATSIEVE_SKIP_DIGEST,
         KUMQUATSIEVE_NOT_USER,
         1,
         0},
    };
    for (size_t i = 0; i < COUNT_OF(rows); i++) check_rejected(&rows[i]);
    free(bad.bytes);
    free(odd.bytes);
    free(old.bytes);
}

/* Images with a wrong checksum are accepted by these flags. The bytes are copied. */
static void skipped_digests(file system, file user) {
    static const uint32_t FLAGS_OF[] = {KUMQUATSIEVE_SKIP_DIGEST, KUMQUATSIEVE_TRUSTED,
                                        KUMQUATSIEVE_SKIP_DIGEST | KUMQUATSIEVE_TRUSTED};
    for (size_t i = 0; i < COUNT_OF(FLAGS_OF); i++) {
        file first = copy_of(system), second = copy_of(user);
        kumquatsieve_dictionary *dictionary = NULL;
        kumquatsieve_segmenter segmenter = KUMQUATSIEVE_EMPTY;
        first.bytes[first.length - 1] ^= 1;
        second.bytes[second.length - 1] ^= 1;
        const kumquatsieve_image images[] = {image_of(first), image_of(second)};
        CHECK(kumquatsieve_dictionary_load(&dictionary, images, 2, 0, NULL) == KUMQUATSIEVE_DIGEST);
        CHECK(kumquatsieve_dictionary_load(&dictionary, images, 2, FLAGS_OF[i], NULL) ==
              KUMQUATSIEVE_OK);
        memset(first.bytes, 0, first.length);
        free(first.bytes);
        free(second.bytes);
        CHECK(kumquatsieve_segmenter_open(&segmenter, dictionary, NULL) == KUMQUATSIEVE_OK);
        kumquatsieve_dictionary_release(dictionary);
        CHECK(segments_to(&segmenter, LINE, USERS));
        kumquatsieve_segmenter_close(&segmenter);
    }
}

/* A segmenter starts with the default format, and keeps dictionaries that their owners released. */
static void segmenters(file system, file user) {
    const file both[] = {system, user};
    kumquatsieve_segmenter first = KUMQUATSIEVE_EMPTY, second = KUMQUATSIEVE_EMPTY;
    kumquatsieve_dictionary *dictionary = NULL, *alone = NULL;
    CHECK(open_images(&dictionary, both, 2, NULL) == KUMQUATSIEVE_OK);
    CHECK(open_images(&alone, both, 1, NULL) == KUMQUATSIEVE_OK && alone != dictionary);
    CHECK(kumquatsieve_segmenter_open(&first, NULL, NULL) == KUMQUATSIEVE_EMPTY_SEGMENTER &&
          !first.held);
    CHECK(kumquatsieve_segmenter_open(&first, dictionary, NULL) == KUMQUATSIEVE_OK &&
          kumquatsieve_segmenter_open(&first, alone, NULL) == KUMQUATSIEVE_FULL_SEGMENTER);
    CHECK(set_texts(&first, "%m ", NULL, "", "\\n") == KUMQUATSIEVE_OK);
    CHECK(kumquatsieve_segmenter_open(&second, dictionary, NULL) == KUMQUATSIEVE_OK &&
          segments_to(&second, LINE, USERS));
    kumquatsieve_segmenter_close(&second);
    CHECK(kumquatsieve_segmenter_open(&second, alone, NULL) == KUMQUATSIEVE_OK &&
          segments_to(&second, LINE, PRINTED));
    kumquatsieve_dictionary *held = kumquatsieve_dictionary_retain(dictionary);
    CHECK(held == dictionary);
    kumquatsieve_dictionary_release(alone);
    kumquatsieve_dictionary_release(dictionary);
    kumquatsieve_dictionary_release(held);
    CHECK(segments_to(&first, LINE, "すもももも \n") && segments_to(&second, LINE, PRINTED));
    CHECK(segments_to(&first, "zzz", "zzz \n"));
    kumquatsieve_segmenter_close(&first);
    kumquatsieve_segmenter_close(&second);
}

/* There may be any number of user dictionaries. The word is from the first of them. */
static void many_users(file system, file user) {
    file images[1 + USER_COUNT] = {system};
    kumquatsieve_segmenter segmenter = KUMQUATSIEVE_EMPTY;
    const kumquatsieve_word *words = NULL;
    size_t count = 0;
    for (size_t i = 1; i <= USER_COUNT; i++) images[i] = user;
    CHECK(load(&segmenter, images, 1 + USER_COUNT, NULL) == KUMQUATSIEVE_OK);
    CHECK(segments_to(&segmenter, LINE, USERS));
    CHECK(kumquatsieve_words(&segmenter, &words, &count, NULL) == KUMQUATSIEVE_OK && count == 1 &&
          words->dictionary == 1);
    kumquatsieve_segmenter_close(&segmenter);
}

static void segment_once(kumquatsieve_dictionary *dictionary) {
    kumquatsieve_segmenter own = KUMQUATSIEVE_EMPTY;
    kumquatsieve_dictionary *held = kumquatsieve_dictionary_retain(dictionary);
    size_t count = 0;
    CHECK(kumquatsieve_lookup(dictionary, LINE, strlen(LINE), 0, NULL, 0, &count, NULL) ==
              KUMQUATSIEVE_OK &&
          count == 1);
    CHECK(kumquatsieve_segmenter_open(&own, held, NULL) == KUMQUATSIEVE_OK);
    kumquatsieve_dictionary_release(held);
    CHECK(segments_to(&own, LINE, USERS));
    kumquatsieve_segmenter_close(&own);
}

/* Opens segmenters over one dictionary and segments with them, on several threads at once. */
static void *segment_often(void *given) {
    for (int round = 0; round < ROUNDS; round++) segment_once(given);
    return NULL;
}

/* Forks children meanwhile, which open segmenters over it too. */
static void fork_often(kumquatsieve_dictionary *dictionary, int forks) {
    for (int i = 0; i < forks; i++) {
        int status = 0;
        pid_t child = fork();
        CHECK(child >= 0);
        if (child == 0) {
            segment_once(dictionary);
            _exit(0);
        }
        CHECK(waitpid(child, &status, 0) == child && status == 0);
    }
}

static void threads(file system, file user, int forks) {
    const file both[] = {system, user};
    kumquatsieve_dictionary *dictionary = NULL;
    pthread_t all[THREADS];
    CHECK(open_images(&dictionary, both, 2, NULL) == KUMQUATSIEVE_OK);
    for (int i = 0; i < THREADS; i++)
        CHECK(pthread_create(&all[i], NULL, segment_often, dictionary) == 0);
    fork_often(dictionary, forks);
    for (int i = 0; i < THREADS; i++) CHECK(pthread_join(all[i], NULL) == 0);
    kumquatsieve_dictionary_release(dictionary);
}

int main(int given, char **paths) {
    int forks = given == 4 ? atoi(paths[3]) : 0;
    CHECK(given >= 3);
    file system = read_file(paths[1]), user = read_file(paths[2]);
    rejected_images(system, user);
    skipped_digests(system, user);
    segmenters(system, user);
    many_users(system, user);
    threads(system, user, forks);
    free(system.bytes);
    free(user.bytes);
    printf("dictionaries: %d threads and %d children opened segmenters over one dictionary\n",
           THREADS, forks);
    return 0;
}

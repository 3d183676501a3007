/* Lets each allocation of a run fail in turn, and counts the blocks: out_of_memory SYSTEM.img
   USER.img. The call whose allocation fails returns KUMQUATSIEVE_MEMORY, the next call works as it
   would have, and no block is left. A mapping counts as a block. Linked with --wrap of malloc,
   calloc, realloc, strdup, free, mmap, mremap and munmap. */
#include "helpers.h"
#include <errno.h>
#include <sys/mman.h>

void *__real_malloc(size_t size);
void *__real_calloc(size_t count, size_t size);
char *__real_strdup(const char *text);
void *__real_mremap(void *at, size_t length, size_t wanted, int flags);
void *__real_realloc(void *block, size_t size);
void __real_free(void *block);
void *__real_mmap(void *at, size_t length, int protection, int flags, int fd, off_t offset);
int __real_munmap(void *at, size_t length);

static long growths, failing_growth, held;

static int fails_now(void) { return ++growths == failing_growth; }

void *__wrap_malloc(size_t size) {
    if (fails_now()) return NULL;
    void *block = __real_malloc(size);
    held += block != NULL;
    return block;
}

void *__wrap_realloc(void *block, size_t size) {
    if (!block) return __wrap_malloc(size);
    return fails_now() ? NULL : __real_realloc(block, size);
}

void *__wrap_calloc(size_t count, size_t size) {
    if (fails_now()) return NULL;
    void *block = __real_calloc(count, size);
    held += block != NULL;
    return block;
}

char *__wrap_strdup(const char *text) {
    if (fails_now()) return NULL;
    char *copy = __real_strdup(text);
    held += copy != NULL;
    return copy;
}

void __wrap_free(void *block) {
    held -= block != NULL;
    __real_free(block);
}

void *__wrap_mmap(void *at, size_t length, int protection, int flags, int fd, off_t offset) {
    errno = ENOMEM;
    if (fails_now()) return MAP_FAILED;
    void *mapped = __real_mmap(at, length, protection, flags, fd, offset);
    held += mapped != MAP_FAILED;
    return mapped;
}

void *__wrap_mremap(void *at, size_t length, size_t wanted, int flags) {
    errno = ENOMEM;
    return fails_now() ? MAP_FAILED : __real_mremap(at, length, wanted, flags);
}

int __wrap_munmap(void *at, size_t length) {
    held--;
    return __real_munmap(at, length);
}

/* How many calls failed. Each call is repeated until it succeeds. No call returns another error,
   and an output that it would have set is unchanged. */
static long times_failed;

enum { UNSET = 77, LONGEST = 1048576 };

static bool again(uint32_t code) {
    CHECK(code == KUMQUATSIEVE_OK || code == KUMQUATSIEVE_MEMORY);
    times_failed += code == KUMQUATSIEVE_MEMORY;
    return code == KUMQUATSIEVE_MEMORY;
}

static void retry_line(kumquatsieve_segmenter *segmenter) {
    kumquatsieve_line line = {.count = UNSET};
    const kumquatsieve_word *words = NULL;
    size_t count = UNSET;
    while (again(kumquatsieve_set_format(segmenter, "%m ", NULL, NULL, "\\n", NULL))) continue;
    while (again(kumquatsieve_segment(segmenter, LINE, strlen(LINE), 0, &line, NULL)))
        CHECK(line.count == UNSET);
    while (again(kumquatsieve_words(segmenter, &words, &count, NULL)))
        CHECK(!words && count == UNSET);
    CHECK(line.count == 1 && count == 1 && words->end == strlen(LINE));
}

static void retry_borrowed(kumquatsieve_segmenter *segmenter) {
    const char *features = NULL, *printed = NULL;
    size_t features_length = UNSET, length = UNSET;
    while (again(kumquatsieve_features(segmenter, &features, &features_length, NULL)))
        CHECK(!features && features_length == UNSET);
    while (again(kumquatsieve_print(segmenter, &printed, &length, NULL)))
        CHECK(!printed && length == UNSET);
    CHECK(is_text(printed, length, "すもももも \n"));
}

/* The nodes are すもも and すもももも at the start, and the three after them. */
static void retry_nodes(kumquatsieve_segmenter *segmenter) {
    const kumquatsieve_node *nodes = NULL;
    size_t count = UNSET, length = UNSET;
    const char *text = NULL;
    while (again(kumquatsieve_nodes(segmenter, &nodes, &count, NULL)))
        CHECK(!nodes && count == UNSET);
    CHECK(count == 5);
    while (again(kumquatsieve_feature(segmenter, &nodes->word, &text, &length, NULL)))
        CHECK(!text && length == UNSET);
    CHECK(is_text(text, length, "名詞,すもも"));
    while (again(kumquatsieve_field(segmenter, &nodes->word, 1, &text, &length, NULL))) continue;
    CHECK(is_text(text, length, "すもも"));
}

/* After a failure the last line is unchanged. */
static void retry_text(kumquatsieve_segmenter *segmenter) {
    static const char TEXT[] = "z\n\xff\xed\xa0\xbd\xed\xb8\x80もも";
    kumquatsieve_line line = {.end = 2};
    const kumquatsieve_word *words = NULL;
    size_t count = 0;
    while (again(kumquatsieve_segment(segmenter, LINE, strlen(LINE), 0, NULL, NULL))) continue;
    while (again(kumquatsieve_segment_text(segmenter, TEXT, strlen(TEXT), 2, 0, &line, NULL)))
        CHECK(line.end == 2);
    CHECK(line.end == strlen(TEXT) && line.replaced == 1);
    while (again(kumquatsieve_words(segmenter, &words, &count, NULL))) continue;
    CHECK(count == 2 && words[0].start == 2 && words[1].end == strlen(TEXT));
}

static void retry_lines(kumquatsieve_segmenter *segmenter) {
    static const char TEXT[] = LINE "\n" LINE;
    const char *output = NULL;
    size_t length = UNSET;
    uint64_t lines = UNSET;
    while (again(
        kumquatsieve_parse_lines(segmenter, TEXT, strlen(TEXT), &output, &length, &lines, NULL)))
        CHECK(is_text(output, length, lines == 1 ? "" : "すもももも \n"));
    CHECK(lines == 2 && is_text(output, length, "すもももも \nすもももも \n"));
    while (again(kumquatsieve_shrink(segmenter, NULL))) continue;
    while (again(kumquatsieve_set_grouping(segmenter, 3, NULL))) continue;
}

static void retry_entries(kumquatsieve_dictionary *dictionary) {
    kumquatsieve_word word;
    size_t count = UNSET;
    while (again(kumquatsieve_lookup(dictionary, LINE, strlen(LINE), 0, &word, 1, &count, NULL)))
        CHECK(count == UNSET);
    CHECK(count == 1 && word.dictionary == 1);
}

/* Runs with images in memory. */
static void run(file system, file user) {
    const kumquatsieve_image images[] = {{system.bytes, system.length}, {user.bytes, user.length}};
    kumquatsieve_dictionary *dictionary = NULL;
    kumquatsieve_segmenter segmenter = KUMQUATSIEVE_EMPTY;
    while (again(kumquatsieve_dictionary_load(&dictionary, images, 2, 0, NULL))) CHECK(!dictionary);
    while (again(kumquatsieve_segmenter_open(&segmenter, dictionary, NULL)))
        CHECK(!segmenter.held && !segmenter.state);
    retry_entries(dictionary);
    retry_line(&segmenter);
    retry_borrowed(&segmenter);
    retry_nodes(&segmenter);
    retry_lines(&segmenter);
    kumquatsieve_segmenter_close(&segmenter);
    kumquatsieve_dictionary_release(dictionary);
}

/* Runs a text of any bytes. */
static void run_text(file system, file user) {
    const kumquatsieve_image images[] = {{system.bytes, system.length}, {user.bytes, user.length}};
    kumquatsieve_dictionary *dictionary = NULL;
    kumquatsieve_segmenter segmenter = KUMQUATSIEVE_EMPTY;
    while (again(kumquatsieve_dictionary_load(&dictionary, images, 2, KUMQUATSIEVE_TRUSTED, NULL)))
        CHECK(!dictionary);
    while (again(kumquatsieve_segmenter_open(&segmenter, dictionary, NULL)))
        CHECK(!segmenter.held && !segmenter.state);
    kumquatsieve_dictionary_release(dictionary);
    retry_text(&segmenter);
    kumquatsieve_segmenter_close(&segmenter);
}

/* Opens files by these flags, and a second time while they are open. */
static void open_twice(file system, file user, uint32_t flags) {
    const char *const users[] = {user.path};
    kumquatsieve_dictionary *dictionary = NULL, *other = NULL;
    kumquatsieve_segmenter segmenter = KUMQUATSIEVE_EMPTY;
    while (again(kumquatsieve_dictionary_open(&dictionary, system.path, users, 1, flags, NULL)))
        CHECK(!dictionary);
    while (again(kumquatsieve_dictionary_open(&other, system.path, users, 1, flags, NULL)))
        CHECK(!other);
    CHECK(other == dictionary);
    while (again(kumquatsieve_segmenter_open(&segmenter, other, NULL))) CHECK(!segmenter.held);
    kumquatsieve_dictionary_release(dictionary);
    kumquatsieve_dictionary_release(other);
    while (again(segment_line(&segmenter, LINE))) continue;
    kumquatsieve_segmenter_close(&segmenter);
}

static void run_over_files(file system, file user) { open_twice(system, user, 0); }

static void run_over_copies(file system, file user) { open_twice(system, user, KUMQUATSIEVE_COPY); }

static long growths_of(void (*runs)(file, file), file system, file user) {
    long before = held, first = growths;
    runs(system, user);
    CHECK(growths > first && held == before && times_failed == 0);
    return growths - first;
}

/* Lets each of `all` allocations fail. Returns how many made their call fail. */
static long fail_each(void (*runs)(file, file), file system, file user, long all) {
    long before = held, ended = 0;
    for (long n = 1; n <= all; n++) {
        long was = times_failed;
        growths = 0;
        failing_growth = n;
        runs(system, user);
        failing_growth = 0;
        ended += times_failed == was + 1;
        CHECK(held == before);
    }
    return ended;
}

int main(int given, char **paths) {
    CHECK(given == 3);
    file system = read_file(paths[1]), user = read_file(paths[2]);
    void (*const all[])(file, file) = {run, run_text, run_over_files, run_over_copies};
    long counts[COUNT_OF(all)], sum = 0;
    for (size_t i = 0; i < COUNT_OF(all); i++) sum += counts[i] = growths_of(all[i], system, user);
    for (size_t i = 0; i < COUNT_OF(all); i++)
        CHECK(fail_each(all[i], system, user, counts[i]) == counts[i]);
    printf("out of memory: %ld allocations failed; each one ended its call, and no block is left\n",
           sum);
    free(system.bytes);
    free(user.bytes);
    return 0;
}

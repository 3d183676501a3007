/* Tests that huge pages are requested for the memory of a large image, and for nothing else:
   huge_pages SYSTEM.img LARGE.img. The large image is longer than LARGE in capi/src/mapping.c. Both
   have the words of the sample. Prints how many kB of it are in huge pages. */
#define _GNU_SOURCE
#include "helpers.h"
#include <errno.h>
#include <sys/wait.h>
#include <unistd.h>

/* Whether the kernel rejects requests for huge pages. */
static bool rejects;

int __real_madvise(void *at, size_t length, int advice);

int __wrap_madvise(void *at, size_t length, int advice) {
    if (!rejects) return __real_madvise(at, length, advice);
    errno = EINVAL;
    return -1;
}

/* The memory of this process in kB: the mappings for which huge pages were requested, and how much
   of them is in such pages. */
typedef struct pages {
    size_t requested;
    size_t huge;
} pages;

static pages pages_now(void) {
    char line[512];
    size_t size = 0, huge = 0;
    pages found = {0, 0};
    FILE *maps = fopen("/proc/self/smaps", "r");
    CHECK(maps);
    while (fgets(line, sizeof line, maps)) {
        sscanf(line, "Size: %zu kB", &size);
        sscanf(line, "AnonHugePages: %zu kB", &huge);
        if (strncmp(line, "VmFlags:", strlen("VmFlags:")) != 0 || !strstr(line, " hg")) continue;
        found.requested += size;
        found.huge += huge;
    }
    fclose(maps);
    return found;
}

static uint32_t copied(kumquatsieve_segmenter *segmenter, file image) {
    kumquatsieve_dictionary *dictionary = NULL;
    const kumquatsieve_image bytes = {image.bytes, image.length};
    uint32_t code =
        kumquatsieve_dictionary_load(&dictionary, &bytes, 1, KUMQUATSIEVE_SKIP_DIGEST, NULL);
    if (code == KUMQUATSIEVE_OK) code = kumquatsieve_segmenter_open(segmenter, dictionary, NULL);
    kumquatsieve_dictionary_release(dictionary);
    return code;
}

static uint32_t opened(kumquatsieve_segmenter *segmenter, const char *path) {
    kumquatsieve_dictionary *dictionary = NULL;
    uint32_t code =
        kumquatsieve_dictionary_open(&dictionary, path, NULL, 0, KUMQUATSIEVE_COPY, NULL);
    if (code == KUMQUATSIEVE_OK) code = kumquatsieve_segmenter_open(segmenter, dictionary, NULL);
    kumquatsieve_dictionary_release(dictionary);
    return code;
}

static uint32_t read_whole(kumquatsieve_segmenter *segmenter, file image) {
    return opened(segmenter, image.path);
}

/* A pipe has no length, so the memory grows. */
static uint32_t piped(kumquatsieve_segmenter *segmenter, file image) {
    char path[32];
    int ends[2];
    CHECK(pipe(ends) == 0);
    pid_t child = fork();
    CHECK(child >= 0);
    if (child == 0) {
        size_t at = 0;
        close(ends[0]);
        while (at < image.length) {
            ssize_t written = write(ends[1], image.bytes + at, image.length - at);
            if (written <= 0) _exit(1);
            at += (size_t)written;
        }
        _exit(0);
    }
    close(ends[1]);
    snprintf(path, sizeof path, "/dev/fd/%d", ends[0]);
    uint32_t code = opened(segmenter, path);
    close(ends[0]);
    waitpid(child, NULL, 0);
    return code;
}

/* A way to load an image. */
typedef struct way {
    const char *what;
    uint32_t (*load)(kumquatsieve_segmenter *segmenter, file image);
} way;

static const way WAYS[] = {{"copied", copied}, {"read", read_whole}, {"piped", piped}};

/* Returns the pages of a process that loads an image in one way. After the image is freed nothing
   has huge pages any more. */
static pages pages_of(const way *by, file image) {
    kumquatsieve_segmenter segmenter = KUMQUATSIEVE_EMPTY;
    CHECK_CASE(by->what, by->load(&segmenter, image) == KUMQUATSIEVE_OK);
    CHECK_CASE(by->what,
               segment_line(&segmenter, LINE) == KUMQUATSIEVE_OK && prints(&segmenter, PRINTED));
    pages found = pages_now();
    kumquatsieve_segmenter_close(&segmenter);
    CHECK_CASE(by->what, pages_now().requested == 0);
    return found;
}

static void requested_for_the_large_one(file system, file large) {
    for (size_t i = 0; i < COUNT_OF(WAYS); i++) {
        CHECK_CASE(WAYS[i].what, pages_of(&WAYS[i], system).requested == 0);
        pages found = pages_of(&WAYS[i], large);
        CHECK_CASE(WAYS[i].what, found.requested >= large.length / 1024 &&
                                     found.requested <= 2 * large.length / 1024);
        printf("%s%s: %zu of %zu kB", i == 0 ? "" : ", ", WAYS[i].what, found.huge,
               found.requested);
    }
    puts("");
}

/* An image is loaded without huge pages too. */
static void rejected(file large) {
    rejects = true;
    for (size_t i = 0; i < COUNT_OF(WAYS); i++)
        CHECK_CASE(WAYS[i].what, pages_of(&WAYS[i], large).requested == 0);
    rejects = false;
}

int main(int given, char **paths) {
    CHECK(given == 3);
    file system = read_file(paths[1]), large = read_file(paths[2]);
    requested_for_the_large_one(system, large);
    rejected(large);
    free(system.bytes);
    free(large.bytes);
    return 0;
}

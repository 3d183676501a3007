/* Tests an image that is replaced by another one while it is opened: changing_image IMG OTHER. The
   sizes and the settings of IMG, which were read before, don't belong to OTHER. An image that is
   changed again and again is rejected after some tries. Linked with --wrap of
   kumquatsieve_dictionary_open. */
#include "helpers.h"
#include <fcntl.h>
#include <kumquatsieve.h>
#include <sys/stat.h>

enum { ALWAYS = 1000 };

static const char *path, *other;
static int changes, opens;

uint32_t __real_kumquatsieve_dictionary_open(kumquatsieve_dictionary **dictionary, const char *name,
                                             const char *const *users, size_t count, uint32_t flags,
                                             kumquatsieve_error *error);
uint32_t __wrap_kumquatsieve_dictionary_open(kumquatsieve_dictionary **dictionary, const char *name,
                                             const char *const *users, size_t count, uint32_t flags,
                                             kumquatsieve_error *error);

/* Sets a modification time that the image never had. */
static void touch(void) {
    static time_t last;
    struct timespec times[2] = {{.tv_nsec = UTIME_OMIT}, {.tv_sec = ++last}};
    CHECK(utimensat(AT_FDCWD, path, times, 0) == 0);
}

/* Changes the file before each open, as long as there are changes left. The first one is a rename,
   and the others set the modification time. */
uint32_t __wrap_kumquatsieve_dictionary_open(kumquatsieve_dictionary **dictionary, const char *name,
                                             const char *const *users, size_t count, uint32_t flags,
                                             kumquatsieve_error *error) {
    opens++;
    if (changes > 0 && other)
        CHECK(rename(other, path) == 0);
    else if (changes > 0)
        touch();
    changes -= changes > 0;
    other = NULL;
    return __real_kumquatsieve_dictionary_open(dictionary, name, users, count, flags, error);
}

int main(int given, char **words) {
    CHECK(given == 3);
    path = words[1];
    other = words[2];
    changes = 1;
    mecab_t *tagger = mecab_new2(words_of(path, ""));
    CHECK(tagger && opens == 2 && mecab_dictionary_info(tagger)->size == 4);
    CHECK(strcmp(mecab_sparse_tostr(tagger, "空"), "空\t記号,空\nEOS\n") == 0);
    const mecab_node_t *node = mecab_sparse_tonode(tagger, "空");
    CHECK(strcmp(node->feature, "OTHER") == 0 && strcmp(node->next->feature, "記号,空") == 0);
    mecab_destroy(tagger);
    touch();
    changes = ALWAYS;
    opens = 0;
    CHECK(!mecab_new2(words_of(path, "")) && opens > 1 && opens < ALWAYS);
    CHECK(strstr(mecab_strerror(NULL), "changed while it was being opened"));
    puts("changing: an image that is changed while it is opened is opened anew, with its settings");
    return 0;
}

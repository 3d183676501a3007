/* Tests what models, taggers and threads share of the sample's dictionary: sharing IMG. */
#include "helpers.h"
#include <errno.h>
#include <fcntl.h>
#include <pthread.h>
#include <sys/stat.h>
#include <unistd.h>

static const char *dictionary;

static char *words(const char *more) { return words_of(dictionary, more); }

/* Opening images that are open returns the same images. */
static void images(void) {
    mecab_t *first = mecab_new2(words("")), *second = mecab_new2(words("-Owakati")),
            *users = mecab_new2(words("-u /nowhere.img"));
    CHECK(first && second && !users &&
          mecab_dictionary_info(first) == mecab_dictionary_info(second));
    mecab_destroy(first);
    CHECK(strcmp(mecab_sparse_tostr(second, LINE), WAKATI) == 0);
    mecab_destroy(second);
    CHECK(!mecab_new2("-d /var/lib/mecab/dic/ipadic-utf8/sys.dic") &&
          strstr(mecab_strerror(NULL), "is a MeCab dictionary"));
    CHECK(!mecab_new2(words("-u /var/lib/mecab/dic/ipadic-utf8/sys.dic")) &&
          strstr(mecab_strerror(NULL), "dictc user"));
    CHECK(!mecab_new2("-d /dev") && !mecab_new2("-d /dev/null") &&
          strstr(mecab_strerror(NULL), "/dev/null: not a regular file"));
}

/* The images that were released last stay open for a caller that makes one tagger after another.
   valgrind reports reads of freed memory. */
static void images_that_stay(void) {
    mecab_t *first = mecab_new2(words(""));
    const mecab_dictionary_info_t *info = first ? mecab_dictionary_info(first) : NULL;
    CHECK(info);
    mecab_destroy(first);
    CHECK(strcmp(info->filename, dictionary) == 0);
    mecab_t *second = mecab_new2(words("-Owakati"));
    CHECK(second && mecab_dictionary_info(second) == info &&
          strcmp(mecab_sparse_tostr(second, LINE), WAKATI) == 0);
    mecab_destroy(second);
}

static void *parse_often(void *model) {
    mecab_t *tagger = mecab_model_new_tagger(model);
    for (int i = 0; i < 200; i++)
        CHECK(tagger && strcmp(mecab_sparse_tostr(tagger, LINE), PRINTED) == 0);
    mecab_destroy(tagger);
    return NULL;
}

/* Taggers of one model parse on several threads, while its dictionaries are swapped. */
static void threads(void) {
    enum { THREADS = 4 };
    pthread_t all[THREADS];
    mecab_model_t *model = mecab_model_new2(words(""));
    for (int i = 0; i < THREADS; i++) CHECK(pthread_create(&all[i], NULL, parse_often, model) == 0);
    for (int i = 0; i < 20; i++) CHECK(mecab_model_swap(model, mecab_model_new2(words(""))));
    for (int i = 0; i < THREADS; i++) CHECK(pthread_join(all[i], NULL) == 0);
    mecab_model_destroy(model);
}

/* Several threads parse with one tagger, each with a lattice of its own, as mecab.h allows, also
   while the dictionaries of the model are swapped. */
static void *parse_by_one(void *tagger) {
    mecab_lattice_t *lattice = mecab_lattice_new();
    for (int i = 0; i < 500; i++) {
        mecab_lattice_set_sentence(lattice, LINE);
        CHECK(mecab_parse_lattice(tagger, lattice) &&
              strcmp(mecab_lattice_tostr(lattice), PRINTED) == 0);
        CHECK(strcmp(mecab_lattice_get_bos_node(lattice)->next->next->feature, "名詞,もも") == 0);
    }
    mecab_lattice_destroy(lattice);
    return NULL;
}

static void threads_of_one_tagger(void) {
    enum { THREADS = 4 };
    pthread_t all[THREADS];
    mecab_model_t *model = mecab_model_new2(words(""));
    mecab_t *tagger = mecab_model_new_tagger(model);
    for (int i = 0; i < THREADS; i++)
        CHECK(pthread_create(&all[i], NULL, parse_by_one, tagger) == 0);
    for (int i = 0; i < 20; i++) CHECK(mecab_model_swap(model, mecab_model_new2(words(""))));
    for (int i = 0; i < THREADS; i++) CHECK(pthread_join(all[i], NULL) == 0);
    mecab_destroy(tagger);
    mecab_model_destroy(model);
}

static void *open_once(void *options) {
    mecab_destroy(mecab_new2(options));
    pthread_testcancel();
    return NULL;
}

/* Writes the path of another name of the dictionary, or of a file beside that. */
static const char *another(char *path, size_t room, const char *ending) {
    snprintf(path, room, "%.*s-another%s", (int)(strlen(dictionary) - strlen(".img")), dictionary,
             ending);
    return path;
}

/* A thread that is cancelled while it opens an image releases its locks. Here it reads rules for
   ids from a pipe, while others wait. */
static void cancelled(void) {
    static const char RULE[] = "名詞 1\n";
    char image[4096], settings[4096], rules[4096], options[4200];
    pthread_t thread;
    void *end = NULL;
    int pipe = -1;
    CHECK(link(dictionary, another(image, sizeof image, ".img")) == 0 &&
          mkfifo(another(rules, sizeof rules, ".pos-id.def"), 0600) == 0);
    FILE *file = fopen(another(settings, sizeof settings, ".dicrc"), "w");
    CHECK(file && fclose(file) == 0);
    snprintf(options, sizeof options, "-d %s", image);
    CHECK(pthread_create(&thread, NULL, open_once, options) == 0);
    while ((pipe = open(rules, O_WRONLY | O_NONBLOCK)) < 0)
        CHECK(errno == ENXIO && usleep(1000) == 0);
    CHECK(pthread_cancel(thread) == 0 && write(pipe, RULE, strlen(RULE)) == (ssize_t)strlen(RULE) &&
          close(pipe) == 0);
    CHECK(pthread_join(thread, &end) == 0 && end == PTHREAD_CANCELED);
    /* Ends the program if a lock is never released. */
    alarm(60);
    mecab_t *tagger = mecab_new2(words(""));
    alarm(0);
    CHECK(tagger && strcmp(mecab_sparse_tostr(tagger, LINE), PRINTED) == 0);
    mecab_destroy(tagger);
    CHECK(unlink(image) == 0 && unlink(settings) == 0 && unlink(rules) == 0);
}

int main(int given, char **paths) {
    CHECK(given == 2);
    dictionary = paths[1];
    images();
    images_that_stay();
    threads();
    threads_of_one_tagger();
    cancelled();
    puts("sharing: a process has an image once, and one tagger serves several threads");
    return 0;
}

/* Forks while three threads parse with one tagger: `forks DICTIONARY`, 200 times; or `forks
   DICTIONARY ONE OTHER`, 2,000 times, while the threads open ONE and OTHER by turns, so that these
   are loaded and freed all the time. Each child parses with that tagger, opens and parses with
   another one, and ends. alarm(2) ends a child that hangs, and the program itself. Prints how many
   children succeeded. */
#include <mecab.h>
#include <pthread.h>
#include <stdatomic.h>
#include <stdio.h>
#include <stdlib.h>
#include <string.h>
#include <sys/wait.h>
#include <unistd.h>

enum {
    THREADS = 3,
    FORKS = 200,
    FORKS_OF_TWO = 2000,
    SECONDS = 20,
    ALL_SECONDS = 300,
    WORDS = 4096
};

static const char LINE[] = "すもももももももものうち";
static char options[WORDS];
static char turns[2][WORDS];
static char wanted[WORDS];
static atomic_bool is_over;

static void set_words(char *words, const char *dictionary) {
    snprintf(words, WORDS, "-d %s", dictionary);
}

static int prints_wanted(mecab_t *tagger) {
    mecab_lattice_t *lattice = mecab_lattice_new();
    int same = 0;
    if (tagger && lattice) {
        mecab_lattice_set_sentence(lattice, LINE);
        same = mecab_parse_lattice(tagger, lattice) &&
               strcmp(mecab_lattice_tostr(lattice), wanted) == 0;
    }
    mecab_lattice_destroy(lattice);
    return same;
}

static void *work(void *tagger) {
    for (size_t turn = 0; !is_over; turn++) {
        mecab_t *own = mecab_new2(turns[turn % 2]);
        if (!own || !prints_wanted(tagger)) abort();
        mecab_destroy(own);
    }
    return NULL;
}

static int child(mecab_t *tagger) {
    alarm(SECONDS);
    if (!prints_wanted(tagger)) return 1;
    mecab_t *own = mecab_new2(options);
    int same = prints_wanted(own);
    if (own) mecab_destroy(own);
    return same ? 0 : 1;
}

/* Returns how many of `forks` children succeeded. */
static int count_successes(mecab_t *tagger, int forks) {
    int count = 0, status = 0;
    for (int i = 0; i < forks; i++) {
        pid_t made = fork();
        if (made == 0) _exit(child(tagger));
        if (made < 0 || waitpid(made, &status, 0) != made) exit(1);
        count += WIFEXITED(status) && WEXITSTATUS(status) == 0;
    }
    return count;
}

int main(int given, char **paths) {
    pthread_t threads[THREADS];
    if (given != 2 && given != 4) return 2;
    int forks = given == 2 ? FORKS : FORKS_OF_TWO;
    alarm(ALL_SECONDS);
    set_words(options, paths[1]);
    for (int i = 0; i < 2; i++) set_words(turns[i], given == 2 ? paths[1] : paths[2 + i]);
    mecab_t *tagger = mecab_new2(options);
    if (!tagger) return 1;
    snprintf(wanted, sizeof wanted, "%s", mecab_sparse_tostr(tagger, LINE));
    for (int i = 0; i < THREADS; i++) {
        if (pthread_create(&threads[i], NULL, work, tagger) != 0) return 1;
    }
    int count = count_successes(tagger, forks);
    is_over = 1;
    for (int i = 0; i < THREADS; i++) pthread_join(threads[i], NULL);
    printf("%d of %d children answered\n", count, forks);
    mecab_destroy(tagger);
    return 0;
}

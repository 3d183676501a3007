/* Opens and releases the same files on several threads at once: opening_threads SYSTEM.img
   USER.img [FORKS]. The user dictionary has the word すもももも. With FORKS, so many children are
   forked meanwhile, and open files too. At the end nothing is mapped. */
#include "maps.h"
#include <pthread.h>
#include <sys/wait.h>
#include <unistd.h>

#define USERS "すもももも\t名詞,すもももも\nEOS\n"

enum { THREADS = 4, ROUNDS = 60 };

static char **paths;

/* Makes a round of calls. Its number decides what is copied, and what is released first. */
static void open_once(int round) {
    kumquatsieve_segmenter first = KUMQUATSIEVE_EMPTY, second = KUMQUATSIEVE_EMPTY;
    kumquatsieve_dictionary *dictionary = NULL, *again = NULL;
    uint32_t flags = round % 7 == 0 ? KUMQUATSIEVE_COPY : 0;
    const char *const users[] = {paths[2]};
    CHECK(kumquatsieve_dictionary_open(&again, paths[2], NULL, 0, 0, NULL) ==
          KUMQUATSIEVE_NOT_SYSTEM);
    CHECK(kumquatsieve_dictionary_open(&dictionary, paths[1], users, 1, flags, NULL) ==
          KUMQUATSIEVE_OK);
    CHECK(kumquatsieve_dictionary_open(&again, paths[1], users, 1, flags, NULL) ==
              KUMQUATSIEVE_OK &&
          again == dictionary);
    CHECK(kumquatsieve_segmenter_open(&first, dictionary, NULL) == KUMQUATSIEVE_OK);
    CHECK(kumquatsieve_segmenter_open(&second, again, NULL) == KUMQUATSIEVE_OK);
    kumquatsieve_dictionary_release(again);
    kumquatsieve_segmenter_close(round % 2 ? &first : &second);
    kumquatsieve_segmenter *left = round % 2 ? &second : &first;
    if (round % 3) kumquatsieve_dictionary_release(dictionary);
    CHECK(segments_to(left, LINE, USERS));
    kumquatsieve_segmenter_close(left);
    if (round % 3 == 0) kumquatsieve_dictionary_release(dictionary);
}

static void *open_often(void *given) {
    const int *start = given;
    for (int round = 0; round < ROUNDS; round++) open_once(*start + round);
    return NULL;
}

/* A child has those files mapped that other threads of its parent had open at the fork. */
static void fork_often(int forks) {
    for (int i = 0; i < forks; i++) {
        int status = 0;
        pid_t child = fork();
        CHECK(child >= 0);
        if (child == 0) {
            open_once(i);
            _exit(0);
        }
        CHECK(waitpid(child, &status, 0) == child && status == 0);
    }
}

int main(int given, char **words) {
    int forks = given == 4 ? atoi(words[3]) : 0;
    pthread_t all[THREADS];
    int starts[THREADS];
    paths = words;
    CHECK(given >= 3);
    for (int i = 0; i < THREADS; i++) {
        starts[i] = i;
        CHECK(pthread_create(&all[i], NULL, open_often, &starts[i]) == 0);
    }
    fork_often(forks);
    for (int i = 0; i < THREADS; i++) CHECK(pthread_join(all[i], NULL) == 0);
    CHECK(mappings_of(paths[1]) == 0 && mappings_of(paths[2]) == 0);
    printf("opening_threads: %d threads and %d children opened and released the same files\n",
           THREADS, forks);
    return 0;
}

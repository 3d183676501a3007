/* Parses with one tagger on four threads, each with a lattice of its own: one_tagger DICTIONARY
   LINES [met]. Prints the text and the nodes of each line, and the cost of all nodes of the
   lattice, thread after thread. With `met` all lines are parsed once before the threads start, so
   that the nodes of their tokens are cached by then. */
#include <mecab.h>
#include <pthread.h>
#include <stdio.h>
#include <stdlib.h>
#include <string.h>

enum { THREADS = 4 };

typedef struct worker {
    pthread_t thread;
    mecab_t *tagger;
    char *const *lines;
    size_t count;
    FILE *output;
    char *text;
    size_t length;
} worker;

static void stop(const char *why) {
    fprintf(stderr, "one_tagger: %s\n", why);
    exit(1);
}

static char **read_lines(const char *path, size_t *count) {
    FILE *file = fopen(path, "r");
    size_t room = 1 << 16, line_room = 0;
    char **lines = malloc(room * sizeof *lines), *line = NULL;
    if (!file || !lines) stop(path);
    for (*count = 0; *count < room && getline(&line, &line_room, file) > 0; ++*count) {
        line[strcspn(line, "\n")] = '\0';
        lines[*count] = strdup(line);
        if (!lines[*count]) stop("out of memory");
    }
    free(line);
    fclose(file);
    return lines;
}

/* Returns the sum of the costs of all nodes that end within the sentence. */
static long cost_of_all(mecab_lattice_t *lattice) {
    mecab_node_t **begins = mecab_lattice_get_all_begin_nodes(lattice);
    size_t size = mecab_lattice_get_size(lattice);
    long cost = 0;
    if (!begins) stop(mecab_lattice_strerror(lattice));
    for (size_t at = 0; at <= size; at++) {
        for (const mecab_node_t *node = begins[at]; node; node = node->bnext)
            cost += at + node->rlength <= size ? node->cost : 0;
    }
    return cost;
}

static void print_lattice(worker *one, mecab_lattice_t *lattice, const char *line) {
    mecab_lattice_set_sentence(lattice, line);
    if (!mecab_parse_lattice(one->tagger, lattice)) stop(mecab_lattice_strerror(lattice));
    fputs(mecab_lattice_tostr(lattice), one->output);
    for (const mecab_node_t *node = mecab_lattice_get_bos_node(lattice); node; node = node->next) {
        fprintf(one->output, "%.*s %s %u %u ", node->length, node->surface, node->feature,
                node->length, node->rlength);
        fprintf(one->output, "%u %u %u %u %d %ld\n", node->rcAttr, node->lcAttr, node->char_type,
                node->stat, node->wcost, node->cost);
    }
    fprintf(one->output, "%ld\n", cost_of_all(lattice));
}

static void *work(void *at) {
    worker *one = at;
    mecab_lattice_t *lattice = mecab_lattice_new();
    for (size_t i = 0; i < one->count; i++) print_lattice(one, lattice, one->lines[i]);
    mecab_lattice_destroy(lattice);
    return NULL;
}

/* Parses all lines on the calling thread. */
static void meet(mecab_t *tagger, char *const *lines, size_t count) {
    worker alone = {
        .tagger = tagger, .lines = lines, .count = count, .output = fopen("/dev/null", "w")};
    if (!alone.output) stop("/dev/null");
    work(&alone);
    if (fclose(alone.output) != 0) stop("/dev/null");
}

int main(int given, char **paths) {
    char options[4096];
    worker all[THREADS] = {0};
    size_t count = 0;
    if (given != 3 && !(given == 4 && strcmp(paths[3], "met") == 0)) return 2;
    snprintf(options, sizeof options, "-d %s", paths[1]);
    mecab_t *tagger = mecab_new2(options);
    if (!tagger) stop(mecab_strerror(NULL));
    char **lines = read_lines(paths[2], &count);
    if (given == 4) meet(tagger, lines, count);
    for (int i = 0; i < THREADS; i++) {
        all[i] = (worker){.tagger = tagger, .lines = lines, .count = count};
        all[i].output = open_memstream(&all[i].text, &all[i].length);
        if (!all[i].output || pthread_create(&all[i].thread, NULL, work, &all[i]) != 0)
            stop("no thread");
    }
    for (int i = 0; i < THREADS; i++) {
        if (pthread_join(all[i].thread, NULL) != 0 || fclose(all[i].output) != 0)
            stop("a thread's output is lost");
        if (fwrite(all[i].text, 1, all[i].length, stdout) != all[i].length) stop("a write failed");
        free(all[i].text);
    }
    for (size_t i = 0; i < count; i++) free(lines[i]);
    free(lines);
    mecab_destroy(tagger);
    return 0;
}

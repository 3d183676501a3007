/* mecab_do, which is all of Debian's program `mecab`. */
#include "layer.h"
#include <errno.h>
#include <fcntl.h>
#include <stdlib.h>
#include <string.h>
#include <unistd.h>

static int report(const char *text) {
    fprintf(stderr, "mecab: %s\n", text);
    return 1;
}

static int report_file(const char *path) {
    fprintf(stderr, "mecab: %s: %s\n", path, strerror(errno));
    return 1;
}

static bool write_text(mecab_t *tagger, FILE *to, fault *error) {
    const bytes *text = &tagger->lattice->printed;
    return fwrite(text->at, 1, text->length, to) == text->length ||
           fail(error, "a write failed: %s", strerror(errno));
}

/* The bytes that were not UTF-8, and the lines that had such bytes. */
typedef struct tally {
    size_t bytes;
    size_t lines;
} tally;

static void count_replaced(tally *replaced, const mecab_t *tagger) {
    replaced->bytes += tagger->lattice->invalid_bytes;
    replaced->lines += tagger->lattice->invalid_bytes > 0;
}

static int segment_lines(mecab_t *tagger, int from, FILE *to, tally *replaced) {
    lines all = {.from = from};
    const char *line = NULL;
    size_t length = 0;
    bool is_good = true;
    fault *error = &tagger->error;
    while ((is_good = next_line(&all, to, &line, &length, error)) && line) {
        is_good = mecab_sparse_tostr2(tagger, line, length) && write_text(tagger, to, error);
        if (!is_good) break;
        count_replaced(replaced, tagger);
    }
    if (!is_good)
        fprintf(stderr, "mecab: line %zu: %s\n", all.number + (line == NULL), error->text);
    free_bytes(&all.held);
    return is_good ? 0 : 1;
}

static int segment_file(mecab_t *tagger, const char *path, FILE *to, tally *replaced) {
    if (strcmp(path, "-") == 0) return segment_lines(tagger, STDIN_FILENO, to, replaced);
    int from = open(path, O_RDONLY | O_CLOEXEC);
    if (from < 0) return report_file(path);
    int status = segment_lines(tagger, from, to, replaced);
    close(from);
    return status;
}

static int segment_files(mecab_t *tagger, int count, char **paths, FILE *to) {
    static const char *const INPUT[] = {"-"};
    tally replaced = {0, 0};
    int status = 0;
    for (int i = 0; status == 0 && i < (count > 0 ? count : 1); i++)
        status = segment_file(tagger, count > 0 ? paths[i] : INPUT[0], to, &replaced);
    if (replaced.bytes > 0)
        fprintf(stderr,
                "mecab: %zu bytes in %zu lines are not UTF-8, and were segmented as U+FFFD\n",
                replaced.bytes, replaced.lines);
    return status;
}

static int print_dictionaries(const mecab_dictionary_info_t *info, FILE *to) {
    for (; info; info = info->next) {
        fprintf(to, "filename:\t%s\nversion:\t%u\ncharset:\t%s\n", info->filename, info->version,
                info->charset);
        fprintf(to, "type:\t%d\nsize:\t%u\nleft size:\t%u\nright size:\t%u\n\n", info->type,
                info->size, info->lsize, info->rsize);
    }
    return 0;
}

static int segment_into(mecab_t *tagger, const settings *from, FILE *to) {
    long nbest = number_of(from, "nbest", 1);
    if (nbest <= 0) return report("invalid N value");
    if (is_set(from, "dump-config"))
        return report("-P is not supported by libmecab over Kumquatsieve");
    if (is_set(from, "dictionary-info"))
        return print_dictionaries(mecab_dictionary_info(tagger), to);
    return segment_files(tagger, from->other_count, from->others, to);
}

static int run(settings *from) {
    mecab_model_t *model = open_model(from, common_fault());
    mecab_t *tagger = model ? open_tagger(model, common_fault()) : NULL;
    const char *path = setting_of(from, "output");
    FILE *to = tagger && path && *path ? fopen(path, "wbe") : stdout;
    int status = 0;
    if (!tagger)
        status = report(common_fault()->text);
    else if (!to)
        status = report_file(path);
    else
        status = segment_into(tagger, from, to);
    if (to && fflush(to) != 0 && status == 0) status = report("a write failed");
    if (to && to != stdout && fclose(to) != 0 && status == 0) status = report("a write failed");
    mecab_destroy(tagger);
    mecab_model_destroy(model);
    return status;
}

static void print_help(void) {
    printf(
        "Usage: mecab [options] files\n"
        "MeCab's library over Kumquatsieve. It supports MeCab's options -a, -d, -u, -r, -O, -F,\n"
        "-U, -B, -E, -S, -x, -M, -N 1, -o, -C, -D, -v and -h. It accepts -b, -c, -l, -m and -t\n"
        "without effect on the output, and rejects -p, -P and -N above 1.\n\n");
}

int mecab_do(int count, char **words) {
    settings from = {0};
    int status = 0;
    if (!read_options(&from, count, words, common_fault()))
        status = report(common_fault()->text);
    else if (is_set(&from, "help"))
        print_help();
    else if (is_set(&from, "version"))
        printf("mecab of %s\n\n", mecab_version());
    else
        status = run(&from);
    free_settings(&from);
    return status;
}

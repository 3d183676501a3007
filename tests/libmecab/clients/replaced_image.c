/* Tests that a file that replaces an image is another image: replaced_image IMG OTHER, which differ
   in a feature of もも. OTHER replaces IMG. Other rules for part-of-speech ids give other ids of
   one image, and rules for another image count as none. valgrind reports reads of freed memory. */
#include "helpers.h"
#include <stdbool.h>
#include <unistd.h>

static const char OTHERS[] = "すもも\t名詞,すもも\nもも\t記号,もも\nEOS\n";

static const char *path;

static char *whole_of(const char *name, size_t *length) {
    FILE *file = fopen(name, "rb");
    CHECK(file && fseek(file, 0, SEEK_END) == 0);
    long end = ftell(file);
    char *bytes = end > 0 ? malloc((size_t)end) : NULL;
    rewind(file);
    CHECK(bytes && fread(bytes, 1, (size_t)end, file) == (size_t)end && fclose(file) == 0);
    *length = (size_t)end;
    return bytes;
}

static void write_whole(const char *name, const char *bytes, size_t length) {
    FILE *file = fopen(name, "wb");
    CHECK(file && fwrite(bytes, 1, length, file) == length && fclose(file) == 0);
}

static mecab_t *opened(void) {
    mecab_t *tagger = mecab_new2(words_of(path, ""));
    CHECK(tagger);
    return tagger;
}

/* Returns the path of the file beside the image with this ending. */
static const char *path_next_to(const char *ending) {
    static char name[4096];
    snprintf(name, sizeof name, "%.*s%s", (int)(strlen(path) - strlen(".img")), path, ending);
    return name;
}

static bool has_id(mecab_t *tagger, unsigned id) {
    const mecab_node_t *node = mecab_sparse_tonode(tagger, LINE);
    return node && node->next->posid == id && node->next->next->posid == id &&
           strcmp(node->next->feature, "名詞,すもも") == 0;
}

/* Writes a rule after a first line with the checksum of this image or of another one. */
static void write_stamped(bool is_other) {
    char rules[128], *to = rules + sprintf(rules, "; image-sha256 ");
    size_t length = 0;
    char *image = whole_of(path, &length);
    const unsigned char *sum = (const unsigned char *)image + length - 32;
    for (size_t i = 0; i < 32; i++) to += sprintf(to, "%02x", sum[i]);
    if (is_other) to[-1] = to[-1] == '0' ? '1' : '0';
    to += sprintf(to, "\n名詞 3\n");
    write_whole(path_next_to(".pos-id.def"), rules, (size_t)(to - rules));
    free(image);
}

/* Taggers over one image with other rules, and without rules, each keep their own ids. */
static void rules(void) {
    mecab_t *none = opened();
    write_whole(path_next_to(".dicrc"), "cost-factor = 800\n", strlen("cost-factor = 800\n"));
    mecab_t *missing = opened();
    write_whole(path_next_to(".pos-id.def"), "名詞 3\n", strlen("名詞 3\n"));
    mecab_t *one = opened(), *same = opened();
    write_whole(path_next_to(".pos-id.def"), "記号 3\n名詞 40\n", strlen("記号 3\n名詞 40\n"));
    mecab_t *other = opened();
    write_stamped(false);
    mecab_t *stamped = opened();
    write_stamped(true);
    mecab_t *foreign = opened();
    CHECK(has_id(stamped, 3) && has_id(foreign, 1));
    CHECK(mecab_dictionary_info(none) == mecab_dictionary_info(other) &&
          mecab_dictionary_info(one) == mecab_dictionary_info(other));
    CHECK(has_id(none, 0) && has_id(missing, 1) && has_id(one, 3) && has_id(other, 40));
    mecab_destroy(one);
    CHECK(has_id(none, 0) && has_id(missing, 1) && has_id(same, 3) && has_id(other, 40));
    CHECK(unlink(path_next_to(".dicrc")) == 0 && unlink(path_next_to(".pos-id.def")) == 0);
    mecab_destroy(stamped);
    mecab_destroy(foreign);
    mecab_destroy(none);
    mecab_destroy(missing);
    mecab_destroy(same);
    mecab_destroy(other);
}

int main(int given, char **paths) {
    CHECK(given == 3);
    path = paths[1];
    rules();
    size_t length = 0;
    char *first = whole_of(path, &length);
    mecab_t *before = opened(), *same = opened();
    CHECK(mecab_dictionary_info(before) == mecab_dictionary_info(same) &&
          rename(paths[2], path) == 0);
    mecab_t *renamed = opened();
    CHECK(mecab_dictionary_info(renamed) != mecab_dictionary_info(before) &&
          strcmp(mecab_sparse_tostr(renamed, LINE), OTHERS) == 0);
    CHECK(strcmp(mecab_sparse_tostr(before, LINE), PRINTED) == 0 &&
          strcmp(mecab_sparse_tostr(same, LINE), PRINTED) == 0);
    mecab_destroy(same);
    mecab_destroy(before);
    write_whole(paths[2], first, length);
    CHECK(rename(paths[2], path) == 0);
    mecab_t *rewritten = opened();
    CHECK(mecab_dictionary_info(rewritten) != mecab_dictionary_info(renamed) &&
          strcmp(mecab_sparse_tostr(rewritten, LINE), PRINTED) == 0);
    CHECK(strcmp(mecab_sparse_tostr(renamed, LINE), OTHERS) == 0 &&
          strcmp(mecab_sparse_tonode(renamed, LINE)->next->next->feature, "記号,もも") == 0);
    mecab_destroy(renamed);
    mecab_destroy(rewritten);
    free(first);
    puts("replaced: a file that takes an image's place is another image, and the first one stays "
         "what it was");
    return 0;
}

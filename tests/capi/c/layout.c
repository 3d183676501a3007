/* Tests the offset of each field of a word and of a node against the header: layout SYSTEM.img
   USER.img. The user dictionary has すもももも as its third word, with left id 0, right id 1 and
   cost -30000, so that no two fields that could be exchanged are equal. */
#include "helpers.h"

#define LAYOUT_LINE " もも  すもももも"

enum { WORDS = 2, NODES = 8 };

/* The second word of the line. The connection from BOS to もも costs 10, もも costs 30, and its
   connection to the word costs 5. */
static const kumquatsieve_word WANTED = {
    .place = 7,
    .start = 9,
    .end = 24,
    .dictionary = 1,
    .token = 2,
    .left_id = 0,
    .right_id = 1,
    .cost = -30000,
    .known = 1,
    .category = 5,
    .total = -29955,
    .feature_length = 22,
    .feature_offset = 13,
};

#define CHECK_FIELD(of, name)                                                                      \
    CHECK(memcmp((of) + offsetof(kumquatsieve_word, name), &WANTED.name, sizeof WANTED.name) == 0)

static void check_fields(const uint8_t *word) {
    CHECK_FIELD(word, place);
    CHECK_FIELD(word, start);
    CHECK_FIELD(word, end);
    CHECK_FIELD(word, dictionary);
    CHECK_FIELD(word, token);
    CHECK_FIELD(word, left_id);
    CHECK_FIELD(word, right_id);
    CHECK_FIELD(word, cost);
    CHECK_FIELD(word, known);
    CHECK_FIELD(word, category);
    CHECK_FIELD(word, total);
    CHECK_FIELD(word, feature_length);
}

/* The nodes are も, もも, も, then すもも and the word, then も, もも, も. The connection from the
   word to EOS costs 5. すもも reaches the end, and is not on the best path. */
static void check_nodes(kumquatsieve_segmenter *segmenter) {
    const kumquatsieve_node *nodes = NULL;
    const int64_t through = -29950;
    size_t count = 0;
    CHECK(kumquatsieve_nodes(segmenter, &nodes, &count, NULL) == KUMQUATSIEVE_OK && count == NODES);
    const uint8_t *node = (const uint8_t *)&nodes[4], *other = (const uint8_t *)&nodes[3];
    check_fields(node + offsetof(kumquatsieve_node, word));
    CHECK(nodes[4].word.feature_offset == 0);
    CHECK(memcmp(node + offsetof(kumquatsieve_node, through), &through, sizeof through) == 0);
    CHECK(node[offsetof(kumquatsieve_node, reaches_end)] == 1 &&
          node[offsetof(kumquatsieve_node, on_best)] == 1);
    CHECK(other[offsetof(kumquatsieve_node, reaches_end)] == 1 &&
          other[offsetof(kumquatsieve_node, on_best)] == 0);
}

int main(int given, char **paths) {
    CHECK(given == 3);
    file system = read_file(paths[1]), user = read_file(paths[2]);
    kumquatsieve_segmenter segmenter = loaded_with(system, user);
    const kumquatsieve_word *words = NULL;
    size_t count = 0;
    CHECK(segment_line(&segmenter, LAYOUT_LINE) == KUMQUATSIEVE_OK);
    CHECK(kumquatsieve_words(&segmenter, &words, &count, NULL) == KUMQUATSIEVE_OK &&
          count == WORDS);
    check_fields((const uint8_t *)&words[1]);
    CHECK_FIELD((const uint8_t *)&words[1], feature_offset);
    check_nodes(&segmenter);
    kumquatsieve_segmenter_close(&segmenter);
    free(system.bytes);
    free(user.bytes);
    printf("layout: a word has %zu bytes and a node %zu, and each field lies where the header has "
           "it\n",
           sizeof(kumquatsieve_word), sizeof(kumquatsieve_node));
    return 0;
}

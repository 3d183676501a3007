/* Tests the lattices of lines, with all of their nodes, in a table: nodes SYSTEM.img BLANK.img. In
   the sample a connection from BOS costs 10, one between words 7, and one to EOS 5. The user
   dictionary has the word `もも `, which ends with a blank and costs 50. If it is the last one, no
   other chain ends as late, so the words without the blank are dead ends. */
#include "helpers.h"

enum { MOST_NODES = 32, BOS_COSTS = 10, CONNECTION_COSTS = 7, EOS_COSTS = 5 };

/* A node: the place of its word, its entry, its word cost and its feature, its total, and the least
   cost of the paths that have it. */
typedef struct node_row {
    size_t place, start, end;
    const char *feature;
    size_t dictionary;
    uint32_t token;
    int16_t cost;
    uint8_t known, category;
    int64_t total, through;
    uint8_t reaches_end, on_best;
} node_row;

typedef struct lattice_row {
    const char *what, *line;
    int64_t best;
    size_t count;
    node_row nodes[MOST_NODES];
} lattice_row;

#define SUMOMO "名詞,すもも", 0, 0, 100, 1, 5
#define MO "助詞,も", 0, 1, 20, 1, 5
#define MOMO_ENTRY "名詞,もも", 0, 2, 30, 1, 5
#define MOMO_BLANK "名詞,空白", 1, 0, 50, 1, 5
#define ALPHA "未知", 0, 5, 1000, 0, 2
#define KANJI "未知", 0, 7, 1000, 0, 4

static const lattice_row LATTICES[] = {
    {"an empty line", "", 0, 0, {{0}}},
    {"blanks alone", "   ", 0, 0, {{0}}},
    {"one word", "すもも", 115, 1, {{0, 0, 9, SUMOMO, 110, 115, 1, 1}}},
    /* 10 + 100, 110 + 7 + 20, 110 + 7 + 30, 137 + 7 + 20; 147 + 5 and 164 + 5 */
    {"sumomo",
     "すもももも",
     152,
     4,
     {
         {0, 0, 9, SUMOMO, 110, 152, 1, 1},
         {9, 9, 12, MO, 137, 169, 1, 0},
         {9, 9, 15, MOMO_ENTRY, 147, 152, 1, 1},
         {12, 12, 15, MO, 164, 169, 1, 0},
     }},
    /* The first blank is before a word; the one at the end belongs to no word. */
    {"blanks", " も ", 35, 1, {{0, 1, 4, MO, 30, 35, 1, 1}}},
    /* 10 + 1000, 1010 + 7 + 1000, 2017 + 5. Of paths with equal costs, the best one has the later
       place of the last word that differs. */
    {"tokyo_tie",
     "東京都",
     2022,
     5,
     {
         {0, 0, 3, KANJI, 1010, 2022, 1, 0},
         {0, 0, 6, KANJI, 1010, 2022, 1, 1},
         {3, 3, 6, KANJI, 2017, 3029, 1, 0},
         {3, 3, 9, KANJI, 2017, 2022, 1, 0},
         {6, 6, 9, KANJI, 2017, 2022, 1, 1},
     }},
    /* 10 + 20, 30 + 7 + 1000 */
    {"an unknown word after a known one",
     "も zz",
     1042,
     2,
     {
         {0, 0, 3, MO, 30, 1042, 1, 1},
         {3, 4, 6, ALPHA, 1037, 1042, 1, 1},
     }},
    {"dead ends",
     "もも ",
     65,
     4,
     {
         {0, 0, 3, MO, 30, 0, 0, 0},
         {0, 0, 6, MOMO_ENTRY, 40, 0, 0, 0},
         {0, 0, 7, MOMO_BLANK, 60, 65, 1, 1},
         {3, 3, 6, MO, 57, 0, 0, 0},
     }},
};

static int is_node(const kumquatsieve_node *node, const node_row *wanted) {
    const kumquatsieve_word *word = &node->word;
    return word->place == wanted->place && word->start == wanted->start &&
           word->end == wanted->end && word->dictionary == wanted->dictionary &&
           word->token == wanted->token && word->left_id == 1 && word->right_id == 1 &&
           word->cost == wanted->cost && word->known == wanted->known &&
           word->category == wanted->category && word->total == wanted->total &&
           word->feature_length == strlen(wanted->feature) && node->through == wanted->through &&
           node->reaches_end == wanted->reaches_end && node->on_best == wanted->on_best;
}

static int has_feature(kumquatsieve_segmenter *segmenter, const kumquatsieve_word *word,
                       const char *wanted) {
    const char *feature = NULL;
    size_t length = 99;
    return kumquatsieve_feature(segmenter, word, &feature, &length, NULL) == KUMQUATSIEVE_OK &&
           is_text(feature, length, wanted);
}

static size_t segment_to_nodes(kumquatsieve_segmenter *segmenter, const char *line,
                               const kumquatsieve_node **nodes, int64_t *best) {
    kumquatsieve_line found;
    size_t count = 0;
    CHECK(kumquatsieve_segment(segmenter, line, strlen(line), 0, &found, NULL) == KUMQUATSIEVE_OK);
    CHECK(kumquatsieve_nodes(segmenter, nodes, &count, NULL) == KUMQUATSIEVE_OK &&
          count <= MOST_NODES);
    *best = found.total;
    return count;
}

static void lattices(kumquatsieve_segmenter *segmenter) {
    for (size_t i = 0; i < COUNT_OF(LATTICES); i++) {
        const lattice_row *row = &LATTICES[i];
        const kumquatsieve_node *nodes = NULL;
        int64_t best = 99;
        CHECK_CASE(row->what, segment_to_nodes(segmenter, row->line, &nodes, &best) == row->count &&
                                  best == row->best);
        for (size_t k = 0; k < row->count; k++) {
            CHECK_CASE(row->what, is_node(&nodes[k], &row->nodes[k]));
            CHECK_CASE(row->what, has_feature(segmenter, &nodes[k].word, row->nodes[k].feature));
        }
    }
}

/* More nodes than the library expects for so many bytes, twice. */
static void many_nodes(kumquatsieve_segmenter *segmenter) {
    enum { LENGTH = 60000 };
    static char line[LENGTH + 1];
    const kumquatsieve_node *nodes = NULL, *again = NULL;
    size_t count = 0, all = 0;
    for (size_t i = 0; i < LENGTH; i++) line[i] = "も"[i % 3];
    CHECK(segment_line(segmenter, line) == KUMQUATSIEVE_OK);
    CHECK(kumquatsieve_nodes(segmenter, &nodes, &count, NULL) == KUMQUATSIEVE_OK);
    CHECK(count == 2 * (LENGTH / 3) - 1 && nodes[count - 1].word.end == LENGTH);
    CHECK(segment_line(segmenter, "東京都") == KUMQUATSIEVE_OK);
    CHECK(kumquatsieve_nodes(segmenter, &again, &all, NULL) == KUMQUATSIEVE_OK && all == 5);
}

static const struct {
    const char *what;
    bool known;
    size_t dictionary;
    uint32_t token;
    const char *feature;
} ENTRIES[] = {
    {"the system's first", true, 0, 0, "名詞,すもも"},
    {"the system's last", true, 0, 2, "名詞,もも"},
    {"none after it", true, 0, 3, ""},
    {"the user's", true, 1, 0, "名詞,空白"},
    {"no other of the user's", true, 1, 1, ""},
    {"no other user's", true, 2, 0, ""},
    {"far after the users", true, SIZE_MAX, 0, ""},
    {"an unknown entry", false, 0, 5, "未知"},
    {"whatever the dictionary", false, 9, 5, "未知"},
    {"a known one's number", false, 0, 2, ""},
    {"no unknown entry", false, 0, 9, ""},
};

static void features_of_entries(kumquatsieve_segmenter *segmenter) {
    for (size_t i = 0; i < COUNT_OF(ENTRIES); i++) {
        kumquatsieve_word word = {.known = ENTRIES[i].known,
                                  .dictionary = ENTRIES[i].dictionary,
                                  .token = ENTRIES[i].token};
        CHECK_CASE(ENTRIES[i].what, has_feature(segmenter, &word, ENTRIES[i].feature));
    }
}

/* Every path of a line, one word after another: a chain that ends as late as any. */
typedef struct all_paths {
    const kumquatsieve_node *nodes;
    size_t count, last;
    size_t chain[MOST_NODES], words;
    int64_t totals[MOST_NODES], throughs[MOST_NODES];
} all_paths;

static void less(int64_t *least, int64_t cost) {
    if (cost < *least) *least = cost;
}

static void go_on(all_paths *paths, size_t place, int64_t cost) {
    if (place == paths->last) {
        for (size_t i = 0; i < paths->words; i++)
            less(&paths->throughs[paths->chain[i]], cost + EOS_COSTS);
    }
    for (size_t i = 0; i < paths->count; i++) {
        const kumquatsieve_word *word = &paths->nodes[i].word;
        if (word->place != place) continue;
        int64_t after = cost + (place == 0 ? BOS_COSTS : CONNECTION_COSTS) + word->cost;
        less(&paths->totals[i], after);
        paths->chain[paths->words++] = i;
        go_on(paths, word->end, after);
        paths->words--;
    }
}

static const char *const LINES[] = {"すもももも", "もももも",   "もすもも", "東京都",  "もabも",
                                    " も z ",     "もも もも ", "カタ も",  "もも 東 "};

static void all_paths_agree(kumquatsieve_segmenter *segmenter) {
    for (size_t k = 0; k < COUNT_OF(LINES); k++) {
        const kumquatsieve_node *nodes = NULL;
        const kumquatsieve_word *words = NULL;
        int64_t best = 0, least = INT64_MAX;
        size_t on_best = 0, many = 0, count = segment_to_nodes(segmenter, LINES[k], &nodes, &best);
        all_paths paths = {.nodes = nodes, .count = count};
        for (size_t i = 0; i < paths.count; i++) {
            if (nodes[i].word.end > paths.last) paths.last = nodes[i].word.end;
            paths.totals[i] = paths.throughs[i] = INT64_MAX;
        }
        go_on(&paths, 0, 0);
        CHECK_CASE(LINES[k], kumquatsieve_words(segmenter, &words, &many, NULL) == KUMQUATSIEVE_OK);
        for (size_t i = 0; i < paths.count; i++) {
            CHECK_CASE(LINES[k], nodes[i].word.total == paths.totals[i] &&
                                     nodes[i].reaches_end == (paths.throughs[i] < INT64_MAX));
            CHECK_CASE(LINES[k],
                       nodes[i].through == (nodes[i].reaches_end ? paths.throughs[i] : 0));
            if (nodes[i].reaches_end) less(&least, nodes[i].through);
            if (!nodes[i].on_best) continue;
            CHECK_CASE(LINES[k], on_best < many && nodes[i].word.start == words[on_best].start &&
                                     nodes[i].word.end == words[on_best].end);
            CHECK_CASE(LINES[k],
                       nodes[i].word.total == words[on_best].total && nodes[i].through == best);
            on_best++;
        }
        CHECK_CASE(LINES[k], on_best == many && least == best);
    }
}

int main(int given, char **paths) {
    CHECK(given == 3);
    file system = read_file(paths[1]), user = read_file(paths[2]);
    kumquatsieve_segmenter segmenter = loaded_with(system, user);
    lattices(&segmenter);
    many_nodes(&segmenter);
    features_of_entries(&segmenter);
    all_paths_agree(&segmenter);
    kumquatsieve_segmenter_close(&segmenter);
    free(system.bytes);
    free(user.bytes);
    puts("nodes: each lattice has its nodes, and all paths of each line agree with them");
    return 0;
}

/* Makes one of the calls that are whole programs of MeCab, with arguments: programs mecab_do
   ARGUMENT.. */
#include "helpers.h"

static const struct {
    const char *name;
    int (*call)(int, char **);
} CALLS[] = {
    {"mecab_do", mecab_do},
    {"mecab_dict_index", mecab_dict_index},
    {"mecab_dict_gen", mecab_dict_gen},
    {"mecab_cost_train", mecab_cost_train},
    {"mecab_system_eval", mecab_system_eval},
    {"mecab_test_gen", mecab_test_gen},
};

int main(int given, char **words) {
    CHECK(given >= 2);
    for (size_t i = 0; i < COUNT_OF(CALLS); i++) {
        if (strcmp(CALLS[i].name, words[1]) == 0) return CALLS[i].call(given - 1, words + 1);
    }
    fprintf(stderr, "programs: no call %s\n", words[1]);
    return 2;
}

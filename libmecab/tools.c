/* The calls that are MeCab's other programs. Debian's packages of dictionaries run one of them when
   they are installed. So each call is passed on to MeCab's own library if that is installed, and is
   an error otherwise. */
#include "layer.h"
#include <dlfcn.h>
#include <stdio.h>
#include <string.h>

#ifndef MECAB_LIBRARY
#define MECAB_LIBRARY "/usr/lib/libmecab.so.2"
#endif

typedef int tool(int count, char **words);

/* Copies the pointer that dlsym returns, because C has no conversion from it to a function. */
static tool *find_tool(const char *name) {
    void *library = dlopen(MECAB_LIBRARY, RTLD_NOW | RTLD_LOCAL | RTLD_DEEPBIND);
    void *at = library ? dlsym(library, name) : NULL;
    tool *found = NULL;
    memcpy(&found, &at, sizeof found);
    return found;
}

static int forward_call(const char *name, tool *here, int count, char **words) {
    tool *there = find_tool(name);
    if (there && there != here) return there(count, words);
    fail_left_out(common_fault(), name);
    fprintf(stderr, "%s\n", common_fault()->text);
    return 1;
}

int mecab_dict_index(int count, char **words) {
    return forward_call(__func__, mecab_dict_index, count, words);
}
int mecab_dict_gen(int count, char **words) {
    return forward_call(__func__, mecab_dict_gen, count, words);
}
int mecab_cost_train(int count, char **words) {
    return forward_call(__func__, mecab_cost_train, count, words);
}
int mecab_system_eval(int count, char **words) {
    return forward_call(__func__, mecab_system_eval, count, words);
}
int mecab_test_gen(int count, char **words) {
    return forward_call(__func__, mecab_test_gen, count, words);
}

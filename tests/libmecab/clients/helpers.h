/* Texts and functions that the test programs over the sample's dictionary share. */
#ifndef HELPERS_H
#define HELPERS_H
#include "../../support/check.h"
#include <mecab.h>
#include <stdio.h>
#include <stdlib.h>
#include <string.h>

__attribute__((unused)) static const char LINE[] = "すもももも";
__attribute__((unused)) static const char PRINTED[] = "すもも\t名詞,すもも\nもも\t名詞,もも\nEOS\n";
__attribute__((unused)) static const char WAKATI[] = "すもも もも \n";

/* Returns options with the dictionary and more, valid until the next call. */
static inline char *words_of(const char *dictionary, const char *more) {
    static char line[4096];
    snprintf(line, sizeof line, "-d %s %s", dictionary, more);
    return line;
}

/* Whether an error means that a call is not supported. */
static inline int is_left_out(const char *message) {
    return strstr(message, "not supported") != NULL;
}

#endif

/* Checks of an error, for the programs that test errors. */
#ifndef CHECK_ERROR_H
#define CHECK_ERROR_H
#include "helpers.h"

static inline void check_error(const char *what, const kumquatsieve_error *error, uint32_t code,
                               uint64_t number, size_t position, size_t image,
                               const char *message) {
    if (strcmp(error->message, message) != 0) fprintf(stderr, "errors: %s\n", error->message);
    CHECK_CASE(what, error->code == code && error->number == number);
    CHECK_CASE(what, error->position == position && error->image == image);
    CHECK_CASE(what, strcmp(error->message, message) == 0);
}
#endif

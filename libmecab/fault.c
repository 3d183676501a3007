/* Errors. */
#include "formats.h"
#include <kumquatsieve.h>
#include <string.h>

static _Thread_local fault common;

fault *common_fault(void) { return &common; }

bool fail(fault *error, const char *text, ...) {
    va_list words;
    va_start(words, text);
    vsnprintf(error->text, sizeof error->text, text, words);
    va_end(words);
    return false;
}

bool fail_memory(fault *error) { return fail(error, "out of memory"); }

bool fail_code(fault *error, const char *what, uint32_t code) {
    const char *name = kumquatsieve_explain(code);
    if (code == KUMQUATSIEVE_MEMORY) return fail_memory(error);
    return fail(error, "%s: %.*s", what, name ? (int)strcspn(name, "\n") : 0, name ? name : "");
}

bool fail_left_out(fault *error, const char *what) {
    return fail(error, "%s is not supported by libmecab over Kumquatsieve", what);
}

/* Tests that a process with raised privileges ignores XDG_DATA_HOME and HOME: image_rights. The
   status is 77 if the process has none. */
#include "helpers.h"
#include <sys/auxv.h>

enum { ROOM = 4096, LEFT_OUT = 77 };

int main(void) {
    char out[ROOM];
    size_t needed = 0;
    if (!getauxval(AT_SECURE)) return LEFT_OUT;
    CHECK(getenv("XDG_DATA_HOME") && getenv("HOME") && getenv("KUMQUATSIEVE_DICTIONARY"));
    CHECK(kumquatsieve_list_directories(out, sizeof out, &needed, NULL) == KUMQUATSIEVE_OK);
    for (size_t at = 0; at < needed; at += strlen(out + at) + 1)
        CHECK(strncmp(out + at, "/d", 2) != 0 && strncmp(out + at, "/h", 2) != 0);
    CHECK(kumquatsieve_find_image(NULL, out, sizeof out, &needed, NULL) == KUMQUATSIEVE_FILE);
    return 0;
}

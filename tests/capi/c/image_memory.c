/* Makes each call that finds installed images, and one with a name of no image, while an allocation
   fails: image_memory NAME PATH DIRECTORIES PATHS. The last three are the expected results, with
   `|` for each zero byte. The status is 3 if one call was out of memory. Nothing is printed, so the
   program itself doesn't allocate. */
#include "helpers.h"

enum { ROOM = 8192, UNSET = 77, RAN_OUT = 3 };

static char out[ROOM];

/* Whether the result of a call is the wanted one, which has `|` in place of each zero byte. */
static bool is_result(size_t length, const char *wanted) {
    bool is_same = length == strlen(wanted);
    for (size_t i = 0; is_same && i < length; i++) is_same = (out[i] ? out[i] : '|') == wanted[i];
    return is_same;
}

/* Returns whether a call was out of memory. It has set no output then. */
static bool ran_out(uint32_t code, size_t needed, const char *wanted) {
    if (code == KUMQUATSIEVE_MEMORY) CHECK(needed == UNSET && out[0] == UNSET);
    if (code != KUMQUATSIEVE_MEMORY) CHECK(code == KUMQUATSIEVE_OK && is_result(needed, wanted));
    out[0] = UNSET;
    return code == KUMQUATSIEVE_MEMORY;
}

int main(int given, char **arguments) {
    size_t needed = UNSET;
    CHECK(given == 5);
    out[0] = UNSET;
    uint32_t code = kumquatsieve_find_image(arguments[1], out, ROOM, &needed, NULL);
    int count = ran_out(code, needed, arguments[2]);
    needed = UNSET;
    code = kumquatsieve_list_directories(out, ROOM, &needed, NULL);
    count += ran_out(code, needed, arguments[3]);
    needed = UNSET;
    code = kumquatsieve_list_images(out, ROOM, &needed, NULL);
    count += ran_out(code, needed, arguments[4]);
    kumquatsieve_error error;
    code = kumquatsieve_find_image("no-such-name", NULL, 0, NULL, &error);
    CHECK(code == KUMQUATSIEVE_FILE || code == KUMQUATSIEVE_MEMORY);
    count += code == KUMQUATSIEVE_MEMORY;
    CHECK(count <= 1);
    return count > 0 ? RAN_OUT : 0;
}

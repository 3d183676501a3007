/* Opens an image and frees it, and prints the code: open_code FLAGS IMG [SYSTEM.img]. With
   SYSTEM.img, IMG is a user image. Nothing is segmented, because an image that is accepted by its
   record may be invalid. The variable SWAP names two directories. The second one gets the name of
   the first one once a file was opened in that. Linked with --wrap=openat. */
#define _GNU_SOURCE
#include "helpers.h"
#include <fcntl.h>
#include <stdarg.h>

int __real_openat(int folder, const char *name, int flags, ...);

static void swap_folders(void) {
    static int done;
    char *names = getenv("SWAP"), away[4096];
    if (!names || done++) return;
    char *second = strchr(names, ':');
    CHECK(second);
    *second++ = 0;
    CHECK(snprintf(away, sizeof away, "%s.away", names) < (int)sizeof away);
    CHECK(rename(names, away) == 0 && rename(second, names) == 0);
}

int __wrap_openat(int folder, const char *name, int flags, ...) {
    int opened = __real_openat(folder, name, flags);
    swap_folders();
    return opened;
}

int main(int given, char **words) {
    kumquatsieve_dictionary *dictionary = NULL;
    kumquatsieve_error error;
    CHECK(given == 3 || given == 4);
    uint32_t flags = (uint32_t)strtoul(words[1], NULL, 0);
    const char *const users[] = {words[2]};
    uint32_t code =
        given == 4 ? kumquatsieve_dictionary_open(&dictionary, words[3], users, 1, flags, &error)
                   : kumquatsieve_dictionary_open(&dictionary, words[2], NULL, 0, flags, &error);
    kumquatsieve_dictionary_release(dictionary);
    printf("%#x %llu\n", code, (unsigned long long)error.number);
    return 0;
}

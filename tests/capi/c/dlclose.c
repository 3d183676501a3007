/* Loads the shared library, opens a file, and unloads the library, again and again, with a fork in
   between: dlclose LIBRARY.so SYSTEM.img. */
#include "maps.h"
#include <dlfcn.h>
#include <sys/wait.h>
#include <unistd.h>

enum { OFTEN = 20 };

static void open_once(const char *library, const char *image) {
    kumquatsieve_dictionary *dictionary = NULL;
    uint32_t (*opens)(kumquatsieve_dictionary **, const char *, const char *const *, size_t,
                      uint32_t, kumquatsieve_error *);
    void (*releases)(kumquatsieve_dictionary *);
    void *loaded_library = dlopen(library, RTLD_NOW | RTLD_LOCAL);
    CHECK(loaded_library);
    *(void **)&opens = dlsym(loaded_library, "kumquatsieve_dictionary_open");
    *(void **)&releases = dlsym(loaded_library, "kumquatsieve_dictionary_release");
    CHECK(opens && releases && opens(&dictionary, image, NULL, 0, 0, NULL) == KUMQUATSIEVE_OK &&
          mappings_of(image) == 1);
    releases(dictionary);
    CHECK(mappings_of(image) == 0 && dlclose(loaded_library) == 0);
}

int main(int given, char **paths) {
    int status = 0;
    CHECK(given == 3);
    for (int i = 0; i < OFTEN; i++) {
        open_once(paths[1], paths[2]);
        CHECK(!dlopen(paths[1], RTLD_NOW | RTLD_NOLOAD));
        pid_t child = fork();
        CHECK(child >= 0);
        if (child == 0) _exit(0);
        CHECK(waitpid(child, &status, 0) == child && status == 0);
    }
    printf(
        "unloaded: the shared library was loaded and unloaded %d times, with a fork after each\n",
        OFTEN);
    return 0;
}

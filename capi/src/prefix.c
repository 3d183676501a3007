/* Where the library is installed. */
#include "image_dirs.h"
#include <limits.h>
#include <link.h>
#include <stdlib.h>
#include <string.h>
#include <unistd.h>

/* The prefix that the library was built for. */
#ifndef PREFIX
#define PREFIX "/usr/local"
#endif

/* The file with the code of this library: a shared library, or a program that is linked with the
   archive. `name` is empty for the program of the process. */
typedef struct code_file {
    ElfW(Addr) address;
    const char *name;
} code_file;

static int match_object(struct dl_phdr_info *object, size_t size, void *context) {
    code_file *to = context;
    (void)size;
    for (size_t i = 0; i < object->dlpi_phnum; i++) {
        const ElfW(Phdr) *part = &object->dlpi_phdr[i];
        ElfW(Addr) start = object->dlpi_addr + part->p_vaddr;
        bool is_here = part->p_type == PT_LOAD && to->address - start < part->p_memsz;
        if (is_here) to->name = object->dlpi_name;
    }
    return to->name != NULL;
}

/* Writes the path of the file with the code of this library, without links. Returns false if it is
   unknown. */
static bool find_code(char path[static PATH_MAX]) {
    code_file found = {(ElfW(Addr)) & installed_prefix, NULL};
    if (!dl_iterate_phdr(match_object, &found)) return false;
    return realpath(*found.name ? found.name : "/proc/self/exe", path) != NULL;
}

/* Removes the last name of a path. Returns false if nothing or the root is left. */
static bool to_parent(char *path) {
    char *slash = strrchr(path, '/');
    if (!slash || slash == path) return false;
    *slash = 0;
    return true;
}

static const char PROGRAM[] = "/bin/jseg", OTHER_PROGRAM[] = "/bin/pjseg";

/* Returns whether a directory has a program. The path has room for its name. */
static bool has_program(char *path, const char *program) {
    size_t length = strlen(path);
    strcpy(path + length, program);
    bool is_there = access(path, X_OK) == 0;
    path[length] = 0;
    return is_there;
}

/* The prefix is the innermost directory around the library that has bin/jseg or bin/pjseg. So an
   installation that was moved finds its own images, as its programs do. */
char *installed_prefix(void) {
    char path[PATH_MAX + sizeof OTHER_PROGRAM];
    bool is_left = find_code(path) && to_parent(path);
    while (is_left) {
        if (has_program(path, PROGRAM) || has_program(path, OTHER_PROGRAM)) return strdup(path);
        is_left = to_parent(path);
    }
    return strdup(PREFIX);
}

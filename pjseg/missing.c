/* Prints the directories that were searched for the image of a bare name, and the images there. */
#include "pjseg.h"
#include <stdio.h>
#include <stdlib.h>

/* How many names are printed. */
enum { NAMES_MOST = 20 };

static void write_name(FILE *to, size_t number, const char *name) {
    char *line = one_line(name);
    fprintf(to, "%s%s", number == 0 ? "available images: " : ", ", line ? line : "");
    free(line);
}

/* Writes the first names that the command line accepts, which are UTF-8, and how many more there
 * are. */
static void write_names(FILE *to, const texts *names) {
    size_t count = 0;
    for (const char *name = next_text(names, NULL); name; name = next_text(names, name)) {
        if (!is_utf8(name)) continue;
        if (count < NAMES_MOST) write_name(to, count, name);
        count++;
    }
    if (count == 0) fputs("available images: none; install one with kumquatsieve-import", to);
    if (count > NAMES_MOST) fprintf(to, " and %zu more", count - NAMES_MOST);
}

static void print_names(const texts *names) {
    char *line = NULL;
    size_t length = 0;
    FILE *to = open_memstream(&line, &length);
    if (!to) return;
    write_names(to, names);
    if (fclose(to) == 0) print_message("%s", line);
    free(line);
}

static void print_directory(const char *path) {
    char *line = one_line(path);
    if (line) print_message("searched %s", line);
    free(line);
}

/* Leaves out a line if memory runs out. */
void print_image_directories(const fault *why) {
    texts paths, names;
    if (why->code != KUMQUATSIEVE_FILE || !is_interactive() || !is_missing(why->path)) return;
    if (!list_image_directories(&paths)) return;
    for (const char *path = next_text(&paths, NULL); path; path = next_text(&paths, path)) {
        print_directory(path);
    }
    free(paths.first);
    if (!list_image_names(&names)) return;
    print_names(&names);
    free(names.first);
}

/* Image directories, and the images in them. */
#ifndef IMAGE_DIRS_H
#define IMAGE_DIRS_H
#include "library.h"

enum { IMAGE_DIRS_MAX = 3 };

/* The image directories in the order in which they are searched, each once. */
typedef struct image_dirs {
    size_t count;
    char *paths[IMAGE_DIRS_MAX];
} image_dirs;

/* prefix.c. Returns the prefix that the library is installed to, which the caller frees, or NULL if
   memory runs out. */
char *installed_prefix(void);

/* image_dirs.c. Finds the image directories. Returns false if memory runs out. The caller frees
   what was found. */
bool find_image_dirs(image_dirs *found);
void free_image_dirs(image_dirs *dirs);

/* Sets *path, which the caller frees, to the path of image `number`, as the caller of the library
   names it. NULL is the default. Returns a code, and fills *error if it is not 0. */
uint32_t resolve_name(const char *name, size_t number, char **path, kumquatsieve_error *error);

/* Returns the path `directory`/`file` with `suffix`, which the caller frees, or NULL if memory runs
   out. */
char *path_in(const char *directory, const char *file, const char *suffix);

/* Returns whether `path` leads to a regular file, as every image in an image directory is. Whoever
   opens a pipe would wait for a writer. */
bool is_regular_file(const char *path);

/* Copies `count` texts to `out`, one after another, each with its zero byte. Sets *needed, unless
   it is NULL, to their length in bytes. If `room` is less, it writes nothing and returns
   KUMQUATSIEVE_SHORT_BUFFER. */
uint32_t copy_texts(const char *const *texts, size_t count, char *out, size_t room, size_t *needed,
                    kumquatsieve_error *error);

/* installed.c. Sets *count to the number of system dictionaries that are installed, and *path,
   which the caller frees, to the path of one of them. Returns false if memory runs out. */
bool only_system_image(char **path, size_t *count);

/* Reports that neither a file nor an image has a bare name, with the directories that were searched
   and the names of the images there. Advice is left to those who print the message. */
uint32_t fail_unknown(kumquatsieve_error *error, size_t number, const char *name);
#endif

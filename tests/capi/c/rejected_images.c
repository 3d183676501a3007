/* Prints the error of each image as a system image, and then as a user image for SYSTEM.img:
   rejected_images SYSTEM.img IMG... A line has the name of the error, and its number if it has one.
 */
#include "helpers.h"

static void print_error(const kumquatsieve_error *error) {
    const char *text = kumquatsieve_explain(error->code);
    CHECK(text);
    printf("%.*s", (int)strcspn(text, "\n"), text);
    bool has_number =
        error->code >= KUMQUATSIEVE_BAD_LAYOUT && error->code <= KUMQUATSIEVE_BAD_TEXT;
    if (has_number) printf(" %llu", (unsigned long long)error->number);
    if (error->code == KUMQUATSIEVE_NOT_USER || error->code == KUMQUATSIEVE_OTHER_SIZES)
        printf(" %zu", error->image - 1);
    puts("");
}

static void as_the_system(file image) {
    kumquatsieve_dictionary *dictionary = NULL;
    kumquatsieve_error error;
    CHECK(open_images(&dictionary, &image, 1, &error) != KUMQUATSIEVE_OK && !dictionary);
    CHECK(error.image == 0);
    print_error(&error);
}

static void as_a_user(file system, file image) {
    const file images[] = {system, image};
    kumquatsieve_dictionary *dictionary = NULL;
    kumquatsieve_error error;
    CHECK(open_images(&dictionary, images, 2, &error) != KUMQUATSIEVE_OK && !dictionary);
    CHECK(error.image == 1);
    print_error(&error);
}

int main(int given, char **paths) {
    CHECK(given > 2);
    file system = read_file(paths[1]);
    for (int i = 2; i < given; i++) {
        file image = read_file(paths[i]);
        as_the_system(image);
        as_a_user(system, image);
        free(image.bytes);
    }
    free(system.bytes);
    return 0;
}

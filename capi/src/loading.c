/* Loads the bytes of images into the core. */
#include "library.h"

/* The sum of the flags that a call takes. */
enum { LOAD_FLAGS = KUMQUATSIEVE_SKIP_DIGEST | KUMQUATSIEVE_TRUSTED };

/* Returns whether an error means that images don't belong together. It is reported after the errors
   of each image by itself. */
static bool is_of_overlay(uint32_t code) { return code >> 8 == 'O'; }

static uint32_t load(kumquatsieve_segmenter *base, const image *from, bool is_user,
                     bool skip_digest, bool is_tested, uint64_t *number) {
    loan bytes = {from->bytes, from->length};
    if (is_user && is_tested) return proved_add_user_trusted(base, bytes, number);
    if (is_user) return proved_add_user_borrowed(base, bytes, skip_digest, number);
    if (is_tested) return proved_load_trusted(base, bytes, number);
    return proved_load_borrowed(base, bytes, skip_digest, number);
}

/* Returns the error of an image by itself, which may be of any dictionary. */
static uint32_t load_alone(const image *from, bool skip_digest, bool is_tested, uint64_t *number) {
    kumquatsieve_segmenter alone = KUMQUATSIEVE_EMPTY;
    uint32_t code = load(&alone, from, false, skip_digest, is_tested, number);
    proved_free(&alone);
    return is_of_overlay(code) ? KUMQUATSIEVE_OK : code;
}

/* Describes the images, and gives all of them the names of the system's fields. */
static uint32_t describe_all(kumquatsieve_dictionary *to) {
    bool has_memory = true;
    for (size_t i = 0; has_memory && i < to->count; i++) has_memory = describe(&to->images[i]);
    image *system = &to->images[0];
    if (has_memory && system->path) has_memory = read_field_names(system);
    for (size_t i = 0; i < to->count; i++) {
        kumquatsieve_info *info = &to->images[i].info;
        info->image_count = (uint32_t)to->count;
        info->fields = system->info.fields;
        info->field_count = system->info.field_count;
    }
    return has_memory ? KUMQUATSIEVE_OK : KUMQUATSIEVE_MEMORY;
}

uint32_t load_next(loading *of, bool is_tested, kumquatsieve_error *error) {
    const image *from = &of->to->images[of->number];
    uint64_t number = 0;
    uint32_t code =
        of->overlay != KUMQUATSIEVE_OK
            ? load_alone(from, of->skip_digest, is_tested, &number)
            : load(&of->to->base, from, of->number > 0, of->skip_digest, is_tested, &number);
    if (code != KUMQUATSIEVE_OK && !is_of_overlay(code))
        return fail_image(error, code, number, of->number, from->path);
    if (code != KUMQUATSIEVE_OK) {
        of->overlay = code;
        of->rejected = of->number;
    }
    of->number++;
    return KUMQUATSIEVE_OK;
}

uint32_t end_loading(const loading *of, kumquatsieve_error *error) {
    const image *rejected = &of->to->images[of->rejected];
    if (of->overlay != KUMQUATSIEVE_OK)
        return fail_image(error, of->overlay, 0, of->rejected, rejected->path);
    return fail(error, describe_all(of->to));
}

bool is_trusted(const image *of, uint32_t flags) {
    header first = {.length = 0};
    uint64_t number = 0;
    if (!(flags & KUMQUATSIEVE_TRUSTED) || of->length < HEADER_LENGTH) return false;
    for (; first.length < HEADER_LENGTH; first.length++)
        first.bytes[first.length] = of->bytes[first.length];
    return check_header(&first, of->length, &number) == KUMQUATSIEVE_OK &&
           first.layout == NEWEST_LAYOUT;
}

/* Copies the bytes of an image, and loads them. */
static uint32_t copy_and_load(loading *of, kumquatsieve_image from, kumquatsieve_error *error) {
    image *one = &of->to->images[of->number];
    if (!from.bytes && from.length > 0) return fail(error, KUMQUATSIEVE_BAD_ARGUMENT);
    int why = make_room(one, from.length);
    if (why == 0) why = append_bytes(one, from.bytes, from.length);
    if (why != 0) return fail(error, KUMQUATSIEVE_MEMORY);
    return load_next(of, is_trusted(one, of->to->flags), error);
}

uint32_t kumquatsieve_dictionary_load(kumquatsieve_dictionary **dictionary,
                                      const kumquatsieve_image *images, size_t count,
                                      uint32_t flags, kumquatsieve_error *error) {
    bool is_valid = images && count > 0 && (flags & ~(uint32_t)LOAD_FLAGS) == 0;
    if (!is_valid) return fail(error, KUMQUATSIEVE_BAD_ARGUMENT);
    loading of = {.to = new_dictionary(count, flags),
                  .skip_digest = flags & KUMQUATSIEVE_SKIP_DIGEST};
    if (!of.to) return fail(error, KUMQUATSIEVE_MEMORY);
    uint32_t code = KUMQUATSIEVE_OK;
    while (code == KUMQUATSIEVE_OK && of.number < count)
        code = copy_and_load(&of, images[of.number], error);
    if (code == KUMQUATSIEVE_OK) code = end_loading(&of, error);
    if (code == KUMQUATSIEVE_OK && dictionary)
        *dictionary = of.to;
    else
        kumquatsieve_dictionary_release(of.to);
    return code;
}

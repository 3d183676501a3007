/* Opens the dictionary that the command line names, and makes segmenters over it. */
#include "pjseg.h"
#include <stdlib.h>

/* Returns whether an error means that images don't belong together. */
static bool is_of_overlay(uint32_t code) { return code >> 8 == 'O'; }

static void log_loaded(const char *path) {
    char *line = is_verbose() ? one_line(path) : NULL;
    if (line) log_message("loaded %s", line);
    free(line);
}

/* Sets *why to the error of an image. jseg numbers user dictionaries from 0. */
static void set_fault(const options *chosen, const kumquatsieve_error *error, fault *why) {
    bool is_of_image = error->code != KUMQUATSIEVE_MEMORY,
         is_of_user = is_of_image && error->image > 0 && error->image <= chosen->user_count;
    *why = (fault){.code = error->code, .number = error->number};
    if (is_of_image) why->path = is_of_user ? chosen->users[error->image - 1] : chosen->dic;
    if (is_of_user && is_of_overlay(error->code)) why->number = error->image - 1;
}

bool open_dictionary(const options *chosen, kumquatsieve_dictionary **dictionary, fault *why) {
    kumquatsieve_error error;
    if (!check_format(chosen, why)) return false;
    uint32_t code =
        kumquatsieve_dictionary_open(dictionary, chosen->dic, (const char *const *)chosen->users,
                                     chosen->user_count, chosen->flags, &error);
    bool is_loaded = code == KUMQUATSIEVE_OK || error.image > 0 || is_of_overlay(code);
    if (is_loaded) log_loaded(chosen->dic);
    if (code != KUMQUATSIEVE_OK) set_fault(chosen, &error, why);
    return code == KUMQUATSIEVE_OK;
}

bool make_segmenter(const options *chosen, kumquatsieve_dictionary *dictionary,
                    kumquatsieve_segmenter *segmenter) {
    fault why = {0};
    bool is_made = kumquatsieve_segmenter_open(segmenter, dictionary, NULL) == KUMQUATSIEVE_OK &&
                   set_format(chosen, segmenter, &why) &&
                   kumquatsieve_set_grouping(segmenter, chosen->grouping, NULL) == KUMQUATSIEVE_OK;
    if (!is_made) kumquatsieve_segmenter_close(segmenter);
    return is_made;
}

/* pjseg: segments the text on standard input into words, on all processors. */
#include "pjseg.h"
#include <signal.h>
#include <stdlib.h>

/* Prints an error. Returns the exit status. */
static int report_fault(const options *chosen, const fault *why) {
    print_cause(chosen, why);
    int status = print_fault(why);
    print_image_directories(why);
    print_explanation(why);
    return status;
}

/* Segments standard input by the options. Returns the exit status. */
static int segment_with(const options *chosen) {
    kumquatsieve_dictionary *dictionary = NULL;
    fault why = {0};
    uint64_t lines = 0;
    int status = STATUS_DONE;
    if (!open_dictionary(chosen, &dictionary, &why)) return report_fault(chosen, &why);
    if (segment_input(chosen, dictionary, &lines)) {
        log_message("segmented %llu lines", (unsigned long long)lines);
    } else {
        status = report_fault(chosen, &(fault){.code = KUMQUATSIEVE_MEMORY});
    }
    kumquatsieve_dictionary_release(dictionary);
    return status;
}

int main(int count, char **words) {
    options chosen = {0};
    int status = STATUS_DONE;
    /* A write to a pipe without a reader fails instead of ending the program. */
    signal(SIGPIPE, SIG_IGN);
    if (read_options(count, words, &chosen, &status)) {
        if (chosen.is_verbose) start_log();
        status = segment_with(&chosen);
    }
    free(chosen.dic);
    for (size_t i = 0; i < chosen.user_count; i++) free(chosen.users[i]);
    free(chosen.users);
    return status;
}

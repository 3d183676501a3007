/* Segmenters: opened over a dictionary, set up, shrunk and closed. */
#include "segmenter.h"
#include <stdlib.h>
#include <string.h>

/* The default format. */
static const char WORD[] = "%m\\t%H\\n", LINE_END[] = "EOS\\n";

uint32_t kumquatsieve_segmenter_open(kumquatsieve_segmenter *segmenter,
                                     kumquatsieve_dictionary *dictionary,
                                     kumquatsieve_error *error) {
    if (!segmenter) return fail(error, KUMQUATSIEVE_BAD_ARGUMENT);
    if (!dictionary) return fail(error, KUMQUATSIEVE_EMPTY_SEGMENTER);
    if (segmenter->held) return fail(error, KUMQUATSIEVE_FULL_SEGMENTER);
    state *made = calloc(1, sizeof *made);
    if (!made) return fail(error, KUMQUATSIEVE_MEMORY);
    uint32_t code = share_base(segmenter, dictionary);
    if (code != KUMQUATSIEVE_OK) {
        free(made);
        return fail(error, code);
    }
    made->dictionary = dictionary;
    segmenter->state = made;
    return succeed(error);
}

void forget_line(state *of) {
    of->has_words = false;
    of->line_words = of->line_length = 0;
}

static void free_buffers(state *of) {
    free_repaired(&of->last);
    free_repaired(&of->spare);
    free(of->words);
    free(of->nodes);
    free(of->field);
    *of = (state){.dictionary = of->dictionary};
}

void kumquatsieve_segmenter_close(kumquatsieve_segmenter *segmenter) {
    state *of = state_in(segmenter);
    if (!of) return;
    proved_free(segmenter);
    free_buffers(of);
    kumquatsieve_dictionary_release(of->dictionary);
    free(of);
    segmenter->state = NULL;
}

/* Another segmenter of the core has the dictionaries, the format and the grouping, and no memory
   for lines. */
uint32_t kumquatsieve_shrink(kumquatsieve_segmenter *segmenter, kumquatsieve_error *error) {
    state *of = state_in(segmenter);
    if (!of) return fail(error, KUMQUATSIEVE_EMPTY_SEGMENTER);
    kumquatsieve_segmenter fresh = KUMQUATSIEVE_EMPTY;
    uint32_t code = proved_share(&fresh, segmenter);
    if (code != KUMQUATSIEVE_OK) return fail(error, code);
    proved_free(segmenter);
    free_buffers(of);
    fresh.state = of;
    *segmenter = fresh;
    return succeed(error);
}

uint32_t kumquatsieve_set_format(kumquatsieve_segmenter *segmenter, const char *node,
                                 const char *unk, const char *bos, const char *eos,
                                 kumquatsieve_error *error) {
    uint32_t part = 0;
    size_t at = 0;
    if (!state_in(segmenter)) return fail(error, KUMQUATSIEVE_EMPTY_SEGMENTER);
    if (!node) node = WORD;
    if (!unk) unk = node;
    if (!bos) bos = "";
    if (!eos) eos = LINE_END;
    uint32_t code = proved_set_format(segmenter, node, strlen(node), unk, strlen(unk), bos,
                                      strlen(bos), eos, strlen(eos), &part, &at);
    return fail_at(error, code, part, at);
}

uint32_t kumquatsieve_set_grouping(kumquatsieve_segmenter *segmenter, uint32_t grouping,
                                   kumquatsieve_error *error) {
    state *of = state_in(segmenter);
    if (!of) return fail(error, KUMQUATSIEVE_EMPTY_SEGMENTER);
    uint32_t code = proved_set_grouping(segmenter, grouping);
    if (code == KUMQUATSIEVE_OK) forget_line(of);
    return fail(error, code);
}

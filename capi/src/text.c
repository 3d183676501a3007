/* Segments lines, and texts that may have any bytes, line by line. */
#include "segmenter.h"
#include <string.h>

/* A line of a text: where it starts, where it ends, and where the next one starts. */
typedef struct extent {
    size_t start, end, next;
} extent;

static bool is_valid(const char *text, size_t length, uint32_t flags) {
    return (text || length == 0) && (flags & ~(uint32_t)KUMQUATSIEVE_WHOLE) == 0;
}

/* Records that the line at `start` of a text was segmented into `count` words. */
static void record_line(state *of, size_t start, size_t length, size_t count) {
    of->start = start;
    of->line_length = length;
    of->line_words = count;
    of->has_words = false;
}

uint32_t kumquatsieve_segment(kumquatsieve_segmenter *segmenter, const char *text, size_t length,
                              uint32_t flags, kumquatsieve_line *line, kumquatsieve_error *error) {
    kumquatsieve_line found = {.end = length};
    state *of = state_in(segmenter);
    size_t at = 0;
    if (!of) return fail(error, KUMQUATSIEVE_EMPTY_SEGMENTER);
    if (!is_valid(text, length, flags)) return fail(error, KUMQUATSIEVE_BAD_ARGUMENT);
    uint32_t code = (flags & KUMQUATSIEVE_WHOLE ? proved_segment_whole : proved_segment)(
        segmenter, text_at(text), length, &found.count, &found.total, &at);
    if (code == KUMQUATSIEVE_TOO_LONG) return fail_at(error, code, length, 0);
    if (code != KUMQUATSIEVE_OK) return fail_at(error, code, 0, at);
    of->last.count = 0;
    record_line(of, 0, length, found.count);
    if (line) *line = found;
    return succeed(error);
}

/* Returns the line at byte `start` of a text. Only as many bytes are read as the line may have. */
static extent line_at(const char *text, size_t length, size_t start, uint32_t flags) {
    const char *from = text_at(text) + start;
    size_t left = length - start, reach = left > LINE_MOST ? LINE_MOST + 1 : left;
    const char *feed = flags & KUMQUATSIEVE_WHOLE ? NULL : memchr(from, '\n', reach);
    if (feed)
        return (extent){start, start + (size_t)(feed - from), start + (size_t)(feed - from) + 1};
    size_t end = start + part_of(from, left, LINE_MOST);
    return (extent){start, end, end};
}

/* Repairs a line, and segments it. Shortens a line whose replacements make it too long. */
static uint32_t segment_repaired(kumquatsieve_segmenter *segmenter, const char *text,
                                 extent *within, kumquatsieve_line *line) {
    state *of = segmenter->state;
    repaired *fresh = &of->spare, last = of->last;
    size_t at = 0;
    if (!repair(fresh, text + within->start, within->end - within->start))
        return KUMQUATSIEVE_MEMORY;
    if (fresh->length > LINE_MOST) {
        cut_repaired(fresh, part_of(fresh->text, fresh->length, LINE_MOST));
        within->end = within->next = within->start + given_place(fresh, fresh->length);
    }
    uint32_t code = proved_segment_whole(segmenter, fresh->text, fresh->length, &line->count,
                                         &line->total, &at);
    if (code != KUMQUATSIEVE_OK) return code;
    line->replaced = fresh->invalid_count;
    of->last = *fresh;
    of->spare = last;
    return code;
}

uint32_t kumquatsieve_segment_text(kumquatsieve_segmenter *segmenter, const char *text,
                                   size_t length, size_t position, uint32_t flags,
                                   kumquatsieve_line *line, kumquatsieve_error *error) {
    kumquatsieve_line found = {.count = 0};
    state *of = state_in(segmenter);
    size_t at = 0;
    if (!of) return fail(error, KUMQUATSIEVE_EMPTY_SEGMENTER);
    if (!is_valid(text, length, flags) || position > length)
        return fail(error, KUMQUATSIEVE_BAD_ARGUMENT);
    extent within = line_at(text, length, position, flags);
    uint32_t code = proved_segment_whole(segmenter, text_at(text) + position, within.end - position,
                                         &found.count, &found.total, &at);
    if (code == KUMQUATSIEVE_OK) of->last.count = 0;
    if (code == KUMQUATSIEVE_NOT_UTF8) code = segment_repaired(segmenter, text, &within, &found);
    if (code != KUMQUATSIEVE_OK) return fail(error, code);
    record_line(of, position, within.end - position, found.count);
    found.end = within.next;
    if (line) *line = found;
    return succeed(error);
}

/* Fills the error of line `number` of a text, from 1, with the position in the text. */
static uint32_t fail_line(kumquatsieve_error *error, uint32_t code, const char *text, size_t length,
                          uint64_t number) {
    const char *line = text, *end = text + length;
    bool is_of_text = code == KUMQUATSIEVE_NOT_UTF8 || code == KUMQUATSIEVE_TOO_LONG;
    if (!error || !is_of_text) return fail(error, code);
    for (uint64_t i = 1; i < number; i++)
        line = (const char *)memchr(line, '\n', (size_t)(end - line)) + 1;
    const char *feed = memchr(line, '\n', (size_t)(end - line));
    size_t start = (size_t)(line - text), line_length = (size_t)((feed ? feed : end) - line);
    if (code == KUMQUATSIEVE_TOO_LONG) return fail_at(error, code, line_length, start);
    return fail_at(error, code, 0, start + valid_length(line, line_length));
}

uint32_t kumquatsieve_parse_lines(kumquatsieve_segmenter *segmenter, const char *text,
                                  size_t length, const char **output, size_t *output_length,
                                  uint64_t *lines, kumquatsieve_error *error) {
    const char *printed = NULL;
    size_t printed_length = 0;
    uint64_t count = 0;
    state *of = state_in(segmenter);
    if (!of) return fail(error, KUMQUATSIEVE_EMPTY_SEGMENTER);
    if (!is_valid(text, length, 0)) return fail(error, KUMQUATSIEVE_BAD_ARGUMENT);
    uint32_t code =
        proved_parse_lines(segmenter, text_at(text), length, &printed, &printed_length, &count);
    forget_line(of);
    if (output) *output = printed;
    if (output_length) *output_length = printed_length;
    if (lines) *lines = count;
    return fail_line(error, code, text_at(text), length, count);
}

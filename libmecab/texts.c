/* The output format of a model, by its settings. */
#include "layer.h"
#include <stdlib.h>
#include <string.h>

static const char NODE[] = "%m\\t%H\\n";
static const char EOS[] = "EOS\\n";
static const char *const PARTS[PART_COUNT] = {"node-format", "unk-format", "bos-format",
                                              "eos-format", "eon-format"};
static const char *const DEFAULTS[PART_COUNT] = {NODE, NODE, "", EOS, ""};

/* The numbers of formats start at 1. 0 means that a lattice's segmenter has no format yet. */
static atomic_ulong last_number = 1;
static const format LINES = {
    .style = LINES_STYLE, .texts = {NODE, NODE, "", EOS, ""}, .number = 1, .is_proved = true};
static const format WAKATI = {
    .style = WAKATI_STYLE, .texts = {"%m ", "%m ", "", "\\n", ""}, .is_proved = true};
static const format NONE = {.style = NO_STYLE, .texts = {"", "", "", "", ""}, .is_proved = true};

const format *default_format(void) { return &LINES; }

bool accepts_texts(kumquatsieve_segmenter *segmenter, const format *texts, fault *error) {
    kumquatsieve_error why;
    const char *const *of = texts->texts;
    uint32_t code = kumquatsieve_set_format(segmenter, of[NODE_PART], of[UNK_PART], of[BOS_PART],
                                            of[EOS_PART], &why);
    return code == KUMQUATSIEVE_OK || fail_code(error, PARTS[why.number & 3], code);
}

/* Returns the setting of a part, or its default. With a style, returns the setting of the part and
   the style, which is empty by default. (MeCab) */
static const char *text_in(const settings *from, int part, const char *style) {
    char name[256];
    if (!*style) {
        const char *text = setting_of(from, PARTS[part]);
        return text ? text : DEFAULTS[part];
    }
    snprintf(name, sizeof name, "%s-%s", PARTS[part], style);
    const char *text = setting_of(from, name);
    return text ? text : "";
}

static bool is_default(const char *const texts[]) {
    for (int i = 0; i < EON_PART; i++) {
        if (strcmp(texts[i], DEFAULTS[i]) != 0) return false;
    }
    return true;
}

/* Parses a format. The library prints it, if it has all items, and print_path does otherwise. */
static bool read_own(format *to, const char *const texts[], kumquatsieve_segmenter *segmenter,
                     fault *error) {
    fault rejection;
    for (int i = 0; i < PART_COUNT; i++) {
        to->texts[i] = to->own[i] = strdup(texts[i]);
        if (!to->own[i]) return fail_memory(error);
        if (!read_items(&to->items[i], texts[i], PARTS[i], error)) return false;
    }
    to->style = OWN_STYLE;
    to->is_proved = accepts_texts(segmenter, to, &rejection);
    return true;
}

/* The default format of unknown words means the format of known words. (MeCab) */
static bool choose_own(format *to, const settings *from, const char *style,
                       kumquatsieve_segmenter *segmenter, fault *error) {
    const char *texts[PART_COUNT];
    for (int i = 0; i < PART_COUNT; i++) texts[i] = text_in(from, i, style);
    if (*style && !*texts[NODE_PART]) return fail(error, "unknown format type [%.200s]", style);
    if (strcmp(texts[UNK_PART], NODE) == 0) texts[UNK_PART] = texts[NODE_PART];
    if (!is_default(texts)) return read_own(to, texts, segmenter, error);
    *to = LINES;
    return true;
}

/* With a style of MeCab's own the formats are ignored. (MeCab) */
bool choose_texts(format *to, const settings *from, kumquatsieve_segmenter *segmenter,
                  fault *error) {
    const char *style = setting_of(from, "output-format-type");
    if (!style) style = "";
    if (strcmp(style, "dump") == 0) return fail_left_out(error, "the output format type dump");
    if (strcmp(style, "em") == 0) return fail_left_out(error, "the output format type em");
    bool chosen = true;
    if (strcmp(style, "wakati") == 0)
        *to = WAKATI;
    else if (strcmp(style, "none") == 0)
        *to = NONE;
    else
        chosen = choose_own(to, from, style, segmenter, error);
    to->number = ++last_number;
    return chosen;
}

void free_texts(format *of) {
    for (int i = 0; i < PART_COUNT; i++) {
        free(of->own[i]);
        free_items(&of->items[i]);
    }
}

/* Output formats. As in jseg, they are checked before any image is read. The library only sets a
   format of a segmenter with a dictionary, so they are checked over a dictionary without words. */
#include "pjseg.h"

/* Numbers of an image, in 4 or 8 bytes, little-endian. */
#define NUMBER(n) (n), 0, 0, 0
#define LENGTH(n) (n), 0, 0, 0, 0, 0, 0, 0

/* An image of layout 3 (docs/FORMAT.md): a matrix of one cell, a category of all code points, and
   its unknown word. */
// clang-format off
static const uint8_t NO_WORDS[] = {
    'M', 'J', 'D', 'I', 'C', 'T', '\r', '\n',
    NUMBER(3), NUMBER(0), NUMBER(1), NUMBER(1), NUMBER(1), NUMBER(0), NUMBER(0), NUMBER(1),
    LENGTH(2), LENGTH(5), LENGTH(8), LENGTH(8), LENGTH(8), LENGTH(4), LENGTH(16), LENGTH(0),
    0, 0,                                           /* the matrix */
    0, 1, 0, 1, 'D',                                /* the category */
    NUMBER(0), NUMBER(1),                           /* its range */
    NUMBER(0), NUMBER(1),                           /* the index of unknown words */
    NUMBER(1), 0xfe, 0xff, 0xff, 0xff,              /* the root of the keys */
    NUMBER(0),                                      /* the index of groups */
    0, 0, 0, 0, 0, 0, 0, 0, NUMBER(0), NUMBER(0),   /* the unknown word */
    /* the SHA-256 of all bytes above */
    0x00, 0xbf, 0x31, 0xa7, 0x1c, 0x4e, 0x5b, 0x04, 0x5f, 0x19, 0x3f, 0x24, 0xbc, 0xbf, 0x41, 0x0f,
    0xd2, 0x1c, 0x8b, 0x88, 0xa0, 0x22, 0x09, 0xc1, 0xb6, 0x01, 0x18, 0x1d, 0xef, 0x9c, 0x4c, 0x3b,
};
// clang-format on

bool set_format(const options *chosen, kumquatsieve_segmenter *segmenter, fault *why) {
    kumquatsieve_error error;
    uint32_t code = chosen->is_wakati
                        ? kumquatsieve_set_format(segmenter, "%m ", NULL, NULL, "\\n", &error)
                        : kumquatsieve_set_format(segmenter, chosen->node, chosen->unk, chosen->bos,
                                                  chosen->eos, &error);
    if (code == KUMQUATSIEVE_OK) return true;
    *why = (fault){.code = code, .number = error.position, .part = (uint32_t)error.number};
    return false;
}

bool check_format(const options *chosen, fault *why) {
    kumquatsieve_segmenter segmenter = KUMQUATSIEVE_EMPTY;
    kumquatsieve_dictionary *dictionary = NULL;
    const kumquatsieve_image image = {NO_WORDS, sizeof NO_WORDS};
    why->code = kumquatsieve_dictionary_load(&dictionary, &image, 1, 0, NULL);
    if (why->code == KUMQUATSIEVE_OK)
        why->code = kumquatsieve_segmenter_open(&segmenter, dictionary, NULL);
    bool is_good = why->code == KUMQUATSIEVE_OK && set_format(chosen, &segmenter, why);
    kumquatsieve_segmenter_close(&segmenter);
    kumquatsieve_dictionary_release(dictionary);
    return is_good;
}

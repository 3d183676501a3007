/* What each code means, its usual cause, and what to do. */
#include "library.h"

#define EXPLANATION(name, meaning, cause, cure)                                                    \
    name "\nMeaning: " meaning "\nUsual cause: " cause "\nWhat to do: " cure "\n"
#define CHANGED "The image was changed after it was written, or another program wrote it."
#define COPY_AGAIN "Copy the image again, or compile it again with dictc or kumquatsieve-import."

static const struct {
    uint32_t code;
    const char *text;
} EXPLANATIONS[] = {
    {KUMQUATSIEVE_MEMORY,
     EXPLANATION("Memory", "An allocation or the mapping of a file failed.",
                 "The machine has too little memory, or a limit is set.",
                 "Raise the limit (ulimit -v), or use a machine with more memory.")},
    {KUMQUATSIEVE_FILE,
     EXPLANATION("F1 File",
                 "A file can't be opened, read or mapped, or no image has the name. The number is "
                 "the errno.",
                 "The image is not installed, or its path or its permissions are wrong.",
                 "Install the image with kumquatsieve-import, or correct the path.")},
    {KUMQUATSIEVE_TRUNCATED,
     EXPLANATION("L1 Truncated", "The image has fewer bytes than its header requires.",
                 "A copy was interrupted, or the file is not an image.", COPY_AGAIN)},
    {KUMQUATSIEVE_BAD_MAGIC,
     EXPLANATION("L2 BadMagic", "The file does not start as an image does.",
                 "It is another file, such as MeCab's sys.dic or a source.",
                 "Compile the sources of the dictionary with dictc or kumquatsieve-import.")},
    {KUMQUATSIEVE_BAD_LAYOUT,
     EXPLANATION("L3 BadLayout", "The image has a layout other than 1, 2 and 3: the number.",
                 "A later version of dictc compiled it.",
                 "Compile it again with this version, or install the later version.")},
    {KUMQUATSIEVE_BAD_SECTION,
     EXPLANATION("L4 BadSection",
                 "The section of this number is invalid. Number 0 is the header, and 9 is what "
                 "follows section 8.",
                 CHANGED, COPY_AGAIN)},
    {KUMQUATSIEVE_BAD_KEY,
     EXPLANATION("L5 BadKey", "The group of this number, from 0, has no valid key.", CHANGED,
                 COPY_AGAIN)},
    {KUMQUATSIEVE_BAD_TOKEN,
     EXPLANATION("L6 BadToken",
                 "The token of this number, from 0, has a context id out of range, or spare bytes "
                 "that are not 0.",
                 CHANGED, COPY_AGAIN)},
    {KUMQUATSIEVE_BAD_TEXT,
     EXPLANATION("L7 BadText",
                 "The feature of the token of this number, from 0, lies outside the features, or "
                 "is not UTF-8.",
                 CHANGED, COPY_AGAIN)},
    {KUMQUATSIEVE_DIGEST,
     EXPLANATION("L8 Digest",
                 "The checksum (SHA-256) at the end of the image does not match its bytes.",
                 "A copy or a disk changed the image.", COPY_AGAIN)},
    {KUMQUATSIEVE_NOT_SYSTEM,
     EXPLANATION("O1 NotSystem", "The first image is not a system dictionary.",
                 "A user dictionary was given as the system dictionary.",
                 "Give a system dictionary first, and the user dictionary after it.")},
    {KUMQUATSIEVE_NOT_USER,
     EXPLANATION("O2 NotUser", "An image after the first one is not a user dictionary.",
                 "A system dictionary was given as a user dictionary.",
                 "Compile the lexicon with dictc user.")},
    {KUMQUATSIEVE_OTHER_SIZES,
     EXPLANATION("O3 OtherSizes",
                 "A user dictionary has other numbers of context ids than the system dictionary.",
                 "It was compiled for another system dictionary, or for an older one.",
                 "Compile it again with dictc user for this system dictionary.")},
    {KUMQUATSIEVE_BAD_ESCAPE,
     EXPLANATION("P1 BadEscape", "A format has a backslash before a character that is no escape.",
                 "The backslash stands for itself, or was meant for the shell.",
                 "Write two backslashes for one. The escapes are \\0 \\a \\b \\t \\n \\v \\f \\r "
                 "\\s \\\\.")},
    {KUMQUATSIEVE_BAD_ITEM,
     EXPLANATION("P2 BadItem", "A format has a % before a letter that is no item there.",
                 "Only MeCab has the item, such as %F, or it is an item of words in the text for "
                 "the start or the end of a line.",
                 "Write %% for a percent sign. jseg(1) lists the items.")},
    {KUMQUATSIEVE_BAD_INDEX,
     EXPLANATION("P3 BadIndex", "A format has %f without a number of 0 to 65,535 in brackets.",
                 "The index is missing, or there are several, as in MeCab's %f[0,1].",
                 "Write an item for each field, such as %f[0]-%f[1].")},
    {KUMQUATSIEVE_NOT_UTF8,
     EXPLANATION("G3 NotUtf8", "The text is not UTF-8 at this byte.",
                 "The text is in EUC-JP or Shift_JIS, or it is damaged.",
                 "Convert it, or call kumquatsieve_segment_text, which accepts any bytes.")},
    {KUMQUATSIEVE_TOO_LONG,
     EXPLANATION("G4 TooLong", "The line has more than 1,048,576 bytes.",
                 "The text has no line feeds.",
                 "Split the line, or call kumquatsieve_segment_text, which splits it.")},
    {KUMQUATSIEVE_LINE_FEED,
     EXPLANATION("K1 LineFeed", "The line has a line feed at this byte.",
                 "A text of several lines was given to a call that takes one line.",
                 "Call kumquatsieve_segment_text, or use the flag KUMQUATSIEVE_WHOLE.")},
    {KUMQUATSIEVE_NOTHING_SEGMENTED,
     EXPLANATION("K2 NothingSegmented", "The segmenter has no line.",
                 "Nothing was segmented yet, or the last line was forgotten.",
                 "Call kumquatsieve_segment first, and test its result.")},
    {KUMQUATSIEVE_BAD_GROUPING,
     EXPLANATION("K4 BadGrouping", "The grouping is more than 1,000 characters.",
                 "A negative number was converted.", "Use 0 to 1,000; MeCab's default is 24.")},
    {KUMQUATSIEVE_EMPTY_SEGMENTER,
     EXPLANATION("K5 EmptySegmenter", "The segmenter or the dictionary is empty or NULL.",
                 "It was not opened, opening it failed, or it was closed.",
                 "Open it first, and test the result.")},
    {KUMQUATSIEVE_FULL_SEGMENTER,
     EXPLANATION("K6 FullSegmenter", "The segmenter is not empty.",
                 "It was opened before, and not closed.", "Close it first, or use another one.")},
    {KUMQUATSIEVE_SHORT_BUFFER,
     EXPLANATION("K7 ShortBuffer", "The buffer has fewer bytes than the result.",
                 "The result is longer than the caller expected.",
                 "Call again with a buffer of as many bytes as the call reports.")},
    {KUMQUATSIEVE_BAD_ARGUMENT,
     EXPLANATION("K9 BadArgument",
                 "An argument is NULL where an address is required, a flag is unknown, or a number "
                 "is out of range.",
                 "The call was made with arguments in the wrong order.",
                 "Compare the call with its comment in kumquatsieve.h.")},
    {KUMQUATSIEVE_NO_FIELD,
     EXPLANATION("K10 NoField", "The dictionary has no field of this name.",
                 "The name is misspelled, or no file NAME.fields lies beside the image.",
                 "kumquatsieve_dictionary_info has the names. kumquatsieve_field takes a number.")},
};

const char *kumquatsieve_explain(uint32_t code) {
    for (size_t i = 0; i < sizeof EXPLANATIONS / sizeof *EXPLANATIONS; i++) {
        if (EXPLANATIONS[i].code == code) return EXPLANATIONS[i].text;
    }
    return NULL;
}

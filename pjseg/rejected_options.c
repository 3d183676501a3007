/* The texts of --help and --version, and options of jseg and MeCab that this program doesn't take,
   each with what to do instead. */
#include "pjseg.h"
#include <string.h>

const char HELP[] =
    "Segments Japanese text from standard input into words, on all processors\n"
    "\n"
    "Usage: " PROGRAM " [OPTIONS] -d IMG < TEXT\n"
    "\n"
    "Options:\n"
    "  -d <IMG>       Use the system dictionary in an image, given by path or name\n"
    "  -u <IMG>       Also use the user dictionary in an image; can be repeated\n"
    "  --test-digest  Verify the checksum (SHA-256) of each image, and ignore records of tests\n"
    "  --skip-digest  Skip verifying checksums; this is the default, unlike in jseg\n"
    "  --copy         Read the images into memory instead of mapping their files\n"
    "  -j <N>         Number of threads, 1 to 1,000 [default: number of processors]\n"
    "  -M <N>         Maximum number of characters after the first one of a grouped unknown word\n"
    "                 [default: 24]\n"
    "  -O <NAME>      Output format by name: wakati prints surfaces, each followed by a blank\n"
    "  -F <FORMAT>    Format of known words\n"
    "  -U <FORMAT>    Format of unknown words [default: that of known words]\n"
    "  -B <FORMAT>    Format of the text before the first word of a line\n"
    "  -E <FORMAT>    Format of the text after the last word of a line\n"
    "  -v             Print progress and the causes of errors to standard error\n"
    "  -h, --help     Print help\n"
    "  -V, --version  Print version\n";

const char VERSION[] = PROGRAM " " KUMQUATSIEVE_VERSION "\nimage layouts read: 1, 2, 3\n";

/* Options that are only recognized to be rejected: by a letter after `-`, or 0, and a word after
   `--`. */
static const struct {
    char letter;
    const char *word, *instead;
} REJECTED_OPTIONS[] = {
    {0, "sources",
     "--sources is not supported: " PROGRAM
     " needs an image; compile the sources with dictc, or use jseg"},
    {0, "sample", "--sample is not supported: " PROGRAM " needs an image; use jseg"},
    {0, "explain", "--explain is not supported: jseg --explain explains an error code"},
    {0, "dictionaries",
     "--dictionaries is not supported: jseg --dictionaries lists the images that can be given by "
     "name"},
    {0, "lattice", "--lattice is not supported: jseg --lattice prints the lattice of each line"},
    {0, "within", "--within is not supported: it is an option of jseg --lattice"},
    {0, "why", "--why is not supported: jseg --why explains the segmentation of each line"},
    {'N', "nbest", "-N is not supported: " PROGRAM " prints only the best path; remove the option"},
    {'a', "all-morphs", "-a is not supported: jseg --lattice tsv prints all words of a line"},
    {'l', "lattice-level",
     "-l is not supported: " PROGRAM " prints only the best path; remove the option"},
    {'m', "marginal",
     "-m is not supported: " PROGRAM " computes no probabilities; remove the option"},
    {'t', "theta", "-t is not supported: " PROGRAM " computes no probabilities; remove the option"},
    {'c', "cost-factor",
     "-c is not supported: " PROGRAM " computes no probabilities; remove the option"},
    {'p', "partial",
     "-p is not supported: " PROGRAM
     " segments plain text, and accepts no words that are already segmented"},
    {'S', "eon-format",
     "-S is not supported: it is printed after N-best output, and " PROGRAM
     " prints only the best path; remove the option"},
    {'x', "unk-feature",
     "-x is not supported: use -U with a format that has the text instead of %H"},
    {'o', "output",
     "-o is not supported: " PROGRAM " writes to standard output; redirect it with '> FILE'"},
    {'r', "rcfile",
     "-r is not supported: " PROGRAM
     " does not read a dicrc; give its formats with -F, -U, -B and -E"},
    {'D', "dictionary-info",
     "-D is not supported: -v prints what is loaded, and jseg --dictionaries lists the installed "
     "images"},
    {'P', "dump-config", "-P is not supported: --help lists the options"},
    {'b', "input-buffer-size",
     "-b is not needed: a line can have up to 1,048,576 bytes; remove the option"},
    {'C', "allocate-sentence",
     "-C is not needed: " PROGRAM " keeps its own copy of each line; remove the option"},
    {0, "dicdir", "--dicdir is not supported: use -d IMG"},
    {0, "userdic", "--userdic is not supported: use -u IMG"},
    {0, "output-format-type", "--output-format-type is not supported: use -O wakati"},
    {0, "max-grouping-size", "--max-grouping-size is not supported: use -M N"},
    {0, "node-format", "--node-format is not supported: use -F FORMAT"},
    {0, "unk-format", "--unk-format is not supported: use -U FORMAT"},
    {0, "bos-format", "--bos-format is not supported: use -B FORMAT"},
    {0, "eos-format", "--eos-format is not supported: use -E FORMAT"},
};

static const char WORDS[] =
    "the text is read from standard input, so run '" PROGRAM " -d IMG < FILE'";

const char *instead_of_letter(char letter) {
    for (size_t i = 0; i < sizeof REJECTED_OPTIONS / sizeof *REJECTED_OPTIONS; i++) {
        if (REJECTED_OPTIONS[i].letter == letter) return REJECTED_OPTIONS[i].instead;
    }
    return NULL;
}

/* Returns whether a word is `--` and `name`, alone or followed by `=` and a value. */
static bool is_long(const char *word, const char *name) {
    size_t length = strlen(name);
    if (strncmp(word, "--", 2) != 0 || strncmp(word + 2, name, length) != 0) return false;
    char after = word[2 + length];
    return after == '\0' || after == '=';
}

const char *instead_of_word(const char *word) {
    if (word[0] != '-' || word[1] == '\0') return WORDS;
    for (size_t i = 0; i < sizeof REJECTED_OPTIONS / sizeof *REJECTED_OPTIONS; i++) {
        if (is_long(word, REJECTED_OPTIONS[i].word)) return REJECTED_OPTIONS[i].instead;
    }
    return NULL;
}

/* Returns NULL for the one format that has a name. The other known names are from IPADIC's dicrc,
   each with options that print the same or nearly so. */
const char *instead_of_output(const char *name) {
    static const struct {
        const char *name, *instead;
    } KNOWN[] = {
        {"wakati", NULL},
        {"chasen", "-O chasen is not supported: for IPADIC use "
                   "-F '%m\\t%f[7]\\t%f[6]\\t%f[0]-%f[1]-%f[2]-%f[3]\\t%f[4]\\t%f[5]\\n' "
                   "-U '%m\\t%m\\t%m\\t%f[0]-%f[1]-%f[2]-%f[3]\\t\\t\\n'"},
        {"yomi", "-O yomi is not supported: run 'mecab -d IMG -Oyomi', or for IPADIC use -F "
                 "'%pS%f[7]' -U '%M' -E '\\n'"},
        {"simple", "-O simple is not supported: run 'mecab -d IMG -Osimple', or for IPADIC use -F "
                   "'%m\\t%f[0]-%f[1]-%f[2]-%f[3]\\n'"},
    };
    for (size_t i = 0; i < sizeof KNOWN / sizeof *KNOWN; i++) {
        if (strcmp(name, KNOWN[i].name) == 0) return KNOWN[i].instead;
    }
    return "-O supports only wakati: MeCab reads other names from the dictionary's dicrc; run "
           "'mecab -d IMG -O NAME', "
           "or give that format with -F, -U, -B and -E";
}

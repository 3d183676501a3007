/* Prints the words of a file that may have any bytes and any size: text DICTIONARY FILE */
#include <fcntl.h>
#include <kumquatsieve.h>
#include <stdio.h>
#include <sys/mman.h>
#include <sys/stat.h>

int main(int given, char **arguments) {
    kumquatsieve_dictionary *dictionary = NULL;
    kumquatsieve_segmenter segmenter = KUMQUATSIEVE_EMPTY;
    kumquatsieve_line line;
    kumquatsieve_error error;
    const kumquatsieve_word *words = NULL;
    size_t count = 0, replaced = 0;
    struct stat of = {0};
    int file = given == 3 ? open(arguments[2], O_RDONLY) : -1;
    if (file < 0 || fstat(file, &of) != 0)
        return fprintf(stderr, "usage: text DICTIONARY FILE\n"), 2;
    size_t length = (size_t)of.st_size;
    const char *text = length > 0 ? mmap(NULL, length, PROT_READ, MAP_PRIVATE, file, 0) : "";
    uint32_t code = kumquatsieve_dictionary_open(&dictionary, arguments[1], NULL, 0, 0, &error);
    if (code == KUMQUATSIEVE_OK) code = kumquatsieve_segmenter_open(&segmenter, dictionary, &error);
    if (text == MAP_FAILED) return perror("text"), 1;
    for (size_t at = 0; code == KUMQUATSIEVE_OK && at < length; at = line.end) {
        code = kumquatsieve_segment_text(&segmenter, text, length, at, 0, &line, &error);
        if (code == KUMQUATSIEVE_OK) code = kumquatsieve_words(&segmenter, &words, &count, &error);
        for (size_t i = 0; code == KUMQUATSIEVE_OK && i < count; i++)
            printf("%zu\t%.*s\n", words[i].start, (int)(words[i].end - words[i].start),
                   text + words[i].start);
        if (code == KUMQUATSIEVE_OK) replaced += line.replaced;
    }
    if (code != KUMQUATSIEVE_OK) fprintf(stderr, "text: %s\n", error.message);
    if (replaced > 0) fprintf(stderr, "text: %zu bytes are not UTF-8\n", replaced);
    kumquatsieve_segmenter_close(&segmenter);
    kumquatsieve_dictionary_release(dictionary);
    return code != KUMQUATSIEVE_OK;
}

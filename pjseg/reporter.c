/* Log messages of the option -v. */
#include "pjseg.h"
#include <stdarg.h>
#include <stdio.h>
#include <stdlib.h>
#include <time.h>
#include <unistd.h>

/* Set before the first thread is created. */
static bool verbose;
static struct timespec started_at;

void start_log(void) { verbose = clock_gettime(CLOCK_MONOTONIC, &started_at) == 0; }

bool is_verbose(void) { return verbose; }

bool is_interactive(void) { return verbose || isatty(STDERR_FILENO); }

void log_message(const char *format, ...) {
    struct timespec now;
    va_list words;
    char *text = NULL;
    if (!verbose || clock_gettime(CLOCK_MONOTONIC, &now) != 0) return;
    long hundredths =
        (now.tv_sec - started_at.tv_sec) * 100 + (now.tv_nsec - started_at.tv_nsec) / 10000000;
    va_start(words, format);
    int made = vasprintf(&text, format, words);
    va_end(words);
    if (made < 0) return;
    print_message("%ld.%02ld s: %s", hundredths / 100, hundredths % 100, text);
    free(text);
}

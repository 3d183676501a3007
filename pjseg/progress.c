/* Prints on a terminal how much of the text was written, in one line that is overwritten. */
#include "pjseg.h"
#include <stdatomic.h>
#include <stdio.h>
#include <string.h>
#include <sys/stat.h>
#include <time.h>
#include <unistd.h>

/* In milliseconds, as in jseg: how long a run lasts before the first line, and how long before the
   line is overwritten. */
enum { PATIENCE = 2000, PAUSE = 250 };

static const char ERASE[] = "\r\x1b[K";

/* The bytes of the text, or 0 if no line is printed, and the times of the start and of the next
   line in milliseconds. They change before the first thread is created, and in print_progress. */
static uint64_t all, started_at, next;
static atomic_bool is_shown;

/* Returns the time in milliseconds, or 0 if there is no clock. */
static uint64_t now(void) {
    struct timespec found;
    if (clock_gettime(CLOCK_MONOTONIC, &found) != 0) return 0;
    return (uint64_t)found.tv_sec * 1000 + (uint64_t)found.tv_nsec / 1000000;
}

/* Returns how many bytes are left on standard input, or 0 if it is no regular file. */
static uint64_t bytes_left(void) {
    struct stat found;
    if (fstat(STDIN_FILENO, &found) != 0 || !S_ISREG(found.st_mode)) return 0;
    off_t at = lseek(STDIN_FILENO, 0, SEEK_CUR);
    return at >= 0 && at < found.st_size ? (uint64_t)(found.st_size - at) : 0;
}

void start_progress(void) {
    if (!isatty(STDERR_FILENO) || isatty(STDOUT_FILENO)) return;
    all = bytes_left();
    started_at = now();
    next = started_at + PATIENCE;
}

static void print_line(const char *line) {
    ssize_t taken = write(STDERR_FILENO, line, strlen(line));
    (void)taken;
}

/* A file that grows meanwhile never shows more than 100 %. */
void print_progress(uint64_t bytes) {
    uint64_t time = all > 0 ? now() : 0;
    char line[128];
    if (all == 0 || time < next) return;
    uint64_t most = bytes < all ? all : bytes;
    unsigned percent = (unsigned)(100.0 * (double)bytes / (double)most);
    double rate = (double)bytes / 1000 / (double)(time - started_at);
    next = time + PAUSE;
    snprintf(line, sizeof line, "\rsegmented %llu of %llu bytes, %u %%, %.1f MB/s\x1b[K",
             (unsigned long long)bytes, (unsigned long long)most, percent, rate);
    atomic_store(&is_shown, true);
    print_line(line);
}

void erase_progress(void) {
    if (atomic_exchange(&is_shown, false)) print_line(ERASE);
}

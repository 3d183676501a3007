/* Tests the errors of files that are opened, and files that are not regular: opening_files
   SYSTEM.img USER.img FOLDER. Both images are compiled from the sample. FOLDER is empty. */
#define _GNU_SOURCE
#include "maps.h"
#include <errno.h>
#include <fcntl.h>
#include <signal.h>
#include <sys/socket.h>
#include <sys/un.h>
#include <sys/wait.h>
#include <unistd.h>

#define WHOLE KUMQUATSIEVE_TEST_DIGEST
#define COPY KUMQUATSIEVE_COPY

enum { LAYOUT_AT = 8, LENGTHS_AT = 40, HEADER = 104, LONG_PATH = 5000 };

static file sys, user;
static char long_name[258 + 1], long_path[LONG_PATH + 1];

/* A file that is made of the system image: its length, and a byte that is changed. */
typedef struct made_row {
    const char *path;
    off_t length;
    size_t at;
    const char *bytes;
    size_t count;
} made_row;

static void make_files(void) {
    off_t all = (off_t)sys.length;
    const made_row rows[] = {
        {"whole.img", all, 0, "", 0},
        {"empty.img", 0, 0, "", 0},
        {"103.img", HEADER - 1, 0, "", 0},
        {"header.img", HEADER, 0, "", 0},
        {"shorter.img", all - 1, 0, "", 0},
        {"longer.img", all + 1, 0, "", 0},
        {"magic.img", all, 0, "X", 1},
        {"layout.img", all, LAYOUT_AT, "\x09", 1},
        {"overflow.img", all, LENGTHS_AT, "\xff\xff\xff\xff\xff\xff\xff\xff", 8},
        {"digest.img", all, sys.length - 4, "\0\0\0\0", 4},
        {"right_ids.img", all, 16, "\0\0\0\0", 4},
        {"sparse_magic.img", (off_t)1 << 40, 0, "X", 1},
        {"sparse.img", (off_t)1 << 40, 0, "", 0},
    };
    for (size_t i = 0; i < COUNT_OF(rows); i++) {
        int to = open(rows[i].path, O_RDWR | O_CREAT | O_TRUNC, 0600);
        size_t written = (size_t)rows[i].length < sys.length ? (size_t)rows[i].length : sys.length;
        CHECK_CASE(rows[i].path, to >= 0 && pwrite(to, sys.bytes, written, 0) == (ssize_t)written);
        CHECK_CASE(rows[i].path, ftruncate(to, rows[i].length) == 0);
        CHECK_CASE(rows[i].path, pwrite(to, rows[i].bytes, rows[i].count, (off_t)rows[i].at) ==
                                     (ssize_t)rows[i].count);
        close(to);
    }
}

static void make_others(void) {
    struct sockaddr_un at = {.sun_family = AF_UNIX, .sun_path = "socket"};
    int end = socket(AF_UNIX, SOCK_STREAM, 0);
    CHECK(end >= 0 && bind(end, (const struct sockaddr *)&at, sizeof at) == 0);
    close(end);
    CHECK(mkdir("folder.img", 0700) == 0 && mkfifo("pipe", 0600) == 0);
    CHECK(symlink("none.img", "dangling.img") == 0 && symlink("loop.img", "loop.img") == 0);
    memset(long_name, 'a', sizeof long_name - 1);
    memcpy(long_name, "./", 2);
    for (size_t i = 0; i < LONG_PATH; i++) long_path[i] = i % 2 ? '/' : '.';
}

/* A file to open, and the code and the number. */
typedef struct rejected_row {
    const char *what, *path;
    uint32_t flags, code;
    uint64_t number;
} rejected_row;

static const rejected_row AS_SYSTEM[] = {
    {"an unknown bit", "whole.img", 64, KUMQUATSIEVE_BAD_ARGUMENT, 0},
    {"the highest bit", "whole.img", ~(~0u >> 1), KUMQUATSIEVE_BAD_ARGUMENT, 0},
    {"an empty path", "", 0, KUMQUATSIEVE_FILE, ENOENT},
    {"no file", "none.img", 0, KUMQUATSIEVE_FILE, ENOENT},
    {"no folder", "none/whole.img", 0, KUMQUATSIEVE_FILE, ENOENT},
    {"a slash after a file", "whole.img/", 0, KUMQUATSIEVE_FILE, ENOTDIR},
    {"a file for a folder", "whole.img/x", 0, KUMQUATSIEVE_FILE, ENOTDIR},
    {"a folder", "./folder.img", 0, KUMQUATSIEVE_FILE, EISDIR},
    {"a bare name of a folder", "folder.img", 0, KUMQUATSIEVE_FILE, EISDIR},
    {"a folder and a slash", "folder.img/", 0, KUMQUATSIEVE_FILE, EISDIR},
    {"this folder", "./", 0, KUMQUATSIEVE_FILE, EISDIR},
    {"the root", "/", 0, KUMQUATSIEVE_FILE, EISDIR},
    {"a folder, copied", "./folder.img", COPY, KUMQUATSIEVE_FILE, EISDIR},
    {"a link to nothing", "dangling.img", 0, KUMQUATSIEVE_FILE, ENOENT},
    {"a link to itself", "./loop.img", 0, KUMQUATSIEVE_FILE, ELOOP},
    {"a socket", "socket", 0, KUMQUATSIEVE_FILE, ENXIO},
    {"a long name", long_name, 0, KUMQUATSIEVE_FILE, ENAMETOOLONG},
    {"a long path", long_path, 0, KUMQUATSIEVE_FILE, ENAMETOOLONG},
    {"no byte", "empty.img", 0, KUMQUATSIEVE_TRUNCATED, 0},
    {"no whole header", "103.img", 0, KUMQUATSIEVE_TRUNCATED, 0},
    {"a header alone", "header.img", 0, KUMQUATSIEVE_TRUNCATED, 0},
    {"a byte less", "shorter.img", 0, KUMQUATSIEVE_TRUNCATED, 0},
    {"a byte less, copied", "shorter.img", COPY, KUMQUATSIEVE_TRUNCATED, 0},
    {"a byte more", "longer.img", 0, KUMQUATSIEVE_BAD_SECTION, 9},
    {"a byte more, copied", "longer.img", COPY, KUMQUATSIEVE_BAD_SECTION, 9},
    {"another magic", "magic.img", 0, KUMQUATSIEVE_BAD_MAGIC, 0},
    {"another layout", "layout.img", 0, KUMQUATSIEVE_BAD_LAYOUT, 9},
    {"lengths without end", "overflow.img", 0, KUMQUATSIEVE_TRUNCATED, 0},
    {"no right id", "right_ids.img", 0, KUMQUATSIEVE_BAD_SECTION, 0},
    {"no right id, copied", "right_ids.img", COPY, KUMQUATSIEVE_BAD_SECTION, 0},
    {"a terabyte of another magic", "sparse_magic.img", 0, KUMQUATSIEVE_BAD_MAGIC, 0},
    {"a terabyte", "sparse.img", 0, KUMQUATSIEVE_BAD_SECTION, 9},
    {"another digest, tested", "digest.img", WHOLE, KUMQUATSIEVE_DIGEST, 0},
    {"another digest, tested although skipped", "digest.img", WHOLE | KUMQUATSIEVE_SKIP_DIGEST,
     KUMQUATSIEVE_DIGEST, 0},
    {"another digest, tested and copied", "digest.img", WHOLE | COPY, KUMQUATSIEVE_DIGEST, 0},
    {"a user's", "user.img", 0, KUMQUATSIEVE_NOT_SYSTEM, 0},
    {"a user's, copied", "user.img", COPY, KUMQUATSIEVE_NOT_SYSTEM, 0},
    {"an empty device", "/dev/null", 0, KUMQUATSIEVE_TRUNCATED, 0},
    {"a device without end", "/dev/zero", 0, KUMQUATSIEVE_BAD_MAGIC, 0},
    {"a byte less, trusted", "shorter.img", KUMQUATSIEVE_TRUSTED, KUMQUATSIEVE_TRUNCATED, 0},
    {"another layout, trusted", "layout.img", KUMQUATSIEVE_TRUSTED, KUMQUATSIEVE_BAD_LAYOUT, 9},
    {"a user's, trusted", "user.img", KUMQUATSIEVE_TRUSTED, KUMQUATSIEVE_NOT_SYSTEM, 0},
    {"a file that shows no length", "/proc/version", 0, KUMQUATSIEVE_BAD_MAGIC, 0},
};

static const rejected_row AS_USER[] = {
    {"no file", "none.img", 0, KUMQUATSIEVE_FILE, ENOENT},
    {"an unknown bit", "user.img", 16, KUMQUATSIEVE_BAD_ARGUMENT, 0},
    {"a folder", "./folder.img", 0, KUMQUATSIEVE_FILE, EISDIR},
    {"another layout", "layout.img", 0, KUMQUATSIEVE_BAD_LAYOUT, 9},
    {"a system's", "whole.img", 0, KUMQUATSIEVE_NOT_USER, 0},
    {"a system's, copied", "whole.img", COPY, KUMQUATSIEVE_NOT_USER, 0},
    {"another digest, tested", "digest.img", WHOLE, KUMQUATSIEVE_DIGEST, 0},
};

/* After an error nothing is open or mapped. */
static void check_rejected(const rejected_row *row, const char *path, const char *user,
                           size_t number) {
    kumquatsieve_dictionary *dictionary = NULL;
    kumquatsieve_error error;
    size_t files = open_files(), maps = mappings_of(NULL), image = user ? 1 : 0;
    CHECK_CASE(row->what, kumquatsieve_dictionary_open(&dictionary, path, &user, image, row->flags,
                                                       &error) == row->code);
    CHECK_CASE(row->what, !dictionary && error.code == row->code && error.number == row->number);
    CHECK_CASE(row->what, error.image == number);
    CHECK_CASE(row->what, open_files() == files && mappings_of(NULL) == maps);
    CHECK_CASE(row->what, kumquatsieve_dictionary_open(NULL, path, &user, image, row->flags,
                                                       NULL) == row->code);
}

static void rejected_systems(void) {
    for (size_t i = 0; i < COUNT_OF(AS_SYSTEM); i++)
        check_rejected(&AS_SYSTEM[i], AS_SYSTEM[i].path, NULL, 0);
}

static void rejected_users(void) {
    for (size_t i = 0; i < COUNT_OF(AS_USER); i++)
        check_rejected(&AS_USER[i], "whole.img", AS_USER[i].path,
                       AS_USER[i].code == KUMQUATSIEVE_BAD_ARGUMENT ? 0 : 1);
}

/* Images that would be rejected, and flags by which they are accepted. */
static void accepted(void) {
    static const struct {
        const char *path;
        uint32_t flags;
    } ROWS[] = {
        {"digest.img", 0},
        {"digest.img", KUMQUATSIEVE_SKIP_DIGEST},
        {"digest.img", COPY},
        {"digest.img", KUMQUATSIEVE_TRUSTED},
        {"whole.img", KUMQUATSIEVE_TRUSTED | COPY},
        {"whole.img", WHOLE | COPY},
    };
    for (size_t i = 0; i < COUNT_OF(ROWS); i++) {
        kumquatsieve_segmenter segmenter = KUMQUATSIEVE_EMPTY;
        CHECK_CASE(ROWS[i].path, open_paths(&segmenter, ROWS[i].path, NULL, ROWS[i].flags, NULL) ==
                                     KUMQUATSIEVE_OK);
        CHECK_CASE(ROWS[i].path, segments_to(&segmenter, LINE, PRINTED));
        kumquatsieve_segmenter_close(&segmenter);
    }
}

/* A file that the user may not read. Root may read all files. */
static void unreadable(void) {
    kumquatsieve_error error;
    bool is_root = geteuid() == 0;
    CHECK(chmod("whole.img", 0) == 0 && (!is_root || seteuid(65534) == 0));
    CHECK(kumquatsieve_dictionary_open(NULL, "whole.img", NULL, 0, 0, &error) ==
              KUMQUATSIEVE_FILE &&
          error.number == EACCES);
    CHECK((!is_root || seteuid(0) == 0) && chmod("whole.img", 0600) == 0);
}

/* Writes bytes to a pipe from a child: to the named pipe if `to` is -1. The reader may close it
   before the end. */
static pid_t write_from_child(int to, const uint8_t *bytes, size_t length) {
    pid_t child = fork();
    CHECK(child >= 0);
    if (child > 0) return child;
    close(STDIN_FILENO);
    signal(SIGPIPE, SIG_DFL);
    if (to < 0) to = open("pipe", O_WRONLY);
    for (size_t at = 0; at < length;) {
        ssize_t written = write(to, bytes + at, length - at);
        if (written <= 0) _exit(1);
        at += (size_t)written;
    }
    _exit(0);
}

/* Starts a child that writes bytes to standard input or to a named pipe. Returns the path to read
   from. */
static const char *start_writing(bool is_named, const uint8_t *bytes, size_t length, pid_t *child) {
    int ends[2];
    if (!is_named) {
        CHECK(pipe(ends) == 0 && dup2(ends[0], STDIN_FILENO) == STDIN_FILENO &&
              close(ends[0]) == 0);
    }
    *child = write_from_child(is_named ? -1 : ends[1], bytes, length);
    CHECK(is_named || close(ends[1]) == 0);
    return is_named ? "pipe" : "/dev/stdin";
}

/* Bytes that come through a pipe. The image has `more` bytes after it, or another byte at `at`. */
static void piped(const char *what, size_t more, size_t at, uint32_t code, uint64_t wanted) {
    uint8_t *bytes = calloc(1, sys.length + more);
    CHECK_CASE(what, bytes);
    memcpy(bytes, sys.bytes, sys.length);
    bytes[at] ^= (uint8_t)(code != KUMQUATSIEVE_OK && more == 0);
    for (int is_named = 0; is_named < 2; is_named++) {
        kumquatsieve_segmenter segmenter = KUMQUATSIEVE_EMPTY;
        kumquatsieve_error error;
        pid_t child;
        int status = 0;
        const char *path = start_writing(is_named, bytes, sys.length + more, &child);
        CHECK_CASE(what,
                   open_paths(&segmenter, path, NULL, 0, &error) == code && error.number == wanted);
        CHECK(freopen("/dev/null", "r", stdin));
        CHECK_CASE(what, segmenter.held == (code == KUMQUATSIEVE_OK));
        if (segmenter.held) CHECK_CASE(what, segments_to(&segmenter, LINE, PRINTED));
        kumquatsieve_segmenter_close(&segmenter);
        CHECK_CASE(what, waitpid(child, &status, 0) == child);
    }
    free(bytes);
}

/* A file on standard input is mapped. */
static void standard_input(void) {
    kumquatsieve_segmenter segmenter = KUMQUATSIEVE_EMPTY;
    CHECK(freopen("whole.img", "r", stdin));
    CHECK(open_paths(&segmenter, "/dev/stdin", NULL, 0, NULL) == KUMQUATSIEVE_OK &&
          mappings_of("whole.img") == 1);
    CHECK(segments_to(&segmenter, LINE, PRINTED));
    kumquatsieve_segmenter_close(&segmenter);
}

int main(int given, char **paths) {
    CHECK(given == 4);
    sys = read_file(paths[1]);
    user = read_file(paths[2]);
    CHECK(chdir(paths[3]) == 0);
    write_file("user.img", user.bytes, user.length);
    make_files();
    make_others();
    rejected_systems();
    rejected_users();
    accepted();
    unreadable();
    piped("a pipe", 0, 0, KUMQUATSIEVE_OK, 0);
    piped("a byte more", 1, 0, KUMQUATSIEVE_BAD_SECTION, 9);
    piped("a megabyte more", 1 << 20, 0, KUMQUATSIEVE_BAD_SECTION, 9);
    piped("another magic", 0, 0, KUMQUATSIEVE_BAD_MAGIC, 0);
    piped("another layout", 0, LAYOUT_AT + 1, KUMQUATSIEVE_BAD_LAYOUT, 0x103);
    standard_input();
    free(sys.bytes);
    free(user.bytes);
    printf("opening: %zu files are rejected by the calls that open them\n",
           COUNT_OF(AS_SYSTEM) + COUNT_OF(AS_USER));
    return 0;
}

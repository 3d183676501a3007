/* Tests files that change while they are opened, and system calls that fail: changing_files
   SYSTEM.img USER.img FOLDER [plain]. FOLDER is empty. `plain` adds what valgrind can't run: a file
   of 2^62 bytes, and a child that a truncated file stops. Linked with --wrap of mmap, syscall and
   read. */
#define _GNU_SOURCE
#include "maps.h"
#include <errno.h>
#include <fcntl.h>
#include <signal.h>
#include <sys/mman.h>
#include <sys/resource.h>
#include <sys/syscall.h>
#include <sys/wait.h>
#include <unistd.h>

enum { LENGTHS_AT = 40 };

static const char SYSTEM[] = "system.img";
static file sys;

/* What happens before the next file is mapped, which call fails, and which length fstat reports. */
static void (*before_mmap)(void);
static int mmap_error, fstat_error, read_error;
static off_t reported_length;

void *__real_mmap(void *at, size_t length, int protection, int flags, int fd, off_t offset);
long __real_syscall(long call, long first, struct stat *of);
ssize_t __real_read(int fd, void *to, size_t count);

void *__wrap_mmap(void *at, size_t length, int protection, int flags, int fd, off_t offset) {
    bool is_of_file = fd >= 0;
    if (is_of_file && before_mmap) before_mmap();
    if (!is_of_file || mmap_error == 0)
        return __real_mmap(at, length, protection, flags, fd, offset);
    errno = mmap_error;
    return MAP_FAILED;
}

/* The library calls only fstat and stat by their numbers, with a descriptor or a path. */
long __wrap_syscall(long call, long first, struct stat *of) {
    CHECK(call == SYS_fstat || call == SYS_stat);
    if (call == SYS_stat) return __real_syscall(call, first, of);
    if (fstat_error != 0) {
        errno = fstat_error;
        return -1;
    }
    long done = __real_syscall(call, first, of);
    if (done == 0 && reported_length != 0) of->st_size = reported_length;
    return done;
}

ssize_t __wrap_read(int fd, void *to, size_t count) {
    if (read_error == 0) return __real_read(fd, to, count);
    errno = read_error;
    return -1;
}

static void grow(void) { CHECK(truncate(SYSTEM, (off_t)sys.length + 1) == 0); }

static void shrink(void) { CHECK(truncate(SYSTEM, (off_t)sys.length - 1) == 0); }

static void empty(void) { CHECK(truncate(SYSTEM, 0) == 0); }

static void touch(void) {
    const struct timespec times[] = {{1, 0}, {1, 0}};
    CHECK(utimensat(AT_FDCWD, SYSTEM, times, 0) == 0);
}

static void fail_fstat(void) { fstat_error = EIO; }

/* What happens or fails, and the code and the number. An accepted file is read and not mapped. */
typedef struct row {
    const char *what;
    void (*happens)(void);
    int mmap_error, fstat_error, read_error;
    uint32_t code;
    uint64_t number;
} row;

static const row ROWS_OF[] = {
    {"it grows", grow, 0, 0, 0, KUMQUATSIEVE_BAD_SECTION, 9},
    {"it gets shorter", shrink, 0, 0, 0, KUMQUATSIEVE_TRUNCATED, 0},
    {"it is emptied", empty, 0, 0, 0, KUMQUATSIEVE_TRUNCATED, 0},
    {"its time changes", touch, 0, 0, 0, KUMQUATSIEVE_OK, 0},
    {"its state is unknown then", fail_fstat, 0, 0, 0, KUMQUATSIEVE_OK, 0},
    {"its file system maps nothing", NULL, ENODEV, 0, 0, KUMQUATSIEVE_OK, 0},
    {"no memory to map it", NULL, ENOMEM, 0, 0, KUMQUATSIEVE_MEMORY, 0},
    {"it must not be mapped", NULL, EPERM, 0, 0, KUMQUATSIEVE_FILE, EPERM},
    {"its state is unknown", NULL, 0, EIO, 0, KUMQUATSIEVE_FILE, EIO},
    {"it can't be read", NULL, 0, 0, EIO, KUMQUATSIEVE_FILE, EIO},
    {"a signal comes", NULL, 0, 0, EINTR, KUMQUATSIEVE_FILE, EINTR},
    {"no memory to read it", NULL, 0, 0, ENOMEM, KUMQUATSIEVE_MEMORY, 0},
};

static void check_row(const row *of) {
    kumquatsieve_segmenter segmenter = KUMQUATSIEVE_EMPTY;
    kumquatsieve_error error;
    write_file(SYSTEM, sys.bytes, sys.length);
    size_t maps = mappings_of(NULL), files = open_files();
    before_mmap = of->happens;
    mmap_error = of->mmap_error;
    fstat_error = of->fstat_error;
    read_error = of->read_error;
    uint32_t code = open_paths(&segmenter, SYSTEM, NULL, 0, &error);
    before_mmap = NULL;
    mmap_error = fstat_error = read_error = 0;
    CHECK_CASE(of->what, code == of->code && error.code == code && error.number == of->number);
    CHECK_CASE(of->what, segmenter.held == (code == KUMQUATSIEVE_OK));
    CHECK_CASE(of->what, mappings_of(NULL) == maps && open_files() == files);
    CHECK_CASE(of->what, !segmenter.held || segments_to(&segmenter, LINE, PRINTED));
    kumquatsieve_segmenter_close(&segmenter);
}

/* A file of 2^62 bytes, by its header and by its file system. */
static void too_large(void) {
    const uint64_t section = (uint64_t)1 << 62, length = section + sys.length;
    kumquatsieve_segmenter segmenter = KUMQUATSIEVE_EMPTY;
    file image = {malloc(sys.length), sys.length, NULL};
    CHECK(image.bytes);
    memcpy(image.bytes, sys.bytes, sys.length);
    image.bytes[LENGTHS_AT + 7] |= 0x40;
    write_file(SYSTEM, image.bytes, image.length);
    reported_length = (off_t)length;
    CHECK(open_paths(&segmenter, SYSTEM, NULL, 0, NULL) == KUMQUATSIEVE_MEMORY && !segmenter.held);
    CHECK(open_paths(&segmenter, SYSTEM, NULL, KUMQUATSIEVE_COPY, NULL) == KUMQUATSIEVE_MEMORY &&
          !segmenter.held);
    reported_length = 0;
    free(image.bytes);
}

/* With one descriptor left, a file is opened without its directory. With none, it is not opened. */
static void few_descriptors(void) {
    kumquatsieve_segmenter segmenter = KUMQUATSIEVE_EMPTY;
    struct rlimit most;
    kumquatsieve_error error;
    write_file(SYSTEM, sys.bytes, sys.length);
    CHECK(getrlimit(RLIMIT_NOFILE, &most) == 0);
    struct rlimit few = most;
    int next = dup(STDOUT_FILENO);
    CHECK(next > 0 && close(next) == 0);
    few.rlim_cur = (rlim_t)next + 1;
    CHECK(setrlimit(RLIMIT_NOFILE, &few) == 0);
    CHECK(open_paths(&segmenter, SYSTEM, NULL, 0, NULL) == KUMQUATSIEVE_OK &&
          mappings_of(SYSTEM) == 1);
    kumquatsieve_segmenter_close(&segmenter);
    few.rlim_cur = (rlim_t)next;
    CHECK(setrlimit(RLIMIT_NOFILE, &few) == 0);
    CHECK(open_paths(&segmenter, SYSTEM, NULL, 0, &error) == KUMQUATSIEVE_FILE &&
          error.number == EMFILE && !segmenter.held);
    CHECK(setrlimit(RLIMIT_NOFILE, &most) == 0);
}

/* If a mapped file is truncated, a read after its end stops the process, as the header states. */
static void stopped(void) {
    int status = 0;
    pid_t child = fork();
    CHECK(child >= 0);
    if (child == 0) {
        kumquatsieve_segmenter segmenter = KUMQUATSIEVE_EMPTY;
        const struct rlimit none = {0, 0};
        CHECK(setrlimit(RLIMIT_CORE, &none) == 0);
        CHECK(open_paths(&segmenter, SYSTEM, NULL, 0, NULL) == KUMQUATSIEVE_OK &&
              truncate(SYSTEM, 0) == 0);
        segment_line(&segmenter, LINE);
        _exit(0);
    }
    CHECK(waitpid(child, &status, 0) == child && WIFSIGNALED(status) && WTERMSIG(status) == SIGBUS);
}

int main(int given, char **paths) {
    CHECK(given == 4 || given == 5);
    sys = read_file(paths[1]);
    CHECK(chdir(paths[3]) == 0);
    for (size_t i = 0; i < COUNT_OF(ROWS_OF); i++) check_row(&ROWS_OF[i]);
    few_descriptors();
    if (given == 5) {
        stopped();
        too_large();
    }
    free(sys.bytes);
    printf("changing: %zu changes and failures while a file is opened\n", COUNT_OF(ROWS_OF));
    return 0;
}

/* Makes one call of the C library fail. Preloaded (LD_PRELOAD) by tests/cli and tests/pjseg.

   The variable FAIL names the call:

       rename, fsync, fchmod   every call fails
       write                   every write to a regular file fails, as on a full device
       interrupted write       the first write to a regular file is interrupted by a signal
       read                    reads of standard input fail
       pthread_create          no thread is created
       slow read               nothing fails: the second read of a regular file takes over two
                               seconds

   FAIL_AFTER=N lets the first N calls of read or pthread_create succeed; the default is 0. */
#define _GNU_SOURCE
#include <dlfcn.h>
#include <errno.h>
#include <fcntl.h>
#include <pthread.h>
#include <stdatomic.h>
#include <stdlib.h>
#include <string.h>
#include <sys/stat.h>
#include <sys/syscall.h>
#include <time.h>
#include <unistd.h>

/* Returns whether FAIL is `name`, and sets errno to `error` if so. */
static int fails(const char *name, int error) {
    const char *failing = getenv("FAIL");
    if (!failing || strcmp(failing, name) != 0) return 0;
    errno = error;
    return 1;
}

/* Like `fails`, but not for the first FAIL_AFTER calls. */
static int fails_by_now(const char *name, int error) {
    static atomic_long calls;
    const char *after = getenv("FAIL_AFTER");
    return fails(name, error) && atomic_fetch_add(&calls, 1) >= (after ? atol(after) : 0);
}

int rename(const char *from, const char *to) {
    return fails("rename", EACCES) ? -1
                                   : (int)syscall(SYS_renameat2, AT_FDCWD, from, AT_FDCWD, to, 0);
}

int fsync(int file) { return fails("fsync", EIO) ? -1 : (int)syscall(SYS_fsync, file); }

int fchmod(int file, mode_t mode) {
    return fails("fchmod", EPERM) ? -1 : (int)syscall(SYS_fchmod, file, mode);
}

static int is_regular(int file) {
    struct stat status;
    return fstat(file, &status) == 0 && S_ISREG(status.st_mode);
}

/* Returns whether this write is the one that a signal interrupts. */
static int is_interrupted(void) {
    static atomic_int interrupted;
    return fails("interrupted write", EINTR) && atomic_exchange(&interrupted, 1) == 0;
}

ssize_t write(int file, const void *bytes, size_t count) {
    return is_regular(file) && (fails("write", ENOSPC) || is_interrupted())
               ? -1
               : syscall(SYS_write, file, bytes, count);
}

/* Sleeps before the second read of a regular file if FAIL is `slow read`. */
static void delay(int file) {
    static atomic_int reads;
    static const struct timespec pause = {.tv_sec = 2, .tv_nsec = 200000000};
    if (fails("slow read", 0) && is_regular(file) && atomic_fetch_add(&reads, 1) == 1)
        nanosleep(&pause, NULL);
}

ssize_t read(int file, void *bytes, size_t count) {
    delay(file);
    return file == STDIN_FILENO && fails_by_now("read", EIO)
               ? -1
               : syscall(SYS_read, file, bytes, count);
}

int pthread_create(pthread_t *thread, const pthread_attr_t *attributes, void *(*start)(void *),
                   void *argument) {
    int (*create)(pthread_t *, const pthread_attr_t *, void *(*)(void *), void *);
    /* ISO C has no conversion of dlsym's result to a pointer to a function; POSIX asks for this
       assignment. */
    *(void **)&create = dlsym(RTLD_NEXT, "pthread_create");
    if (!create || fails_by_now("pthread_create", EAGAIN)) return EAGAIN;
    return create(thread, attributes, start, argument);
}

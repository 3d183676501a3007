/* The state of files. */
#include "library.h"
#include <sys/syscall.h>
#include <unistd.h>

/* On x86-64 glibc's struct stat has the layout of the kernel's. */
int state_of(int file, struct stat *of) {
#ifdef __x86_64__
    return (int)syscall(SYS_fstat, file, of);
#else
    return fstat(file, of);
#endif
}

int state_at(const char *path, struct stat *of) {
#ifdef __x86_64__
    return (int)syscall(SYS_stat, path, of);
#else
    return stat(path, of);
#endif
}

static bool are_same_times(struct timespec one, struct timespec other) {
    return one.tv_sec == other.tv_sec && one.tv_nsec == other.tv_nsec;
}

bool are_same_file(const struct stat *one, const struct stat *other) {
    return one->st_dev == other->st_dev && one->st_ino == other->st_ino &&
           one->st_size == other->st_size && are_same_times(one->st_mtim, other->st_mtim) &&
           are_same_times(one->st_ctim, other->st_ctim);
}

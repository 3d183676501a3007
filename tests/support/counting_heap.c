/* A heap that counts allocations and can make one of them fail. Preloaded (LD_PRELOAD) through
   `heap.py`.

       FAIL_ALLOCATION=N   the Nth allocation of the run fails, and no other; without it none does
       HEAP_REPORT=FILE    the file that gets the counts when the program ends; without it they are
                           printed on standard error

   An allocation is a call that asks for memory: for a new block, or for another size of an old one.
   The counts are one line, `allocations 7 failed 1 blocks 5 freed 5`: `blocks` were handed out,
   `freed` were given back. The functions call glibc's own names of its heap, so that no symbol is
   looked up while a program starts. */
#define _GNU_SOURCE
#include <errno.h>
#include <fcntl.h>
#include <stdatomic.h>
#include <stddef.h>
#include <stdio.h>
#include <stdlib.h>
#include <sys/syscall.h>
#include <unistd.h>

extern void *__libc_malloc(size_t size);
extern void *__libc_calloc(size_t count, size_t size);
extern void *__libc_realloc(void *block, size_t size);
extern void *__libc_memalign(size_t alignment, size_t size);
extern void __libc_free(void *block);

static atomic_long allocations, failed, blocks, freed;

/* Returns the number of the allocation that fails, counted from 1; 0 if none does. */
static long failing_allocation(void) {
    const char *number = getenv("FAIL_ALLOCATION");
    return number ? atol(number) : 0;
}

/* Counts an allocation, and returns whether it fails. */
static int fails(void) {
    if (atomic_fetch_add(&allocations, 1) + 1 != failing_allocation()) return 0;
    atomic_fetch_add(&failed, 1);
    errno = ENOMEM;
    return 1;
}

/* Counts `block`, unless it is NULL, and returns it. */
static void *counted(void *block) {
    if (block) atomic_fetch_add(&blocks, 1);
    return block;
}

void *malloc(size_t size) { return fails() ? NULL : counted(__libc_malloc(size)); }

void *calloc(size_t count, size_t size) {
    return fails() ? NULL : counted(__libc_calloc(count, size));
}

/* Size 0 frees an old block, which is no allocation. */
void *realloc(void *block, size_t size) {
    if (!block) return malloc(size);
    if (size == 0) {
        free(block);
        return NULL;
    }
    return fails() ? NULL : __libc_realloc(block, size);
}

void *reallocarray(void *block, size_t count, size_t size) {
    size_t bytes;
    if (__builtin_mul_overflow(count, size, &bytes)) {
        errno = ENOMEM;
        return NULL;
    }
    return realloc(block, bytes);
}

void *memalign(size_t alignment, size_t size) {
    return fails() ? NULL : counted(__libc_memalign(alignment, size));
}

void *aligned_alloc(size_t alignment, size_t size) { return memalign(alignment, size); }

int posix_memalign(void **block, size_t alignment, size_t size) {
    int before = errno;
    void *new_block = memalign(alignment, size);
    errno = before;
    if (!new_block) return ENOMEM;
    *block = new_block;
    return 0;
}

void free(void *block) {
    if (block) atomic_fetch_add(&freed, 1);
    __libc_free(block);
}

/* Writes the counts without an allocation of its own. */
static void report(void) {
    const char *path = getenv("HEAP_REPORT");
    int file = path ? open(path, O_WRONLY | O_CREAT | O_TRUNC | O_CLOEXEC, 0666) : STDERR_FILENO;
    char line[128];
    int length = snprintf(line, sizeof line, "allocations %ld failed %ld blocks %ld freed %ld\n",
                          atomic_load(&allocations), atomic_load(&failed), atomic_load(&blocks),
                          atomic_load(&freed));
    if (file < 0 || write(file, line, (size_t)length) != length) syscall(SYS_exit_group, 125);
}

__attribute__((destructor)) static void at_exit(void) { report(); }

/* A program that ends by `_exit` runs no destructor. */
void _exit(int status) {
    report();
    for (;;) syscall(SYS_exit_group, status);
}

/* A heap whose large blocks repeat: the bytes of such a block appear in it again and again.
   Preloaded (LD_PRELOAD) by tests/cli.

   A large block of any size takes PERIOD bytes of memory. So a program can be run on input that
   would need more memory than the machine has, if its large blocks hold one thing over and over, as
   the entries of a lexicon of equal lines do, and the size of that thing divides PERIOD. The
   functions call glibc's own names of its heap. */
#define _GNU_SOURCE
#include <malloc.h>
#include <stddef.h>
#include <stdlib.h>
#include <string.h>
#include <sys/mman.h>
#include <unistd.h>

extern void *__libc_malloc(size_t size);
extern void *__libc_calloc(size_t count, size_t size);
extern void *__libc_realloc(void *block, size_t size);
extern void __libc_free(void *block);

/* In bytes: blocks of at least this size repeat, after as many bytes. The size of a page, all sizes
   up to 10 words and all sizes up to 10 bytes divide it. */
#define PERIOD ((size_t)4096 * 2520 * 7)
/* The number of large blocks that a program may have at once. */
#define MAX_BLOCKS 16

static struct block {
    char *start;
    size_t size;
    int file;
} blocks[MAX_BLOCKS];

/* Returns the large block at `start`, or NULL if there is none. */
static struct block *find(const void *start) {
    for (int i = 0; start && i < MAX_BLOCKS; i++)
        if (blocks[i].start == start) return &blocks[i];
    return NULL;
}

/* Maps `file` into `size` bytes of address space, again and again. */
static char *map_repeatedly(int file, size_t size) {
    char *start = mmap(NULL, size, PROT_NONE, MAP_PRIVATE | MAP_ANONYMOUS | MAP_NORESERVE, -1, 0);
    for (size_t at = 0; start != MAP_FAILED && at < size; at += PERIOD) {
        size_t length = size - at < PERIOD ? size - at : PERIOD;
        if (mmap(start + at, length, PROT_READ | PROT_WRITE, MAP_SHARED | MAP_FIXED, file, 0) ==
            MAP_FAILED)
            abort();
    }
    return start == MAP_FAILED ? NULL : start;
}

static void *allocate_large(size_t size) {
    for (int i = 0; i < MAX_BLOCKS; i++) {
        if (blocks[i].start) continue;
        int file = memfd_create("repeated", MFD_CLOEXEC);
        if (file < 0 || ftruncate(file, PERIOD) != 0) abort();
        blocks[i] = (struct block){map_repeatedly(file, size), size, file};
        return blocks[i].start;
    }
    abort();
}

static void free_large(struct block *block) {
    munmap(block->start, block->size);
    close(block->file);
    block->start = NULL;
}

void *malloc(size_t size) { return size < PERIOD ? __libc_malloc(size) : allocate_large(size); }

void *calloc(size_t count, size_t size) {
    return size && count >= PERIOD / size ? allocate_large(count * size)
                                          : __libc_calloc(count, size);
}

void free(void *start) {
    struct block *block = find(start);
    if (block)
        free_large(block);
    else
        __libc_free(start);
}

/* Changes the size of a large block. Its bytes are in its file, so nothing is copied. */
static void *resize_large(struct block *block, size_t size) {
    char *start = map_repeatedly(block->file, size);
    munmap(block->start, block->size);
    block->start = start;
    block->size = size;
    return start;
}

/* Moves a small block, which is shorter than the new one, to a large one. */
static void *move_to_large(void *small, size_t size) {
    char *start = allocate_large(size);
    if (small) memcpy(start, small, malloc_usable_size(small));
    __libc_free(small);
    return start;
}

void *realloc(void *start, size_t size) {
    struct block *block = find(start);
    if (block) return resize_large(block, size);
    return size < PERIOD ? __libc_realloc(start, size) : move_to_large(start, size);
}

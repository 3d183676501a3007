/* malloc and realloc with huge pages for large blocks. An image is read at random positions, and
   with small pages most of these reads wait for the translation of an address. packaging/build-heap
   makes the heap of dictc and jseg, which read images into memory, call these two functions in
   place of malloc and realloc. free works
   for their blocks. Nothing is stored about a block, so there is nothing to lock, and a fork is
   safe. */
#include <errno.h>
#include <stdbool.h>
#include <stddef.h>
#include <stdint.h>
#include <stdlib.h>
#include <string.h>
#include <sys/mman.h>
#include <unistd.h>

void *large_malloc(size_t size);
void *large_realloc(void *block, size_t size);

/* In bytes. glibc maps a block of LARGE bytes or more separately, unless its heap has so much room
   already. Such a mapping starts HEADER before the block. */
static const size_t LARGE = (size_t)32 << 20;
enum { HEADER = 16 };

/* glibc stores the size of a block in the word before it, with flags in the lowest three bits. Only
   MAPPED is set if the block is mapped separately. */
enum { FLAGS = 7, MAPPED = 2 };

/* Returns whether glibc has mapped a block separately. In other memory the request for huge pages
   would outlive the block. If the block starts HEADER after the start of a page, the word before it
   is in that page, so it can be read even if malloc is not glibc's. */
static bool is_mapped_alone(const void *block) {
    size_t before;
    if ((uintptr_t)block % (size_t)sysconf(_SC_PAGESIZE) != HEADER) return false;
    memcpy(&before, (const char *)block - sizeof before, sizeof before);
    return (before & FLAGS) == MAPPED;
}

/* Asks for huge pages for the whole mapping of a large block, before its bytes are touched. For a
   part of it the kernel would split the mapping, and could not move it when the block grows. If the
   request fails, the block has small pages and is slower. Returns the block. */
static void *with_huge_pages(void *block, size_t size) {
    if (!block || size < LARGE || !is_mapped_alone(block)) return block;
    int before = errno;
    madvise((char *)block - HEADER, size + HEADER, MADV_HUGEPAGE);
    errno = before;
    return block;
}

void *large_malloc(size_t size) { return with_huge_pages(malloc(size), size); }

void *large_realloc(void *block, size_t size) {
    return with_huge_pages(realloc(block, size), size);
}

/* The memory of images: files that are mapped, and anonymous mappings for bytes that are read or
   copied. docs/C_API.md has the rules for mapped files. */
#include "library.h"
#include <errno.h>
#include <pthread.h>
#include <stdlib.h>
#include <string.h>
#include <sys/mman.h>

/* Huge pages are requested for as many bytes or more: an image is read at random
   positions, and with small pages most of these reads wait for the translation of an address. */
static const size_t LARGE = (size_t)32 << 20;

enum { ROOM_LEAST = 65536 };

static pthread_mutex_t shared = PTHREAD_MUTEX_INITIALIZER;

void lock_shared(void) { pthread_mutex_lock(&shared); }

void unlock_shared(void) { pthread_mutex_unlock(&shared); }

/* Holds the lock during a fork. Otherwise a child, which has only the forking thread, could start
   with a lock that another thread held. A fork locks in the reverse order of registration. So this
   lock is registered before those of other libraries, such as libmecab, which may be held while it
   is taken. Constructors with priorities below 101 are reserved. */
__attribute__((constructor(101))) static void keep_over_forks(void) {
    pthread_atfork(lock_shared, unlock_shared, unlock_shared);
}

/* A mapped file in the state `of`, which images of several dictionaries share. */
typedef struct mapping {
    struct mapping *next;
    size_t holders;
    struct stat of;
    void *at;
    size_t length;
} mapping;

static mapping *mapped;

/* Maps a file, and lists it without a holder. Returns 0 or an errno. The caller holds the lock. */
static int add_mapping(int file, const struct stat *of) {
    mapping *made = malloc(sizeof *made);
    if (!made) return ENOMEM;
    *made = (mapping){.next = mapped, .of = *of, .length = (size_t)of->st_size};
    made->at = mmap(NULL, made->length, PROT_READ, MAP_SHARED, file, 0);
    if (made->at == MAP_FAILED) {
        int why = errno;
        free(made);
        return why;
    }
    mapped = made;
    return 0;
}

/* Returns the mapping of a file in this state, or NULL. The caller holds the lock. */
static mapping *find_mapping(const struct stat *of) {
    mapping *found = mapped;
    while (found && !are_same_file(&found->of, of)) found = found->next;
    return found;
}

/* Gives up a holder of a mapping, and unmaps a file that has no holder left. */
static void release_mapping(mapping *of) {
    lock_shared();
    bool is_last = --of->holders == 0;
    mapping **at = &mapped;
    while (is_last && *at != of) at = &(*at)->next;
    if (is_last) *at = of->next;
    unlock_shared();
    if (!is_last) return;
    munmap(of->at, of->length);
    free(of);
}

int map_file(int file, image *to) {
    struct stat now;
    if ((uint64_t)to->of.st_size > PTRDIFF_MAX) return ENOMEM;
    lock_shared();
    int why = find_mapping(&to->of) ? 0 : add_mapping(file, &to->of);
    mapping *found = why == 0 ? find_mapping(&to->of) : NULL;
    if (found) found->holders++;
    unlock_shared();
    if (!found) return why;
    /* A file that has changed may be shorter now, and bytes after its end can't be read. */
    if (state_of(file, &now) != 0 || !are_same_file(&now, &to->of)) {
        release_mapping(found);
        return ENODEV;
    }
    to->file = found;
    to->bytes = found->at;
    to->length = to->room = found->length;
    return 0;
}

/* If the request for huge pages fails, the memory has small pages and is slower. */
static int grow(image *to, size_t room) {
    void *at = to->bytes
                   ? mremap(to->bytes, to->room, room, MREMAP_MAYMOVE)
                   : mmap(NULL, room, PROT_READ | PROT_WRITE, MAP_PRIVATE | MAP_ANONYMOUS, -1, 0);
    if (at == MAP_FAILED) return ENOMEM;
    to->bytes = at;
    to->room = room;
    if (room >= LARGE) madvise(at, room, MADV_HUGEPAGE);
    return 0;
}

int make_room(image *to, size_t length) {
    if (length > PTRDIFF_MAX) return ENOMEM;
    if (to->bytes && length <= to->room) return 0;
    return grow(to, length > ROOM_LEAST ? length : ROOM_LEAST);
}

int append_bytes(image *to, const void *bytes, size_t length) {
    if (length > PTRDIFF_MAX - to->length) return ENOMEM;
    size_t needed = to->length + length, doubled = to->room > PTRDIFF_MAX / 2 ? 0 : 2 * to->room;
    bool is_full = !to->bytes || needed > to->room;
    int error = is_full ? make_room(to, needed > doubled ? needed : doubled) : 0;
    if (error != 0) return error;
    if (length > 0) memcpy(to->bytes + to->length, bytes, length);
    to->length = needed;
    return 0;
}

void unmap(image *of) {
    if (of->file)
        release_mapping(of->file);
    else if (of->bytes)
        munmap(of->bytes, of->room);
    of->file = NULL;
    of->bytes = NULL;
    of->length = of->room = 0;
}

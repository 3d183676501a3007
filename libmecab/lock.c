/* The locks of the data that models and lattices share. */
#include "layer.h"
#include <pthread.h>

static pthread_mutex_t loads = PTHREAD_MUTEX_INITIALIZER;
static pthread_mutex_t shared = PTHREAD_MUTEX_INITIALIZER;

/* Whether the thread that holds `loads` could be cancelled before. Files are opened and read under
   that lock, and a thread that was cancelled meanwhile would never unlock it. So a thread that
   holds it can't be cancelled. */
static int cancellation;

void lock_loads(void) {
    int before = PTHREAD_CANCEL_ENABLE;
    pthread_setcancelstate(PTHREAD_CANCEL_DISABLE, &before);
    pthread_mutex_lock(&loads);
    cancellation = before;
}

void unlock_loads(void) {
    int before = cancellation, disabled = PTHREAD_CANCEL_DISABLE;
    pthread_mutex_unlock(&loads);
    pthread_setcancelstate(before, &disabled);
}

void lock_shared(void) { pthread_mutex_lock(&shared); }

void unlock_shared(void) { pthread_mutex_unlock(&shared); }

static void lock_all(void) {
    lock_loads();
    lock_shared();
}

static void unlock_all(void) {
    unlock_shared();
    unlock_loads();
}

/* Holds the locks during a fork. Otherwise a child, which has only the forking thread, could start
   with a lock that another thread held. A fork locks these before the lock of capi/src, which is
   registered earlier: images are released under `loads`, and that takes the other lock. */
__attribute__((constructor)) static void keep_over_forks(void) {
    pthread_atfork(lock_all, unlock_all, unlock_all);
}

/* The queue of pieces. Each thread takes the next piece of the text with a free worker, and
   segments it with the worker's segmenter. If the piece is next in order, the thread writes the
   output of each group of lines at once. If not, it keeps the output up to a limit, and then waits
   until the piece is next. A piece that is complete before it is next is written by the thread that
   writes the piece before it. One thread reads at a time and one writes. No thread holds the lock
   while it reads, segments or writes. The queue has as many workers as there are threads, the main
   thread included.

   There is no deadlock: a thread only waits for pieces before its own, and the thread of the piece
   that is next in order does not wait. */
#include "pjseg.h"
#include <pthread.h>
#include <stdlib.h>
#include <unistd.h>

/* `taken` and `written` count pieces: the piece with number `written` is next in order. `least` is
   the least length of the next piece in bytes. Only the thread that reads uses `in`. Only the
   thread that writes uses `lines`, `sent` and `passed`, the written lines, bytes of output and
   bytes of text, and `warnings`. All else is under the lock. */
typedef struct queue {
    pthread_mutex_t lock;
    pthread_cond_t changed;
    worker *workers;
    size_t room, least;
    uint64_t taken, written;
    bool is_reading, is_writing, is_ended;
    input in;
    uint64_t lines, sent, passed;
    warnings warnings;
} queue;

/* Reports an error and ends the program, since another thread may be in a read that never ends. */
static _Noreturn void end_early(uint32_t code, uint64_t number) {
    fault why = {.code = code, .number = number};
    int status = print_fault(&why);
    print_explanation(&why);
    _exit(status);
}

/* Writes the waiting output of a worker. Ends the program if that fails, or the text is invalid. */
static void write_waiting(queue *of, worker *next) {
    const uint8_t *text = next->text.bytes + next->written_to;
    size_t length = next->segmented_to - next->written_to;
    uint64_t lines = next->kept_lines + next->lines;
    bool is_fault = next->code != KUMQUATSIEVE_OK;
    warn_of(&of->warnings, text, length, of->lines, is_fault ? lines - 1 : lines);
    bool is_written = write_out(next->kept, next->kept_length, &of->sent) &&
                      write_out((const uint8_t *)next->out, next->out_length, &of->sent);
    if (!is_written) end_early(FAULT_WRITE, of->sent);
    if (is_fault) end_early(next->code, of->lines + lines);
    of->lines += lines;
    of->passed += length;
    mark_written(next);
    print_progress(of->passed);
}

static void write_piece(queue *of, worker *next) {
    write_waiting(of, next);
    switch (next->text.ending) {
    case READ_FAILED: end_early(FAULT_READ, of->lines + 1);
    case LINE_TOO_LONG: end_early(KUMQUATSIEVE_TOO_LONG, of->lines + 1);
    case ENDLESS: end_early(FAULT_INPUT_TOO_LONG, of->lines + 1);
    default: break;
    }
}

static worker *worker_of(queue *of, uint64_t number) { return &of->workers[number % of->room]; }

/* Reads the next piece into its worker. Releases the lock during the read. */
static worker *read_next(queue *of) {
    worker *next = worker_of(of, of->taken);
    size_t least = of->least;
    next->number = of->taken++;
    of->is_reading = true;
    pthread_mutex_unlock(&of->lock);
    read_piece(&of->in, &next->text, least);
    start_piece(next);
    pthread_mutex_lock(&of->lock);
    of->is_reading = false;
    of->is_ended = next->text.ending != MORE;
    pthread_cond_broadcast(&of->changed);
    return next;
}

/* Waits for a free worker. Returns it with the next piece of the text, or NULL at the end. */
static worker *take(queue *of) {
    worker *next = NULL;
    pthread_mutex_lock(&of->lock);
    while (!of->is_ended && (of->is_reading || of->taken - of->written == of->room))
        pthread_cond_wait(&of->changed, &of->lock);
    if (!of->is_ended) next = read_next(of);
    pthread_mutex_unlock(&of->lock);
    return next;
}

/* Returns whether a piece is next in order. It stays next until its own thread calls `give`, so
   that thread may write without the lock. */
static bool has_turn(queue *of, const worker *own) {
    pthread_mutex_lock(&of->lock);
    bool is_next = of->written == own->number;
    pthread_mutex_unlock(&of->lock);
    return is_next;
}

static void wait_for_turn(queue *of, const worker *own) {
    pthread_mutex_lock(&of->lock);
    while (of->written != own->number) pthread_cond_wait(&of->changed, &of->lock);
    pthread_mutex_unlock(&of->lock);
}

/* Writes or keeps the output of a group, unless it is the last one of its piece. */
static void write_or_keep(queue *of, worker *own) {
    if (!has_turn(of, own)) {
        if (keep_group(own)) return;
        wait_for_turn(of, own);
    }
    write_waiting(of, own);
}

/* Marks a piece as complete, and writes the complete pieces that are next in order. */
static void give(queue *of, worker *own) {
    pthread_mutex_lock(&of->lock);
    own->is_segmented = true;
    while (!of->is_writing && of->written < of->taken && worker_of(of, of->written)->is_segmented) {
        worker *next = worker_of(of, of->written);
        of->is_writing = true;
        pthread_mutex_unlock(&of->lock);
        write_piece(of, next);
        pthread_mutex_lock(&of->lock);
        next->is_segmented = false;
        of->least = fitting_length(next);
        of->written++;
        of->is_writing = false;
        pthread_cond_broadcast(&of->changed);
    }
    pthread_mutex_unlock(&of->lock);
}

static void *run_worker(void *given) {
    queue *of = given;
    worker *own;
    while ((own = take(of))) {
        while (segment_group(own)) write_or_keep(of, own);
        give(of, own);
    }
    return NULL;
}

static bool make_workers(queue *of, const options *chosen, kumquatsieve_dictionary *dictionary) {
    of->workers = calloc(of->room, sizeof *of->workers);
    if (!of->workers || !make_input(&of->in)) return false;
    for (size_t i = 0; i < of->room; i++) {
        if (!make_worker(&of->workers[i], chosen, dictionary)) return false;
    }
    return true;
}

static void free_workers(queue *of) {
    for (size_t i = 0; of->workers && i < of->room; i++) free_worker(&of->workers[i]);
    free(of->workers);
    free_input(&of->in);
}

/* Starts up to `wanted` threads, and runs a worker on the calling thread too. If a thread can't be
   created, fewer threads run. */
static void run_workers(queue *of, pthread_t *others, uint32_t wanted) {
    uint32_t made = 0;
    while (made < wanted && pthread_create(&others[made], NULL, run_worker, of) == 0) made++;
    log_message("%u of %u threads", made + 1, wanted + 1);
    run_worker(of);
    for (uint32_t i = 0; i < made; i++) pthread_join(others[i], NULL);
}

bool segment_input(const options *chosen, kumquatsieve_dictionary *dictionary, uint64_t *lines) {
    queue own = {
        .lock = PTHREAD_MUTEX_INITIALIZER,
        .changed = PTHREAD_COND_INITIALIZER,
        .room = chosen->threads,
        .least = PIECE_MOST,
        .warnings = wanted_warnings(),
    };
    pthread_t *others = calloc(chosen->threads, sizeof *others);
    bool is_made = others && make_workers(&own, chosen, dictionary);
    start_progress();
    if (is_made) run_workers(&own, others, chosen->threads - 1);
    erase_progress();
    *lines = own.lines;
    free_workers(&own);
    free(others);
    return is_made;
}

/* library_threads KIND THREADS COUNT [LINE..]: in a tracer of four CPUs, with rings of 16 pages of 4,080 bytes, the event `tick u64 n`, enabled, and
 * whatever the lines say, so many threads emit by values, COUNT times in all, each on a CPU of its own as far as there are such. KIND says what is printed:
 *
 *   time     the nanoseconds of one emission, of all threads together, from the first one's start to the last one's end
 *   macro    the same of emissions by TRACECTL_EMIT, each of which loads its bit anew
 *   waits    those of 50, 99 and 99.99 of 100 emissions of the first thread, at most, and of the longest, the clock included
 *   memory   by how many bytes the process has grown since the first thousand emissions and reads, where the first thread makes a read of a CPU's
 *            statistics after each ten of its emissions
 *
 * bench/library_threads builds and runs it: by itself over the library for C; with -DLTTNG over LTTng-UST, which traces the same (bench/peers_event.h); with
 * -DONE_THREAD over a library whose handle is for one thread, and with -DMUTEX, too, behind a mutex. */
#include <pthread.h>
#include <stdio.h>
#include <stdlib.h>
#include <string.h>
#include <time.h>
#include <unistd.h>

#ifdef LTTNG
#define LTTNG_UST_TRACEPOINT_CREATE_PROBES
#define LTTNG_UST_TRACEPOINT_DEFINE
#include "peers_event.h"
#else
#include "tracectl.h"
#endif

enum { CPUS = 4, MOST_THREADS = 64, FIRST = 1000, EMISSIONS_A_READ = 10 };

#define TEXT(text) (text), sizeof(text) - 1

static const char *kind;
static long count_each;
static pthread_barrier_t barrier;

/* When a thread began to emit, and when it was done. */
struct span {
    uint64_t start, end;
};

static struct span spans[MOST_THREADS];
static uint64_t *waits; /* of the first thread's emissions */

static uint64_t now(void) {
    struct timespec t;
    clock_gettime(CLOCK_MONOTONIC, &t);
    return (uint64_t)t.tv_sec * 1000000000 + (uint64_t)t.tv_nsec;
}

static int is_kind(const char *name) { return !strcmp(kind, name); }

/* What a thread emits by, and reads: each of the libraries has it. */
#ifdef LTTNG

struct caller {
    unsigned number;
};

static void begin(int count, char **lines) { (void)count, (void)lines; }
static void join(struct caller *caller, unsigned number) { caller->number = number; }
static void leave(struct caller *caller) { (void)caller; }
static void read_once(struct caller *caller) { (void)caller; }

static inline void emit(struct caller *caller, uint64_t n) {
    (void)caller;
    lttng_ust_tracepoint(peers, tick, (unsigned long)n);
}

#else

static tracectl tracer = TRACECTL_CLOSED;
static const tracectl_settings settings = {.cpus = CPUS, .pages = 16, .page_bytes = 4080, .history_limit = 0};

#ifdef ONE_THREAD
typedef tracectl *handle;
#else
typedef tracectl_thread *handle;
#endif

static void prepare(handle handle, int count, char **lines) {
    int done = !tracectl_append(handle, TEXT("synthetic_events"), TEXT("tick u64 n"))
        && !tracectl_write(handle, TEXT("events/synthetic/tick/enable"), TEXT("1"));
    for (int i = 0; i < count; i++) done = done && !tracectl_line(handle, lines[i], strlen(lines[i]));
    if (!done) exit(1);
}

#ifdef ONE_THREAD

static pthread_mutex_t mutex = PTHREAD_MUTEX_INITIALIZER;

struct caller {
    unsigned cpu;
};

static void begin(int count, char **lines) {
    if (tracectl_open(&tracer, &settings)) exit(1);
    prepare(&tracer, count, lines);
}

static void join(struct caller *caller, unsigned number) { caller->cpu = number % CPUS; }
static void leave(struct caller *caller) { (void)caller; }

static inline void lock(void) {
#ifdef MUTEX
    pthread_mutex_lock(&mutex);
#endif
}

static inline void unlock(void) {
#ifdef MUTEX
    pthread_mutex_unlock(&mutex);
#else
    (void)mutex;
#endif
}

static void read_once(struct caller *caller) {
    (void)caller;
    lock();
    uint32_t status = tracectl_read(&tracer, TEXT("per_cpu/cpu0/stats"));
    unlock();
    if (status) exit(1);
}

static inline void emit(struct caller *caller, uint64_t n) {
    tracectl_value value = tracectl_unsigned(n);
    lock();
    uint32_t status = tracectl_emit_values(&tracer, 1, caller->cpu, 7, &value, 1);
    unlock();
    if (status) exit(1);
}

#else

struct caller {
    tracectl_thread thread;
    unsigned cpu;
};

static void join(struct caller *caller, unsigned number) {
    caller->thread = (tracectl_thread)TRACECTL_LEFT;
    caller->cpu = number % CPUS;
    if (tracectl_join(&tracer, &caller->thread)) exit(1);
}

static void leave(struct caller *caller) {
    if (tracectl_leave(&caller->thread)) exit(1);
}

static void begin(int count, char **lines) {
    struct caller caller;
    if (tracectl_open(&tracer, &settings)) exit(1);
    join(&caller, 0);
    prepare(&caller.thread, count, lines);
    leave(&caller);
}

static void read_once(struct caller *caller) {
    if (tracectl_read(&caller->thread, TEXT("per_cpu/cpu0/stats"))) exit(1);
}

static inline void emit(struct caller *caller, uint64_t n) {
    tracectl_value value = tracectl_unsigned(n);
    if (tracectl_emit_values(&caller->thread, 1, caller->cpu, 7, &value, 1)) exit(1);
}

static inline void emit_by_macro(struct caller *caller, uint64_t n) {
    __asm__ __volatile__("" ::: "memory"); /* so that the compiler moves no load out of the loop */
    if (TRACECTL_EMIT(&caller->thread, 1, tracectl_unsigned(n))) exit(1);
}

#endif
#endif

#ifndef TRACECTL_EMIT
#define emit_by_macro emit
#endif

/* ---- What a thread does. ---- */

static void emit_all(struct caller *caller) {
    for (long i = 0; i < count_each; i++) emit(caller, 1000000 + (uint64_t)i);
}

static void emit_all_by_macro(struct caller *caller) {
    for (long i = 0; i < count_each; i++) emit_by_macro(caller, 1000000 + (uint64_t)i);
}

static void emit_timed(struct caller *caller) {
    for (long i = 0; i < count_each; i++) {
        uint64_t start = now();
        emit(caller, 1000000 + (uint64_t)i);
        waits[i] = now() - start;
    }
}

static void emit_and_read(struct caller *caller, long from, long to) {
    for (long i = from; i < to; i++) {
        emit(caller, 1000000 + (uint64_t)i);
        if (i % EMISSIONS_A_READ == 0) read_once(caller);
    }
}

/* The bytes of the process that are in memory. */
static long resident(void) {
    long size = 0, pages = 0;
    FILE *file = fopen("/proc/self/statm", "r");
    if (!file || fscanf(file, "%ld %ld", &size, &pages) != 2) exit(1);
    fclose(file);
    return pages * sysconf(_SC_PAGESIZE);
}

static void *run(void *given) {
    unsigned number = *(unsigned *)given;
    int is_first = number == 0;
    struct caller caller;
    join(&caller, number);
    if (is_kind("memory") && is_first) emit_and_read(&caller, 0, FIRST * EMISSIONS_A_READ);
    pthread_barrier_wait(&barrier);
    spans[number].start = is_kind("memory") ? (uint64_t)resident() : now();
    if (is_kind("waits") && is_first) emit_timed(&caller);
    else if (is_kind("memory") && is_first) emit_and_read(&caller, FIRST * EMISSIONS_A_READ, count_each);
    else if (is_kind("macro")) emit_all_by_macro(&caller);
    else emit_all(&caller);
    spans[number].end = now();
    leave(&caller);
    return NULL;
}

/* ---- What is told of it. ---- */

static int by_size(const void *one, const void *other) {
    uint64_t a = *(const uint64_t *)one, b = *(const uint64_t *)other;
    return (a > b) - (a < b);
}

static void tell_waits(void) {
    const double shares[] = {0.5, 0.99, 0.9999};
    qsort(waits, (size_t)count_each, sizeof *waits, by_size);
    for (int i = 0; i < 3; i++) printf("%llu ", (unsigned long long)waits[(long)(shares[i] * (double)(count_each - 1))]);
    printf("%llu\n", (unsigned long long)waits[count_each - 1]);
}

static void tell_time(unsigned threads) {
    uint64_t start = spans[0].start, end = spans[0].end;
    for (unsigned i = 1; i < threads; i++) {
        if (spans[i].start < start) start = spans[i].start;
        if (spans[i].end > end) end = spans[i].end;
    }
    printf("%.2f\n", (double)(end - start) / (double)(count_each * (long)threads));
}

int main(int count, char **words) {
    pthread_t threads[MOST_THREADS];
    unsigned numbers[MOST_THREADS], thread_count = count > 3 ? (unsigned)atoi(words[2]) : 0;
    if (!thread_count || thread_count > MOST_THREADS) return 2;
    kind = words[1];
    count_each = atol(words[3]) / (long)thread_count;
    if (is_kind("waits")) {
        waits = malloc((size_t)count_each * sizeof *waits);
        if (!waits) return 1;
        memset(waits, 0, (size_t)count_each * sizeof *waits);
    }
    begin(count - 4, words + 4);
    pthread_barrier_init(&barrier, NULL, thread_count);
    for (unsigned i = 0; i < thread_count; i++) {
        numbers[i] = i;
        if (pthread_create(&threads[i], NULL, run, &numbers[i])) return 1;
    }
    for (unsigned i = 0; i < thread_count; i++) pthread_join(threads[i], NULL);
    if (is_kind("waits")) tell_waits();
    else if (is_kind("memory")) printf("%ld\n", resident() - (long)spans[0].start);
    else tell_time(thread_count);
    return 0;
}

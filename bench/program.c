/* What bench/program runs: a program whose tracer is mounted on a folder, or not, if that is `-`.
 *
 *   program emit FOLDER THREADS SECONDS   threads emit as fast as they can. Prints events a second of all, and, of each 64th emission, nanoseconds: the
 *                                         middle, 99 of 100, 99.99 of 100, the longest
 *   program paced FOLDER RATE SECONDS     four threads emit so many a second together. Prints how many they were
 *   program held PAGES COUNT              reads files as a kernel asks for them so many times each, with full rings of so many pages. Prints of each, in
 *                                         nanoseconds, how long another thread that tries again and again found the tracer taken: the middle, the
 *                                         longest; and of what the read took, by its thread's processor clock, the middle
 *
 * The first two say `ready`, wait for a line, and once they are done for the end of standard input, with the mount still there. */
#define _GNU_SOURCE
#include <pthread.h>
#include <stdio.h>
#include <stdlib.h>
#include <string.h>
#include "tracectl.h"

enum { TICK = 1, EACH = 64, MOST_THREADS = 8, MOST_TIMES = 4000000, MOST = 135168, BURST = 100, ENTRIES = 2000 };

static tracectl tracer = TRACECTL_CLOSED;
static tracectl_thread thread = TRACECTL_LEFT;
static uint64_t until, pause_of;

struct emitter {
    pthread_t thread;
    uint64_t count, timed;
    uint32_t *times;
    int failed;
};

static int is_less(const void *one, const void *other) {
    uint32_t a = *(const uint32_t *)one, b = *(const uint32_t *)other;
    return (a > b) - (a < b);
}

static int line(const char *text) { return !tracectl_line(&thread, text, strlen(text)); }

static int opened(uint32_t pages) {
    tracectl_settings settings = {.cpus = 4, .pages = pages, .page_bytes = 4080, .history_limit = 0};
    return !tracectl_open(&tracer, &settings) && !tracectl_join(&tracer, &thread) && line("echo 'tick u64 n' >> synthetic_events")
        && line("echo 1 > events/synthetic/tick/enable") && line("mkdir instances/quiet");
}

/* ---- Emitting. ---- */

static void *run(void *of) {
    struct emitter *emitter = of;
    tracectl_thread own = TRACECTL_LEFT;
    if (tracectl_join(&tracer, &own)) return of;
    for (uint64_t now = tracectl_now(); now < until && !emitter->failed;) {
        for (int i = 1; i < EACH; i++) emitter->failed |= TRACECTL_EMIT(&own, TICK, tracectl_unsigned(emitter->count + (uint64_t)i)) != 0;
        uint64_t begun = tracectl_now();
        emitter->failed |= TRACECTL_EMIT(&own, TICK, tracectl_unsigned(emitter->count)) != 0;
        now = tracectl_now();
        emitter->count += EACH;
        if (emitter->timed < MOST_TIMES) emitter->times[emitter->timed++] = now - begun > UINT32_MAX ? UINT32_MAX : (uint32_t)(now - begun);
    }
    tracectl_leave(&own);
    return NULL;
}

/* Emits a burst each `pause_of` nanoseconds, on a CPU of its own. */
static void *run_paced(void *of) {
    struct emitter *emitter = of;
    tracectl_thread own = TRACECTL_LEFT;
    if (tracectl_join(&tracer, &own)) return of;
    for (uint64_t next = tracectl_now(); next < until && !emitter->failed; next += pause_of) {
        while (tracectl_now() < next) {
            struct timespec moment = {0, 10000};
            if (next - tracectl_now() > 60000) nanosleep(&moment, NULL);
        }
        for (int i = 0; i < BURST; i++) emitter->failed |= TRACECTL_EMIT(&own, TICK, tracectl_unsigned(emitter->count++)) != 0;
    }
    tracectl_leave(&own);
    return NULL;
}

/* Has threads emit until it is time. Whether all was well. */
static int emit(struct emitter *emitters, int threads, double seconds, void *(*how)(void *)) {
    int failed = 0;
    until = tracectl_now() + (uint64_t)(seconds * 1e9);
    for (int i = 0; i < threads; i++) {
        emitters[i].times = malloc(MOST_TIMES * sizeof(uint32_t));
        failed |= !emitters[i].times || pthread_create(&emitters[i].thread, NULL, how, &emitters[i]);
    }
    for (int i = 0; i < threads; i++) {
        pthread_join(emitters[i].thread, NULL);
        failed |= emitters[i].failed;
    }
    return !failed;
}

/* Mounts, and waits until readers are there. */
static int mounted(const char *folder) {
    uint32_t status = strcmp(folder, "-") ? tracectl_mount(&tracer, folder, 0) : 0;
    if (status) return fprintf(stderr, "%s\n", tracectl_status_name(status)), 0;
    puts("ready");
    fflush(stdout);
    return getchar() != EOF;
}

static void wait_for_end(void) {
    fflush(stdout);
    while (getchar() != EOF) {}
}

static int emit_fast(char **words) {
    static struct emitter emitters[MOST_THREADS];
    int threads = atoi(words[1]);
    double seconds = atof(words[2]);
    uint64_t events = 0, timed = 0, at = 0;
    if (threads < 1 || threads > MOST_THREADS || !opened(16) || !mounted(words[0]) || !emit(emitters, threads, seconds, run)) return 1;
    for (int i = 0; i < threads; i++) {
        events += emitters[i].count;
        timed += emitters[i].timed;
    }
    uint32_t *all = malloc(timed * sizeof *all);
    if (!all || !timed) return 1;
    for (int i = 0; i < threads; i++) {
        memcpy(all + at, emitters[i].times, emitters[i].timed * sizeof *all);
        at += emitters[i].timed;
    }
    qsort(all, timed, sizeof *all, is_less);
    printf("%.0f %u %u %u %u\n", (double)events / seconds, all[timed / 2], all[timed - 1 - timed / 100], all[timed - 1 - timed / 10000], all[timed - 1]);
    wait_for_end();
    return 0;
}

static int emit_paced(char **words) {
    static struct emitter emitters[4];
    uint64_t events = 0;
    pause_of = (uint64_t)(4e9 * BURST / atof(words[1]));
    if (!opened(1024) || !mounted(words[0]) || !emit(emitters, 4, atof(words[2]), run_paced)) return 1;
    for (int i = 0; i < 4; i++) events += emitters[i].count;
    printf("%llu\n", (unsigned long long)events);
    wait_for_end();
    return 0;
}

/* ---- Reading as a kernel asks. ---- */

static char request[4096], reply[MOST];
static uint64_t last;
static uint64_t held; /* the longest time that the tracer was found taken */
static int is_over;

/* Tries to have a turn again and again, and notes how long it got none. */
static void *probe(void *unused) {
    tracectl_thread own = TRACECTL_LEFT;
    if (tracectl_join(&tracer, &own)) exit(1);
    for (uint64_t had = tracectl_now(); !__atomic_load_n(&is_over, __ATOMIC_RELAXED); had = tracectl_now()) {
        struct tracectl_mask mask;
        if (tracectl_try_wanted(&own.seat->console, &mask) != TRACECTL_TRY_BUSY) continue;
        while (tracectl_try_wanted(&own.seat->console, &mask) == TRACECTL_TRY_BUSY) {}
        uint64_t took = tracectl_now() - had;
        if (took > __atomic_load_n(&held, __ATOMIC_RELAXED)) __atomic_store_n(&held, took, __ATOMIC_RELAXED);
    }
    tracectl_leave(&own);
    return unused;
}

static uint64_t processor_time(void) {
    struct timespec time;
    clock_gettime(CLOCK_THREAD_CPUTIME_ID, &time);
    return (uint64_t)time.tv_sec * 1000000000u + (uint64_t)time.tv_nsec;
}

/* Has a request of a header and a body served. Has how long that took. What follows the header of its reply is in `told`. */
static uint64_t served(uint32_t opcode, uint64_t node, const void *body, size_t length, uint64_t *told) {
    struct { uint32_t length, opcode; uint64_t unique, node; uint32_t uid, gid, pid, padding; } head = {
        (uint32_t)(sizeof head + length), opcode, last += 2, node, 0, 0, 7, 0};
    size_t reply_length = 0;
    uint32_t owes = 0, tries = 0, status;
    memcpy(request, &head, sizeof head);
    memcpy(request + sizeof head, body, length);
    uint64_t begun = processor_time();
    while ((status = tracectl_try_answer(&thread.seat->console, request, sizeof head + length, reply, sizeof reply, &reply_length, &owes)))
        if (status != TRACECTL_TRY_BUSY) exit(1);
        else tracectl_wait(&thread.seat->console, ++tries);
    uint64_t took = processor_time() - begun;
    if (reply_length >= 24) memcpy(told, reply + 16, sizeof *told);
    return took;
}

/* How long the first read of an open file takes, which makes its text, or takes its records; and for how long it holds the tracer. */
static uint32_t time_of_read(const char *path, uint32_t *held_for) {
    struct { uint64_t handle, offset; uint32_t size, read_flags; uint64_t owner; uint32_t flags, padding; } read = {0, 0, 131072, 2, 1, 0, 0};
    uint32_t open[2] = {0, 0};
    uint64_t node = 1, unused;
    char name[64];
    for (const char *at = path; *at; at += strcspn(at, "/"), at += *at == '/') {
        snprintf(name, sizeof name, "%.*s", (int)strcspn(at, "/"), at);
        served(1, node, name, strlen(name) + 1, &node);
    }
    served(14, node, open, sizeof open, &read.handle);
    __atomic_store_n(&held, 0, __ATOMIC_RELAXED);
    uint64_t took = served(15, node, &read, sizeof read, &unused), release[3] = {read.handle, 0, 0};
    *held_for = (uint32_t)__atomic_load_n(&held, __ATOMIC_RELAXED);
    served(18, node, release, sizeof release, &unused);
    return (uint32_t)took;
}

/* Emits so many events on each CPU that its ring is full, of as many different numbers as a histogram has entries. */
static int filled(uint32_t pages) {
    for (uint32_t each = 0; each < pages * 700; each++) {
        tracectl_value value = tracectl_unsigned(each % ENTRIES);
        if (tracectl_emit_values(&thread, TICK, each % 4, 7, &value, 1)) return 0;
    }
    return 1;
}

static int time_reads(char **words) {
    static const char *const FILES[] = {"trace", "per_cpu/cpu0/trace", "trace_pipe", "per_cpu/cpu0/stats", "events/synthetic/tick/hist", "snapshot"};
    uint32_t pages = (uint32_t)atoi(words[0]);
    int count = atoi(words[1]);
    pthread_t prober;
    uint32_t *times = malloc((size_t)count * sizeof *times), *holds = malloc((size_t)count * sizeof *holds);
    if (!times || !holds || count < 1 || !opened(pages) || !line("echo 'hist:keys=n:size=2048' > events/synthetic/tick/trigger")) return 1;
    if (pthread_create(&prober, NULL, probe, NULL)) return 1;
    for (size_t file = 0; file < sizeof FILES / sizeof *FILES; file++) {
        for (int i = 0; i < count; i++) {
            if (!filled(pages)) return 1;
            times[i] = time_of_read(FILES[file], &holds[i]);
        }
        qsort(times, (size_t)count, sizeof *times, is_less);
        qsort(holds, (size_t)count, sizeof *holds, is_less);
        printf("%s %u %u %u\n", FILES[file], holds[count / 2], holds[count - 1], times[count / 2]);
    }
    __atomic_store_n(&is_over, 1, __ATOMIC_RELAXED);
    return pthread_join(prober, NULL);
}

int main(int count, char **words) {
    if (count == 5 && !strcmp(words[1], "emit")) return emit_fast(words + 2);
    if (count == 5 && !strcmp(words[1], "paced")) return emit_paced(words + 2);
    return count == 4 && !strcmp(words[1], "held") ? time_reads(words + 2) : 2;
}

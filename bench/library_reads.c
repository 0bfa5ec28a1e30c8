/* library_reads PATH READS: how long an emission waits beside a thread that reads a file again and again, by the library for C. The tracer has four CPUs and
 * rings of 16 pages of 4,080 bytes, which are full; a snapshot was taken of as many records. One thread emits all the time; another makes so many reads of
 * the file. For each read it prints how long it took, and how long the slowest emission took that was made beside it, in microseconds, the clock included:
 * of these the least, a quarter, the middle and three quarters.
 *
 * bench/library_reads builds and runs it. */
#include <pthread.h>
#include <stdio.h>
#include <stdlib.h>
#include <string.h>
#include <time.h>

#include "tracectl.h"

enum { CPUS = 4, PAGES = 16, PAGE = 4096, RECORD = 24, MOST_READS = 100000 };

#define TEXT(text) (text), sizeof(text) - 1

static tracectl tracer = TRACECTL_CLOSED;
static int is_over = 0;
static uint64_t slowest = 0; /* emission since this was set to 0 */
static uint64_t emissions = 0;

static uint64_t now(void) {
    struct timespec t;
    clock_gettime(CLOCK_MONOTONIC, &t);
    return (uint64_t)t.tv_sec * 1000000000 + (uint64_t)t.tv_nsec;
}

static void check(uint32_t status, const char *what) {
    if (!status) return;
    fprintf(stderr, "%s: status %u\n", what, (unsigned)status);
    exit(1);
}

static void emit(tracectl_thread *thread, uint32_t cpu, uint64_t n) {
    tracectl_value value = tracectl_unsigned(n);
    check(tracectl_emit_values(thread, 1, cpu, 1, &value, 1), "an emission");
}

static void fill(tracectl_thread *thread) {
    for (uint32_t i = 0; i < CPUS * PAGES * PAGE / RECORD * 2; i++) emit(thread, i % CPUS, i);
}

static void *emit_all(void *unused) {
    tracectl_thread thread = TRACECTL_LEFT;
    check(tracectl_join(&tracer, &thread), "join");
    for (uint32_t i = 0; !__atomic_load_n(&is_over, __ATOMIC_RELAXED); i++) {
        uint64_t start = now();
        emit(&thread, i % CPUS, i);
        uint64_t took = now() - start;
        if (took > __atomic_load_n(&slowest, __ATOMIC_RELAXED)) __atomic_store_n(&slowest, took, __ATOMIC_RELAXED);
        __atomic_store_n(&emissions, i + 1, __ATOMIC_RELEASE);
    }
    check(tracectl_leave(&thread), "leave");
    return unused;
}

/* Waits until one more emission was made from its beginning to its end. */
static void wait_for_emission(void) {
    uint64_t before = __atomic_load_n(&emissions, __ATOMIC_ACQUIRE);
    while (__atomic_load_n(&emissions, __ATOMIC_ACQUIRE) < before + 2) {}
}

static int by_size(const void *one, const void *other) {
    uint64_t a = *(const uint64_t *)one, b = *(const uint64_t *)other;
    return (a > b) - (a < b);
}

static void show(const char *what, uint64_t *times, long count) {
    qsort(times, (size_t)count, sizeof *times, by_size);
    printf("%s: %.1f %.1f %.1f %.1f\n", what, times[0] / 1e3, times[count / 4] / 1e3, times[count / 2] / 1e3, times[count * 3 / 4] / 1e3);
}

int main(int count, char **words) {
    long reads = count == 3 ? atol(words[2]) : 0;
    if (reads < 1 || reads > MOST_READS) return 2;
    static uint64_t took[MOST_READS], waited[MOST_READS];
    tracectl_settings settings = {.cpus = CPUS, .pages = PAGES, .page_bytes = 4080};
    tracectl_thread thread = TRACECTL_LEFT;
    pthread_t emitter;
    check(tracectl_open(&tracer, &settings), "open");
    check(tracectl_join(&tracer, &thread), "join");
    check(tracectl_line(&thread, TEXT("echo 'tick u64 n' > synthetic_events")), "declare");
    check(tracectl_line(&thread, TEXT("echo 1 > events/synthetic/tick/enable")), "enable");
    fill(&thread);
    check(tracectl_line(&thread, TEXT("echo 1 > snapshot")), "snapshot");
    fill(&thread);
    pthread_create(&emitter, NULL, emit_all, NULL);
    for (long i = 0; i < reads; i++) {
        wait_for_emission();
        __atomic_store_n(&slowest, 0, __ATOMIC_RELAXED);
        uint64_t start = now();
        check(tracectl_read(&thread, words[1], strlen(words[1])), words[1]);
        took[i] = now() - start;
        wait_for_emission();
        waited[i] = __atomic_load_n(&slowest, __ATOMIC_RELAXED);
    }
    __atomic_store_n(&is_over, 1, __ATOMIC_RELAXED);
    pthread_join(emitter, NULL);
    printf("%zu bytes\n", tracectl_reply_length(&thread));
    show("read", took, reads);
    show("slowest emission", waited, reads);
    check(tracectl_leave(&thread), "leave");
    check(tracectl_close(&tracer), "close");
    return 0;
}

/* Reads of a trace copy what they show in their turn, and make the text of it while others have theirs. Four threads emit, each on a CPU of its own, and
 * another takes snapshots, while two read `trace`, the `trace` of a CPU and `snapshot`: each text has to be that of one moment. Its times rise. Of each
 * CPU it has numbers one after another, up to the newest that was written by then, and it has as many lines, and as many records were written, as its head
 * says. A read that comes after another shows no less. At the end all that was written is shown. Where snapshots are taken, each exchanges two sides and
 * clears none, so what a side shows has gaps, and the next read may show the other one: there times and numbers rise, and the lines are counted.
 *
 *   numbers of a CPU:  0 1 2 .. oldest kept .. newest
 *   head of `trace`:   the number of lines, and the sum of `newest + 1` */
#include <inttypes.h>
#include <pthread.h>
#include <stdarg.h>
#include <stdio.h>
#include <stdlib.h>
#include <string.h>

#include "tracectl.h"

#ifndef EMISSIONS
#define EMISSIONS 100000
#endif

enum { CPUS = 4, READERS = 2, ROOM = 1 << 20 };

#define TEXT(text) (text), sizeof(text) - 1

static tracectl tracer = TRACECTL_CLOSED;
static int emitters_left = CPUS;

/* Tells what is wrong, and ends. */
static void fail(const char *format, ...) {
    va_list words;
    va_start(words, format);
    vprintf(format, words);
    printf("\n");
    exit(1);
}

static void check(uint32_t status, const char *what) {
    if (status) fail("%s: status %u", what, (unsigned)status);
}

static void line(tracectl_thread *thread, const char *text) { check(tracectl_line(thread, text, strlen(text)), text); }

static int is_going_on(void) { return __atomic_load_n(&emitters_left, __ATOMIC_SEQ_CST) > 0; }

/* ---- What the threads do. ---- */

static void *emit(void *number) {
    tracectl_thread thread = TRACECTL_LEFT;
    uint32_t cpu = *(const uint32_t *)number;
    check(tracectl_join(&tracer, &thread), "join");
    for (uint64_t i = 0; i < EMISSIONS; i++) {
        tracectl_value value = tracectl_unsigned(i);
        check(tracectl_emit_values(&thread, 1, cpu, (int32_t)cpu, &value, 1), "an emission");
    }
    check(tracectl_leave(&thread), "leave");
    __atomic_sub_fetch(&emitters_left, 1, __ATOMIC_SEQ_CST);
    return NULL;
}

static void *swap(void *unused) {
    tracectl_thread thread = TRACECTL_LEFT;
    check(tracectl_join(&tracer, &thread), "join");
    while (is_going_on()) line(&thread, "echo 1 > instances/shot/snapshot");
    check(tracectl_leave(&thread), "leave");
    return unused;
}

/* What a reader has seen of a file: of each CPU how many records were written by then; and whether it is of an instance of which snapshots are taken. */
struct seen {
    const char *path;
    int is_swapped;
    uint64_t written[CPUS];
};

/* Reads a file, of which the text and a 0 after it go here. */
static void read_file(tracectl_thread *thread, const char *path, char *text) {
    check(tracectl_read(thread, path, strlen(path)), path);
    size_t length = tracectl_reply_length(thread);
    if (length >= ROOM || tracectl_reply(thread, 0, text, ROOM) != length) fail("%s: %zu bytes", path, length);
    text[length] = 0;
}

/* Reads a file, and checks that its text is that of a moment, and of none before the last one. */
static void check_file(tracectl_thread *thread, struct seen *seen, char *text) {
    uint64_t next[CPUS], lines = 0, written = 0, kept = 0, told = 0, before = 0;
    memset(next, 255, sizeof next);
    read_file(thread, seen->path, text);
    char *head = strstr(text, "entries-in-buffer/entries-written:");
    if (head && sscanf(head, "entries-in-buffer/entries-written: %" SCNu64 "/%" SCNu64, &kept, &told) != 2) fail("%s: head %.80s", seen->path, head);
    for (const char *record = text; (record = strstr(record, ": tick: n=")); record++, lines++) {
        const char *start = record;
        while (start > text && start[-1] != '\n') start--;
        uint64_t n, time;
        uint32_t cpu;
        int found = sscanf(start, "%*s [%" SCNu32 "] %" SCNu64 ": tick: n=%" SCNu64, &cpu, &time, &n);
        if (found != 3 || cpu >= CPUS) fail("%s: what is this: %.80s", seen->path, start);
        int is_right = next[cpu] == UINT64_MAX || n == next[cpu] || (seen->is_swapped && n > next[cpu]);
        if (!is_right) fail("%s: %" PRIu64 " in place of %" PRIu64, seen->path, n, next[cpu]);
        if (lines && time <= before) fail("%s: times don't rise: %.80s", seen->path, start);
        next[cpu] = n + 1;
        before = time;
    }
    for (int cpu = 0; cpu < CPUS; cpu++) {
        if (next[cpu] == UINT64_MAX) continue;
        if (next[cpu] < seen->written[cpu] && !seen->is_swapped) fail("%s: %" PRIu64 " after %" PRIu64, seen->path, next[cpu], seen->written[cpu]);
        written += seen->written[cpu] = next[cpu];
    }
    if (head && (kept != lines || (!seen->is_swapped && told != written))) fail("%s: %" PRIu64 "/%" PRIu64 " in place of %s", seen->path, lines, written, head);
}

static void *read_all(void *unused) {
    tracectl_thread thread = TRACECTL_LEFT;
    struct seen files[] = {{"trace", 0, {0}}, {"per_cpu/cpu2/trace", 0, {0}}, {"instances/shot/trace", 1, {0}}, {"instances/shot/snapshot", 1, {0}}};
    char *text = malloc(ROOM);
    if (!text) fail("no memory");
    check(tracectl_join(&tracer, &thread), "join");
    do {
        for (size_t i = 0; i < sizeof files / sizeof *files; i++) check_file(&thread, &files[i], text);
    } while (is_going_on());
    check_file(&thread, &files[0], text);
    for (int cpu = 0; cpu < CPUS; cpu++)
        if (files[0].written[cpu] != EMISSIONS) fail("of CPU %d %" PRIu64 " were shown", cpu, files[0].written[cpu]);
    check(tracectl_leave(&thread), "leave");
    free(text);
    return unused;
}

int main(void) {
    tracectl_settings settings = {.cpus = CPUS, .pages = 4, .page_bytes = 1024};
    tracectl_thread thread = TRACECTL_LEFT;
    pthread_t threads[CPUS + 1 + READERS];
    uint32_t cpus[CPUS];
    int count = 0;
    check(tracectl_open(&tracer, &settings), "open");
    check(tracectl_join(&tracer, &thread), "join");
    line(&thread, "echo 'tick u64 n' > synthetic_events");
    line(&thread, "mkdir instances/shot");
    line(&thread, "echo 1 > events/synthetic/tick/enable");
    line(&thread, "echo 1 > instances/shot/events/synthetic/tick/enable");
    for (uint32_t cpu = 0; cpu < CPUS; cpu++) {
        cpus[cpu] = cpu;
        pthread_create(&threads[count++], NULL, emit, &cpus[cpu]);
    }
    pthread_create(&threads[count++], NULL, swap, NULL);
    for (int i = 0; i < READERS; i++) pthread_create(&threads[count++], NULL, read_all, NULL);
    while (count) pthread_join(threads[--count], NULL);
    check(tracectl_leave(&thread), "leave");
    check(tracectl_close(&tracer), "close");
    printf("each text was that of a moment\n");
    return 0;
}

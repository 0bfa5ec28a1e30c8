/* Eight threads emit, 200,000 times each, while others read, edit filters and triggers, make and remove an instance, and take snapshots. What they were
 * told was done is what the tracer shows at the end: the counts of each CPU and instance, the sums of a histogram, the number of commands. And of each
 * thread's records those that are left are in its order. Then threads come and go, 100,000 of them, of which every second ends without leaving.
 *
 *   top       records all; its pipes are read, and a histogram counts all emissions
 *   kept      doesn't overwrite, so it drops what has no room. Its filter is edited, each time to one that all pass
 *   coming    is made and removed, again and again
 *   shot      has snapshots taken */
#include <inttypes.h>
#include <pthread.h>
#include <stdarg.h>
#include <stdio.h>
#include <stdlib.h>
#include <string.h>

#include "tracectl.h"

#ifndef EMISSIONS
#define EMISSIONS 200000
#endif
#ifndef COMING
#define COMING 100000
#endif

enum { CPUS = 4, EMITTERS = 8, OTHERS = 4, AT_ONCE = 8, ROOM = 1 << 22 };

#define TEXT(text) (text), sizeof(text) - 1
#define TICK "events/synthetic/tick/"

static tracectl tracer = TRACECTL_CLOSED;
static int emitters_left = EMITTERS; /* of those that are not done */
static uint64_t told_done;           /* commands, as all threads were told */
static uint64_t told_read[CPUS];     /* records that were read of the top instance's pipes */

/* Tells what is wrong, and ends. */
static void fail(const char *format, ...) {
    va_list words;
    va_start(words, format);
    vprintf(format, words);
    printf("\n");
    exit(1);
}

/* ---- Calls, each of which has to be done. ---- */

static uint64_t count_done(uint32_t status, const char *what) {
    if (status) fail("%s: status %u", what, (unsigned)status);
    return 1;
}

static uint64_t line(tracectl_thread *thread, const char *text) { return count_done(tracectl_line(thread, text, strlen(text)), text); }

/* Reads a file, of which the text and a 0 after it go here. */
static uint64_t read_file(tracectl_thread *thread, const char *path, char *text) {
    uint64_t done = count_done(tracectl_read(thread, path, strlen(path)), path);
    size_t length = tracectl_reply_length(thread);
    if (length >= ROOM || tracectl_reply(thread, 0, text, ROOM) != length) fail("%s: %zu bytes", path, length);
    text[length] = 0;
    return done;
}

static char *room(void) {
    char *text = malloc(ROOM);
    if (!text) fail("no memory");
    return text;
}

static void join(tracectl_thread *thread) {
    if (tracectl_join(&tracer, thread)) fail("a thread can't join");
}

static void leave(tracectl_thread *thread, uint64_t done) {
    __atomic_add_fetch(&told_done, done, __ATOMIC_SEQ_CST);
    if (tracectl_leave(thread)) fail("a thread can't leave");
}

static int is_going_on(void) { return __atomic_load_n(&emitters_left, __ATOMIC_SEQ_CST) > 0; }

/* ---- What the threads do. ---- */

/* Emits. Its number says which CPU it is on. */
static void *emit(void *number) {
    tracectl_thread thread = TRACECTL_LEFT;
    uint32_t who = *(const uint32_t *)number;
    uint64_t done = 0;
    join(&thread);
    for (uint64_t i = 0; i < EMISSIONS; i++) {
        tracectl_value values[] = {tracectl_unsigned(who), tracectl_unsigned(i)};
        done += count_done(tracectl_emit_values(&thread, 1, who % CPUS, (int32_t)who, values, 2), "an emission");
    }
    leave(&thread, done);
    __atomic_sub_fetch(&emitters_left, 1, __ATOMIC_SEQ_CST);
    return NULL;
}

/* The records of a text, each of which has who emitted it and the how-many-th it was: those of each thread have to be in order, on its CPU. */
static uint64_t check_order(const char *text, uint64_t last[EMITTERS]) {
    uint64_t count = 0;
    for (const char *record = text; (record = strstr(record, ": tick: ")); record++, count++) {
        uint32_t who, cpu;
        uint64_t n;
        const char *bracket = record;
        while (bracket > text && *bracket != '[') bracket--;
        if (sscanf(bracket, "[%" SCNu32 "]", &cpu) != 1 || sscanf(record, ": tick: who=%" SCNu32 " n=%" SCNu64, &who, &n) != 2) fail("what is this: %.80s", record);
        if (who >= EMITTERS || cpu != who % CPUS || (last[who] != UINT64_MAX && n <= last[who])) fail("out of order: %.80s", record);
        last[who] = n;
    }
    return count;
}

/* Reads: pipes, of which it counts the records, and files. */
static void *read_all(void *unused) {
    tracectl_thread thread = TRACECTL_LEFT;
    uint64_t done = 0, last[EMITTERS], seen[EMITTERS];
    char path[64], *text = room();
    memset(last, 255, sizeof last);
    join(&thread);
    for (uint32_t i = 0; is_going_on(); i++) {
        uint32_t cpu = i % CPUS;
        int length = snprintf(path, sizeof path, "per_cpu/cpu%u/trace_pipe", (unsigned)cpu);
        done += count_done(tracectl_take(&thread, path, (size_t)length, 1 + i % 50), path);
        text[tracectl_reply(&thread, 0, text, ROOM - 1)] = 0;
        told_read[cpu] += check_order(text, last);
        if (i % 16 == 0) done += read_file(&thread, TICK "hist", text) + read_file(&thread, "per_cpu/cpu1/stats", text);
        if (i % 64 == 0) {
            memset(seen, 255, sizeof seen);
            done += read_file(&thread, "trace", text);
            check_order(text, seen);
        }
    }
    free(text);
    leave(&thread, done);
    return unused;
}

/* Edits a filter, each time to one that all pass, and triggers. */
static void *edit(void *unused) {
    static const char *const lines[] = {
        "echo 'who < 8' > instances/kept/" TICK "filter",
        "echo 'hist:keys=who:vals=n:size=128' >> instances/kept/" TICK "trigger",
        "echo 'n >= 0 && who != 8' > instances/kept/" TICK "filter",
        "echo 'hist:keys=n.log2' >> instances/kept/" TICK "trigger",
        "echo '!hist:keys=who:vals=n:size=128' >> instances/kept/" TICK "trigger",
        "echo 0 > instances/kept/" TICK "filter",
        "echo '!hist:keys=n.log2' >> instances/kept/" TICK "trigger",
    };
    tracectl_thread thread = TRACECTL_LEFT;
    uint64_t done = 0;
    join(&thread);
    while (is_going_on())
        for (size_t i = 0; i < sizeof lines / sizeof *lines; i++) done += line(&thread, lines[i]);
    leave(&thread, done);
    return unused;
}

/* Makes an instance, which records for a while, and removes it. */
static void *come_and_go(void *unused) {
    tracectl_thread thread = TRACECTL_LEFT;
    uint64_t done = 0;
    char *text = room();
    join(&thread);
    while (is_going_on()) {
        done += line(&thread, "mkdir instances/coming") + line(&thread, "echo 1 > instances/coming/" TICK "enable");
        done += read_file(&thread, "instances/coming/trace", text) + line(&thread, "rmdir instances/coming");
    }
    free(text);
    leave(&thread, done);
    return unused;
}

static void *take_snapshots(void *unused) {
    tracectl_thread thread = TRACECTL_LEFT;
    uint64_t done = 0, seen[EMITTERS];
    char *text = room();
    join(&thread);
    while (is_going_on()) {
        done += line(&thread, "echo 1 > instances/shot/snapshot") + read_file(&thread, "instances/shot/snapshot", text);
        memset(seen, 255, sizeof seen);
        check_order(text, seen);
    }
    free(text);
    leave(&thread, done);
    return unused;
}

/* ---- What is left at the end. ---- */

static uint64_t number_after(const char *text, const char *word) {
    const char *found = strstr(text, word);
    uint64_t number;
    if (!found || sscanf(found + strlen(word), "%" SCNu64, &number) != 1) fail("no %s", word);
    return number;
}

/* The counts of each CPU of an instance, which is named with a slash after it, add up to what was emitted on the CPU. */
static uint64_t check_counts(tracectl_thread *thread, const char *instance, const uint64_t *reads, char *text) {
    uint64_t done = 0;
    char path[64];
    for (uint32_t cpu = 0; cpu < CPUS; cpu++) {
        snprintf(path, sizeof path, "%sper_cpu/cpu%u/stats", instance, (unsigned)cpu);
        done += read_file(thread, path, text);
        uint64_t read = number_after(text, "read events: ");
        uint64_t sum = number_after(text, "entries: ") + number_after(text, "\noverrun: ") + number_after(text, "dropped events: ") + read;
        if (sum != (uint64_t)EMISSIONS * EMITTERS / CPUS) fail("%s: %s", path, text);
        if (reads && read != reads[cpu]) fail("%s: %" PRIu64 " were read: %s", path, reads[cpu], text);
    }
    printf("%scounts of each CPU: right\n", instance);
    return done;
}

/* The histogram of the top instance has each thread's emissions, and their sum. */
static uint64_t check_sums(tracectl_thread *thread, char *text) {
    uint64_t done = read_file(thread, TICK "hist", text);
    for (uint32_t who = 0; who < EMITTERS; who++) {
        char key[32];
        snprintf(key, sizeof key, "{ who: %10u }", (unsigned)who);
        const char *row = strstr(text, key);
        if (!row || number_after(row, "hitcount:") != EMISSIONS || number_after(row, " n:") != (uint64_t)EMISSIONS * (EMISSIONS - 1) / 2) fail("%s", text);
    }
    printf("sums of the histogram: right\n");
    return done;
}

static void run(void *(*const does[])(void *), void *given[], size_t count) {
    pthread_t threads[EMITTERS + OTHERS];
    for (size_t i = 0; i < count; i++)
        if (pthread_create(&threads[i], NULL, does[i], given[i])) fail("no thread");
    for (size_t i = 0; i < count; i++) pthread_join(threads[i], NULL);
}

static void emit_and_check(tracectl_thread *thread) {
    static uint32_t numbers[EMITTERS];
    void *(*does[EMITTERS + OTHERS])(void *) = {read_all, edit, come_and_go, take_snapshots};
    void *given[EMITTERS + OTHERS] = {NULL};
    uint64_t done = 0, seen[EMITTERS];
    char *text = room();
    for (uint32_t i = 0; i < EMITTERS; i++) {
        numbers[i] = i;
        does[OTHERS + i] = emit;
        given[OTHERS + i] = &numbers[i];
    }
    run(does, given, EMITTERS + OTHERS);
    done += check_counts(thread, "", told_read, text) + check_counts(thread, "instances/kept/", NULL, text) + check_sums(thread, text);
    memset(seen, 255, sizeof seen);
    done += read_file(thread, "trace", text);
    if (!check_order(text, seen)) fail("no records are left");
    printf("order of each thread's records: right\n");
    free(text);
    if (tracectl_entries(thread) != told_done + done) fail("%" PRIu64 " commands", tracectl_entries(thread));
    printf("number of commands: right\n");
}

/* ---- Threads that come and go. ---- */

/* Joins, emits once, and leaves; one of an odd number ends without leaving. */
static void *come(void *number) {
    static _Thread_local tracectl_thread thread = TRACECTL_LEFT;
    tracectl_value values[] = {tracectl_unsigned(0), tracectl_unsigned(EMISSIONS)};
    join(&thread);
    count_done(tracectl_emit_values(&thread, 1, 0, 0, values, 2), "an emission");
    if (*(const int *)number % 2 == 0) leave(&thread, 0);
    return NULL;
}

static void come_often(void) {
    pthread_t threads[AT_ONCE];
    static int numbers[AT_ONCE];
    for (int i = 0; i < COMING; i++) {
        if (i >= AT_ONCE) pthread_join(threads[i % AT_ONCE], NULL);
        numbers[i % AT_ONCE] = i;
        if (pthread_create(&threads[i % AT_ONCE], NULL, come, &numbers[i % AT_ONCE])) fail("no thread");
    }
    for (int i = 0; i < AT_ONCE; i++) pthread_join(threads[i], NULL);
    printf("%d threads came and went\n", COMING);
}

int main(void) {
    static const char *const lines[] = {
        "echo 'tick u32 who; u64 n' > synthetic_events", "echo 1 > " TICK "enable", "echo 'hist:keys=who:vals=n:sort=who' > " TICK "trigger",
        "mkdir instances/kept", "echo 0 > instances/kept/options/overwrite", "echo 1 > instances/kept/" TICK "enable",
        "mkdir instances/shot", "echo 1 > instances/shot/" TICK "enable",
    };
    tracectl_thread thread = TRACECTL_LEFT;
    tracectl_settings settings = {.cpus = CPUS, .pages = 16, .page_bytes = 4080, .history_limit = 0};
    if (tracectl_open(&tracer, &settings)) fail("it can't be opened");
    join(&thread);
    for (size_t i = 0; i < sizeof lines / sizeof *lines; i++) told_done += line(&thread, lines[i]);
    emit_and_check(&thread);
    uint64_t before = tracectl_entries(&thread);
    come_often();
    if (tracectl_entries(&thread) != before + COMING) fail("%" PRIu64 " commands", tracectl_entries(&thread));
    if (tracectl_close(&tracer) != TRACECTL_STILL_JOINED) fail("it is closed too early");
    leave(&thread, 0);
    if (tracectl_close(&tracer)) fail("a pass is missing");
    return 0;
}

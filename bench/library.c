/* library TEXTS VALUES READS [LINE..]: in a tracer with the enabled event `tick u64 n`, in which these lines were done, emits so many times by text and so
 * many by values, and reads as often, through the library for C. Prints by how many bytes the process grew after the first thousand of each. bench/library
 * builds and runs it; without -DVALUES nothing is emitted by values. */
#include <stdio.h>
#include <stdlib.h>
#include <string.h>
#include <unistd.h>

#include "tracectl.h"

enum { FIRST = 1000 };

#define TEXT(text) (text), sizeof(text) - 1

static tracectl tracer = TRACECTL_CLOSED;
static tracectl_thread thread = TRACECTL_LEFT;

/* The bytes of the process that are in memory. */
static long resident(void) {
    FILE *file = fopen("/proc/self/statm", "r");
    long pages = 0;
    if (!file || fscanf(file, "%*d %ld", &pages) != 1) exit(2);
    fclose(file);
    return pages * sysconf(_SC_PAGESIZE);
}

/* So many emissions of a field of three digits. */
static void emit_texts(long count) {
    char fields[] = "n=100";
    for (long i = 0; i < count; i++) {
        fields[4] = (char)('0' + i % 10);
        if (tracectl_emit(&thread, TEXT("tick"), 0, 7, TEXT(fields))) exit(1);
    }
}

static void emit_values(long count) {
#ifdef VALUES
    for (long i = 0; i < count; i++) {
        tracectl_value n = tracectl_unsigned(100 + i % 10);
        if (tracectl_emit_values(&thread, 1, 0, 7, &n, 1)) exit(1);
    }
#else
    if (count) exit(2);
#endif
}

/* So many reads of a ring's statistics. */
static void read_stats(long count) {
    for (long i = 0; i < count; i++)
        if (tracectl_read(&thread, TEXT("per_cpu/cpu0/stats"))) exit(1);
}

static void (*const runs[])(long count) = {emit_texts, emit_values, read_stats};

enum { RUNS = sizeof runs / sizeof *runs };

static int begin(int count, char **lines) {
    tracectl_settings settings = {.cpus = 1, .pages = 2, .page_bytes = 64, .history_limit = LIMIT};
    if (tracectl_open(&tracer, &settings) || tracectl_join(&tracer, &thread) || tracectl_append(&thread, TEXT("synthetic_events"), TEXT("tick u64 n"))
        || tracectl_write(&thread, TEXT("events/synthetic/tick/enable"), TEXT("1")))
        return 0;
    for (int i = 0; i < count; i++)
        if (tracectl_line(&thread, lines[i], strlen(lines[i]))) return 0;
    return 1;
}

int main(int count, char **words) {
    long counts[RUNS];
    if (count < RUNS + 1) return 2;
    for (int i = 0; i < RUNS; i++) counts[i] = atol(words[i + 1]);
    if (!begin(count - RUNS - 1, words + RUNS + 1)) return 1;
    for (int i = 0; i < RUNS; i++) runs[i](counts[i] < FIRST ? counts[i] : FIRST);
    long before = resident();
    for (int i = 0; i < RUNS; i++) runs[i](counts[i] < FIRST ? 0 : counts[i] - FIRST);
    printf("%ld\n", resident() - before);
    return tracectl_leave(&thread) || tracectl_close(&tracer);
}

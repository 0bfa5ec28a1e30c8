/* Declares an event, emits it a million times, and reads a ring's statistics and a histogram; then takes what waits in a pipe, record by record. Its
 * tracer has no limit on the number of commands, and one thread. examples/c/build says how it is built. */
#include <stdio.h>
#include <string.h>
#include "tracectl.h"

/* Does a line, and tells why if it was refused. */
static int line(tracectl_thread *thread, const char *text) {
    char why[120];
    uint32_t status = tracectl_line(thread, text, strlen(text));
    if (status) fprintf(stderr, "%s: %s: %.*s\n", text, tracectl_status_name(status), (int)tracectl_explain(thread, 0, why, sizeof why), why);
    return status == TRACECTL_DONE;
}

/* Prints the file of this path. */
static int show(tracectl_thread *thread, const char *path) {
    char text[4096];
    if (tracectl_read(thread, path, strlen(path))) return 0;
    for (size_t from = 0, count; (count = tracectl_reply(thread, from, text, sizeof text)); from += count) fwrite(text, 1, count, stdout);
    return 1;
}

/* Emits `tick`, whose number is 1, with a field n below eight, count times: on CPU 0 by text, on CPU 1 by values. */
static int emit(tracectl_thread *thread, unsigned count) {
    char fields[] = "n=0";
    for (unsigned i = 0; i < count; i++) {
        tracectl_value n = tracectl_unsigned(i % 8);
        fields[2] = (char)('0' + i % 8);
        if (i % 2 ? tracectl_emit_values(thread, 1, 1, 7, &n, 1) : tracectl_emit(thread, "tick", 4, 0, 7, fields, 3)) return 0;
    }
    return 1;
}

/* Takes the records that wait in a pipe, one by one, and tells how many they were. */
static int drain(tracectl_thread *thread, const char *pipe) {
    unsigned count = 0;
    int32_t waits;
    while ((waits = tracectl_waiting(thread, pipe, strlen(pipe))) == 1) {
        if (tracectl_take(thread, pipe, strlen(pipe), 1)) return 0;
        count++;
    }
    printf("taken: %u\n", count);
    return waits == 0;
}

int main(void) {
    tracectl tracer = TRACECTL_CLOSED;
    tracectl_thread thread = TRACECTL_LEFT;
    tracectl_settings settings = {.cpus = 2, .pages = 16, .page_bytes = 4080, .history_limit = 0};
    if (tracectl_open(&tracer, &settings) || tracectl_join(&tracer, &thread)) return 1;
    int done = line(&thread, "echo tick u64 n >> synthetic_events") && line(&thread, "echo 1 > events/synthetic/tick/enable")
        && line(&thread, "echo hist:keys=n > events/synthetic/tick/trigger") && emit(&thread, 1000000)
        && show(&thread, "per_cpu/cpu0/stats") && show(&thread, "events/synthetic/tick/hist")
        && drain(&thread, "per_cpu/cpu1/trace_pipe");
    printf("entries: %llu\n", (unsigned long long)tracectl_entries(&thread));
    return tracectl_leave(&thread) || tracectl_close(&tracer) || !done;
}

/* Four threads emit an event, each on a CPU of its own, 250,000 times, and the program reads a histogram that counts the events of each: all that was
 * emitted is in it, whichever thread was first. examples/c/build says how it is built. */
#include <pthread.h>
#include <stdio.h>
#include <string.h>
#include "tracectl.h"

enum { THREADS = 4, EMISSIONS = 250000 };

static tracectl tracer = TRACECTL_CLOSED;

/* Does a line, and tells why if it was refused. */
static int line(tracectl_thread *thread, const char *text) {
    char why[120];
    uint32_t status = tracectl_line(thread, text, strlen(text));
    if (status) fprintf(stderr, "%s: %s: %.*s\n", text, tracectl_status_name(status), (int)tracectl_explain(thread, 0, why, sizeof why), why);
    return status == TRACECTL_DONE;
}

/* Prints the file of this path. */
static int show(tracectl_thread *thread, const char *path) {
    char text[4096];
    if (tracectl_read(thread, path, strlen(path))) return 0;
    for (size_t from = 0, count; (count = tracectl_reply(thread, from, text, sizeof text)); from += count) fwrite(text, 1, count, stdout);
    return 1;
}

/* What a thread does: it joins, emits `tick`, whose number is 1, with its own number as `who`, and leaves. */
static void *emit(void *number) {
    tracectl_thread thread = TRACECTL_LEFT;
    uint32_t who = *(uint32_t *)number;
    tracectl_value value = tracectl_unsigned(who);
    int done = !tracectl_join(&tracer, &thread);
    for (int i = 0; done && i < EMISSIONS; i++) done = tracectl_emit_values(&thread, 1, who, 7, &value, 1) == TRACECTL_DONE;
    return done && !tracectl_leave(&thread) ? number : NULL;
}

/* Runs the threads, and has whether each did what it does. */
static int run(void) {
    pthread_t threads[THREADS];
    uint32_t numbers[THREADS];
    int started = 0, done = 1;
    for (; started < THREADS; started++) {
        numbers[started] = (uint32_t)started;
        if (pthread_create(&threads[started], NULL, emit, &numbers[started])) break;
    }
    for (int i = 0; i < started; i++) {
        void *result;
        done = !pthread_join(threads[i], &result) && result && done;
    }
    return started == THREADS && done;
}

int main(void) {
    tracectl_thread thread = TRACECTL_LEFT;
    tracectl_settings settings = {.cpus = THREADS, .pages = 16, .page_bytes = 4080, .history_limit = 0};
    if (tracectl_open(&tracer, &settings) || tracectl_join(&tracer, &thread)) return 1;
    int done = line(&thread, "echo tick u64 who >> synthetic_events") && line(&thread, "echo 1 > events/synthetic/tick/enable")
        && line(&thread, "echo hist:keys=who:sort=who > events/synthetic/tick/trigger") && run()
        && show(&thread, "events/synthetic/tick/hist");
    printf("entries: %llu\n", (unsigned long long)tracectl_entries(&thread));
    return tracectl_leave(&thread) || tracectl_close(&tracer) || !done;
}

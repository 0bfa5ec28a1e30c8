/* How long does something take, and how often does it happen? Each of 200 pauses is an event that has the time at which it ended and how long it took. One
 * histogram shows the durations by powers of two, another how many pauses ended in each tenth of a second. examples/c/build says how it is built. */
#include <stdio.h>
#include <string.h>
#include "tracectl.h"

enum { PAUSES = 200, NANOSECONDS_EACH = 1000000 };

/* Does a line, and tells why if it was refused. */
static int line(tracectl_thread *thread, const char *text) {
    char why[120];
    uint32_t status = tracectl_line(thread, text, strlen(text));
    if (status) fprintf(stderr, "%s: %s: %.*s\n", text, tracectl_status_name(status), (int)tracectl_explain(thread, 0, why, sizeof why), why);
    return status == TRACECTL_DONE;
}

/* Prints the file of this path. */
static int show(tracectl_thread *thread, const char *path) {
    char text[4096];
    if (tracectl_read(thread, path, strlen(path))) return 0;
    for (size_t from = 0, count; (count = tracectl_reply(thread, from, text, sizeof text)); from += count) fwrite(text, 1, count, stdout);
    return 1;
}

/* Pauses, and emits `pause`, whose number is 1: when it ended, in nanoseconds from the first pause on, and how many microseconds it took. */
static int pause_and_tell(tracectl_thread *thread, uint64_t first) {
    struct timespec pause = {0, NANOSECONDS_EACH};
    uint64_t begun = tracectl_now();
    nanosleep(&pause, NULL);
    uint64_t ended = tracectl_now();
    tracectl_value values[] = {tracectl_unsigned(ended - first), tracectl_unsigned((ended - begun) / 1000)};
    return tracectl_emit_values(thread, 1, 0, 7, values, 2) == TRACECTL_DONE;
}

int main(void) {
    tracectl tracer = TRACECTL_CLOSED;
    tracectl_thread thread = TRACECTL_LEFT;
    tracectl_settings settings = {.cpus = 1, .pages = 16, .page_bytes = 4080, .history_limit = 0};
    if (tracectl_open(&tracer, &settings) || tracectl_join(&tracer, &thread)) return 1;
    int done = line(&thread, "echo 'pause u64 at; u64 us' >> synthetic_events")
        && line(&thread, "echo 'hist:keys=us.log2:sort=us' >> events/synthetic/pause/trigger")
        && line(&thread, "echo 'hist:keys=at.buckets=100000000:sort=at' >> events/synthetic/pause/trigger");
    uint64_t first = tracectl_now();
    for (int i = 0; done && i < PAUSES; i++) done = pause_and_tell(&thread, first);
    done = done && show(&thread, "events/synthetic/pause/hist");
    return tracectl_leave(&thread) || tracectl_close(&tracer) || !done;
}

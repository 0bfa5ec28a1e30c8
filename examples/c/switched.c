/* An event that costs next to nothing while nobody wants it: the program emits `request` for each page that it serves, and writes the page's path only
 * where the emission is made. It says how often it did, with the event off, on, off again, and counted by a histogram alone. examples/c/build says how
 * it is built. */
#include <stdio.h>
#include <string.h>
#include "tracectl.h"

enum { REQUEST = 1, REQUESTS = 1000, ROOM = 16 }; /* `request` is declared first, so its number is 1 */

static tracectl tracer = TRACECTL_CLOSED;
static tracectl_thread thread = TRACECTL_LEFT;
static int written; /* paths */

/* Does a line, and tells why if it was refused. */
static int line(const char *text) {
    char why[120];
    uint32_t status = tracectl_line(&thread, text, strlen(text));
    if (status) fprintf(stderr, "%s: %s: %.*s\n", text, tracectl_status_name(status), (int)tracectl_explain(&thread, 0, why, sizeof why), why);
    return status == TRACECTL_DONE;
}

/* Prints the file of this path. */
static int show(const char *path) {
    char text[4096];
    if (tracectl_read(&thread, path, strlen(path))) return 0;
    for (size_t from = 0, count; (count = tracectl_reply(&thread, from, text, sizeof text)); from += count) fwrite(text, 1, count, stdout);
    return 1;
}

/* A page's path, written here: what an emission should not cost while nobody wants it. */
static tracectl_value path_of(int page, char room[ROOM]) {
    written++;
    return tracectl_bytes(room, (size_t)snprintf(room, ROOM, "/page/%d", page));
}

/* Serves all pages. */
static int serve(const char *when) {
    char room[ROOM];
    written = 0;
    for (int page = 0; page < REQUESTS; page++)
        if (TRACECTL_EMIT(&thread, REQUEST, path_of(page, room), tracectl_unsigned(page % 50 ? 200 : 404))) return 0;
    printf("%s: wanted %d, paths written %d\n", when, (int)tracectl_wanted(&thread, REQUEST), written);
    return 1;
}

int main(void) {
    tracectl_settings settings = {.cpus = 1, .pages = 16, .page_bytes = 4080, .history_limit = 0};
    if (tracectl_open(&tracer, &settings) || tracectl_join(&tracer, &thread)) return 1;
    int done = line("echo 'request char path[16]; u32 status' >> synthetic_events") && serve("off")
        && line("echo 1 > events/synthetic/request/enable") && serve("on")
        && line("echo 0 > events/synthetic/request/enable") && serve("off again")
        && line("echo hist:keys=status > events/synthetic/request/trigger") && serve("counted")
        && show("events/synthetic/request/hist") && show("per_cpu/cpu0/stats");
    return tracectl_leave(&thread) || tracectl_close(&tracer) || !done;
}

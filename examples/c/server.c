/* A server of four workers that traces each request that it serves, and is asked about them while it runs. Requests come from a queue. Each is an event
 * `request`: when it ended, how many microseconds it took, and its path. One request in a hundred is for /report, which is slow.
 *
 *     server DIR          mounts its tracer on the folder DIR, and serves until it is interrupted: examples/c/server.session asks it meanwhile, in a shell
 *     server              serves REQUESTS requests, and asks itself
 *     server - COUNT      likewise so many
 *
 * What is asked: the durations are counted by powers of two; a snapshot is taken at the first slow request, which shows what came just before it; and an
 * instance keeps the slow ones alone. examples/c/build says how it is built. */
#include <pthread.h>
#include <signal.h>
#include <stdio.h>
#include <stdlib.h>
#include <string.h>
#include "tracectl.h"

enum { WORKERS = 4, REQUESTS = 2000, QUEUE = 64, REQUEST = 1 }; /* `request` is declared first, so its number is 1 */

static tracectl tracer = TRACECTL_CLOSED;
static volatile sig_atomic_t is_interrupted;

/* ---- The queue. ---- */

static pthread_mutex_t lock = PTHREAD_MUTEX_INITIALIZER;
static pthread_cond_t changed = PTHREAD_COND_INITIALIZER;
static int queue[QUEUE], first, length, is_closed;

static void put(int request) {
    pthread_mutex_lock(&lock);
    while (length == QUEUE) pthread_cond_wait(&changed, &lock);
    queue[(first + length++) % QUEUE] = request;
    pthread_cond_broadcast(&changed);
    pthread_mutex_unlock(&lock);
}

/* Takes the next request, or tells that there will be none. */
static int take(int *request) {
    pthread_mutex_lock(&lock);
    while (!length && !is_closed) pthread_cond_wait(&changed, &lock);
    int there_is = length > 0;
    if (there_is) {
        *request = queue[first];
        first = (first + 1) % QUEUE;
        length--;
        pthread_cond_broadcast(&changed);
    }
    pthread_mutex_unlock(&lock);
    return there_is;
}

static void close_queue(void) {
    pthread_mutex_lock(&lock);
    is_closed = 1;
    pthread_cond_broadcast(&changed);
    pthread_mutex_unlock(&lock);
}

/* ---- The workers. ---- */

/* Serves a request, and has the path that it was for. */
static const char *serve(int request) {
    static const char *const paths[] = {"/", "/style.css", "/login", "/search"};
    int is_report = request % 100 == 50;
    struct timespec time = {0, is_report ? 6000000L : 50000L + request % 7 * 20000L};
    nanosleep(&time, NULL);
    return is_report ? "/report" : paths[request % 4];
}

static void *work(void *done) {
    tracectl_thread thread = TRACECTL_LEFT;
    int request, is_done = !tracectl_join(&tracer, &thread);
    while (take(&request)) {
        uint64_t begun = tracectl_now();
        const char *path = serve(request);
        uint64_t ended = tracectl_now();
        if (TRACECTL_EMIT(&thread, REQUEST, tracectl_unsigned(ended), tracectl_unsigned((ended - begun) / 1000), tracectl_bytes(path, strlen(path))))
            is_done = 0;
    }
    return is_done && !tracectl_leave(&thread) ? done : NULL;
}

/* ---- The session. ---- */

/* Does a line, and tells it if it was refused. */
static int line(tracectl_thread *thread, const char *text) {
    uint32_t status = tracectl_line(thread, text, strlen(text));
    if (status) fprintf(stderr, "%s: refused: %s\n", text, tracectl_status_name(status));
    return status == TRACECTL_DONE;
}

/* Prints the lines of a file that have this in them, but at most the last few of them. */
static int show(tracectl_thread *thread, const char *path, const char *part, int most) {
    static char text[1 << 18];
    if (tracectl_read(thread, path, strlen(path))) return 0;
    text[tracectl_reply(thread, 0, text, sizeof text - 1)] = 0;
    int found = 0;
    for (const char *at = text; (at = strstr(at, part)); at += strlen(part)) found++;
    for (char *each = strtok(text, "\n"); each; each = strtok(NULL, "\n"))
        if (strstr(each, part) && found-- <= most) puts(each);
    return 1;
}

static int ask_first(tracectl_thread *thread) {
    return line(thread, "echo 1 > events/synthetic/request/enable")
        && line(thread, "echo 'hist:keys=us.log2:sort=us' >> events/synthetic/request/trigger")
        && line(thread, "echo 'snapshot:1 if us >= 5000' >> events/synthetic/request/trigger")
        && line(thread, "mkdir instances/slow")
        && line(thread, "echo 'us >= 5000' > instances/slow/events/synthetic/request/filter")
        && line(thread, "echo 1 > instances/slow/events/synthetic/request/enable");
}

static int ask_last(tracectl_thread *thread) {
    puts("How many requests took up to so many microseconds:");
    if (!show(thread, "events/synthetic/request/hist", "{ us:", 64) || !show(thread, "events/synthetic/request/hist", "Hits:", 1)) return 0;
    puts("The first slow one, and what came before it:");
    if (!show(thread, "snapshot", " request: ", 4)) return 0;
    puts("The last slow ones:");
    return show(thread, "instances/slow/trace", " request: ", 3);
}

/* Serves so many requests, or until it is interrupted. */
static int serve_all(int requests) {
    pthread_t workers[WORKERS];
    int is_done = 1;
    for (int i = 0; i < WORKERS; i++)
        if (pthread_create(&workers[i], NULL, work, &tracer)) return 0;
    for (int request = 0; request < requests && !is_interrupted; request++) put(request);
    close_queue();
    for (int i = 0; i < WORKERS; i++) {
        void *done;
        is_done = !pthread_join(workers[i], &done) && done && is_done;
    }
    return is_done;
}

static void interrupt(int signal) {
    is_interrupted = signal;
}

/* Mounts the tracer, and serves until it is interrupted. */
static int serve_mounted(const char *folder) {
    uint32_t status = tracectl_mount(&tracer, folder, 0);
    if (status) fprintf(stderr, "%s: %s\n", folder, tracectl_status_name(status));
    signal(SIGINT, interrupt);
    signal(SIGTERM, interrupt);
    return !status && serve_all(INT32_MAX);
}

int main(int count, char **words) {
    tracectl_thread thread = TRACECTL_LEFT;
    tracectl_settings settings = {.cpus = WORKERS, .pages = 16, .page_bytes = 4080, .history_limit = 0};
    if (tracectl_open(&tracer, &settings) || tracectl_join(&tracer, &thread)) return 1;
    int is_done = line(&thread, "echo 'request u64 at; u64 us; char path[32]' >> synthetic_events");
    if (count == 2) is_done = is_done && serve_mounted(words[1]);
    else is_done = is_done && ask_first(&thread) && serve_all(count > 2 ? atoi(words[2]) : REQUESTS) && ask_last(&thread);
    return tracectl_leave(&thread) || tracectl_close(&tracer) || !is_done;
}

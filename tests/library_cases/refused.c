/* Calls that are refused before a try is made: of a thread that has not joined or has left, in the child of a fork, from a signal handler and from what a
 * call calls; a join without a pass, and a close while threads have joined. Each changes nothing. Linked with --wrap=malloc. */
#include <pthread.h>
#include <signal.h>
#include <stdio.h>
#include <string.h>
#include <sys/wait.h>
#include <unistd.h>

#include "tracectl.h"

enum { PASSES = 1024 };

#define TEXT(text) (text), sizeof(text) - 1

static tracectl tracer = TRACECTL_CLOSED;
static tracectl_thread thread = TRACECTL_LEFT;

/* Prints what a call came to: a number, a status, or a status below 0 where it has no answer. */
static void tell(const char *what, long come) { printf("%s: %ld\n", what, come); }

static void tell_status(const char *what, uint32_t status) { printf("%s: %s\n", what, tracectl_status_name(status)); }

static void tell_answer(const char *what, int32_t answer) {
    if (answer < 0) tell_status(what, (uint32_t)-answer);
    else tell(what, answer);
}

/* ---- Within another call. ---- */

void *__real_malloc(size_t size);

static void (*within)(void); /* what is done in the next allocation */

void *__wrap_malloc(size_t size) {
    void (*now)(void) = within;
    within = 0;
    if (now) now();
    return __real_malloc(size);
}

static void ask_again(void) {
    tell_status("a write within a call", tracectl_write(&thread, TEXT("tracing_on"), TEXT("0")));
    tell_answer("a look", tracectl_waiting(&thread, TEXT("trace_pipe")));
    tell_answer("a question", tracectl_wanted(&thread, 1));
    tell("a reply", (long)tracectl_reply_length(&thread));
    tell("entries", (long)tracectl_entries(&thread));
    tell_status("a leave", tracectl_leave(&thread));
    tell_status("a join", tracectl_join(&tracer, &thread));
}

static void handle(int number) {
    (void)number;
    ask_again();
}

static void interrupt(void) { raise(SIGUSR1); }

/* In the lock of a join, another handle is used by the same thread. */
static void use_handle(void) {
    tracectl_thread other = TRACECTL_LEFT;
    tell_status("a close within a join", tracectl_close(&tracer));
    tell_status("a join within a join", tracectl_join(&tracer, &other));
    tell_status("an open within a join", tracectl_open(&tracer, &(tracectl_settings){.cpus = 1, .pages = 2, .page_bytes = 64, .history_limit = 0}));
}

/* The allocation of a seat comes before the lock: the next one is within it. */
static void use_handle_later(void) { within = use_handle; }

static void call_within(void) {
    tracectl_thread other = TRACECTL_LEFT;
    within = ask_again;
    tell_status("a line", tracectl_line(&thread, TEXT("echo 'tick u64 n' > synthetic_events")));
    signal(SIGUSR1, handle);
    within = interrupt;
    tell_status("another line", tracectl_line(&thread, TEXT("echo 'tock u64 n' >> synthetic_events")));
    within = use_handle_later;
    tell_status("a join", tracectl_join(&tracer, &other));
    tell_status("a leave", tracectl_leave(&other));
}

/* ---- In a child. ---- */

static void call_in_child(void) {
    tracectl_thread other = TRACECTL_LEFT;
    tracectl own = TRACECTL_CLOSED;
    tracectl_settings settings = {.cpus = 1, .pages = 2, .page_bytes = 64, .history_limit = 0};
    tell_status("in a child, a write", tracectl_write(&thread, TEXT("tracing_on"), TEXT("0")));
    tell_answer("in a child, a question", tracectl_wanted(&thread, 1));
    tell_status("in a child, an emission that is wanted", TRACECTL_EMIT(&thread, 1, tracectl_unsigned(1)));
    tell_status("in a child, one that is not", TRACECTL_EMIT(&thread, 2, tracectl_unsigned(1)));
    tell_status("in a child, a leave", tracectl_leave(&thread));
    tell_status("in a child, the same handle joins", tracectl_join(&tracer, &thread));
    tell_status("in a child, another joins", tracectl_join(&tracer, &other));
    tell_status("in a child, a close", tracectl_close(&tracer));
    tell_status("in a child, an open", tracectl_open(&tracer, &settings));
    tell_status("in a child, an open of its own", tracectl_open(&own, &settings));
    tell_status("in a child, a join of its own", tracectl_join(&own, &other));
    tell_answer("in a child, a question to its own", tracectl_wanted(&other, 1));
    tell_status("in a child, a read of its own", tracectl_read(&other, TEXT("trace")));
    tell_status("in a child, a leave of its own", tracectl_leave(&other));
    tell_status("in a child, a close of its own", tracectl_close(&own));
}

static void fork_and_call(void) {
    int status = -1;
    tell_status("a write", tracectl_write(&thread, TEXT("events/synthetic/tick/enable"), TEXT("1")));
    fflush(stdout);
    pid_t child = fork();
    if (!child) {
        call_in_child();
        fflush(stdout);
        _exit(0);
    }
    waitpid(child, &status, 0);
    tell("the child", status);
    tell_status("in the parent, a write", tracectl_write(&thread, TEXT("tracing_on"), TEXT("1")));
}

/* ---- Threads that have not joined. ---- */

static void *end_without_leaving(void *unused) {
    static tracectl_thread other = TRACECTL_LEFT;
    tell_status("a thread joins, and ends", tracectl_join(&tracer, &other));
    return unused;
}

/* One thread takes all passes that are left. */
static void take_all(void) {
    static tracectl_thread others[PASSES];
    int count = 0;
    uint32_t status;
    while (count < PASSES && !(status = tracectl_join(&tracer, &others[count]))) count++;
    tell("passes beside one", count);
    tell_status("one more", status);
    tell_status("a close", tracectl_close(&tracer));
    for (int i = 0; i < count; i++) {
        int index = i * 7 % count; /* in another order: count has no factor 7 */
        if (tracectl_leave(&others[index])) tell("no leave", index);
    }
    tell_status("a close", tracectl_close(&tracer));
}

int main(void) {
    tracectl_settings settings = {.cpus = 1, .pages = 2, .page_bytes = 64, .history_limit = 0};
    pthread_t other;
    tell_status("before it is open, a join", tracectl_join(&tracer, &thread));
    tell_status("a close", tracectl_close(&tracer));
    tell_status("an open", tracectl_open(&tracer, &settings));
    tell_status("before it has joined, a write", tracectl_write(&thread, TEXT("tracing_on"), TEXT("1")));
    tell_status("a leave", tracectl_leave(&thread));
    tell_answer("a question", tracectl_wanted(&thread, 1));
    tell_status("an emission", TRACECTL_EMIT(&thread, 1, tracectl_unsigned(1)));
    tell("a place", (long)tracectl_here(&thread).cpu + tracectl_here(&thread).thread);
    tell_status("a join", tracectl_join(&tracer, &thread));
    tell_status("another", tracectl_join(&tracer, &thread));
    tell("a place of this thread", tracectl_here(&thread).cpu == 0 && tracectl_here(&thread).thread == getpid());
    call_within();
    fork_and_call();
    tell("entries", (long)tracectl_entries(&thread));
    if (pthread_create(&other, NULL, end_without_leaving, NULL)) return 1;
    pthread_join(other, NULL);
    take_all();
    tell_status("a leave", tracectl_leave(&thread));
    tell_status("after it has left, a write", tracectl_write(&thread, TEXT("tracing_on"), TEXT("1")));
    tell_status("a leave", tracectl_leave(&thread));
    tell_status("a close", tracectl_close(&tracer));
    tell_status("after it is closed, a join", tracectl_join(&tracer, &thread));
    tell_status("a close", tracectl_close(&tracer));
    return 0;
}

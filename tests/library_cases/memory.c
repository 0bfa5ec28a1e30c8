/* Each call while memory is refused: its first allocation, its second and so on, until the call is done. A call that was refused has changed nothing, and
 * the next one may be done; but a read of a trace, a snapshot or a `hist` that was refused memory for its text was done. A look at a pipe, or at what is
 * wanted, takes no memory. All that was given out has been given back after an open or a join that was refused, and after a close. Linked with
 * --wrap=malloc, --wrap=realloc and --wrap=free. */
#include <stdio.h>
#include <string.h>

#include "tracectl.h"

void *__real_malloc(size_t size);
void *__real_realloc(void *block, size_t size);
void __real_free(void *block);

/* How many allocations succeed before one is refused; below 0, none is. */
static long left = -1;

/* How many blocks were given out, and were not given back. */
static long kept = 0;

static int is_refused(void) { return left >= 0 && left-- == 0; }

void *__wrap_malloc(size_t size) {
    void *block = is_refused() ? 0 : __real_malloc(size);
    kept += block != 0;
    return block;
}

void *__wrap_realloc(void *block, size_t size) {
    void *moved = is_refused() ? 0 : __real_realloc(block, size);
    kept += !block && moved;
    return moved;
}

void __wrap_free(void *block) {
    kept -= block != 0;
    __real_free(block);
}

static tracectl tracer = TRACECTL_CLOSED;

static tracectl_thread thread = TRACECTL_LEFT;

#define TEXT(text) (text), sizeof(text) - 1

static uint32_t opened(void) {
    tracectl_settings settings = {.cpus = 2, .pages = 4, .page_bytes = 64, .history_limit = 1000};
    return tracectl_open(&tracer, &settings);
}

static uint32_t joined(void) { return tracectl_join(&tracer, &thread); }

static uint32_t declared(void) { return tracectl_append(&thread, TEXT("synthetic_events"), TEXT("long_named_event u64 n; char who[16]")); }

static uint32_t enabled(void) { return tracectl_line(&thread, TEXT("echo 1 > events/synthetic/long_named_event/enable")); }

static uint32_t filtered(void) { return tracectl_write(&thread, TEXT("events/synthetic/long_named_event/filter"), TEXT("n > 2 && who ~ \"a*\"")); }

static uint32_t counted(void) { return tracectl_write(&thread, TEXT("events/synthetic/long_named_event/trigger"), TEXT("hist:keys=who,n:vals=n")); }

static uint32_t emitted(void) { return tracectl_emit(&thread, TEXT("long_named_event"), 1, 7, TEXT("n=3\0who=a value of 15")); }

static uint32_t emitted_by_values(void) {
    tracectl_value values[] = {tracectl_unsigned(4), tracectl_bytes(TEXT("a value of 15"))};
    return tracectl_emit_values(&thread, 1, 0, 7, values, 2);
}

static uint32_t made(void) { return tracectl_line(&thread, TEXT("mkdir instances/long_named_instance")); }

static uint32_t swapped(void) { return tracectl_append(&thread, TEXT("instances/long_named_instance/snapshot"), TEXT("1")); }

static uint32_t taken_aside(void) { return tracectl_write(&thread, TEXT("snapshot"), TEXT("1")); }

static uint32_t taken(void) { return tracectl_take(&thread, TEXT("per_cpu/cpu1/trace_pipe"), 1); }

static uint32_t read_filter(void) { return tracectl_read(&thread, TEXT("events/synthetic/long_named_event/filter")); }

static uint32_t read_hist(void) { return tracectl_read(&thread, TEXT("events/synthetic/long_named_event/hist")); }

static uint32_t read_trace(void) { return tracectl_read(&thread, TEXT("trace")); }

static uint32_t read_snapshot(void) { return tracectl_read(&thread, TEXT("snapshot")); }

static uint32_t listed(void) { return tracectl_files(&thread); }

/* Makes a call until it is done. Tells whether each refusal was one of memory, and left the history as it was. */
static int is_done(const char *name, uint32_t (*call)(void)) {
    uint64_t entries = tracectl_entries(&thread);
    long before = kept;
    for (long count = 0;; count++) {
        left = count;
        uint32_t status = call();
        left = -1;
        if (status == TRACECTL_DONE) return printf("%s: done\n", name) > 0;
        int leaks = (call == opened && kept) || (call == joined && kept != before);
        if (status != TRACECTL_MEMORY || tracectl_entries(&thread) != entries || leaks) return printf("%s: status %u\n", name, (unsigned)status) < 0;
    }
}

/* Reads a file of which a copy is taken until it is done. Tells whether each refusal was one of memory: of the copy, and the history was left as it was; or,
 * once there was memory for that, of the text, and the read was one command more. No refusal leaves more memory taken than the one before, and the text is
 * the one that there was without refusals. */
static int is_read(const char *name, uint32_t (*call)(void)) {
    char text[4096], again[4096];
    if (call() != TRACECTL_DONE) return printf("%s: refused\n", name) < 0;
    size_t length = tracectl_reply(&thread, 0, text, sizeof text);
    int copied = 0;
    long before = 0;
    for (long count = 0;; count++) {
        uint64_t entries = tracectl_entries(&thread);
        left = count;
        uint32_t status = call();
        left = -1;
        uint64_t more = tracectl_entries(&thread) - entries;
        if (status == TRACECTL_DONE) {
            int same = more == 1 && tracectl_reply(&thread, 0, again, sizeof again) == length && !memcmp(text, again, length);
            printf("%s: done%s%s\n", name, copied ? ", also where its text was refused memory" : "", same ? "" : ", but another text");
            return same && copied;
        }
        int leaks = count && kept != before;
        before = kept;
        if (status != TRACECTL_MEMORY || more > 1 || (copied && !more) || leaks) return printf("%s: status %u\n", name, (unsigned)status) < 0;
        copied = copied || more;
    }
}

/* Tells whether a look at a pipe, or, where none is named, at whether event 1 is wanted, came to this, took no memory, and left the history and the reply
 * as they were. */
static int tells(const char *pipe, size_t pipe_length, int32_t wanted) {
    uint64_t entries = tracectl_entries(&thread);
    size_t reply_length = tracectl_reply_length(&thread);
    left = 0;
    int32_t told = pipe_length ? tracectl_waiting(&thread, pipe, pipe_length) : tracectl_wanted(&thread, 1);
    int took = left != 0;
    left = -1;
    int same = tracectl_entries(&thread) == entries && tracectl_reply_length(&thread) == reply_length;
    printf(pipe_length ? "waiting in %s: " : "wanted%s: ", pipe);
    printf("%d%s%s\n", (int)told, took ? ", took memory" : "", same ? "" : ", changed something");
    return told == wanted && !took && same;
}

/* Leaves the tracer if it was joined, and closes it. Tells whether all memory was given back. */
static int is_given_back(void) {
    long before = kept;
    uint32_t left_with = tracectl_leave(&thread), status = tracectl_close(&tracer);
    printf("leave: status %u, close: status %u, %s before, %ld blocks after\n", (unsigned)left_with, (unsigned)status, before > 0 ? "some blocks" : "none",
           kept);
    return status == TRACECTL_DONE && before > 0 && !kept;
}

int main(void) {
    int done = enabled() == TRACECTL_NOT_JOINED && listed() == TRACECTL_NOT_JOINED && joined() == TRACECTL_NOT_OPEN
        && tracectl_close(&tracer) == TRACECTL_NOT_OPEN && tells(TEXT("trace_pipe"), -TRACECTL_NOT_JOINED) && tells(TEXT(""), -TRACECTL_NOT_JOINED)
        && is_done("open", opened) && opened() == TRACECTL_ALREADY_OPEN && enabled() == TRACECTL_NOT_JOINED
        && is_done("join", joined) && joined() == TRACECTL_ALREADY_JOINED && is_done("append", declared)
        && tells(TEXT(""), 0) && is_done("line", enabled) && tells(TEXT(""), 1) && is_done("write", filtered)
        && is_done("trigger", counted) && tells(TEXT("trace_pipe"), 0) && is_done("emit", emitted) && is_done("emit_values", emitted_by_values)
        && tells(TEXT("trace_pipe"), 1) && tells(TEXT("per_cpu/cpu1/trace_pipe"), 1) && tells(TEXT("per_cpu/cpu0/trace_pipe"), 1)
        && tells(TEXT("per_cpu/cpu2/trace_pipe"), -TRACECTL_NO_SUCH_CPU) && tells(TEXT("no_file"), -TRACECTL_NO_SUCH_FILE)
        && tells(TEXT("trace"), -TRACECTL_BAD_VALUE) && tells(TEXT("instances/a/trace_pipe"), -TRACECTL_NO_SUCH_INSTANCE) && is_done("take", taken)
        && tells(TEXT("per_cpu/cpu1/trace_pipe"), 0) && is_done("read", read_filter) && is_done("files", listed)
        && is_done("mkdir", made) && is_done("snapshot", swapped);
    printf("entries: %llu\n", (unsigned long long)tracectl_entries(&thread));
    done = done && is_done("emit", emitted) && is_read("read trace", read_trace) && is_read("read hist", read_hist) && is_done("take a snapshot", taken_aside)
        && is_read("read snapshot", read_snapshot);
    done = is_given_back() && done;
    done = is_done("open", opened) && is_given_back() && done;
    return !done;
}

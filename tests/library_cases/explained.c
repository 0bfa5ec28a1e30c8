/* What is wrong with a thread's last command, in a sentence: of that command and no other, none of one that was done, and piece by piece as whole. */
#include <stdio.h>
#include <string.h>

#include "tracectl.h"

#define TEXT(text) (text), sizeof(text) - 1

static tracectl tracer = TRACECTL_CLOSED;
static tracectl_thread thread = TRACECTL_LEFT, other = TRACECTL_LEFT;

/* Prints the sentence of a thread, and what its last command came to. */
static void tell(const char *what, const tracectl_thread *of, uint32_t status) {
    char why[120];
    size_t length = tracectl_explain((tracectl_thread *)of, 0, why, sizeof why);
    printf("%s: %s: `%.*s`\n", what, tracectl_status_name(status), (int)length, why);
}

#define TELL(what, call) tell(what, &thread, call)

static void tell_of_emissions(void) {
    tracectl_value n = tracectl_unsigned(1), wrong = tracectl_bytes("x", 1), none = {3, 0, "", 0};
    TELL("an emission by values", tracectl_emit_values(&thread, 1, 0, 7, &wrong, 1));
    TELL("one that is done", tracectl_emit_values(&thread, 1, 0, 7, &n, 1));
    TELL("one on no CPU", tracectl_emit_values(&thread, 1, 9, 7, &n, 1));
    TELL("one of no event", tracectl_emit_values(&thread, 2, 0, 7, &n, 1));
    TELL("a value of no kind", tracectl_emit_values(&thread, 1, 0, 7, &none, 1));
    TELL("no values", tracectl_emit_values(&thread, 1, 0, 7, &n, 0));
    TELL("a value too many", tracectl_emit_values(&thread, 1, 0, 7, (tracectl_value[]){n, n}, 2));
    TELL("an emission", tracectl_emit(&thread, TEXT("tick"), 0, 7, TEXT("n=1\0m=1")));
    TELL("a field without =", tracectl_emit(&thread, TEXT("tick"), 0, 7, TEXT("n")));
    TELL("one that is done", tracectl_emit(&thread, TEXT("tick"), 0, 7, TEXT("n=1")));
}

static void tell_of_commands(void) {
    TELL("a write", tracectl_write(&thread, TEXT("events/synthetic/tick/filter"), TEXT("n == ")));
    TELL("the same to another file", tracectl_write(&thread, TEXT("tracing_on"), TEXT("n == ")));
    TELL("one that is done", tracectl_write(&thread, TEXT("tracing_on"), TEXT("1")));
    TELL("an append", tracectl_append(&thread, TEXT("events/synthetic/tick/trigger"), TEXT("hist:keys=m")));
    TELL("a list", tracectl_files(&thread));
    TELL("a read", tracectl_read(&thread, TEXT("tracing")));
    TELL("a limited one", tracectl_take(&thread, TEXT("trace"), 1));
    TELL("one that is done", tracectl_read(&thread, TEXT("tracing_on")));
    TELL("a line", tracectl_line(&thread, TEXT(" mkdir instances/trace_pipe/")));
    TELL("one that is no command", tracectl_line(&thread, TEXT(" take 1 2 trace_pipe")));
    TELL("a blank one", tracectl_line(&thread, TEXT("")));
}

/* A refused look is no command, and another thread has a sentence of its own. */
static void tell_of_others(void) {
    uint32_t status = tracectl_write(&thread, TEXT("trace_pipe"), TEXT("1"));
    int32_t waits = tracectl_waiting(&thread, TEXT("trace"));
    tell("after a look", &thread, status);
    printf("the look: %s\n", tracectl_status_name((uint32_t)-waits));
    tell("of another thread", &other, TRACECTL_DONE);
    tell("its own", &other, tracectl_read(&other, TEXT("instances/a/trace")));
    tell("of the first", &thread, status);
}

/* The pieces of a sentence, of one byte and of seven, are the sentence, and nothing lies after it. */
static int is_same_in_pieces(size_t room_length) {
    char whole[120], piece[8], found[120];
    size_t length = tracectl_explain(&thread, 0, whole, sizeof whole), from = 0;
    for (size_t count; (count = tracectl_explain(&thread, from, piece, room_length)); from += count) memcpy(found + from, piece, count);
    return from == length && !memcmp(found, whole, length) && !tracectl_explain(&thread, length + 1, piece, room_length);
}

int main(void) {
    tracectl_settings settings = {.cpus = 2, .pages = 2, .page_bytes = 64, .history_limit = 0};
    tell("of a thread that has not joined", &thread, tracectl_open(&tracer, &settings));
    TELL("before any command", tracectl_join(&tracer, &thread) || tracectl_join(&tracer, &other));
    TELL("a declaration", tracectl_write(&thread, TEXT("synthetic_events"), TEXT("tick u64 n")));
    tell_of_emissions();
    tell_of_commands();
    tell_of_others();
    printf("pieces: %d %d %d\n", is_same_in_pieces(1), is_same_in_pieces(7), is_same_in_pieces(0) == 0);
    return tracectl_leave(&thread) || tracectl_leave(&other) || tracectl_close(&tracer);
}

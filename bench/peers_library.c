/* peers_library text|values COUNT LINE..: does these lines in a tracer of the library for C, and then emits so many events of a field that is a number, by
 * text, which it formats, or by values. Prints the nanoseconds of one. bench/peers builds and runs it. */
#include <stdio.h>
#include <stdlib.h>
#include <string.h>
#include <time.h>

#include "tracectl.h"

static tracectl tracer = TRACECTL_CLOSED;
static tracectl_thread thread = TRACECTL_LEFT;

static double now(void) {
    struct timespec t;
    clock_gettime(CLOCK_MONOTONIC, &t);
    return t.tv_sec * 1e9 + t.tv_nsec;
}

static int emit_texts(long count) {
    for (long n = 0; n < count; n++) {
        char fields[32];
        int length = snprintf(fields, sizeof fields, "n=%ld", 1000000 + n);
        if (tracectl_emit(&thread, "tick", 4, 0, 7, fields, (size_t)length)) return 0;
    }
    return 1;
}

/* The event has the number 1, since it is the only one. */
static int emit_values(long count) {
    for (long n = 0; n < count; n++) {
        tracectl_value value = tracectl_unsigned(1000000 + (uint64_t)n);
        if (tracectl_emit_values(&thread, 1, 0, 7, &value, 1)) return 0;
    }
    return 1;
}

int main(int count, char **words) {
    if (count < 3) return 2;
    long emissions = atol(words[2]);
    tracectl_settings settings = {.cpus = 1, .pages = 2, .page_bytes = 64, .history_limit = 0};
    if (tracectl_open(&tracer, &settings) || tracectl_join(&tracer, &thread)) return 1;
    for (int i = 3; i < count; i++)
        if (tracectl_line(&thread, words[i], strlen(words[i]))) return 1;
    double start = now();
    if (!(strcmp(words[1], "text") ? emit_values : emit_texts)(emissions)) return 1;
    printf("%.1f\n", (now() - start) / emissions);
    return tracectl_leave(&thread) || tracectl_close(&tracer);
}

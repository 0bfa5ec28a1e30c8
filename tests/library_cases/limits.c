/* How many commands a tracer does: as many as its limit says, and then none that could be done; without a limit more. Which limits are in range. */
#include <stdio.h>

#include "tracectl.h"

#define TEXT(text) (text), sizeof(text) - 1

static tracectl_settings with(uint64_t limit) {
    tracectl_settings settings = {.cpus = 1, .pages = 2, .page_bytes = 64, .history_limit = limit};
    return settings;
}

/* Reads more often than the limit says, and asks then for what is refused in any case. */
static int try_limit(uint64_t limit) {
    tracectl tracer = TRACECTL_CLOSED;
    tracectl_thread thread = TRACECTL_LEFT;
    tracectl_settings settings = with(limit);
    uint32_t opened = tracectl_open(&tracer, &settings);
    if (opened || tracectl_join(&tracer, &thread)) return printf("limit %llu: status %u\n", (unsigned long long)limit, (unsigned)opened) > 0;
    for (int i = 0; i < 3; i++) printf("%u ", (unsigned)tracectl_read(&thread, TEXT("trace")));
    printf("%u ", (unsigned)tracectl_read(&thread, TEXT("no_file")));
    printf("limit %llu: entries: %llu\n", (unsigned long long)limit, (unsigned long long)tracectl_entries(&thread));
    return !tracectl_leave(&thread) && !tracectl_close(&tracer);
}

/* Emits by values more often than a limit of 3 says, of which the declaration takes one; then asks for what is refused in any case. */
static int try_emissions(void) {
    tracectl tracer = TRACECTL_CLOSED;
    tracectl_thread thread = TRACECTL_LEFT;
    tracectl_settings settings = with(3);
    tracectl_value n = tracectl_unsigned(1);
    if (tracectl_open(&tracer, &settings) || tracectl_join(&tracer, &thread) || tracectl_append(&thread, TEXT("synthetic_events"), TEXT("tick u64 n"))) return 0;
    for (int i = 0; i < 3; i++) printf("%u ", (unsigned)tracectl_emit_values(&thread, 1, 0, 7, &n, 1));
    printf("%u ", (unsigned)tracectl_emit_values(&thread, 2, 0, 7, &n, 1));
    printf("emissions by values: entries: %llu\n", (unsigned long long)tracectl_entries(&thread));
    return !tracectl_leave(&thread) && !tracectl_close(&tracer);
}

/* Emits more often than any number of commands or records that a counter of few bits has. */
static int try_many(void) {
    tracectl tracer = TRACECTL_CLOSED;
    tracectl_thread thread = TRACECTL_LEFT;
    tracectl_settings settings = with(0);
    tracectl_value n = tracectl_unsigned(1);
    if (tracectl_open(&tracer, &settings) || tracectl_join(&tracer, &thread) || tracectl_append(&thread, TEXT("synthetic_events"), TEXT("tick u64 n"))) return 0;
    if (tracectl_write(&thread, TEXT("events/enable"), TEXT("1"))) return 0;
    uint32_t status = 0;
    for (int i = 0; i < 2000000 && !status; i++) status = tracectl_emit_values(&thread, 1, 0, 7, &n, 1);
    printf("%u many emissions: entries: %llu\n", (unsigned)status, (unsigned long long)tracectl_entries(&thread));
    return !tracectl_leave(&thread) && !tracectl_close(&tracer);
}

int main(void) {
    return !(try_limit(1) && try_limit(2) && try_limit(0) && try_limit((uint64_t)1 << 32) && try_limit(((uint64_t)1 << 32) + 1)
        && try_limit((uint64_t)1 << 60) && try_limit(UINT64_MAX) && try_emissions() && try_many());
}

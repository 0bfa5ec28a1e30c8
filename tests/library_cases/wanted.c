/* Which events are wanted: what the header keeps, what tracectl_wanted tells, and what TRACECTL_EMIT does by it.
 *
 *   masks          the latest of those that come is kept, whichever thread comes with it
 *   one thread     each bit is right after each line: switches, instances, triggers, tables that are shared, a count that runs out
 *   two threads    switch events and ask, 625,000 times each. A thread's own event is emitted by the macro exactly while the thread has switched it on,
 *                  whatever mask the other one comes with; at rest each bit is what tracectl_wanted tells; all that was emitted is recorded
 *   one to other   a thread switches, another emits after it was told: all are recorded, or none is
 *
 * It is C and C++. */
#include <inttypes.h>
#include <pthread.h>
#include <sched.h>
#include <stdarg.h>
#include <stdio.h>
#include <stdlib.h>
#include <string.h>

#include "tracectl.h"

#ifndef SWITCHES
#define SWITCHES 125000
#endif

enum { CPUS = 4, EVENTS = 64, ROUNDS = 50, EMISSIONS = 1000, FIRST = 1, SECOND, BOTH, LAST = EVENTS };

#define TEXT(text) (text), sizeof(text) - 1

static tracectl tracer = TRACECTL_CLOSED;
static tracectl_thread main_thread = TRACECTL_LEFT;

/* Tells what is wrong, and ends. */
static void fail(const char *format, ...) {
    va_list words;
    va_start(words, format);
    vprintf(format, words);
    printf("\n");
    exit(1);
}

/* ---- Calls, each of which has to be done. ---- */

static void line(tracectl_thread *thread, const char *text) {
    uint32_t status = tracectl_line(thread, text, strlen(text));
    if (status) fail("%s: status %u", text, (unsigned)status);
}

static int asked(tracectl_thread *thread, uint32_t event) {
    int32_t told = tracectl_wanted(thread, event);
    if (told < 0) fail("event %u: refused with %d", (unsigned)event, (int)-told);
    return told;
}

static void begin(uint64_t history_limit) {
    tracectl_settings settings = {CPUS, 2, 4080, history_limit};
    uint32_t status = tracectl_open(&tracer, &settings);
    if (status || tracectl_join(&tracer, &main_thread)) fail("it can't be opened: status %u", (unsigned)status);
}

static void end(void) {
    if (tracectl_leave(&main_thread) || tracectl_close(&tracer)) fail("it can't be closed");
}

/* The sum over all CPUs of the numbers after a word in the statistics of the top instance. */
static uint64_t sum_of(const char *word) {
    uint64_t sum = 0, number;
    char path[64], text[1024];
    for (unsigned cpu = 0; cpu < CPUS; cpu++) {
        int length = snprintf(path, sizeof path, "per_cpu/cpu%u/stats", cpu);
        if (tracectl_read(&main_thread, path, (size_t)length)) fail("no statistics");
        text[tracectl_reply(&main_thread, 0, text, sizeof text - 1)] = 0;
        const char *found = strstr(text, word);
        if (!found || sscanf(found + strlen(word), "%" SCNu64, &number) != 1) fail("no %s", word);
        sum += number;
    }
    return sum;
}

static uint64_t recorded(void) { return sum_of("entries: ") + sum_of("\noverrun: "); }

/* How often the clock has ticked, by the first CPU's statistics: they are all the same. */
static uint64_t ticks(void) { return sum_of("now ts: ") / CPUS; }

/* Each bit is what the tracer tells when it is asked, in which the answer replaces the mask. */
static void compare_bits(const char *when) {
    int bits[EVENTS + 1];
    for (uint32_t event = 1; event <= EVENTS; event++) bits[event] = tracectl_is_wanted(&main_thread, event);
    for (uint32_t event = 1; event <= EVENTS; event++)
        if (bits[event] != asked(&main_thread, event)) fail("%s: event %u has bit %d", when, (unsigned)event, bits[event]);
}

/* ---- The emissions of the macro. ---- */

/* A value, and how often one was evaluated, which is how often an emission was made. */
static inline tracectl_value counted(uint64_t *made) { return tracectl_unsigned(++*made); }

/* Emits, which has to be done, and tells whether an emission was made. */
static int emit(tracectl_thread *thread, uint32_t event) {
    uint64_t made = 0;
    uint32_t status = TRACECTL_EMIT(thread, event, counted(&made));
    if (status || made > 1) fail("event %u: status %u, evaluated %u times", (unsigned)event, (unsigned)status, (unsigned)made);
    return made == 1;
}

/* ---- Masks. ---- */

static void take_masks(void) {
    static const struct tracectl_mask masks[] = {{10, 1}, {20, 2}, {15, 4}, {20, 8}, {0, 16}};
    tracectl other = TRACECTL_CLOSED;
    for (size_t i = 0; i < sizeof masks / sizeof *masks; i++) {
        tracectl_take_mask(&other, &masks[i]);
        printf("a mask of %d commands: that of %d is kept, %d\n", (int)masks[i].entries, (int)other.mask.entries, (int)other.mask.events);
    }
}

static tracectl shared = TRACECTL_CLOSED; /* whose mask two threads replace: that of so many commands has this number as its events */
static uint64_t commands;

/* A thread whose take has returned finds that mask, or a later one. */
static void *take_and_look(void *unused) {
    for (int i = 0; i < SWITCHES * 4; i++) {
        uint64_t count = __atomic_add_fetch(&commands, 1, __ATOMIC_RELAXED);
        struct tracectl_mask mask = {count, count};
        tracectl_take_mask(&shared, &mask);
        uint64_t kept = __atomic_load_n(&shared.mask.events, __ATOMIC_RELAXED);
        if (kept < count) fail("the mask of %" PRIu64 " commands is lost for that of %" PRIu64, count, kept);
    }
    return unused;
}

static void take_masks_in_two_threads(void) {
    pthread_t threads[2];
    for (int i = 0; i < 2; i++)
        if (pthread_create(&threads[i], NULL, take_and_look, NULL)) fail("no thread");
    for (int i = 0; i < 2; i++) pthread_join(threads[i], NULL);
    if (shared.mask.entries != commands || shared.mask.events != commands) fail("the last mask is lost");
    printf("masks of two threads: the latest is kept\n");
}

/* ---- One thread. ---- */

/* Each bit after a line, without and with a question. */
static void show_after(const char *text) {
    line(&main_thread, text);
    int first = tracectl_is_wanted(&main_thread, FIRST), second = tracectl_is_wanted(&main_thread, SECOND);
    printf("%d %d  %s\n", first, second, text);
    compare_bits(text);
}

static void switch_in_one_thread(void) {
    static const char *const lines[] = {
        "echo 'first u64 n' > synthetic_events",
        "echo 'second u64 n' >> synthetic_events",
        "echo 1 > events/synthetic/first/enable",
        "echo 0 > tracing_on",
        "echo 1 > events/enable",
        "echo 1 > tracing_on",
        "echo 'n < 1' > events/synthetic/second/filter",
        "echo 0 > events/synthetic/first/enable",
        "echo 0 > events/enable",
        "mkdir instances/other",
        "echo 1 > instances/other/events/synthetic/second/enable",
        "echo 0 > instances/other/tracing_on",
        "echo 1 > instances/other/tracing_on",
        "rmdir instances/other",
        "echo hist:keys=n > events/synthetic/first/trigger",
        "echo 0 > tracing_on",
        "echo hist:keys=n:pause >> events/synthetic/first/trigger",
        "echo 1 > tracing_on",
        "echo hist:keys=n:cont >> events/synthetic/first/trigger",
        "echo '!hist:keys=n' >> events/synthetic/first/trigger",
        "echo hist:keys=n:name=table > events/synthetic/first/trigger",
        "echo hist:keys=n:name=table >> events/synthetic/second/trigger",
        "echo hist:keys=n:name=table:pause >> events/synthetic/second/trigger",
        "echo hist:keys=n:name=table:cont >> events/synthetic/second/trigger",
        "echo '!hist:keys=n:name=table' >> events/synthetic/first/trigger",
        "echo hist:keys=n:name=table:pause >> events/synthetic/second/trigger",
        "echo '!hist:keys=n:name=table' >> events/synthetic/second/trigger",
        "echo 'hist:keys=n if n < 1' >> events/synthetic/second/trigger",
        "echo '!hist:keys=n if n < 1' >> events/synthetic/second/trigger",
        "echo 'snapshot' > events/synthetic/second/trigger",
        "echo '!snapshot' > events/synthetic/second/trigger",
    };
    for (size_t i = 0; i < sizeof lines / sizeof *lines; i++) show_after(lines[i]);
}

/* An append and a write tell a mask, too. */
static void append_and_write(void) {
    static const char trigger[] = "events/synthetic/second/trigger";
    if (tracectl_append(&main_thread, TEXT(trigger), TEXT("hist:keys=n"))) fail("an append is refused");
    printf("after an append: %d", tracectl_is_wanted(&main_thread, SECOND));
    compare_bits("an append");
    if (tracectl_write(&main_thread, TEXT(trigger), TEXT("!hist:keys=n"))) fail("a write is refused");
    printf(", after a write: %d\n", tracectl_is_wanted(&main_thread, SECOND));
    compare_bits("a write");
}

/* Emits SECOND so often, and tells how many emissions were made, and the bit after them. */
static void emit_and_show(int count) {
    int made = 0;
    for (int i = 0; i < count; i++) made += emit(&main_thread, SECOND);
    printf("emissions: %d of %d, then the bit %d\n", made, count, tracectl_is_wanted(&main_thread, SECOND));
}

/* A snapshot trigger that has run out: its event's bit stays, until a mask comes: by a write, one that is refused, or a question. */
static void run_out(void) {
    show_after("echo snapshot:2 > events/synthetic/second/trigger");
    emit_and_show(3);
    show_after("echo 1 > tracing_on");
    show_after("echo '!snapshot' > events/synthetic/second/trigger");
    show_after("echo snapshot:1 > events/synthetic/second/trigger");
    emit_and_show(1);
    printf("a refused write: status %u, ", (unsigned)tracectl_write(&main_thread, TEXT("options/overwrite"), TEXT("2")));
    printf("then the bit %d\n", tracectl_is_wanted(&main_thread, SECOND));
    show_after("echo '!snapshot' > events/synthetic/second/trigger");
    show_after("echo snapshot:1 > events/synthetic/second/trigger");
    emit_and_show(1);
    printf("a question: %d, ", asked(&main_thread, SECOND));
    printf("then the bit %d\n", tracectl_is_wanted(&main_thread, SECOND));
}

/* What the macro does of an event that is wanted, and of one that isn't. */
static void emit_in_one_thread(void) {
    uint64_t made = 0, clock = ticks(), entries = tracectl_entries(&main_thread);
    for (int i = 0; i < EMISSIONS; i++)
        if (TRACECTL_EMIT(&main_thread, FIRST, counted(&made), counted(&made), counted(&made))) fail("it is refused");
    printf("not wanted: %d values evaluated, %d commands", (int)made, (int)(tracectl_entries(&main_thread) - entries));
    printf(", %d ticks\n", (int)(ticks() - clock));
    line(&main_thread, "echo 1 > events/synthetic/first/enable");
    uint64_t before = recorded();
    entries = tracectl_entries(&main_thread);
    for (int i = 0; i < EMISSIONS; i++)
        if (TRACECTL_EMIT(&main_thread, FIRST, counted(&made))) fail("it is refused");
    printf("wanted: %d values evaluated, %d commands", (int)made, (int)(tracectl_entries(&main_thread) - entries));
    printf(", %d ticks, %d records\n", (int)(ticks() - clock), (int)(recorded() - before));
    printf("wanted, two values: status %u\n", (unsigned)TRACECTL_EMIT(&main_thread, FIRST, counted(&made), counted(&made)));
    printf("no such event: status %u and %u, of event 0 %u, of event 65 %u, bits %d and %d, questions %d and %d\n",
           (unsigned)TRACECTL_EMIT(&main_thread, 3, counted(&made)), (unsigned)TRACECTL_EMIT(&main_thread, LAST, counted(&made)),
           (unsigned)TRACECTL_EMIT(&main_thread, 0, counted(&made)), (unsigned)TRACECTL_EMIT(&main_thread, 65, counted(&made)),
           tracectl_is_wanted(&main_thread, 0), tracectl_is_wanted(&main_thread, 65), (int)tracectl_wanted(&main_thread, 0),
           (int)tracectl_wanted(&main_thread, 65));
    compare_bits("after emissions");
    line(&main_thread, "echo 1 > events/enable");
}

/* Handles that have left, and a tracer that was closed and opened again. */
static void open_again(void) {
    uint64_t made = 0;
    tracectl_thread other = TRACECTL_LEFT;
    printf("not joined: bit %d, question %d, status %u\n", tracectl_is_wanted(&other, FIRST), (int)tracectl_wanted(&other, FIRST),
           (unsigned)TRACECTL_EMIT(&other, FIRST, counted(&made)));
    printf("before a close: events %d\n", (int)tracer.mask.events);
    end();
    begin(4);
    printf("opened again: events %d, entries %d\n", (int)tracer.mask.events, (int)tracer.mask.entries);
    compare_bits("opened again");
    line(&main_thread, "echo 'first u64 n' > synthetic_events");
    line(&main_thread, "echo 1 > events/enable");
    printf("before its limit: %d emissions\n", emit(&main_thread, FIRST) + emit(&main_thread, FIRST));
    printf("at its limit: status %u, a write %u, question %d\n", (unsigned)TRACECTL_EMIT(&main_thread, FIRST, counted(&made)),
           (unsigned)tracectl_write(&main_thread, TEXT("events/enable"), TEXT("0")), (int)tracectl_wanted(&main_thread, FIRST));
    compare_bits("at its limit");
    end();
}

/* All 64 events, of which each third is enabled, then each fifth instead. */
static void switch_all(void) {
    char text[80];
    begin(0);
    for (int event = 1; event <= EVENTS; event++) {
        snprintf(text, sizeof text, "echo 'event%d u64 n' >> synthetic_events", event);
        line(&main_thread, text);
    }
    for (int step = 3; step <= 5; step += 2)
        for (int event = 1; event <= EVENTS; event++) {
            snprintf(text, sizeof text, "echo %d > events/synthetic/event%d/enable", event % step == step - 1, event);
            line(&main_thread, text);
            compare_bits(text);
        }
    printf("of all 64 events: events %" PRIx64 "\n", tracer.mask.events);
    end();
}

/* ---- Two threads. ---- */

/* A thread that switches: its own event, and, as the other one does, what BOTH is wanted by. */
struct switcher {
    tracectl_thread thread;
    uint32_t own;
    int count;         /* how often it switches its own event in this round: on, off and so on */
    const char *file;  /* of its own event's switch */
    uint64_t made;     /* emissions of its own event, each of which is recorded */
    uint64_t made_all; /* and of BOTH */
};

static const char *const of_both[] = {
    "echo 0 > instances/other/tracing_on",
    "echo hist:keys=n:pause >> instances/third/events/synthetic/both/trigger",
    "echo 1 > instances/other/tracing_on",
    "echo hist:keys=n:cont >> instances/third/events/synthetic/both/trigger",
    "echo 0 > instances/other/events/synthetic/both/enable",
    "echo 1 > instances/other/events/synthetic/both/enable",
};

enum { LINES = sizeof of_both / sizeof *of_both };

static void *switch_and_ask(void *given) {
    struct switcher *s = (struct switcher *)given;
    uint32_t status = tracectl_join(&tracer, &s->thread);
    if (status) fail("a thread can't join: status %u", (unsigned)status);
    for (int i = 0; i < s->count; i++) {
        int is_on = i % 2 == 0;
        if (i % 4 < 2) line(&s->thread, of_both[(i / 4 + (int)s->own) % LINES]);
        if (tracectl_write(&s->thread, s->file, strlen(s->file), is_on ? "1" : "0", 1)) fail("a switch is refused");
        int is_made = emit(&s->thread, s->own);
        if (is_made != is_on) fail("switched %s, and an emission %s", is_on ? "on" : "off", is_made ? "was made" : "was not made");
        s->made += (uint64_t)is_made;
        if (tracectl_is_wanted(&s->thread, s->own) != is_on || asked(&s->thread, s->own) != is_on) fail("the bit is wrong");
        s->made_all += (uint64_t)(is_made + emit(&s->thread, BOTH));
        asked(&s->thread, BOTH);
    }
    if (tracectl_leave(&s->thread)) fail("a thread can't leave");
    return NULL;
}

static void switch_in_two_threads(void) {
    static struct switcher switchers[2] = {
        {TRACECTL_LEFT, FIRST, 0, "events/synthetic/first/enable", 0, 0}, {TRACECTL_LEFT, SECOND, 0, "events/synthetic/second/enable", 0, 0}};
    pthread_t threads[2];
    for (int round = 0; round < ROUNDS; round++) {
        for (int i = 0; i < 2; i++) {
            switchers[i].count = SWITCHES / ROUNDS / 2 * 2 - (round + i) % 2; /* so one event is on at the end, and one off */
            if (pthread_create(&threads[i], NULL, switch_and_ask, &switchers[i])) fail("no thread");
        }
        for (int i = 0; i < 2; i++) pthread_join(threads[i], NULL);
        compare_bits("at rest");
    }
    uint64_t made = switchers[0].made + switchers[1].made, made_all = switchers[0].made_all + switchers[1].made_all;
    if (recorded() != made || ticks() != made_all) fail("%" PRIu64 " records, %" PRIu64 " ticks, %" PRIu64 " made", recorded(), ticks(), made);
    printf("two threads: every bit, record and tick is right\n");
}

/* ---- From one thread to another. ---- */

static int turn; /* of whom: of the one that switches if it is even */

static void wait_for(int wanted) {
    while (__atomic_load_n(&turn, __ATOMIC_ACQUIRE) != wanted) sched_yield();
}

static void *emit_when_told(void *unused) {
    tracectl_thread thread = TRACECTL_LEFT;
    if (tracectl_join(&tracer, &thread)) fail("a thread can't join");
    for (int round = 0; round < ROUNDS; round++) {
        wait_for(2 * round + 1);
        for (int i = 0; i < EMISSIONS; i++)
            if (emit(&thread, FIRST) != (round % 2 == 0)) fail("round %d: emission %d %s made", round, i, round % 2 ? "was" : "was not");
        __atomic_store_n(&turn, 2 * round + 2, __ATOMIC_RELEASE);
    }
    if (tracectl_leave(&thread)) fail("a thread can't leave");
    return unused;
}

static void tell_another(void) {
    pthread_t other;
    if (pthread_create(&other, NULL, emit_when_told, NULL)) fail("no thread");
    for (int round = 0; round < ROUNDS; round++) {
        uint64_t records = recorded(), clock = ticks(), wanted = round % 2 ? 0 : EMISSIONS;
        line(&main_thread, round % 2 ? "echo 0 > events/synthetic/first/enable" : "echo 1 > events/synthetic/first/enable");
        __atomic_store_n(&turn, 2 * round + 1, __ATOMIC_RELEASE);
        wait_for(2 * round + 2);
        if (recorded() - records != wanted || ticks() - clock != wanted) fail("round %d: %" PRIu64 " records", round, recorded() - records);
    }
    pthread_join(other, NULL);
    printf("one to another: all are recorded, or none is\n");
}

int main(void) {
    static const char *const lines[] = {
        "echo 'first u64 n' > synthetic_events", "echo 'second u64 n' >> synthetic_events", "echo 'both u64 n' >> synthetic_events",
        "mkdir instances/other", "mkdir instances/third", "echo hist:keys=n:size=128 > instances/third/events/synthetic/both/trigger",
    };
    take_masks();
    take_masks_in_two_threads();
    begin(0);
    switch_in_one_thread();
    append_and_write();
    run_out();
    emit_in_one_thread();
    open_again();
    switch_all();
    begin(0);
    for (size_t i = 0; i < sizeof lines / sizeof *lines; i++) line(&main_thread, lines[i]);
    switch_in_two_threads();
    tell_another();
    end();
    return 0;
}

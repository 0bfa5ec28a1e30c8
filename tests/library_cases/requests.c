/* What a kernel might never ask of a mount: 100,000 requests, most of which are wrong, served while three threads emit. Each reply is framed as its header
 * says and is for the request, nothing is written beyond the room that it was given, and each emission is counted. After that a request that is right is
 * served as ever, a read waits and is told, and all is closed. Also the statuses of mounts that need no mount. REQUESTS is how many. */
#include <pthread.h>
#include <stdio.h>
#include <stdlib.h>
#include <string.h>
#include "tracectl.h"

#ifndef REQUESTS
#define REQUESTS 100000
#endif

enum { THREADS = 3, TICK = 1, MOST = 135168, BEYOND = 64, MARK = 0x5a, INIT = 26, LOOKUP = 1, OPEN = 14, READ = 15, RELEASE = 18, INTERRUPT = 36, POLL = 40 };
enum { READ_LOCKOWNER = 2 }; /* of a read that no cache makes */

struct header {
    uint32_t length, opcode;
    uint64_t unique, node;
    uint32_t uid, gid, pid, padding;
};

struct told {
    uint32_t length;
    int32_t error;
    uint64_t unique;
};

static tracectl tracer = TRACECTL_CLOSED;
static tracectl_thread thread = TRACECTL_LEFT;
static uint64_t state = 88172645463325252u, emitted, last;
static int is_over;
static char request[MOST + BEYOND], reply[MOST + BEYOND];

static int fail(const char *what) {
    printf("%s\n", what);
    exit(1);
}

static void tell(const char *what, uint32_t status) { printf("%s: %s\n", what, tracectl_status_name(status)); }

static uint32_t line(const char *text) { return tracectl_line(&thread, text, strlen(text)); }

/* ---- Threads that emit. ---- */

static void *emit(void *unused) {
    tracectl_thread own = TRACECTL_LEFT;
    uint64_t count = 0;
    if (tracectl_join(&tracer, &own)) fail("a thread can't join");
    for (; !__atomic_load_n(&is_over, __ATOMIC_RELAXED); count++)
        if (TRACECTL_EMIT(&own, TICK, tracectl_unsigned(count))) fail("an emission is refused");
    __atomic_add_fetch(&emitted, count, __ATOMIC_RELAXED);
    if (tracectl_leave(&own)) fail("a thread can't leave");
    return unused;
}

/* ---- Requests. ---- */

/* Has one served by tries. In a room that is this long the reply is cut, but its length is told. */
static uint32_t serve(size_t length, size_t room, size_t *reply_length) {
    struct tracectl_console *console = &thread.seat->console;
    uint32_t owes = 0, tries = 0, status;
    memset(reply + room, MARK, BEYOND);
    while ((status = tracectl_try_answer(console, request, length, reply, room, reply_length, &owes)) == TRACECTL_TRY_BUSY) tracectl_wait(console, ++tries);
    for (int i = 0; i < BEYOND; i++)
        if (reply[room + (size_t)i] != MARK) fail("a reply is longer than its room");
    return status;
}

/* Takes all that is owed. Has how many messages that are. */
static int take_owed(void) {
    struct tracectl_console *console = &thread.seat->console;
    uint32_t owes = 1, tries = 0, status;
    size_t length;
    int count = 0;
    while (owes) {
        while ((status = tracectl_try_tell(console, reply, MOST, &length, &owes)) == TRACECTL_TRY_BUSY) tracectl_wait(console, ++tries);
        if (status == TRACECTL_TRY_NOT_NOW) break;
        if (status || length < sizeof(struct told)) fail("what is owed is not told");
        reply[length] = 0;
        count++;
    }
    return count;
}

/* Writes a request of a header and a body. Has its length. */
static size_t ask(uint32_t opcode, uint64_t node, const void *body, size_t length) {
    struct header head = {(uint32_t)(sizeof head + length), opcode, last += 2, node, 0, 0, 7, 0};
    memcpy(request, &head, sizeof head);
    if (length) memcpy(request + sizeof head, body, length);
    return sizeof head + length;
}

/* Has a request served that is right. Has its error; what it replied is after the header. */
static int32_t served(uint32_t opcode, uint64_t node, const void *body, size_t length) {
    size_t reply_length = 0;
    struct told told;
    uint32_t status;
    while ((status = serve(ask(opcode, node, body, length), MOST, &reply_length)) == TRACECTL_TRY_NOT_NOW) take_owed();
    if (status) fail("a request is refused");
    if (!reply_length) return 1; /* it waits */
    memcpy(&told, reply, sizeof told);
    if (told.unique != last || told.length != reply_length) fail("a reply is wrong");
    return told.error;
}

static uint64_t number_told(void) {
    uint64_t number;
    memcpy(&number, reply + sizeof(struct told), sizeof number);
    return number;
}

/* Looks a path up. Has its node. */
static uint64_t found(const char *path) {
    uint64_t node = 1;
    char name[64];
    for (const char *at = path; *at; at += strcspn(at, "/"), at += *at == '/') {
        snprintf(name, sizeof name, "%.*s", (int)strcspn(at, "/"), at);
        if (served(LOOKUP, node, name, strlen(name) + 1)) fail("a file is missing");
        node = number_told();
    }
    return node;
}

static uint64_t opened(const char *path, uint32_t flags) {
    uint32_t body[2] = {flags, 0};
    if (served(OPEN, found(path), body, sizeof body)) fail("a file can't be opened");
    return number_told();
}

/* Reads from a handle: has the error, or 1 if it waits. */
static int32_t read_of(uint64_t handle) {
    struct { uint64_t handle, offset; uint32_t size, flags; uint64_t owner; uint32_t open, padding; } body = {handle, 0, 4096, READ_LOCKOWNER, 1, 0, 0};
    return served(READ, 1, &body, sizeof body);
}

static void release(uint64_t handle) {
    uint64_t body[3] = {handle, 0, 0};
    if (served(RELEASE, 1, body, sizeof body)) fail("a file can't be closed");
}

/* ---- Wrong ones. ---- */

static uint64_t any(uint64_t below) {
    state ^= state << 13;
    state ^= state >> 7;
    state ^= state << 17;
    return state % below;
}

/* Writes a request that may be wrong in any way: in its length, its operation, its numbers, its body. Has how many bytes of it are handed over. */
static size_t make_wrong(void) {
    static const uint32_t OPCODES[] = {1, 3, 4, 9, 11, OPEN, READ, RELEASE, 25, INIT, 27, 28, INTERRUPT, POLL};
    uint32_t opcode = any(4) ? OPCODES[any(sizeof OPCODES / sizeof *OPCODES)] : (uint32_t)any(any(2) ? 64 : UINT32_MAX);
    size_t length = any(8) ? any(80) : any(5000);
    char body[5000];
    for (size_t i = 0; i < length; i++) body[i] = any(3) ? (char)any(3) : (char)any(256);
    size_t whole = ask(opcode, any(4) ? any(300) : any(UINT64_MAX), body, length);
    if (!any(8)) request[any(4)] = (char)any(256); /* the length that it tells */
    if (!any(8)) whole = any(whole + 1);
    if (!any(2000)) whole = MOST;
    return whole;
}

/* Has one served, and looks at what that came to. */
static void serve_wrong(void) {
    struct told told;
    size_t length = make_wrong(), reply_length = 0, room = any(4) ? MOST : any(200);
    uint32_t status = serve(length, room, &reply_length);
    if (status == TRACECTL_TRY_NOT_NOW) {
        if (!take_owed()) fail("nothing is owed");
        return;
    }
    if (status != (length ? TRACECTL_DONE : TRACECTL_BAD_VALUE)) fail("a request has another status");
    if (!reply_length || room < sizeof told) return;
    memcpy(&told, reply, sizeof told);
    if (told.length != reply_length || told.error > 0 || told.error < -4095 || told.unique != last) fail("a reply is wrong");
}

/* ---- What is tried. ---- */

static void try_statuses(void) {
    tracectl limited = TRACECTL_CLOSED;
    tracectl_thread none = TRACECTL_LEFT;
    tracectl_settings settings = {.cpus = 1, .pages = 2, .page_bytes = 64, .history_limit = 5};
    size_t length = 9;
    uint32_t owes = 9;
    struct tracectl_console nobody = {0, 0};
    tell("a mount of a closed tracer", tracectl_mount(&limited, "/", 0));
    tell("an unmount of one", tracectl_unmount(&limited));
    if (tracectl_open(&limited, &settings)) fail("it can't be opened");
    tell("a mount with a limit", tracectl_mount(&limited, "/", 0));
    if (tracectl_close(&limited)) fail("it can't be closed");
    tell("an unmount", tracectl_unmount(&tracer));
    tell("a mount on what is not there", tracectl_mount(&tracer, "/none/none", 0));
    tell("a mount on a file", tracectl_mount(&tracer, "/proc/self/status", 0));
    tell("a mount on /", tracectl_mount(&tracer, "/", 0));
    tell("a mount with other flags", tracectl_mount(&tracer, "/", 2));
    tell("a request of a thread that has not joined", tracectl_try_answer(&nobody, request, 40, reply, MOST, &length, &owes));
    tell("what is owed, asked by one", tracectl_try_tell(&nobody, reply, MOST, &length, &owes));
    tell("an empty request", tracectl_try_answer(&thread.seat->console, request, 0, reply, MOST, &length, &owes));
    tell("what is owed where nothing is", tracectl_try_tell(&thread.seat->console, reply, MOST, &length, &owes));
    tell("a join within a call", tracectl_begin(&thread) ? TRACECTL_DONE : tracectl_join(&tracer, &none));
    tell("a mount within a call", tracectl_mount(&tracer, "/", 0));
    tell("a close within a call", tracectl_close(&tracer));
    tracectl_end(&thread);
}

/* A read waits until something happens, which is owed then: until it is told nothing else is served. */
static void try_waiting(void) {
    uint64_t pipe = opened("instances/quiet/trace_pipe", 0);
    size_t length;
    printf("a read: %s\n", read_of(pipe) == 1 ? "it waits" : "it is told");
    if (line("echo 1 > instances/quiet/events/synthetic/tick/enable")) fail("it can't be enabled");
    tell("an emission", TRACECTL_EMIT(&thread, TICK, tracectl_unsigned(77)));
    tell("a request then", serve(ask(LOOKUP, 1, "trace", 6), MOST, &length));
    printf("owed: %d\n", take_owed());
    printf("read: %s\n", strstr(reply + sizeof(struct told), "tick: n=77\n") ? "the record" : "something else");
    release(pipe);
}

static void try_wrong(void) {
    pthread_t threads[THREADS];
    char text[64];
    for (int i = 0; i < THREADS; i++)
        if (pthread_create(&threads[i], NULL, emit, NULL)) fail("a thread can't be started");
    for (int i = 0; i < REQUESTS; i++) serve_wrong();
    __atomic_store_n(&is_over, 1, __ATOMIC_RELAXED);
    for (int i = 0; i < THREADS; i++) pthread_join(threads[i], NULL);
    take_owed();
    if (tracectl_read(&thread, "events/synthetic/tick/hist", 26)) fail("the histogram can't be read");
    size_t length = tracectl_reply(&thread, 0, reply, MOST - 1);
    reply[length] = 0;
    snprintf(text, sizeof text, "    Hits: %llu\n", (unsigned long long)emitted);
    printf("requests: %d, emissions: %s, counted: %s\n", REQUESTS, emitted ? "some" : "none", strstr(reply, text) ? "all" : reply);
}

int main(void) {
    tracectl_settings settings = {.cpus = 4, .pages = 16, .page_bytes = 4080, .history_limit = 0};
    if (tracectl_open(&tracer, &settings) || tracectl_join(&tracer, &thread)) return 1;
    try_statuses();
    if (line("echo 'tick u64 n' >> synthetic_events") || line("mkdir instances/quiet")) return 1;
    if (line("echo 'hist:keys=common_pid' > events/synthetic/tick/trigger")) return 1;
    try_wrong();
    try_waiting();
    return tracectl_leave(&thread) || tracectl_close(&tracer);
}

/* A library for LD_PRELOAD that traces who allocates, in a program that nobody compiled for it: its malloc, calloc, realloc, posix_memalign, aligned_alloc,
 * memalign and free are those below, which call the next ones of these names, mostly the C library's, and emit
 *
 *     malloc u64 call_site; u64 bytes_req; u64 ptr; u64 old     an allocation: where it was called, the bytes asked for, the block (0 if there is none),
 *                                                               and the one that realloc was given
 *     free u64 call_site; u64 ptr                               before the block is free
 *
 * examples/preload/trace-malloc starts a program with it. Its settings come by the environment:
 *
 *     TRACE_MALLOC_LINES     lines that are done first, by default one that counts each caller's bytes
 *     TRACE_MALLOC_REPORT    the file that a report is written to when the program exits, after all its destructors, or ends by _exit
 *     TRACE_MALLOC_SHOWN     the tracer's file that the report shows, by default the histogram of malloc
 *     TRACE_MALLOC_MOUNT     the folder on which the tracer is mounted while the program runs; then no line is done by default
 *
 * With the last one the tracer's files are in that folder, for shells and other programs, until the program exits. Meanwhile the process has one thread and
 * two descriptors more (mount.c).
 *
 * Before main it takes these and itself out of the environment, so what the program starts runs without it. In a child, after a fork, nothing is traced.
 * Only where the traced process itself goes on as another program, by an exec, they are put back: that is traced from its beginning, as the programs are
 * that scripts exec.
 *
 * A call is traced unless it is made within the tracer, by a thread whose thread-specific data is being destroyed, or by more threads than a tracer has
 * passes; those of the last two kinds are counted. What the tracer itself needs comes from mmap. */
#define _GNU_SOURCE
#include <dlfcn.h>
#include <errno.h>
#include <fcntl.h>
#include <pthread.h>
#include <sched.h>
#include <stdarg.h>
#include <stdint.h>
#include <stdio.h>
#include <stdlib.h>
#include <string.h>
#include <unistd.h>
#include "trace_malloc.h"

#define OF_THREAD static __thread __attribute__((tls_model("initial-exec"))) /* which allocates nothing */

/* ---- What calls go on to. ---- */

static struct {
    void *(*malloc)(size_t);
    void *(*calloc)(size_t, size_t);
    void *(*realloc)(void *, size_t);
    void (*free)(void *);
    int (*posix_memalign)(void **, size_t, size_t);
    void *(*aligned_alloc)(size_t, size_t);
    void *(*memalign)(size_t, size_t);
} next;

/* Until those are known: dlsym may allocate. Nothing of it is given back. */
enum { HEAD = 16 }; /* before a block, with its size */
static _Alignas(16) char early[16384];
static size_t early_used;

static void *early_block(size_t bytes) {
    size_t from, whole = (bytes + HEAD + 15) & ~(size_t)15;
    if (bytes > sizeof early) return NULL;
    from = __atomic_fetch_add(&early_used, whole, __ATOMIC_RELAXED);
    if (from + whole > sizeof early) return NULL;
    *(size_t *)(early + from) = bytes;
    return early + from + HEAD;
}

static int is_early(const void *place) {
    return (const char *)place >= early && (const char *)place < early + sizeof early;
}

static int find_next(void) {
    *(void **)&next.malloc = dlsym(RTLD_NEXT, "malloc");
    *(void **)&next.realloc = dlsym(RTLD_NEXT, "realloc");
    *(void **)&next.posix_memalign = dlsym(RTLD_NEXT, "posix_memalign");
    *(void **)&next.aligned_alloc = dlsym(RTLD_NEXT, "aligned_alloc");
    *(void **)&next.memalign = dlsym(RTLD_NEXT, "memalign");
    *(void **)&next.free = dlsym(RTLD_NEXT, "free");
    *(void **)&next.calloc = dlsym(RTLD_NEXT, "calloc");
    return next.malloc && next.calloc && next.realloc && next.free && next.posix_memalign && next.aligned_alloc && next.memalign;
}

/* ---- The tracer. ---- */

enum { MALLOC = 1, FREE = 2 }; /* events, in the order in which they are declared */
enum { NOT_BEGUN, BEGINNING, ON, OFF };

static const char *const DECLARED[] = {
    "echo 'malloc u64 call_site; u64 bytes_req; u64 ptr; u64 old' >> synthetic_events",
    "echo 'free u64 call_site; u64 ptr' >> synthetic_events",
};
static const char BY_DEFAULT[] = "echo 'hist:keys=call_site.hex:vals=bytes_req:sort=bytes_req.descending' > events/synthetic/malloc/trigger";
static const char SHOWN_BY_DEFAULT[] = "events/synthetic/malloc/hist";

static int state;
static tracectl tracer = TRACECTL_CLOSED;
static pthread_key_t key; /* of threads that joined, or could not */

OF_THREAD tracectl_thread handle;
OF_THREAD int inside; /* a call within another one is the tracer's own */
OF_THREAD int has_ended;

/* ---- How many calls were traced. Each thread counts its own, so that none waits for another. A thread's own memory goes when it ends, so counts are not
 * there. ---- */

struct counts {
    uint64_t of[FREE + 1]; /* of each event */
    struct counts *next;
};

OF_THREAD struct counts *own;     /* once it has joined */
static struct counts *of_threads; /* that have joined */
static uint64_t of_ended[FREE + 1];
static uint64_t untraced;
static int counts_lock;

static void lock_counts(void) {
    while (__atomic_exchange_n(&counts_lock, 1, __ATOMIC_ACQUIRE)) sched_yield();
}

static void unlock_counts(void) {
    __atomic_store_n(&counts_lock, 0, __ATOMIC_RELEASE);
}

static int has_begun_counts(void) {
    if (!(own = __wrap_malloc(sizeof *own))) return 0;
    memset(own, 0, sizeof *own);
    lock_counts();
    own->next = of_threads;
    of_threads = own;
    unlock_counts();
    return 1;
}

static void end_counts(void) {
    lock_counts();
    struct counts **at = &of_threads;
    while (*at != own) at = &(*at)->next;
    *at = own->next;
    for (int event = 0; event <= FREE; event++) of_ended[event] += own->of[event];
    unlock_counts();
    __wrap_free(own);
}

/* A report of another thread may read the count meanwhile. */
static inline void count_call(uint32_t event) {
    __atomic_store_n(&own->of[event], own->of[event] + 1, __ATOMIC_RELAXED);
}

/* The calls of all threads. */
static uint64_t count_of(uint32_t event) {
    lock_counts();
    uint64_t count = of_ended[event];
    for (struct counts *each = of_threads; each; each = each->next) count += __atomic_load_n(&each->of[event], __ATOMIC_RELAXED);
    unlock_counts();
    return count;
}

/* ---- Threads that join, and the tracer that is opened. ---- */

static void tell(const char *format, ...) {
    char line[5000];
    va_list values;
    va_start(values, format);
    int length = vsnprintf(line, sizeof line, format, values);
    va_end(values);
    if (length > 0 && write(STDERR_FILENO, line, (size_t)length < sizeof line ? (size_t)length : sizeof line - 1) < 0) return;
}

/* A thread ends. If it has joined, it leaves before tracectl.c would let it, as that would not tell this handle; what comes after this is not traced. */
static void leave(void *unused) {
    (void)unused;
    inside = 1;
    has_ended = 1;
    if (handle.seat) {
        end_counts();
        tracectl_leave(&handle);
    }
    inside = 0;
}

/* Whether this thread has joined. `leave` is called even if it could not: else it might join for what glibc frees once its keys are gone, and nobody would let
 * it leave. */
static int is_joined(void) {
    if (handle.seat) return 1;
    if (has_ended || pthread_setspecific(key, &handle) || tracectl_join(&tracer, &handle)) return 0;
    if (has_begun_counts()) return 1;
    tracectl_leave(&handle);
    return 0;
}

static void stop_in_child(void) {
    is_memory_closed = 1;
    state = OFF;
}

static void do_lines(const char *lines) {
    while (*lines) {
        size_t length = strcspn(lines, "\n");
        uint32_t status = tracectl_line(&handle, lines, length);
        if (status) tell("trace-malloc: %.*s: refused: %s\n", (int)length, lines, tracectl_status_name(status));
        lines += length + (lines[length] == '\n');
    }
}

/* Opens a tracer with both events. */
static int is_opened(void) {
    long processors = sysconf(_SC_NPROCESSORS_ONLN);
    tracectl_settings settings = {.cpus = processors < 1 ? 1 : processors > 8 ? 8 : (uint32_t)processors, .pages = 64, .page_bytes = 4080};
    if (pthread_key_create(&key, leave) || pthread_atfork(NULL, NULL, stop_in_child)) return 0;
    if (tracectl_open(&tracer, &settings) || !is_joined()) return 0;
    do_lines(DECLARED[0]);
    do_lines(DECLARED[1]);
    return 1;
}

/* The first call begins. What other threads call meanwhile is not traced. */
static void begin(void) {
    int not_begun = NOT_BEGUN;
    if (!__atomic_compare_exchange_n(&state, &not_begun, BEGINNING, 0, __ATOMIC_ACQUIRE, __ATOMIC_RELAXED)) return;
    inside = 1;
    int error = errno;
    take_settings();
    if (!find_next()) {
        tell("trace-malloc: there is no malloc to call\n");
        abort();
    }
    int is_on = is_opened();
    if (is_on) do_lines(setting(LINES, setting(MOUNT, NULL) ? "" : BY_DEFAULT));
    else tell("trace-malloc: no tracer can be opened, so nothing is traced\n");
    errno = error;
    inside = 0;
    __atomic_store_n(&state, is_on ? ON : OFF, __ATOMIC_RELEASE);
}

/* Joins for the first call of a thread. If it can't, the call is not traced. */
static int joins(void) {
    inside = 1;
    int has_joined = is_joined();
    inside = 0;
    if (!has_joined) __atomic_fetch_add(&untraced, 1, __ATOMIC_RELAXED);
    return has_joined;
}

/* Whether a call is to be emitted. Most calls of an event that nobody wants do no more than this. */
static inline int is_emitted(uint32_t event) {
    if (__builtin_expect(inside, 0)) return 0;
    if (__builtin_expect(__atomic_load_n(&state, __ATOMIC_ACQUIRE) != ON, 0)) {
        if (state == OFF) return 0;
        begin();
        if (state != ON) return 0;
    }
    if (__builtin_expect(!handle.seat, 0) && !joins()) return 0;
    return tracectl_is_wanted(&handle, event);
}

/* Emits a call, and counts it. */
static inline void emit(uint32_t event, const tracectl_value *values, size_t length) {
    int error = errno;
    inside = 1;
    if (tracectl_emit_here(&handle, event, values, length)) __atomic_fetch_add(&untraced, 1, __ATOMIC_RELAXED);
    else count_call(event);
    inside = 0;
    errno = error;
}

static inline void emit_malloc(const void *call_site, size_t bytes, const void *block, const void *old) {
    if (!is_emitted(MALLOC)) return;
    const tracectl_value values[] = {tracectl_unsigned((uintptr_t)call_site), tracectl_unsigned(bytes), tracectl_unsigned((uintptr_t)block),
                                     tracectl_unsigned((uintptr_t)old)};
    emit(MALLOC, values, 4);
}

/* Apart from `free`, most calls of which do not come here. */
static __attribute__((noinline)) void emit_free(const void *call_site, const void *block) {
    const tracectl_value values[] = {tracectl_unsigned((uintptr_t)call_site), tracectl_unsigned((uintptr_t)block)};
    emit(FREE, values, 2);
}

/* ---- The functions in place of the C library's. ---- */

#define HERE __builtin_return_address(0)

EXPORTED void *malloc(size_t bytes) {
    if (__builtin_expect(!next.malloc, 0)) begin();
    void *block = next.malloc ? next.malloc(bytes) : early_block(bytes);
    emit_malloc(HERE, bytes, block, NULL);
    return block;
}

EXPORTED void *calloc(size_t count, size_t bytes) {
    if (__builtin_expect(!next.calloc, 0)) begin();
    void *block = next.calloc ? next.calloc(count, bytes) : early_block(count * bytes); /* dlsym asks for little, and the array is of zeros */
    emit_malloc(HERE, count * bytes, block, NULL);
    return block;
}

EXPORTED void *realloc(void *old, size_t bytes) {
    void *block;
    if (__builtin_expect(!next.realloc, 0)) begin();
    if (__builtin_expect(is_early(old), 0)) {
        size_t before = ((size_t *)old)[-2];
        block = next.malloc ? next.malloc(bytes) : early_block(bytes);
        if (block) memcpy(block, old, before < bytes ? before : bytes);
    } else {
        block = next.realloc ? next.realloc(old, bytes) : early_block(bytes);
    }
    emit_malloc(HERE, bytes, block, old);
    return block;
}

/* No thread joins for a null pointer: glibc frees some of each thread that has ended, also of one that did nothing. */
EXPORTED void free(void *block) {
    if (__builtin_expect(is_early(block), 0)) return;
    if (__builtin_expect(!next.free, 0)) begin();
    if ((block || handle.seat) && is_emitted(FREE)) emit_free(HERE, block);
    if (next.free) next.free(block);
}

EXPORTED int posix_memalign(void **to, size_t alignment, size_t bytes) {
    if (!next.posix_memalign) begin();
    int error = next.posix_memalign ? next.posix_memalign(to, alignment, bytes) : ENOMEM;
    emit_malloc(HERE, bytes, error ? NULL : *to, NULL);
    return error;
}

EXPORTED void *aligned_alloc(size_t alignment, size_t bytes) {
    if (!next.aligned_alloc) begin();
    void *block = next.aligned_alloc ? next.aligned_alloc(alignment, bytes) : NULL;
    emit_malloc(HERE, bytes, block, NULL);
    return block;
}

EXPORTED void *memalign(size_t alignment, size_t bytes) {
    if (!next.memalign) begin();
    void *block = next.memalign ? next.memalign(alignment, bytes) : NULL;
    emit_malloc(HERE, bytes, block, NULL);
    return block;
}

/* ---- The report. ---- */

enum { SITES = 4096 };

/* Writes where in which file a call site is, with the function's name if that is known. */
static void show_site(int file, uintptr_t site) {
    Dl_info found;
    if (!dladdr((void *)site, &found) || !found.dli_fname) dprintf(file, "%lx: unknown\n", (unsigned long)site);
    else
        dprintf(file, "%lx: %s+0x%lx%s%s\n", (unsigned long)site, found.dli_fname, (unsigned long)(site - (uintptr_t)found.dli_fbase),
                found.dli_sname ? " in " : "", found.dli_sname ? found.dli_sname : "");
}

/* Writes of each entry's call site in the text of a histogram where it is. */
static void show_sites(int file, const char *text) {
    static const char before[] = "{ call_site: ";
    int base = strstr(text, "call_site.hex") ? 16 : 10;
    for (const char *at = text; (at = strstr(at, before)); at++) show_site(file, strtoul(at + sizeof before - 1, NULL, base));
}

static void write_whole(int file, const char *text, size_t length) {
    for (ssize_t count; length && (count = write(file, text, length)) > 0; text += count, length -= (size_t)count) {}
}

static void write_report(void *unused) {
    (void)unused;
    const char *report = setting(REPORT, ""), *shown = setting(SHOWN, SHOWN_BY_DEFAULT);
    if (state != ON || inside || !*report) return;
    inside = 1;
    unsigned long long mallocs = count_of(MALLOC), frees = count_of(FREE), others = __atomic_load_n(&untraced, __ATOMIC_RELAXED);
    int file = open(report, O_WRONLY | O_CREAT | O_TRUNC | O_CLOEXEC, 0666);
    if (file < 0) {
        tell("trace-malloc: %s: %s\n", report, strerror(errno));
        return;
    }
    dprintf(file, "malloc: %llu\nfree: %llu\nnot traced: %llu\n", mallocs, frees, others);
    uint32_t status = is_joined() ? tracectl_read(&handle, shown, strlen(shown)) : TRACECTL_NO_PASS_LEFT;
    size_t length = status ? 0 : tracectl_reply_length(&handle);
    char *text = mapped(length + 1);
    if (status || !text) dprintf(file, "%s: refused: %s\n", shown, tracectl_status_name(status ? status : TRACECTL_MEMORY));
    else {
        tracectl_reply(&handle, 0, text, length);
        write_whole(file, text, length);
        show_sites(file, text);
    }
    close(file);
}

/* Programs that end at once, as some shells do, have a report, too, and their mount is taken away. */
EXPORTED void _exit(int status) {
    void (*next_exit)(int);
    *(void **)&next_exit = dlsym(RTLD_NEXT, "_exit");
    if (getpid() == traced && !inside) {
        write_report(NULL);
        inside = 1;
        tracectl_unmount(&tracer);
    }
    next_exit(status);
    __builtin_unreachable();
}

EXPORTED void _Exit(int status) {
    _exit(status);
}

extern int __cxa_atexit(void (*function)(void *), void *argument, void *object);

/* What is registered here, before main is begun and of no object, is called after all destructors. */
__attribute__((constructor)) static void prepare(void) {
    begin();
    inside = 1;
    traced = getpid();
    leave_environment();
    if (__cxa_atexit(write_report, NULL, NULL)) tell("trace-malloc: there will be no report\n");
    uint32_t status = state == ON && setting(MOUNT, NULL) ? mount_tracer(&tracer, setting(MOUNT, NULL)) : TRACECTL_DONE;
    if (status) tell("trace-malloc: %s can't be mounted on: %s\n", setting(MOUNT, NULL), tracectl_status_name(status));
    inside = 0;
}

/* What tracectl.h says of a tracer's handle, of threads that come and go, and of statuses' names; and, compiled for who calls them by name, the functions of
 * the header. Both libraries contain it, libtracectl_c.a and libtracectl.so (examples/c/build).
 *
 * A tracer's handle is used under one lock of the process: threads join and leave seldom. What calls do to the tracer they do under the lock of the proved
 * part, of which each makes one try. */
#define _GNU_SOURCE
#define TRACECTL_FUNCTION extern inline /* without `inline`, -fPIC lets no function of this file be inlined in another */
#include "tracectl_mounted.h"

#include <errno.h>
#include <sched.h>
#include <stdlib.h>
#include <sys/syscall.h>
#include <unistd.h>

volatile uint32_t tracectl_forks;

static pthread_mutex_t lock = PTHREAD_ERRORCHECK_MUTEX_INITIALIZER_NP;
static pthread_once_t once = PTHREAD_ONCE_INIT;
static pthread_key_t key; /* of a thread: the first of its seats */
static int is_ready;

/* ---- Trying again. ---- */

enum { FIRST_PAUSES = 8, DOUBLINGS = 8, MOST_PAUSES = FIRST_PAUSES << DOUBLINGS };
enum { TRIES_OUT_OF_LINE = 12, SERVERS_TRIES_OUT_OF_LINE = 100, MOST_TRIES_OUT_OF_LINE = 1000 };
enum { TRIES_BEFORE_YIELDING = 1000, LONG_IN_LINE = 20000, LATE_WAITS = 1000 };

/* How many more waits get in line late, since one in line was long: a thread before it was not running, as where more threads are at work than there are
 * processors. Then a line makes all wait for that one, while out of line whoever runs goes on. */
static uint32_t late_waits;

static void pause_so_often(uint32_t count) {
    for (uint32_t i = 0; i < count; i++) {
#if defined(__x86_64__) || defined(__i386__)
        __builtin_ia32_pause();
#elif defined(__aarch64__)
        __asm__ __volatile__("yield");
#endif
    }
}

/* Whether it is time to get in line after this try: soon, so that no wait is much longer than others, unless lines are slow now. A mount's server gets there
 * later, so that threads which emit go before it while they fight for turns. */
static int is_to_line_up(const struct tracectl_seat *seat, uint32_t tries) {
    if (tries < TRIES_OUT_OF_LINE || tries >= MOST_TRIES_OUT_OF_LINE) return tries >= MOST_TRIES_OUT_OF_LINE;
    uint32_t late = __atomic_load_n(&late_waits, __ATOMIC_RELAXED);
    if (late && tries == TRIES_OUT_OF_LINE) __atomic_store_n(&late_waits, late - 1, __ATOMIC_RELAXED);
    return !late && (!seat->is_server || tries >= SERVERS_TRIES_OUT_OF_LINE);
}

/* Out of line each failure doubles the pauses, so that whoever has the tracer does several calls in a row, and its memory goes from core to core less
 * often. In line all others wait for this thread once its ticket is served, so it looks without a pause, and lets others run after a while. */
void tracectl_wait(struct tracectl_console *console, uint32_t tries) {
    struct tracectl_seat *seat = (struct tracectl_seat *)console; /* which begins with it */
    if (tries == 1) seat->lined_up = 0;
    if (!seat->lined_up && is_to_line_up(seat, tries)) seat->lined_up = tries;
    if (!seat->lined_up) {
        pause_so_often(tries <= DOUBLINGS ? FIRST_PAUSES << (tries - 1) : MOST_PAUSES);
        if (tries > DOUBLINGS) sched_yield(); /* whoever has the tracer is perhaps not running */
        return;
    }
    tracectl_try_line_up(console); /* which may come to nothing, and changes nothing once it is in line */
    if (tries - seat->lined_up >= TRIES_BEFORE_YIELDING) sched_yield();
    if (tries - seat->lined_up >= LONG_IN_LINE) __atomic_store_n(&late_waits, LATE_WAITS, __ATOMIC_RELAXED);
}

/* ---- Which events are wanted. ---- */

/* The number of commands and the events are two words, so one thread at a time compares and stores them. Who tests a bit loads the events without the
 * lock. It is held for a few instructions, within a call: by no signal handler, whose call of the same handle is refused before. */
void tracectl_take_mask(tracectl *tracer, const struct tracectl_mask *mask) {
    while (__atomic_exchange_n(&tracer->mask_lock, 1, __ATOMIC_ACQUIRE)) sched_yield();
    if (mask->entries > tracer->mask.entries) {
        tracer->mask.entries = mask->entries;
        __atomic_store_n(&tracer->mask.events, mask->events, __ATOMIC_RELEASE);
    }
    __atomic_store_n(&tracer->mask_lock, 0, __ATOMIC_RELEASE);
}

/* A CPU's number is divided only where it has to be: that takes as long as ten other instructions. */
extern inline tracectl_place tracectl_here(const tracectl_thread *thread) {
    const struct tracectl_seat *seat = thread->seat;
    tracectl_place place = {0, 0};
    if (seat) {
        int cpu = sched_getcpu();
        place.cpu = cpu < 0 ? 0 : (uint32_t)cpu;
        if (place.cpu >= seat->tracer->cpus) place.cpu %= seat->tracer->cpus;
        place.thread = seat->thread;
    }
    return place;
}

uint32_t tracectl_emit_here(tracectl_thread *thread, uint32_t event, const tracectl_value *values, size_t count) {
    tracectl_place here = tracectl_here(thread);
    return tracectl_emit_values(thread, event, here.cpu, here.thread, values, count);
}

/* ---- The process. ---- */

/* A fork waits for the lock, under which a join or a leave has taken a tracer's passes out of its handle for a moment: the child would find it closed. It
 * doesn't where this thread has it already. */
static int is_locked_by_fork;

static void before_fork(void) {
    if (!pthread_mutex_lock(&lock)) is_locked_by_fork = 1;
}

static void after_fork(void) {
    if (!is_locked_by_fork) return;
    is_locked_by_fork = 0;
    pthread_mutex_unlock(&lock);
}

static void note_fork(void) {
    pthread_mutex_t unlocked = PTHREAD_ERRORCHECK_MUTEX_INITIALIZER_NP;
    is_locked_by_fork = 0;
    lock = unlocked;
    tracectl_forks = tracectl_forks + 1;
}

static uint32_t give_back(struct tracectl_seat *seat);

/* A thread ends that has these seats. */
static void leave_all(void *first) {
    for (struct tracectl_seat *seat = first, *next; seat; seat = next) {
        next = seat->next;
        if (seat->forks == tracectl_forks && !seat->in_call) give_back(seat);
        free(seat);
    }
}

static void get_ready(void) {
    is_ready = !pthread_key_create(&key, leave_all) && !pthread_atfork(before_fork, after_fork, note_fork) && tracectl_heed_forks();
}

/* Takes the lock, or says why not: this thread has it, and is interrupted by a signal or within malloc. */
static uint32_t take_lock(void) {
    return pthread_mutex_lock(&lock) ? TRACECTL_IN_CALL : TRACECTL_DONE;
}

/* ---- A tracer's handle. ---- */

static int is_of_parent(const tracectl *tracer) {
    return tracer->passes.state && tracer->forks != tracectl_forks;
}

/* Whether a call has begun that one of this thread's seats makes. */
static int has_seat_in_call(void) {
    const struct tracectl_seat *seat = is_ready ? pthread_getspecific(key) : NULL;
    while (seat && (!seat->in_call || seat->forks != tracectl_forks)) seat = seat->next;
    return seat != NULL;
}

int tracectl_is_in_call(void) {
    if (take_lock()) return 1;
    int is_in_call = has_seat_in_call();
    pthread_mutex_unlock(&lock);
    return is_in_call;
}

uint32_t tracectl_check(const tracectl *tracer) {
    uint32_t status = take_lock();
    if (status) return status;
    status = has_seat_in_call()      ? TRACECTL_IN_CALL
             : !tracer->passes.state ? TRACECTL_NOT_OPEN
             : is_of_parent(tracer)  ? TRACECTL_FORKED
                                     : TRACECTL_DONE;
    pthread_mutex_unlock(&lock);
    return status;
}

uint32_t tracectl_open(tracectl *tracer, const tracectl_settings *settings) {
    const struct tracectl_made made = {*settings, geteuid(), getegid(), 0750};
    uint32_t status;
    pthread_once(&once, get_ready);
    if (!is_ready) return TRACECTL_MEMORY;
    if ((status = take_lock())) return status;
    status = is_of_parent(tracer) ? TRACECTL_FORKED : tracectl_try_open(&tracer->passes, &made);
    if (!status) {
        tracer->cpus = settings->cpus;
        tracer->forks = tracectl_forks;
        tracer->mask = (struct tracectl_mask){0, 0}; /* that of a tracer of which nothing was asked */
        tracer->mask_lock = 0;
        tracer->wakes = 0;
        tracer->is_woken = 0;
        tracer->is_limited = settings->history_limit != 0;
    }
    pthread_mutex_unlock(&lock);
    return status;
}

/* Its mount ends first, since the server has joined. No other can begin meanwhile. */
uint32_t tracectl_close(tracectl *tracer) {
    uint32_t status = tracectl_lock_mounts(tracer);
    if (status) return status;
    tracectl_end_mount(tracer);
    if (!(status = take_lock())) {
        status = tracectl_try_close(&tracer->passes);
        if (!status && tracer->wakes) close(tracer->wakes - 1);
        if (!status) tracer->wakes = 0;
        pthread_mutex_unlock(&lock);
    }
    tracectl_unlock_mounts();
    return status;
}

/* ---- A thread's handle. ---- */

/* Has a seat leave its tracer. */
static uint32_t give_back(struct tracectl_seat *seat) {
    uint32_t tries = 0, status;
    for (;;) {
        if ((status = take_lock())) return status;
        status = tracectl_try_leave(&seat->tracer->passes, &seat->console);
        pthread_mutex_unlock(&lock);
        if (status != TRACECTL_TRY_BUSY) return status;
        tracectl_wait(&seat->console, ++tries);
    }
}

/* Has a seat join a tracer. */
static uint32_t take_pass(tracectl *tracer, struct tracectl_seat *seat) {
    uint32_t status = take_lock();
    if (status) return status;
    status = is_of_parent(tracer) ? TRACECTL_FORKED : tracectl_try_join(&tracer->passes, &seat->console);
    pthread_mutex_unlock(&lock);
    return status;
}

uint32_t tracectl_join(tracectl *tracer, tracectl_thread *thread) {
    struct tracectl_seat *seat = thread->seat;
    uint32_t status;
    if (seat) return seat->forks == tracectl_forks ? TRACECTL_ALREADY_JOINED : TRACECTL_FORKED;
    if (!is_ready) return TRACECTL_NOT_OPEN;
    if (tracectl_is_in_call()) return TRACECTL_IN_CALL; /* that call may have a turn, so that no other of this thread would come */
    if (!(seat = malloc(sizeof *seat))) return TRACECTL_MEMORY;
    *seat = (struct tracectl_seat){
        .tracer = tracer, .forks = tracectl_forks, .thread = (int32_t)syscall(SYS_gettid), .next = pthread_getspecific(key)};
    status = take_pass(tracer, seat);
    if (!status && pthread_setspecific(key, seat)) {
        give_back(seat);
        status = TRACECTL_MEMORY;
    }
    if (status) free(seat);
    else thread->seat = seat;
    return status;
}

/* Whether a seat is one of this thread's. */
static int is_own(const struct tracectl_seat *seat) {
    const struct tracectl_seat *each = pthread_getspecific(key);
    while (each && each != seat) each = each->next;
    return each != NULL;
}

/* Takes a seat out of the list of this thread's. */
static void unlink_seat(struct tracectl_seat *seat) {
    struct tracectl_seat *each = pthread_getspecific(key);
    if (each == seat) pthread_setspecific(key, seat->next);
    for (; each; each = each->next)
        if (each->next == seat) each->next = seat->next;
}

uint32_t tracectl_leave(tracectl_thread *thread) {
    struct tracectl_seat *seat = thread->seat;
    uint32_t status = tracectl_begin(thread);
    if (status) return status;
    status = is_own(seat) ? give_back(seat) : TRACECTL_OTHER_THREAD;
    if (status) {
        tracectl_end(thread);
        return status;
    }
    unlink_seat(seat);
    thread->seat = NULL;
    free(seat);
    return TRACECTL_DONE;
}

/* ---- Names of statuses. ---- */

/* The switch has no default, so that a compiler tells which constant has no name. */
const char *tracectl_status_name(uint32_t status) {
    switch ((enum tracectl_status)status) {
    case TRACECTL_DONE: return "Done";
    case TRACECTL_NO_SUCH_FILE: return "NoSuchFile";
    case TRACECTL_NOT_READABLE: return "NotReadable";
    case TRACECTL_NOT_WRITABLE: return "NotWritable";
    case TRACECTL_BAD_VALUE: return "BadValue";
    case TRACECTL_NO_SUCH_EVENT: return "NoSuchEvent";
    case TRACECTL_EVENT_EXISTS: return "EventExists";
    case TRACECTL_BAD_DEFINITION: return "BadDefinition";
    case TRACECTL_TOO_BIG: return "TooBig";
    case TRACECTL_FILTER_SYNTAX: return "FilterSyntax";
    case TRACECTL_NO_SUCH_FIELD: return "NoSuchField";
    case TRACECTL_WRONG_OPERATOR: return "WrongOperator";
    case TRACECTL_HIST_SYNTAX: return "HistSyntax";
    case TRACECTL_BAD_SIZE: return "BadSize";
    case TRACECTL_TRIGGER_EXISTS: return "TriggerExists";
    case TRACECTL_NO_SUCH_TRIGGER: return "NoSuchTrigger";
    case TRACECTL_TOO_MANY: return "TooMany";
    case TRACECTL_INSTANCE_EXISTS: return "InstanceExists";
    case TRACECTL_NO_SUCH_INSTANCE: return "NoSuchInstance";
    case TRACECTL_BUSY: return "Busy";
    case TRACECTL_NO_SUCH_CPU: return "NoSuchCpu";
    case TRACECTL_BAD_ROW: return "BadRow";
    case TRACECTL_HISTORY_FULL: return "HistoryFull";
    case TRACECTL_MEMORY: return "Memory";
    case TRACECTL_WORN: return "Worn";
    case TRACECTL_LINE_TOO_LONG: return "LineTooLong";
    case TRACECTL_BAD_BYTE: return "BadByte";
    case TRACECTL_UNCLOSED_QUOTE: return "UnclosedQuote";
    case TRACECTL_UNKNOWN_COMMAND: return "UnknownCommand";
    case TRACECTL_WRONG_WORDS: return "WrongWords";
    case TRACECTL_BAD_NUMBER: return "BadNumber";
    case TRACECTL_BLOCK_OUT_OF_PLACE: return "BlockOutOfPlace";
    case TRACECTL_TOO_MANY_THREADS: return "TooManyThreads";
    case TRACECTL_NOT_OPEN: return "NotOpen";
    case TRACECTL_ALREADY_OPEN: return "AlreadyOpen";
    case TRACECTL_TRY_BUSY: return "Busy";
    case TRACECTL_NOT_JOINED: return "NotJoined";
    case TRACECTL_ALREADY_JOINED: return "AlreadyJoined";
    case TRACECTL_NO_PASS_LEFT: return "NoPassLeft";
    case TRACECTL_STILL_JOINED: return "StillJoined";
    case TRACECTL_FORKED: return "Forked";
    case TRACECTL_IN_CALL: return "InCall";
    case TRACECTL_OTHER_THREAD: return "OtherThread";
    case TRACECTL_NOT_MOUNTED: return "NotMounted";
    case TRACECTL_ALREADY_MOUNTED: return "AlreadyMounted";
    case TRACECTL_NO_FOLDER: return "NoFolder";
    case TRACECTL_FOLDER_BUSY: return "FolderBusy";
    case TRACECTL_NO_DEVICE: return "NoDevice";
    case TRACECTL_NO_RIGHT: return "NoRight";
    case TRACECTL_LIMITED: return "Limited";
    case TRACECTL_TRY_NOT_NOW: return "NotNow";
    }
    return "unknown";
}

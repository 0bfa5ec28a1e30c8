/* The thread that serves a mounted tracer: what tracectl.h says of what is served, and of the calls that wake it.
 *
 * It has a seat, as any thread that has joined, and waits in one place, `poll`, for a request of the kernel or for the eventfd. A call after which something
 * is owed, as a reply to `cat trace_pipe` that waits for the record that was just emitted, writes that (tracectl_wake). All that is owed is told before the
 * next request is read:
 *
 *     poll ──> eventfd: read it ───────────────> tell what is owed, until nothing is ──> poll
 *          ──> /dev/fuse: read one request ──> serve it ──> take the mask ──> write the reply ──> tell what is owed ──> poll
 *
 * A request that takes memory, and is refused it, is told ENOMEM. What can't be refused is tried again a millisecond later, until the mount ends. Where READs
 * find the tracer taken again and again, there is a rest after each. */
#define _GNU_SOURCE
#include "tracectl_mounted.h"

#include <errno.h>
#include <poll.h>
#include <stdlib.h>
#include <string.h>
#include <time.h>
#include <unistd.h>

/* Of linux/fuse.h, which not every system has. */
enum { FUSE_SETATTR = 4, FUSE_MKDIR = 9, FUSE_RMDIR = 11, FUSE_OPEN = 14, FUSE_READ = 15, FUSE_WRITE = 16, FUSE_RELEASE = 18 };
enum { FUSE_INIT = 26, FUSE_INTERRUPT = 36 };

enum { READS_BEFORE_RESTS = 8, REST_NANOSECONDS = 100000 };

struct in_header {
    uint32_t length, opcode;
    uint64_t unique, node;
    uint32_t uid, gid, pid, padding;
};

struct out_header {
    uint32_t length;
    int32_t error;
    uint64_t unique;
};

/* ---- Waking. ---- */

static void write_wakes(int wakes) {
    uint64_t one = 1;
    int cancels, error = errno;
    pthread_setcancelstate(PTHREAD_CANCEL_DISABLE, &cancels); /* a thread that ended here would leave is_woken set */
    while (write(wakes, &one, sizeof one) < 0 && errno == EINTR) {}
    pthread_setcancelstate(cancels, NULL);
    errno = error;
}

/* At most one write for all calls until the server has looked. None is missed: the call had its turn, and calls this after it. If the server's next turn
 * comes later, that sees what is owed. If it came before, then so did the server's clearing of is_woken, as turns are in one order and each sees what was
 * written before those that it follows: so a 1 that is found here was stored after that by a call that writes the eventfd, which the server has not read. */
void tracectl_wake(tracectl *tracer) {
    int wakes = __atomic_load_n(&tracer->wakes, __ATOMIC_ACQUIRE) - 1;
    if (wakes < 0 || __atomic_load_n(&tracer->is_woken, __ATOMIC_SEQ_CST) || __atomic_exchange_n(&tracer->is_woken, 1, __ATOMIC_SEQ_CST)) return;
    write_wakes(wakes);
}

/* No turn orders `stops` and `is_woken`: this thread might find a 1 there that the server is about to clear, while that does not see `stops` yet. So this
 * writes in any case, and the server, which looks at `stops` after each read of the eventfd, finds it after the one that takes what is written here. */
void tracectl_stop_serving(struct tracectl_mounted *mount) {
    __atomic_store_n(&mount->stops, 1, __ATOMIC_SEQ_CST);
    write_wakes(mount->tracer->wakes - 1);
}

static void note_woken(tracectl *tracer) {
    uint64_t count;
    while (read(tracer->wakes - 1, &count, sizeof count) < 0 && errno == EINTR) {}
    __atomic_store_n(&tracer->is_woken, 0, __ATOMIC_SEQ_CST);
}

static int is_to_stop(const struct tracectl_mounted *mount) {
    return __atomic_load_n(&mount->stops, __ATOMIC_SEQ_CST);
}

/* Waits a millisecond for memory. Whether what lacked it is to be tried again: so is, once the device is closed, what then has to be done. */
static int is_to_try_again(const struct tracectl_mounted *mount) {
    struct timespec millisecond = {0, 1000000};
    nanosleep(&millisecond, NULL);
    return mount->device < 0 || !is_to_stop(mount);
}

/* ---- What a mount leaves. ----
 *
 * The next mount's requests have the same numbers, and no kernel closes for it what was open in this one. So reads that wait are noted by their numbers,
 * and open files by their handles; when the server ends, those are interrupted, and these closed. Then no record is taken for a read that nobody waits for,
 * no later read gets the reply of an earlier one, and no open file stays. Where nothing more can be noted, the request is refused memory. */

static int has_room(struct tracectl_numbers *numbers) {
    if (numbers->count < numbers->room) return 1;
    size_t room = numbers->room ? 2 * numbers->room : 64;
    uint64_t *more = realloc(numbers->all, room * sizeof *more);
    if (!more) return 0;
    numbers->all = more;
    numbers->room = room;
    return 1;
}

static void add(struct tracectl_numbers *numbers, uint64_t number) {
    numbers->all[numbers->count++] = number;
}

static void take_out(struct tracectl_numbers *numbers, uint64_t number) {
    for (size_t i = 0; i < numbers->count; i++)
        if (numbers->all[i] == number) numbers->all[i] = numbers->all[--numbers->count];
}

static struct in_header header_of(const struct tracectl_mounted *mount) {
    struct in_header header;
    memcpy(&header, mount->request, sizeof header);
    return header;
}

static uint64_t number_after(const char *header, size_t length) {
    uint64_t number;
    memcpy(&number, header + length, sizeof number);
    return number;
}

/* Whether what a request may leave can be noted. */
static int can_be_noted(struct tracectl_mounted *mount) {
    uint32_t opcode = header_of(mount).opcode;
    return opcode == FUSE_READ ? has_room(&mount->parked) : opcode != FUSE_OPEN || has_room(&mount->opened);
}

/* Notes what a request left that had this long a reply, or none yet. */
static void note_answered(struct tracectl_mounted *mount, size_t length, size_t reply_length) {
    struct in_header asked = header_of(mount);
    struct out_header told = {0, 0, 0};
    if (reply_length >= sizeof told) memcpy(&told, mount->reply, sizeof told);
    if (asked.opcode == FUSE_READ && !reply_length) add(&mount->parked, asked.unique);
    if (asked.opcode == FUSE_OPEN && !told.error && reply_length >= sizeof told + sizeof(uint64_t))
        add(&mount->opened, number_after(mount->reply, sizeof told));
    if (asked.opcode == FUSE_RELEASE && length >= sizeof asked + sizeof(uint64_t)) take_out(&mount->opened, number_after(mount->request, sizeof asked));
}

/* ---- Serving. ---- */

/* Writes a reply, if there is one. Whether the device is there: a request that was interrupted is gone, which is no fault. */
static int is_written(struct tracectl_mounted *mount, size_t length) {
    while (length && mount->device >= 0 && write(mount->device, mount->reply, length) < 0) {
        if (errno == EINTR) continue;
        if (errno != ENOMEM) return errno != ENODEV && errno != ECONNABORTED && errno != EBADF;
        if (!is_to_try_again(mount)) return 0;
    }
    return 1;
}

/* Tells something that is owed, perhaps the reply of a read that waited. Whether that was written, or nothing is owed. */
static int is_one_told(struct tracectl_mounted *mount, uint32_t *owes) {
    struct tracectl_console *console = &mount->thread.seat->console;
    uint32_t tries = 0, status;
    size_t length = 0;
    while ((status = tracectl_try_tell(console, mount->reply, sizeof mount->reply, &length, owes))) {
        *owes = 0;
        if (status == TRACECTL_TRY_BUSY) tracectl_wait(console, ++tries);
        else if (status != TRACECTL_MEMORY || !is_to_try_again(mount)) return status == TRACECTL_TRY_NOT_NOW;
    }
    if (length >= sizeof(struct out_header)) take_out(&mount->parked, number_after(mount->reply, offsetof(struct out_header, unique)));
    return is_written(mount, length);
}

/* Tells all that is owed. Whether the device is there. */
static int is_told(struct tracectl_mounted *mount) {
    uint32_t owes = 1;
    while (owes)
        if (!is_one_told(mount, &owes)) return 0;
    return 1;
}

/* Notes how often a READ was tried in vain. */
static void note_tries(struct tracectl_mounted *mount, uint32_t tries) {
    if (header_of(mount).opcode != FUSE_READ) return;
    if (!tries) mount->contended_reads /= 2;
    else if (mount->contended_reads < READS_BEFORE_RESTS) mount->contended_reads++;
}

/* A READ has the tracer for as long as hundreds of emissions, and its reader asks for the next at once. Where threads emit as fast as they can, so that rings
 * are overwritten anyway, the server rests after a READ, and their emissions take little longer than without a reader. It is woken as by `poll`. */
static void rest(const struct tracectl_mounted *mount) {
    struct pollfd wakes = {mount->tracer->wakes - 1, POLLIN, 0};
    const struct timespec time = {0, REST_NANOSECONDS};
    if (mount->contended_reads == READS_BEFORE_RESTS) ppoll(&wakes, 1, &time, NULL);
}

/* Has the tracer serve a request of so many bytes: its status, which is TRACECTL_TRY_NOT_NOW where what was owed before it can't be told. */
static uint32_t ask(struct tracectl_mounted *mount, size_t length, size_t *reply_length, uint32_t *owes) {
    struct tracectl_console *console = &mount->thread.seat->console;
    uint32_t tries = 0, status;
    *reply_length = 0;
    if (!can_be_noted(mount)) return TRACECTL_MEMORY;
    while ((status = tracectl_try_answer(console, mount->request, length, mount->reply, sizeof mount->reply, reply_length, owes))) {
        if (status == TRACECTL_TRY_BUSY) tracectl_wait(console, ++tries);
        else if (status != TRACECTL_TRY_NOT_NOW || !is_told(mount)) return status;
    }
    note_answered(mount, length, *reply_length);
    note_tries(mount, tries);
    return TRACECTL_DONE;
}

/* Whether a request may change which events are wanted. */
static int may_change(uint32_t opcode) {
    return opcode == FUSE_WRITE || opcode == FUSE_OPEN || opcode == FUSE_SETATTR || opcode == FUSE_MKDIR || opcode == FUSE_RMDIR;
}

/* Whether a kernel heeds it if a request is refused, and goes on. */
static int can_be_refused(uint32_t opcode) {
    return opcode != FUSE_INIT && opcode != FUSE_RELEASE && opcode != FUSE_INTERRUPT;
}

static void take_latest_mask(struct tracectl_mounted *mount) {
    struct tracectl_mask mask = {0, 0};
    struct tracectl_console *console = &mount->thread.seat->console;
    uint32_t tries = 0;
    while (tracectl_try_wanted(console, &mask) == TRACECTL_TRY_BUSY) tracectl_wait(console, ++tries);
    tracectl_take_mask(mount->tracer, &mask);
}

/* Tells that a request is refused memory. Whether the device is there. */
static int is_refused(struct tracectl_mounted *mount) {
    struct out_header head = {sizeof head, -ENOMEM, header_of(mount).unique};
    memcpy(mount->reply, &head, sizeof head);
    return is_written(mount, sizeof head);
}

/* Serves a request of so many bytes. Whoever asked finds the mask as it is after it. Whether the device is there. */
static int is_answered(struct tracectl_mounted *mount, size_t length) {
    uint32_t opcode = header_of(mount).opcode, owes = 0, status;
    size_t reply_length = 0;
    while ((status = ask(mount, length, &reply_length, &owes))) {
        if (status != TRACECTL_MEMORY) return 0;
        if (can_be_refused(opcode)) return is_refused(mount);
        if (!is_to_try_again(mount)) return 0;
    }
    if (may_change(opcode)) take_latest_mask(mount);
    if (!is_written(mount, reply_length) || (owes && !is_told(mount))) return 0;
    if (opcode == FUSE_READ) rest(mount);
    return 1;
}

/* Reads a request and serves it, if there is one. Whether the device is there: no kernel's request is shorter than its header. */
static int is_served(struct tracectl_mounted *mount) {
    ssize_t length = read(mount->device, mount->request, sizeof mount->request);
    if (length < 0) return errno == EAGAIN || errno == EINTR || errno == ENOENT || (errno == ENOMEM && is_to_try_again(mount));
    return (size_t)length >= sizeof(struct in_header) && is_answered(mount, (size_t)length);
}

/* Serves until it is stopped, or the device or the eventfd is gone: the kernel ended the mount, or the program closed descriptors that it did not open. */
static void serve(struct tracectl_mounted *mount) {
    struct pollfd waits[] = {{mount->device, POLLIN, 0}, {mount->tracer->wakes - 1, POLLIN, 0}};
    int goes_on = is_told(mount);
    while (goes_on) {
        if (poll(waits, 2, -1) < 0) {
            goes_on = errno == EINTR || (errno == ENOMEM && is_to_try_again(mount));
            continue;
        }
        goes_on = !((waits[0].revents | waits[1].revents) & ~POLLIN);
        if (goes_on && waits[1].revents) {
            note_woken(mount->tracer);
            goes_on = !is_to_stop(mount) && is_told(mount);
        }
        if (goes_on && waits[0].revents) goes_on = is_served(mount);
    }
}

/* ---- Ending. ---- */

/* Has a request served that no kernel makes, once the device is closed. */
static void ask_by_itself(struct tracectl_mounted *mount, uint32_t opcode, const void *body, size_t length) {
    struct in_header head = {(uint32_t)(sizeof head + length), opcode, 1, 1, 0, 0, 0, 0}; /* a kernel's numbers are even */
    memcpy(mount->request, &head, sizeof head);
    memcpy(mount->request + sizeof head, body, length);
    is_answered(mount, sizeof head + length);
    is_told(mount);
}

static void leave_nothing(struct tracectl_mounted *mount) {
    while (mount->parked.count) {
        uint64_t parked = mount->parked.all[--mount->parked.count];
        ask_by_itself(mount, FUSE_INTERRUPT, &parked, sizeof parked);
    }
    while (mount->opened.count) {
        struct { uint64_t handle; uint32_t flags, release_flags; uint64_t owner; } release = {mount->opened.all[--mount->opened.count], 0, 0, 0};
        ask_by_itself(mount, FUSE_RELEASE, &release, sizeof release);
    }
}

/* Once it closes the device the kernel ends the mount: whoever still waits for it gets an error, and what is told from then on goes nowhere. All of this is
 * one call of its thread, so that a malloc of the program that emits can't join in it, and wait for its turn. */
void *tracectl_serve(void *mounted) {
    struct tracectl_mounted *mount = mounted;
    mount->status = tracectl_join(mount->tracer, &mount->thread);
    int is_joined = !mount->status;
    sem_post(&mount->is_ready);
    if (is_joined && !tracectl_begin(&mount->thread)) {
        mount->thread.seat->is_server = 1;
        serve(mount);
        tracectl_close_device(mount);
        leave_nothing(mount);
        tracectl_end(&mount->thread);
        tracectl_leave(&mount->thread);
    }
    return NULL;
}

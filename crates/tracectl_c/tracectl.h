/* tracectl as a C library: a tracer with ftrace's synthetic events, ring buffers, filters, snapshots and histograms, which the threads of a program share.
 * Each call is a function.
 *
 *     tracectl tracer = TRACECTL_CLOSED;              tracectl_open(&tracer, &settings);      once
 *     tracectl_thread thread = TRACECTL_LEFT;         tracectl_join(&tracer, &thread);        in each thread that asks something
 *                                                     tracectl_write(&thread, ..); ..         as often as it likes
 *                                                     tracectl_leave(&thread);
 *                                                     tracectl_close(&tracer);                once all have left
 *
 * One call at a time has its turn at the tracer, and is answered as all the calls before it say, of whichever thread they were. A reply and the last outcome
 * belong to the thread's handle. A tracer keeps no list of what it was asked, so its memory does not grow with the number of commands: it has its rings,
 * events, instances and tables, and for each thread the last reply.
 *
 * With what ./install has put below PREFIX a program links the shared library, the static one, or the archive by hand. (Without ./install examples/c/build
 * makes such an archive.)
 *
 *     cc server.c $(pkg-config --cflags --libs tracectl)
 *     cc -static server.c $(pkg-config --static --cflags --libs tracectl)
 *     cc -I PREFIX/include server.c PREFIX/lib/libtracectl.a -pthread
 *
 * The functions that a user calls are here, in tracectl.c and in tracectl_mount.c. Each tries until the call had its turn. What one try leaves, and its
 * status, is proved whatever was asked before it (crates/tracectl_c/src). Nothing checks the C side, so the proof holds only if these files, of
 * which that is said where they do it, and their caller uphold this:
 *
 *  - A handle is set to TRACECTL_CLOSED or TRACECTL_LEFT (all zeros) before it is first used. Only these functions change it, and it is not copied. That
 *    of a tracer stays where it is until it is closed.
 *  - A thread's handle is used by the thread that joined with it, and one call at a time. (A call from a signal handler, or from what a call itself calls, as
 *    malloc, is refused with TRACECTL_IN_CALL; so is each join, mount, unmount and close then.) The lock in tracectl.c is held while a tracer's passes are
 *    used.
 *  - No pointer is null. A string is a pointer to bytes that nobody writes during the call, and how many they are, below 2^63; its last byte
 *    need not be 0. A string of no bytes has a pointer too, and so has an array of no values. Nobody writes an array of values during the call, and
 *    it has fewer than 2^58. Memory that a call writes to overlaps none of its other arguments.
 *  - No call comes from a signal handler, nor from the child of a fork in a process with threads. (Of a tracer that was opened before the fork, all calls in
 *    the child are refused with TRACECTL_FORKED.)
 *  - malloc, realloc and free come from one allocator, and align blocks to 16 bytes. They may refuse memory: the call is then refused
 *    (TRACECTL_MEMORY), and has changed nothing. But tracectl_read of a trace, a snapshot or a `hist` may be refused it also after the read was done, which
 *    counts as a command and changes nothing else.
 */
#ifndef TRACECTL_H
#define TRACECTL_H

#include <stddef.h>
#include <stdint.h>
#include <time.h>

#ifdef __cplusplus
extern "C" {
#endif

/* The functions of this header are compiled in tracectl.c, too, for who calls them by name, as Python's ctypes. */
#ifndef TRACECTL_FUNCTION
#define TRACECTL_FUNCTION static inline
#endif

/* What the library has of a tracer, and of a thread that has joined one. */
struct tracectl_passes {
    uint64_t state;
    void *passes;
};

struct tracectl_console {
    uint64_t state;
    void *console;
};

/* Which events are wanted after so many commands: of any other that is declared an emission then changes only the clock and the number of commands. Of two
 * masks the one after more commands is the later one, and those after equally many are the same. */
struct tracectl_mask {
    uint64_t entries; /* commands that were done */
    uint64_t events;  /* a bit of each event: that of event 1, which was declared first, is the lowest */
};

/* A tracer. Its fields belong to the library. */
typedef struct tracectl {
    struct tracectl_passes passes;
    uint32_t cpus;
    uint32_t forks;
    struct tracectl_mask mask; /* the latest that a call was told */
    uint32_t mask_lock;        /* 1 while a thread compares a mask with it, and takes that */
    int32_t wakes;             /* what wakes the server of its mount: the number of a descriptor, and 1; 0 if it was never mounted */
    uint32_t is_woken;         /* 1 from when a call wakes the server until that looks */
    uint32_t is_limited;       /* 1 if its settings have a limit of commands */
} tracectl;

#define TRACECTL_CLOSED {{0, 0}, 0, 0, {0, 0}, 0, 0, 0, 0}

/* A thread that has joined a tracer: of each such there is one, which is on the heap, since the thread may end while the handle is gone. */
struct tracectl_seat {
    struct tracectl_console console;
    uint32_t in_call;
    uint32_t forks; /* in the process, when it joined */
    tracectl *tracer;
    struct tracectl_seat *next; /* of the same thread, in another tracer */
    int32_t thread;
    uint32_t is_server; /* of a mount */
    uint32_t lined_up;  /* while it waits for its turn: after which try it got in line, or 0 */
};

/* A thread's handle. Its field belongs to the library. */
typedef struct tracectl_thread {
    struct tracectl_seat *seat;
} tracectl_thread;

#define TRACECTL_LEFT {0}

/* What a tracer is made with. When as many commands were done by calls as the limit says, each further one that could be done is refused
 * (TRACECTL_HISTORY_FULL). What is asked of a mount heeds no limit, so a tracer with one can't be mounted (TRACECTL_LIMITED). */
typedef struct tracectl_settings {
    uint32_t cpus;          /* from 1 to 8 */
    uint32_t pages;         /* of each CPU's ring, from 2 to 1,024 */
    uint32_t page_bytes;    /* from 64 to 4,080, a multiple of 8 */
    uint64_t history_limit; /* the most commands that calls do, from 1 to 2^32; 0 is no limit: 2^60 */
} tracectl_settings;

/* The status of a call. docs/REFUSALS.md has an example of each refusal and each fault, and the order in which they are looked for. Of those with an offset
 * tracectl_offset tells where the string is wrong. */
enum tracectl_status {
    TRACECTL_DONE = 0,

    /* refusals */
    TRACECTL_NO_SUCH_FILE = 1,      /* no file has the path */
    TRACECTL_NOT_READABLE = 2,      /* the file can't be read */
    TRACECTL_NOT_WRITABLE = 3,      /* the file can't be written */
    TRACECTL_BAD_VALUE = 4,         /* not what the file takes; a setting is out of range; a value's kind is none of the three */
    TRACECTL_NO_SUCH_EVENT = 5,     /* no event has this name, or this number */
    TRACECTL_EVENT_EXISTS = 6,      /* an event has this name */
    TRACECTL_BAD_DEFINITION = 7,    /* not a declaration of an event, with an offset */
    TRACECTL_TOO_BIG = 8,           /* a record of the event would be longer than a page */
    TRACECTL_FILTER_SYNTAX = 9,     /* not a filter, with an offset */
    TRACECTL_NO_SUCH_FIELD = 10,    /* no field has this name, with an offset */
    TRACECTL_WRONG_OPERATOR = 11,   /* the field doesn't take the operator, with an offset */
    TRACECTL_HIST_SYNTAX = 12,      /* not a hist trigger, with an offset */
    TRACECTL_BAD_SIZE = 13,         /* a hist trigger's size is out of its range */
    TRACECTL_TRIGGER_EXISTS = 14,   /* such a trigger is attached, or it doesn't fit its table */
    TRACECTL_NO_SUCH_TRIGGER = 15,  /* no such trigger to remove, continue or clear */
    TRACECTL_TOO_MANY = 16,         /* a limit is passed, as that of events, fields, instances or triggers */
    TRACECTL_INSTANCE_EXISTS = 17,  /* an instance has this name */
    TRACECTL_NO_SUCH_INSTANCE = 18, /* no instance has this name */
    TRACECTL_BUSY = 19,             /* what would be changed is in use */
    TRACECTL_NO_SUCH_CPU = 20,      /* the CPU's number is not below the number of CPUs */
    TRACECTL_BAD_ROW = 21,          /* the fields are not the event's, or a value is not of its field's type; the reply is the field's name */
    TRACECTL_HISTORY_FULL = 22,     /* as many commands were done as history_limit says */
    TRACECTL_MEMORY = 23,           /* memory was refused */
    TRACECTL_WORN = 24,             /* 2^63 tickets of the tracer's lock were drawn */

    /* faults of a line */
    TRACECTL_LINE_TOO_LONG = 101,      /* over 4,096 bytes */
    TRACECTL_BAD_BYTE = 102,           /* a byte that no line may have */
    TRACECTL_UNCLOSED_QUOTE = 103,     /* a quote is not closed */
    TRACECTL_UNKNOWN_COMMAND = 104,    /* the first word is no command */
    TRACECTL_WRONG_WORDS = 105,        /* too few words, or too many; also of tracectl_emit: a field without = */
    TRACECTL_BAD_NUMBER = 106,         /* a CPU, a process or a limit is not a decimal number in its range */
    TRACECTL_BLOCK_OUT_OF_PLACE = 107, /* parallel, thread and end, which are for scripts */
    TRACECTL_TOO_MANY_THREADS = 108,   /* a part of a script has more than eight threads: no call has this status */

    /* what is wrong with a handle */
    TRACECTL_NOT_OPEN = 200,       /* the tracer is not open */
    TRACECTL_ALREADY_OPEN = 201,   /* the tracer is open */
    TRACECTL_TRY_BUSY = 202,       /* of one try: somebody else has a turn. The functions that a user calls have no such status */
    TRACECTL_NOT_JOINED = 203,     /* the thread's handle has left, or never joined */
    TRACECTL_ALREADY_JOINED = 204, /* the thread's handle has joined */
    TRACECTL_NO_PASS_LEFT = 205,   /* 1,024 threads have joined */
    TRACECTL_STILL_JOINED = 206,   /* a tracer that is to be closed has threads that have not left */
    TRACECTL_FORKED = 207,         /* the process is a child, and what it calls was opened or joined in its parent */
    TRACECTL_IN_CALL = 208,        /* the thread is within another call */
    TRACECTL_OTHER_THREAD = 209,   /* a handle is to leave that another thread joined with */

    /* why a tracer can't be mounted, or unmounted */
    TRACECTL_NOT_MOUNTED = 210,     /* it is not mounted */
    TRACECTL_ALREADY_MOUNTED = 211, /* it is mounted already */
    TRACECTL_NO_FOLDER = 212,       /* the name is none of a folder, or of one that this user can't reach */
    TRACECTL_FOLDER_BUSY = 213,     /* something else is mounted on the folder */
    TRACECTL_NO_DEVICE = 214,       /* /dev/fuse can't be opened to read and write: errno says why. Where descriptors are used up: TRACECTL_MEMORY */
    TRACECTL_NO_RIGHT = 215,        /* neither mount(2) nor fusermount3 mounts: that one told why on standard error, if it is there */
    TRACECTL_TRY_NOT_NOW = 216,     /* of one try: something is owed, or nothing is. The functions that a user calls have no such status */
    TRACECTL_LIMITED = 217          /* its settings have a limit of commands, which what other programs ask of a mount would not heed */
};

/* A status's name, as docs/REFUSALS.md has it: "NoSuchFile" for TRACECTL_NO_SUCH_FILE, and so on; "unknown" for a number that is no status. What a call
 * tells below 0, as tracectl_waiting does, is a status with its sign changed: tracectl_status_name((uint32_t)-told). */
const char *tracectl_status_name(uint32_t status);

/* Opens a handle: a tracer of which nothing was asked. TRACECTL_BAD_VALUE: a setting is out of range. */
uint32_t tracectl_open(tracectl *tracer, const tracectl_settings *settings);

/* Closes a handle and gives its memory back, once all threads have left it; before that it is refused with TRACECTL_STILL_JOINED, and stays open. If it is
 * mounted, the mount is taken away first, in either case. */
uint32_t tracectl_close(tracectl *tracer);

/* Has the thread that calls join a tracer, with a handle of its own. At most 1,024 have joined at a time; any number may come and go. */
uint32_t tracectl_join(tracectl *tracer, tracectl_thread *thread);

/* Has it leave again. A thread that ends without it leaves by itself. */
uint32_t tracectl_leave(tracectl_thread *thread);

/* Where a call is made: the CPU that the thread runs on, modulo those of its tracer, and the thread's number in the system. 0 and 0 where the thread has
 * not joined. */
typedef struct tracectl_place {
    uint32_t cpu;
    int32_t thread;
} tracectl_place;

tracectl_place tracectl_here(const tracectl_thread *thread);

/* ---- One try of each call, which is proved. Only tracectl.c and the functions below call these. ---- */

typedef struct tracectl_value tracectl_value;

/* The settings, and whom the files of a mount belong to. */
struct tracectl_made {
    tracectl_settings settings;
    uint32_t user;
    uint32_t group;
    uint16_t mode;
};

/* What is added to the status of a call after which something is owed to the mount, as the reply of a read that waited for a record. */
enum { TRACECTL_OWES_BIT = 31 };

uint32_t tracectl_try_open(struct tracectl_passes *passes, const struct tracectl_made *made);
uint32_t tracectl_try_close(struct tracectl_passes *passes);
uint32_t tracectl_try_join(struct tracectl_passes *passes, struct tracectl_console *console);
uint32_t tracectl_try_leave(struct tracectl_passes *passes, struct tracectl_console *console);
uint32_t tracectl_try_line_up(struct tracectl_console *console);
uint32_t tracectl_try_line(struct tracectl_console *console, const char *line, size_t line_length, struct tracectl_mask *mask);
uint32_t tracectl_try_emit(struct tracectl_console *console, const char *event, size_t event_length, uint32_t cpu, int32_t process, const char *fields,
                           size_t fields_length);
uint32_t tracectl_try_emit_values(struct tracectl_console *console, uint32_t event, uint32_t cpu, int32_t process, const tracectl_value *values,
                                  size_t count);
uint32_t tracectl_try_write(struct tracectl_console *console, const char *path, size_t path_length, const char *text, size_t text_length, uint32_t append,
                            struct tracectl_mask *mask);
uint32_t tracectl_try_read(struct tracectl_console *console, const char *path, size_t path_length, uint32_t is_limited, uint64_t limit);
uint32_t tracectl_try_files(struct tracectl_console *console);
uint32_t tracectl_try_wanted(struct tracectl_console *console, struct tracectl_mask *mask);
int32_t tracectl_try_waiting(struct tracectl_console *console, const char *path, size_t path_length);
size_t tracectl_try_reply(struct tracectl_console *console, size_t from, char *room, size_t room_length);
size_t tracectl_try_offset(struct tracectl_console *console);
size_t tracectl_try_explain(struct tracectl_console *console, size_t from, char *room, size_t room_length);
/* Serves a request of a kernel, which has a byte at least (TRACECTL_BAD_VALUE), and tells something that is owed. The reply is cut where it has no room, but
 * its length is told; 0 is none, or none yet. */
uint32_t tracectl_try_answer(struct tracectl_console *console, const char *request, size_t length, char *reply, size_t room, size_t *reply_length,
                             uint32_t *owes);
uint32_t tracectl_try_tell(struct tracectl_console *console, char *reply, size_t room, size_t *reply_length, uint32_t *owes);

/* How many forks led from the process that first opened a tracer to this one. */
extern volatile uint32_t tracectl_forks;

/* Begins a call, unless it is refused: has the status of that. */
TRACECTL_FUNCTION uint32_t tracectl_begin(const tracectl_thread *thread) {
    struct tracectl_seat *seat = thread->seat;
    if (!seat) return TRACECTL_NOT_JOINED;
    if (seat->forks != tracectl_forks) return TRACECTL_FORKED;
    if (seat->in_call) return TRACECTL_IN_CALL;
    seat->in_call = 1;
    __atomic_signal_fence(__ATOMIC_SEQ_CST);
    return TRACECTL_DONE;
}

/* Ends a call that was begun. */
TRACECTL_FUNCTION void tracectl_end(const tracectl_thread *thread) {
    __atomic_signal_fence(__ATOMIC_SEQ_CST);
    thread->seat->in_call = 0;
}

/* Waits a little after this try, the so-many-th that came to nothing, of a seat's console. Who tried often gets in line, where its turn is sure to come. */
void tracectl_wait(struct tracectl_console *console, uint32_t tries);

/* Wakes the server of a tracer's mount, if there is one and nobody has since it last looked: by one write. */
void tracectl_wake(tracectl *tracer);

/* The status of a call that had its turn. If something is owed then, the server is woken. */
TRACECTL_FUNCTION uint32_t tracectl_told(const tracectl_thread *thread, uint32_t status) {
    if (__builtin_expect(!(status >> TRACECTL_OWES_BIT), 1)) return status;
    tracectl_wake(thread->seat->tracer);
    return status & ~(UINT32_C(1) << TRACECTL_OWES_BIT);
}

/* Keeps the mask that a call was told if it is later than the one that is kept, which a mask of no commands never is: a call that was told none hands that
 * over. So the mask that is kept is the latest of all calls that have returned, in whichever order they came here. */
void tracectl_take_mask(tracectl *tracer, const struct tracectl_mask *mask);

/* ---- Commands. One that is refused changes nothing but the reply. ---- */

/* A line of a script (docs/FILES.md), without its newline. A blank line and a comment do nothing. */
TRACECTL_FUNCTION uint32_t tracectl_line(tracectl_thread *thread, const char *line, size_t line_length) {
    struct tracectl_mask mask = {0, 0};
    uint32_t tries = 0, status = tracectl_begin(thread);
    if (status) return status;
    while ((status = tracectl_try_line(&thread->seat->console, line, line_length, &mask)) == TRACECTL_TRY_BUSY)
        tracectl_wait(&thread->seat->console, ++tries);
    tracectl_take_mask(thread->seat->tracer, &mask);
    status = tracectl_told(thread, status);
    tracectl_end(thread);
    return status;
}

/* An event happens on a CPU, in a process. Its fields are NAME=VALUE each, with a byte 0 between each two: "prev=1\0next=2". A value is
 * written as in a script, but without quotes, and may have any bytes but 0. */
TRACECTL_FUNCTION uint32_t tracectl_emit(tracectl_thread *thread, const char *event, size_t event_length, uint32_t cpu, int32_t process,
                                         const char *fields, size_t fields_length) {
    uint32_t tries = 0, status = tracectl_begin(thread);
    if (status) return status;
    while ((status = tracectl_try_emit(&thread->seat->console, event, event_length, cpu, process, fields, fields_length)) == TRACECTL_TRY_BUSY)
        tracectl_wait(&thread->seat->console, ++tries);
    status = tracectl_told(thread, status);
    tracectl_end(thread);
    return status;
}

/* A value of a field: a number of 64 bits with or without a sign, or bytes. The functions after it make one. */
struct tracectl_value {
    uint32_t kind;       /* one of those below */
    uint64_t number;     /* of TRACECTL_SIGNED the same 64 bits as the number with its sign */
    const char *bytes;   /* not null, whatever the kind */
    size_t bytes_length; /* below 2^63, and 0 is right for a number */
};

enum { TRACECTL_UNSIGNED = 0, TRACECTL_SIGNED = 1, TRACECTL_BYTES = 2 };

static inline tracectl_value tracectl_unsigned(uint64_t number) {
    tracectl_value value = {TRACECTL_UNSIGNED, number, "", 0};
    return value;
}

static inline tracectl_value tracectl_signed(int64_t number) {
    tracectl_value value = {TRACECTL_SIGNED, (uint64_t)number, "", 0};
    return value;
}

static inline tracectl_value tracectl_bytes(const char *bytes, size_t bytes_length) {
    tracectl_value value = {TRACECTL_BYTES, 0, bytes, bytes_length};
    return value;
}

/* An event happens, as by tracectl_emit, but no text is written for it: the event is named by its number, which is the ID in
 * events/synthetic/EVENT/format (1 for the event that was declared first, and so on), and its fields have the values, in order of declaration. A
 * value means what its text does: a number its decimal digits. Refused as tracectl_emit is, a number that no event has as a name that none has,
 * and a value beyond the last field as one of a field with no name; and with TRACECTL_BAD_VALUE if a kind is none of the three. */
TRACECTL_FUNCTION uint32_t tracectl_emit_values(tracectl_thread *thread, uint32_t event, uint32_t cpu, int32_t process, const tracectl_value *values,
                                                size_t count) {
    uint32_t tries = 0, status = tracectl_begin(thread);
    if (status) return status;
    while ((status = tracectl_try_emit_values(&thread->seat->console, event, cpu, process, values, count)) == TRACECTL_TRY_BUSY)
        tracectl_wait(&thread->seat->console, ++tries);
    status = tracectl_told(thread, status);
    tracectl_end(thread);
    return status;
}

/* Writes a string to a file, or appends it: by the two functions after it. */
TRACECTL_FUNCTION uint32_t tracectl_write_by(tracectl_thread *thread, const char *path, size_t path_length, const char *text, size_t text_length,
                                             uint32_t append) {
    struct tracectl_mask mask = {0, 0};
    uint32_t tries = 0, status = tracectl_begin(thread);
    if (status) return status;
    while ((status = tracectl_try_write(&thread->seat->console, path, path_length, text, text_length, append, &mask)) == TRACECTL_TRY_BUSY)
        tracectl_wait(&thread->seat->console, ++tries);
    tracectl_take_mask(thread->seat->tracer, &mask);
    status = tracectl_told(thread, status);
    tracectl_end(thread);
    return status;
}

/* Writes a string to a file (docs/FILES.md), as `echo TEXT > PATH` does, and appends it, as `echo TEXT >> PATH`. */
TRACECTL_FUNCTION uint32_t tracectl_write(tracectl_thread *thread, const char *path, size_t path_length, const char *text, size_t text_length) {
    return tracectl_write_by(thread, path, path_length, text, text_length, 0);
}

TRACECTL_FUNCTION uint32_t tracectl_append(tracectl_thread *thread, const char *path, size_t path_length, const char *text, size_t text_length) {
    return tracectl_write_by(thread, path, path_length, text, text_length, 1);
}

/* Reads a file, or a limited number of records: by the two functions after it. */
TRACECTL_FUNCTION uint32_t tracectl_read_by(tracectl_thread *thread, const char *path, size_t path_length, uint32_t is_limited, uint64_t limit) {
    uint32_t tries = 0, status = tracectl_begin(thread);
    if (status) return status;
    while ((status = tracectl_try_read(&thread->seat->console, path, path_length, is_limited, limit)) == TRACECTL_TRY_BUSY)
        tracectl_wait(&thread->seat->console, ++tries);
    status = tracectl_told(thread, status);
    tracectl_end(thread);
    return status;
}

/* Reads a file to its end, as `cat PATH` does, and at most so many records of a pipe, as `take LIMIT PATH`. What was read is the reply. Of `trace`,
 * `per_cpu/cpuN/trace`, `snapshot` and an event's `hist` only a copy is taken while other threads' calls wait; its text, which is that of this moment, is
 * made beside them. */
TRACECTL_FUNCTION uint32_t tracectl_read(tracectl_thread *thread, const char *path, size_t path_length) {
    return tracectl_read_by(thread, path, path_length, 0, 0);
}

TRACECTL_FUNCTION uint32_t tracectl_take(tracectl_thread *thread, const char *path, size_t path_length, uint64_t limit) {
    return tracectl_read_by(thread, path, path_length, 1, limit);
}

/* ---- The thread's last outcome. ---- */

/* Lists the files that there are, as `tracectl --list` does: a line for each, which has r, w or rw, a space and the file's path. The list is the
 * reply until the thread's next command or list. */
TRACECTL_FUNCTION uint32_t tracectl_files(tracectl_thread *thread) {
    uint32_t tries = 0, status = tracectl_begin(thread);
    if (status) return status;
    while ((status = tracectl_try_files(&thread->seat->console)) == TRACECTL_TRY_BUSY) tracectl_wait(&thread->seat->console, ++tries);
    tracectl_end(thread);
    return status;
}

/* How many bytes the reply has: what the thread's last command read, or the name of the field whose value is wrong (TRACECTL_BAD_ROW), or the list; else
 * 0. None of the calls from here on changes the reply. */
TRACECTL_FUNCTION size_t tracectl_reply_length(tracectl_thread *thread) {
    char no_room;
    size_t length;
    if (tracectl_begin(thread)) return 0;
    length = tracectl_try_reply(&thread->seat->console, 0, &no_room, 0);
    tracectl_end(thread);
    return length;
}

/* Copies the reply from this byte on, as far as there is room, and returns how many bytes. */
TRACECTL_FUNCTION size_t tracectl_reply(tracectl_thread *thread, size_t from, char *room, size_t room_length) {
    size_t length;
    if (tracectl_begin(thread)) return 0;
    length = tracectl_try_reply(&thread->seat->console, from, room, room_length);
    tracectl_end(thread);
    return length < room_length ? length : room_length;
}

/* Where the string of the thread's last command is wrong, as how many bytes stand before that; SIZE_MAX if its refusal has no such offset. */
TRACECTL_FUNCTION size_t tracectl_offset(tracectl_thread *thread) {
    size_t offset;
    if (tracectl_begin(thread)) return SIZE_MAX;
    offset = tracectl_try_offset(&thread->seat->console);
    tracectl_end(thread);
    return offset;
}

/* Copies a sentence that tells what is wrong with the thread's last command, as `tracectl --explain` does, from this byte on and as far as there is room, and
 * returns how many bytes: "an event of this name is declared already" and, with the field's name (TRACECTL_BAD_ROW), "prev: the field is missing". 0 if the
 * command was done, or memory is refused, which it takes for a moment. A field's name stands in it as it was given; nothing else is a newline, and no byte 0
 * follows:
 *
 *     char why[120];
 *     if (tracectl_line(&thread, line, strlen(line))) printf("%.*s\n", (int)tracectl_explain(&thread, 0, why, sizeof why), why); */
TRACECTL_FUNCTION size_t tracectl_explain(tracectl_thread *thread, size_t from, char *room, size_t room_length) {
    size_t length;
    if (tracectl_begin(thread)) return 0;
    length = tracectl_try_explain(&thread->seat->console, from, room, room_length);
    tracectl_end(thread);
    return length < room_length ? length : room_length;
}

/* How many commands were done by all threads, and by what was asked of the mount. 0 if the call is refused. */
TRACECTL_FUNCTION uint64_t tracectl_entries(tracectl_thread *thread) {
    struct tracectl_mask mask = {0, 0};
    uint32_t tries = 0;
    if (tracectl_begin(thread)) return 0;
    while (tracectl_try_wanted(&thread->seat->console, &mask) == TRACECTL_TRY_BUSY) tracectl_wait(&thread->seat->console, ++tries);
    tracectl_take_mask(thread->seat->tracer, &mask);
    tracectl_end(thread);
    return mask.entries;
}

/* Whether a record waits to be read in a pipe: trace_pipe or per_cpu/cpuN/trace_pipe, of the top instance or of one in instances/. 1 if one does,
 * 0 if none does; below 0 is what tracectl_take of this path would be refused with, as -TRACECTL_NO_SUCH_FILE, or -TRACECTL_NOT_JOINED. It takes no
 * memory and is no command: nothing changes, the reply neither. */
TRACECTL_FUNCTION int32_t tracectl_waiting(tracectl_thread *thread, const char *path, size_t path_length) {
    int32_t waits;
    uint32_t tries = 0, status = tracectl_begin(thread);
    if (status) return -(int32_t)status;
    while ((waits = tracectl_try_waiting(&thread->seat->console, path, path_length)) == -TRACECTL_TRY_BUSY)
        tracectl_wait(&thread->seat->console, ++tries);
    tracectl_end(thread);
    return waits;
}

/* ---- Emissions that cost next to nothing while nobody wants them. ---- */

/* An event is wanted while an emission of it may do more than count the clock: some instance records it, or has a hist trigger of it that is not paused, or
 * a snapshot trigger with times left. Filters are not asked. Each line, write and append tells which events are wanted after it, a bit of each, and the
 * latest such mask is kept in the tracer's handle, for all threads. TRACECTL_EMIT tests the event's bit before it calls anything.
 *
 *  - If the bit is clear, the emission is not made: its values are not evaluated, neither the clock nor tracectl_entries counts it, and the reply stays.
 *    Nothing is refused of it: not a wrong value, nor an event that is not declared, a limit that is reached, or a child of a fork. tracectl_emit_values
 *    tells these.
 *  - The mask is that of the last line, write or append that has returned, whichever thread made it, or of a later one. An emission of another thread
 *    goes by it, or by a later one, if it begins after the call has returned and the program orders the two: by a mutex, an atomic flag that is stored
 *    with release and loaded with acquire, or the start of a thread.
 *  - No bit in it is clear of an event that is wanted after its call. A bit may stay set of one that is not wanted any more, since emissions tell no mask:
 *    when a snapshot trigger has fired for the last time, emissions that only count the clock are made until the next line, write or append.
 *  - Nothing proved reads the mask that is kept. That it is the latest is up to tracectl.c, and only tested. */

/* Asks the tracer whether the event of this number is wanted: 1 if it is, and 0 if it is not, or no event has the number; below 0 is what the call is
 * refused with, as -TRACECTL_NOT_JOINED. It takes no memory and is no command, and the reply stays. It tells a mask, too, which is kept if it is later. */
TRACECTL_FUNCTION int32_t tracectl_wanted(tracectl_thread *thread, uint32_t event) {
    struct tracectl_mask mask = {0, 0};
    uint32_t tries = 0, status = tracectl_begin(thread);
    if (status) return -(int32_t)status;
    while ((status = tracectl_try_wanted(&thread->seat->console, &mask)) == TRACECTL_TRY_BUSY) tracectl_wait(&thread->seat->console, ++tries);
    tracectl_take_mask(thread->seat->tracer, &mask);
    tracectl_end(thread);
    if (status) return -(int32_t)status;
    return event - 1 < 64 && mask.events >> (event - 1) & 1;
}

/* Whether the event's bit is set in the mask that is kept. It calls nothing. A number that is not from 1 to 64, and each event of a thread that has not
 * joined, counts as wanted, so that the emission is made, and refused. */
TRACECTL_FUNCTION int tracectl_is_wanted(const tracectl_thread *thread, uint32_t event) {
    const struct tracectl_seat *seat = thread->seat;
    if (!seat || event - 1 >= 64) return 1;
    return (int)(__atomic_load_n(&seat->tracer->mask.events, __ATOMIC_RELAXED) >> (event - 1) & 1);
}

/* An event happens, as by tracectl_emit_values, on the CPU and in the thread that tracectl_here tells. */
uint32_t tracectl_emit_here(tracectl_thread *thread, uint32_t event, const tracectl_value *values, size_t count);

/* TRACECTL_EMIT(thread, event, value, ..) is tracectl_emit_here if the event's bit is set, and otherwise TRACECTL_DONE at once. The values are listed, at least
 * one, since each event has a field:
 *
 *     TRACECTL_EMIT(&thread, REQUEST, tracectl_bytes(path, strlen(path)), tracectl_unsigned(status));
 *
 * Handle and number are evaluated once, and the values if the emission is made. */
#define TRACECTL_EMIT(thread, event, ...) \
    __extension__({ \
        tracectl_thread *const tracectl_emitter = (thread); \
        const uint32_t tracectl_number = (event); \
        uint32_t tracectl_status = TRACECTL_DONE; \
        if (__builtin_expect(tracectl_is_wanted(tracectl_emitter, tracectl_number), 0)) { \
            const tracectl_value tracectl_values[] = {__VA_ARGS__}; \
            (void)sizeof(char[sizeof tracectl_values ? 1 : -1]); /* there is one */ \
            tracectl_status = tracectl_emit_here(tracectl_emitter, tracectl_number, tracectl_values, sizeof tracectl_values / sizeof *tracectl_values); \
        } \
        tracectl_status; \
    })

/* ---- A mount, while the program runs. ---- */

/* Mounts the tracer on a folder, by FUSE: its files (docs/MOUNT.md) are there for shells and other programs, as long as this one runs, or until
 * tracectl_unmount, tracectl_close or `umount`. A thread of its own serves them, which takes one of the tracer's passes. What another program changes, as
 * `echo 1 > events/synthetic/tick/enable`, TRACECTL_EMIT heeds once that program's write has returned.
 *
 *  - Flags are 0, or TRACECTL_ALLOW_OTHER: other users get in, as far as the files' permissions let them (0750, of the user and group that this process had
 *    at tracectl_open). Others are refused with TRACECTL_BAD_VALUE.
 *  - It takes mount(2), and if this process has no right to that, the program fusermount3. What a program that ended has left on the folder is taken away.
 *  - A tracer has one mount at a time. Where something else is mounted on the folder, or it can't be, nothing changes: TRACECTL_FOLDER_BUSY and so on.
 *  - An emission makes no system call but where a read or a poll waits for it, and then one for all until the server has looked. (Where threads contend for
 *    the tracer, one may yield its processor.)
 *  - A call of tracectl never waits for a program that reads the files, but mounting and unmounting wait for the kernel, fusermount3 and the server. A thread
 *    of the process that opens files of its own mount is served as any other, but not in a call, and not the serving thread itself. A folder that the
 *    process has as its current one can be mounted on, and is then hidden.
 *  - At `exit` all mounts of the process are taken away, so the tracer's handle has to be there then: it is static, or on the heap and not freed, or it
 *    is closed before main returns. Who ends by _exit or a signal leaves the folder with ENOTCONN, until the next tracectl_mount on it, or `umount`; so does
 *    an exec, since the device closes.
 *  - A child has no mount, if fork made it, and began once a tracectl_open had returned: the calls of the tracer are refused with TRACECTL_FORKED, and it
 *    lets go of the device before fork returns in it, whatever other threads of its parent do then. A child that is made otherwise (vfork, clone) keeps
 *    the device until it ends or goes on by an exec. So if the parent is killed before, what asks the mount waits until then.
 *  - If the program closes descriptors that it did not open, as all but the first three, its mount ends, as if the server was killed. What it opens then
 *    under their numbers may be read, written and closed by the library.
 *  - A thread is not cancelled (pthread_cancel) while it mounts, unmounts or closes. */
uint32_t tracectl_mount(tracectl *tracer, const char *folder, uint32_t flags);

enum { TRACECTL_ALLOW_OTHER = 1 };

/* Takes the mount away, though programs have files of it open: these get errors from then on, and what waits in a read ends with one. What somebody else has
 * mounted on the folder since stays there. Where the process has lost the right to unmount, as by setuid, the mount ends likewise, here and at `exit`, but
 * leaves the folder with ENOTCONN. TRACECTL_NOT_MOUNTED: there is no mount. */
uint32_t tracectl_unmount(tracectl *tracer);

/* ---- Time. ---- */

/* The time in nanoseconds, since some moment that stays the same while the machine runs. A tracer's own clock counts emissions: it orders them, and
 * tells no durations. So who wants those declares a field for them, as `u64 at`, and emits this number (examples/c/durations.c). It is here where
 * time.h has POSIX's clock_gettime: with gcc's and clang's own dialect (-std=gnu11), or where _POSIX_C_SOURCE is 199309L or more. */
#ifdef CLOCK_MONOTONIC
static inline uint64_t tracectl_now(void) {
    struct timespec now;
    clock_gettime(CLOCK_MONOTONIC, &now);
    return (uint64_t)now.tv_sec * 1000000000u + (uint64_t)now.tv_nsec;
}
#endif

#ifdef __cplusplus
}
#endif

#endif

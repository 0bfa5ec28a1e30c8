/* A program with a tracer that does what lines of standard input say, and tells each line's outcome: tests/mounted_program. Linked with --wrap=malloc and
 * --wrap=realloc, by which memory is refused. */
#define _GNU_SOURCE
#include <errno.h>
#include <fcntl.h>
#include <poll.h>
#include <pthread.h>
#include <signal.h>
#include <stdio.h>
#include <stdlib.h>
#include <string.h>
#include <sys/syscall.h>
#include <sys/wait.h>
#include <unistd.h>
#include "tracectl.h"

enum { TICK = 1, MOST_THREADS = 8 };

static tracectl tracer = TRACECTL_CLOSED, other = TRACECTL_CLOSED;
static tracectl_thread thread = TRACECTL_LEFT;
static tracectl_settings settings = {.cpus = 4, .pages = 16, .page_bytes = 4080, .history_limit = 0};
static const char declared[] = "echo 'tick u64 n' >> synthetic_events";
static char shared[1 << 20]; /* what was read */
static long each;
static int goes_on;

static void say(uint32_t status) {
    printf("%s\n", tracectl_status_name(status));
    fflush(stdout);
}

static void say_number(long number) {
    printf("%ld\n", number);
    fflush(stdout);
}

/* ---- Memory that is refused. ---- */

void *__real_malloc(size_t size);
void *__real_realloc(void *block, size_t size);

static long left = -1; /* how many allocations succeed before one is refused; below 0 none is */
static long apart;     /* each so-many-th is refused; 0 none is */

static int is_refused(void) {
    long before = __atomic_load_n(&left, __ATOMIC_SEQ_CST), count = __atomic_load_n(&apart, __ATOMIC_SEQ_CST);
    static long given;
    if (before >= 0 && !__atomic_fetch_sub(&left, 1, __ATOMIC_SEQ_CST)) return 1;
    return count && __atomic_add_fetch(&given, 1, __ATOMIC_SEQ_CST) % count == 0;
}

void *__wrap_malloc(size_t size) { return is_refused() ? NULL : __real_malloc(size); }

void *__wrap_realloc(void *block, size_t size) { return is_refused() ? NULL : __real_realloc(block, size); }

/* ---- Emissions. ---- */

/* Emits so many times. The status is that of the last, or the first refusal. */
static uint32_t emit(tracectl_thread *by, long count) {
    uint32_t status = 0;
    for (long i = 0; !status && i < count; i++) status = TRACECTL_EMIT(by, TICK, tracectl_unsigned((uint64_t)i));
    return status;
}

/* Between two system calls by which strace tells that they began and ended. */
static void emit_marked(const char *count) {
    syscall(SYS_getppid);
    uint32_t status = emit(&thread, atol(count));
    syscall(SYS_getppid);
    say(status);
}

static void *run(void *failed) {
    tracectl_thread own = TRACECTL_LEFT;
    return tracectl_join(&tracer, &own) || emit(&own, each) || tracectl_leave(&own) ? failed : NULL;
}

static void emit_in_threads(const char *threads) {
    pthread_t started[MOST_THREADS];
    void *result;
    uint32_t failed = 0;
    long count = atol(threads);
    for (long i = 0; i < count; i++) pthread_create(&started[i], NULL, run, &tracer);
    for (long i = 0; i < count; i++) failed |= pthread_join(started[i], &result) || result;
    say(failed ? TRACECTL_NOT_JOINED : TRACECTL_DONE);
}

/* ---- Children. ---- */

/* A child tells its number, and what its calls come to, and stays until it is killed. */
static void have_child(const char *rest) {
    (void)rest;
    if (fork()) return;
    printf("%d\n", (int)getpid());
    say(tracectl_mount(&tracer, "/", 0));
    say(tracectl_unmount(&tracer));
    say(tracectl_close(&tracer));
    say(emit(&thread, 1));
    for (;;) pause();
}

/* How many descriptors this process has whose link is this, or of any if it is nothing. */
static long descriptors(const char *link) {
    char name[64], text[256];
    long count = 0;
    for (int file = 0; file < 1024; file++) {
        snprintf(name, sizeof name, "/proc/self/fd/%d", file);
        ssize_t length = readlink(name, text, sizeof text - 1);
        if (length < 0) continue;
        text[length] = 0;
        count += !link || !strcmp(text, link);
    }
    return count;
}

static void *mount_again_and_again(void *folder) {
    while (__atomic_load_n(&goes_on, __ATOMIC_RELAXED))
        if (tracectl_mount(&tracer, folder, 0) || tracectl_unmount(&tracer)) return &tracer;
    return NULL;
}

/* Forks so many times while a thread mounts and unmounts: each child looks whether it has a device. Tells how many have. */
static void fork_while_mounting(const char *rest) {
    char *folder;
    long count = strtol(rest, &folder, 10), found = 0;
    pthread_t mounter;
    void *failed;
    goes_on = 1;
    pthread_create(&mounter, NULL, mount_again_and_again, folder + 1);
    for (long i = 0; i < count; i++) {
        int status = 0;
        pid_t child = fork();
        if (!child) _exit(descriptors("/dev/fuse") != 0 || tracectl_mount(&tracer, "/", 0) != TRACECTL_FORKED);
        waitpid(child, &status, 0);
        found += status != 0;
    }
    __atomic_store_n(&goes_on, 0, __ATOMIC_RELAXED);
    pthread_join(mounter, &failed);
    say_number(failed ? -1 : found);
}

static void *mount_until_cancelled(void *folder) {
    for (;;) {
        tracectl_mount(&tracer, folder, 0);
        tracectl_unmount(&tracer);
        pthread_testcancel();
    }
}

/* Cancels a thread that mounts and unmounts, so many times: this thread can still unmount and fork. Tells whether there was no mount left. */
static void cancel_while_mounting(const char *rest) {
    char *folder;
    long count = strtol(rest, &folder, 10);
    uint32_t status = TRACECTL_NOT_MOUNTED;
    for (long i = 0; status == TRACECTL_NOT_MOUNTED && i < count; i++) {
        pthread_t mounter;
        pthread_create(&mounter, NULL, mount_until_cancelled, folder + 1);
        usleep((useconds_t)(i * 200));
        pthread_cancel(mounter);
        pthread_join(mounter, NULL);
        status = tracectl_unmount(&tracer);
        pid_t child = fork();
        if (!child) _exit(0);
        waitpid(child, NULL, 0);
    }
    say(status);
}

/* ---- Mounts. ---- */

static void mount_on(const char *folder) { say(tracectl_mount(&tracer, folder, 0)); }

static void mount_by(const char *rest) {
    char *folder;
    unsigned long flags = strtoul(rest, &folder, 10);
    say(tracectl_mount(&tracer, folder + 1, (uint32_t)flags));
}

static void unmount(const char *rest) {
    (void)rest;
    say(tracectl_unmount(&tracer));
}

/* Mounts and unmounts so many times. Each time this opens a file of the mount, and has it still open when the mount ends. */
static void mount_often(const char *rest) {
    char *folder, name[4096];
    long count = strtol(rest, &folder, 10);
    uint32_t status = 0;
    snprintf(name, sizeof name, "%s/trace_pipe", folder + 1);
    for (long i = 0; !status && i < count; i++) {
        status = tracectl_mount(&tracer, folder + 1, 0);
        int file = i % 16 ? -1 : open(name, O_RDONLY | O_NONBLOCK);
        if (!status) status = tracectl_unmount(&tracer);
        if (file >= 0) close(file);
    }
    say(status);
}

/* Mounts while the first allocation is refused, the second and so on. Tells how often that was, or what else it came to. */
static void mount_without_memory(const char *folder) {
    uint32_t status = TRACECTL_MEMORY;
    long count = -1, before = descriptors(NULL);
    while (status == TRACECTL_MEMORY && descriptors(NULL) <= before + 1) {
        left = ++count;
        status = tracectl_mount(&tracer, folder, 0);
        left = -1;
    }
    say_number(status ? -(long)status : count);
}

static void open_with(const char *rest) {
    unsigned long long limit = 0;
    int cpus = 4;
    if (rest) sscanf(rest, "%d %llu", &cpus, &limit);
    settings.cpus = (uint32_t)cpus;
    settings.history_limit = limit;
    say(tracectl_open(&tracer, &settings));
}

/* Opens files of its own mount, in the thread that emits: a read, and a poll that an emission answers. */
static void use_own(const char *folder) {
    char name[4096];
    snprintf(name, sizeof name, "%s/trace_pipe", folder);
    struct pollfd pipe = {open(name, O_RDONLY | O_NONBLOCK), POLLIN, 0};
    if (pipe.fd < 0 || read(pipe.fd, shared, sizeof shared) >= 0 || errno != EAGAIN || poll(&pipe, 1, 0)) return say(TRACECTL_BUSY);
    uint32_t status = emit(&thread, 1);
    int is_ready = poll(&pipe, 1, 60000);
    ssize_t length = read(pipe.fd, shared, sizeof shared);
    close(pipe.fd);
    say(status ? status : is_ready == 1 && length > 0 && memmem(shared, (size_t)length, "tick: n=0\n", 10) ? TRACECTL_DONE : TRACECTL_BAD_VALUE);
}

/* ---- Calls of all kinds side by side. ---- */

struct racer {
    pthread_t thread;
    const char *folder;
    long count;
    unsigned seed;
};

/* One call. Which status it has nobody can say, but it is one of those that the header tells of it. */
static uint32_t call_any(struct racer *racer, tracectl_thread *own) {
    switch (rand_r(&racer->seed) % 12) {
    case 0: return tracectl_mount(&tracer, racer->folder, 0);
    case 1: return tracectl_unmount(&tracer);
    case 2: return tracectl_close(&tracer);
    case 3: return tracectl_open(&tracer, &settings);
    case 4: return tracectl_join(&tracer, own);
    case 5: return tracectl_leave(own);
    case 6: return tracectl_line(own, declared, strlen(declared));
    case 7: return tracectl_line(own, "echo 1 > events/enable", 22);
    default: return tracectl_emit_here(own, TICK, (tracectl_value[]){tracectl_unsigned(1)}, 1);
    }
}

static void *race(void *of) {
    struct racer *racer = of;
    tracectl_thread own = TRACECTL_LEFT;
    for (long i = 0; i < racer->count; i++) {
        uint32_t status = call_any(racer, &own);
        if (status >= TRACECTL_NO_FOLDER && status != TRACECTL_FOLDER_BUSY) fprintf(stderr, "%s\n", tracectl_status_name(status));
    }
    if (own.seat) tracectl_leave(&own);
    return NULL;
}

/* Four threads make so many calls each, while the folder is read. Then the tracer is closed, if it is open. */
static void race_all(const char *rest) {
    struct racer racers[4];
    char *folder;
    long count = strtol(rest, &folder, 10);
    for (int i = 0; i < 4; i++) {
        racers[i] = (struct racer){.folder = folder + 1, .count = count, .seed = (unsigned)i + 1};
        pthread_create(&racers[i].thread, NULL, race, &racers[i]);
    }
    for (int i = 0; i < 4; i++) pthread_join(racers[i].thread, NULL);
    uint32_t status = tracectl_close(&tracer);
    say(status == TRACECTL_NOT_OPEN ? TRACECTL_DONE : status);
}

/* ---- Ends. ---- */

static void interrupted(int signal) {
    (void)signal;
    exit(3);
}

/* A signal comes while this thread is within a call, and its handler exits: the call is one of a tracer's that is begun, and has no turn. */
static void exit_in_call(const char *rest) {
    (void)rest;
    signal(SIGUSR1, interrupted);
    if (!tracectl_begin(&thread)) raise(SIGUSR1);
}

static int exits_in_fork;

/* At the beginning of a fork, but after the library's own handler, which was registered later. */
static void raise_in_fork(void) {
    if (exits_in_fork) raise(SIGUSR1);
}

/* The signal comes while this thread forks. */
static void exit_in_fork(const char *rest) {
    (void)rest;
    signal(SIGUSR1, interrupted);
    exits_in_fork = 1;
    if (!fork()) _exit(0);
}

static void go_on_as(const char *seconds) { execlp("sleep", "sleep", seconds, (char *)NULL); }

/* Closes all descriptors but the first three, as who goes into the background may. */
static void close_all(const char *rest) {
    (void)rest;
    for (int file = 3; file < 1024; file++) close(file);
    say(TRACECTL_DONE);
}

/* ---- Lines. ---- */

static void tell_left(const char *rest) {
    (void)rest;
    say(tracectl_leave(&thread));
}

static void tell_joined(const char *rest) {
    (void)rest;
    say(tracectl_join(&tracer, &thread));
}

static void tell_closed(const char *rest) {
    (void)rest;
    say(tracectl_close(&tracer));
}

static void do_line_of_script(const char *line) { say(tracectl_line(&thread, line, strlen(line))); }

static void set_each(const char *count) {
    each = atol(count);
    say(TRACECTL_DONE);
}

static void set_apart(const char *count) {
    __atomic_store_n(&apart, atol(count), __ATOMIC_SEQ_CST);
    say(TRACECTL_DONE);
}

static void tell_wanted(const char *rest) {
    (void)rest;
    say_number(tracectl_is_wanted(&thread, TICK));
}

static void tell_entries(const char *rest) {
    (void)rest;
    say_number((long)tracectl_entries(&thread));
}

static void tell_descriptors(const char *rest) { say_number(descriptors(rest)); }

static void open_other(const char *rest) {
    (void)rest;
    say(tracectl_open(&other, &settings));
}

static void mount_other(const char *folder) { say(tracectl_mount(&other, folder, 0)); }

static void close_other(const char *rest) {
    (void)rest;
    say(tracectl_close(&other));
}

static void end_at_once(const char *rest) { _exit(rest != NULL); }

static void end(const char *rest) { exit(rest != NULL); }

static void be_killed(const char *rest) {
    (void)rest;
    raise(SIGKILL);
}

static const struct {
    const char *word;
    void (*does)(const char *rest);
} WORDS[] = {
    {"mount", mount_on}, {"mount-by", mount_by}, {"unmount", unmount}, {"open-other", open_other}, {"mount-other", mount_other},
    {"close-other", close_other}, {"line", do_line_of_script}, {"emit", emit_marked}, {"each", set_each}, {"threads", emit_in_threads},
    {"wanted", tell_wanted}, {"entries", tell_entries}, {"fork", have_child}, {"forks", fork_while_mounting}, {"cancels", cancel_while_mounting},
    {"often", mount_often}, {"without-memory", mount_without_memory}, {"apart", set_apart}, {"descriptors", tell_descriptors}, {"own", use_own},
    {"race", race_all}, {"leave", tell_left}, {"join", tell_joined}, {"close", tell_closed}, {"open", open_with}, {"exec", go_on_as}, {"exit", end},
    {"_exit", end_at_once}, {"exit-in-call", exit_in_call}, {"exit-in-fork", exit_in_fork}, {"close-all", close_all}, {"kill", be_killed},
};

static void do_line(char *line) {
    char *word = strtok(line, " "), *rest = strtok(NULL, "");
    size_t at = 0;
    while (at < sizeof WORDS / sizeof *WORDS && strcmp(WORDS[at].word, word)) at++;
    if (at == sizeof WORDS / sizeof *WORDS) exit(9);
    WORDS[at].does(rest);
}

int main(void) {
    char line[4096];
    if (pthread_atfork(raise_in_fork, NULL, NULL) || tracectl_open(&tracer, &settings) || tracectl_join(&tracer, &thread)) return 1;
    say(tracectl_line(&thread, declared, strlen(declared)));
    while (fgets(line, sizeof line, stdin)) {
        line[strcspn(line, "\n")] = 0;
        do_line(line);
    }
    return 0;
}

/* A tracer of a program mounted on a folder, while the program runs: how its mounts come and go, and what becomes of them at a fork and at the end. What is
 * served is in tracectl_serve.c.
 *
 * Mounts come and go under a lock of their own, `mounting`, which no server takes, so that a server's end can be awaited under it. The list of them and
 * their devices also change under a second one, `devices`, which is held for a moment each time, and by each fork, so that a child closes all that it got.
 * The eventfd is open from the first mount until the tracer is closed, since threads that have joined may write it at any time. */
#define _GNU_SOURCE
#include "tracectl_mounted.h"

#include <errno.h>
#include <fcntl.h>
#include <poll.h>
#include <signal.h>
#include <spawn.h>
#include <stdio.h>
#include <stdlib.h>
#include <string.h>
#include <sys/eventfd.h>
#include <sys/mount.h>
#include <sys/socket.h>
#include <sys/stat.h>
#include <sys/wait.h>
#include <unistd.h>

#ifndef STATX_ATTR_MOUNT_ROOT /* of linux/stat.h, which older systems don't have */
#define STATX_ATTR_MOUNT_ROOT 0x2000
#endif

extern char **environ;

enum { MOST_DEAD = 16, HELPERS_SOCKET = 3 };

static const char DEVICE[] = "/dev/fuse", SOURCE[] = "#tracectl", HELPER[] = "fusermount3", SETTING[] = "_FUSE_COMMFD=3"; /* HELPERS_SOCKET */

static pthread_mutex_t mounting = PTHREAD_ERRORCHECK_MUTEX_INITIALIZER_NP;
static pthread_mutex_t devices = PTHREAD_ERRORCHECK_MUTEX_INITIALIZER_NP;
static struct tracectl_mounted *all; /* of this process */
static int cancels;                  /* whether the thread that has `mounting` could be cancelled before */

/* ---- The program fusermount3, by which users mount who have no right to. ---- */

/* The environment with the setting that tells it its end of a socket, or nothing for lack of memory. */
static char **with_setting(void) {
    size_t count = 0;
    while (environ && environ[count]) count++;
    char **with = malloc((count + 2) * sizeof *with);
    if (!with) return NULL;
    with[0] = (char *)SETTING;
    if (count) memcpy(with + 1, environ, count * sizeof *with);
    with[count + 1] = NULL;
    return with;
}

/* Runs it with these words and, unless it is -1, this descriptor as its end. Where the program ignores its children there is no outcome, which counts as
 * success. TRACECTL_NO_RIGHT: it failed, or is not there. */
static uint32_t run_helper(char *const *words, int socket) {
    posix_spawn_file_actions_t actions;
    pid_t child;
    int status = 0;
    char **with = with_setting();
    if (!with || posix_spawn_file_actions_init(&actions)) {
        free(with);
        return TRACECTL_MEMORY;
    }
    int error = socket < 0 ? 0 : posix_spawn_file_actions_adddup2(&actions, socket, HELPERS_SOCKET);
    if (!error) error = posix_spawnp(&child, HELPER, &actions, NULL, words, with);
    posix_spawn_file_actions_destroy(&actions);
    free(with);
    if (error) return error == ENOMEM || error == EAGAIN ? TRACECTL_MEMORY : TRACECTL_NO_RIGHT;
    while (waitpid(child, &status, 0) < 0 && errno == EINTR) {}
    return WIFEXITED(status) && !WEXITSTATUS(status) ? TRACECTL_DONE : TRACECTL_NO_RIGHT;
}

/* The descriptor that it sent before it ended, or -1. */
static int received(int socket) {
    char byte, room[CMSG_SPACE(sizeof(int))];
    struct iovec part = {&byte, 1};
    struct msghdr message = {.msg_iov = &part, .msg_iovlen = 1, .msg_control = room, .msg_controllen = sizeof room};
    int file = -1;
    if (recvmsg(socket, &message, MSG_CMSG_CLOEXEC | MSG_DONTWAIT) <= 0) return -1;
    struct cmsghdr *head = CMSG_FIRSTHDR(&message);
    if (head && head->cmsg_type == SCM_RIGHTS) memcpy(&file, CMSG_DATA(head), sizeof file);
    return file;
}

static uint32_t mount_by_helper(struct tracectl_mounted *mount, const char *access) {
    int ends[2];
    char options[128];
    snprintf(options, sizeof options, "fsname=%s%s", SOURCE, access);
    char *words[] = {(char *)HELPER, "-o", options, "--", mount->folder, NULL};
    if (socketpair(AF_UNIX, SOCK_STREAM | SOCK_CLOEXEC, 0, ends)) return TRACECTL_MEMORY;
    uint32_t status = run_helper(words, ends[1]);
    pthread_mutex_lock(&devices);
    if (!status) mount->device = received(ends[0]);
    pthread_mutex_unlock(&devices);
    close(ends[1]);
    close(ends[0]);
    if (status || mount->device < 0) return status ? status : TRACECTL_NO_RIGHT;
    fcntl(mount->device, F_SETFL, fcntl(mount->device, F_GETFL) | O_NONBLOCK);
    return TRACECTL_DONE;
}

/* ---- Mounting. ---- */

void tracectl_close_device(struct tracectl_mounted *mount) {
    pthread_mutex_lock(&devices);
    if (mount->device >= 0) close(mount->device);
    mount->device = -1;
    pthread_mutex_unlock(&devices);
}

/* Opens the device. Otherwise errno says why not. */
static int is_opened(struct tracectl_mounted *mount) {
    pthread_mutex_lock(&devices);
    mount->device = open(DEVICE, O_RDWR | O_CLOEXEC | O_NONBLOCK);
    pthread_mutex_unlock(&devices);
    return mount->device >= 0;
}

/* Mounts by mount(2). Otherwise errno says why not. */
static int is_mounted_by_right(int device, const char *folder, const char *access) {
    char options[160];
    unsigned user = geteuid(), group = getegid();
    snprintf(options, sizeof options, "fd=%d,rootmode=40000,user_id=%u,group_id=%u%s", device, user, group, access);
    return !mount(SOURCE, folder, "fuse", MS_NOSUID | MS_NODEV, options);
}

/* Mounts on the folder: the device is open then. */
static uint32_t mount_on(struct tracectl_mounted *mount, uint32_t flags) {
    const char *access = flags & TRACECTL_ALLOW_OTHER ? ",allow_other,default_permissions" : "";
    if (!is_opened(mount)) return errno == EMFILE || errno == ENFILE || errno == ENOMEM ? TRACECTL_MEMORY : TRACECTL_NO_DEVICE;
    if (is_mounted_by_right(mount->device, mount->folder, access)) return TRACECTL_DONE;
    int error = errno;
    tracectl_close_device(mount);
    return error == EBUSY ? TRACECTL_FOLDER_BUSY : error == ENOMEM ? TRACECTL_MEMORY : mount_by_helper(mount, access);
}

/* ---- What is on a folder. ---- */

/* The number of the file system there, or 0. Nobody who serves it is asked. */
static uint64_t file_system_of(const char *folder) {
    struct statx of;
    if (statx(AT_FDCWD, folder, AT_STATX_DONT_SYNC | AT_NO_AUTOMOUNT, 0, &of)) return 0;
    return (uint64_t)of.stx_dev_major << 32 | of.stx_dev_minor;
}

/* Whether a mount is there that nobody serves any more. */
static int is_dead(const char *folder) {
    struct stat of;
    return stat(folder, &of) && errno == ENOTCONN;
}

static void take_away(const char *folder) {
    char *words[] = {(char *)HELPER, "-u", "-z", "-q", "--", (char *)folder, NULL};
    if (umount2(folder, MNT_DETACH) && errno == EPERM) run_helper(words, -1);
}

/* Whether something is mounted on a folder, or it is `/`. A kernel before Linux 5.8 does not tell; then a folder of another file system than the one above
 * it counts as mounted on. */
static int is_taken(const char *folder, const struct stat *of, const struct stat *above) {
    struct statx told;
    if (of->st_dev == above->st_dev && of->st_ino == above->st_ino) return 1;
    if (statx(AT_FDCWD, folder, AT_STATX_DONT_SYNC | AT_NO_AUTOMOUNT, 0, &told) || !(told.stx_attributes_mask & STATX_ATTR_MOUNT_ROOT))
        return of->st_dev != above->st_dev;
    return (told.stx_attributes & STATX_ATTR_MOUNT_ROOT) != 0;
}

/* Whether a folder can be mounted on: it is one, and nothing is mounted there. */
static uint32_t check_folder(const char *folder) {
    struct stat of, above;
    char *parent = malloc(strlen(folder) + sizeof "/..");
    if (!parent) return TRACECTL_MEMORY;
    sprintf(parent, "%s/..", folder);
    int is_folder = !stat(folder, &of) && S_ISDIR(of.st_mode) && !stat(parent, &above);
    free(parent);
    if (!is_folder) return TRACECTL_NO_FOLDER;
    return is_taken(folder, &of, &above) ? TRACECTL_FOLDER_BUSY : TRACECTL_DONE;
}

/* Whether the kernel has the mount, and the server its device. A fork of this thread may have the lock, if a handler of a signal that came then exits. */
static int is_connected(const struct tracectl_mounted *mount) {
    int is_locked = !pthread_mutex_lock(&devices);
    struct pollfd device = {mount->device, 0, 0};
    int is_connected = device.fd >= 0 && poll(&device, 1, 0) <= 0;
    if (is_locked) pthread_mutex_unlock(&devices);
    return is_connected;
}

/* Whether this mount is what is on its folder: not if somebody unmounted it, or mounted something else over it. The number of its file system stays its own
 * until the kernel has ended it, and then it is not connected; so the number is asked first. Otherwise a dead one is there that was this one, or nobody's. */
static int is_there(const struct tracectl_mounted *mount) {
    if (mount->file_system && file_system_of(mount->folder) != mount->file_system) return 0;
    return is_connected(mount) || is_dead(mount->folder);
}

/* ---- Starting and stopping. ---- */

/* A mount of this folder, whose name is taken over, or nothing for lack of memory. */
static struct tracectl_mounted *new_mount(tracectl *tracer, char *folder) {
    struct tracectl_mounted *mount = malloc(sizeof *mount);
    if (!mount) return NULL;
    mount->tracer = tracer;
    mount->folder = folder;
    mount->file_system = 0;
    mount->device = -1;
    mount->stops = 0;
    mount->contended_reads = 0;
    mount->thread = (tracectl_thread)TRACECTL_LEFT;
    mount->parked = mount->opened = (struct tracectl_numbers){NULL, 0, 0};
    pthread_mutex_lock(&devices);
    mount->next = all;
    all = mount;
    pthread_mutex_unlock(&devices);
    return mount;
}

/* Takes a mount that nobody serves out of the list, and frees it. */
static void forget(struct tracectl_mounted *mount) {
    struct tracectl_mounted **place = &all;
    tracectl_close_device(mount);
    while (*place != mount) place = &(*place)->next;
    pthread_mutex_lock(&devices);
    *place = mount->next;
    pthread_mutex_unlock(&devices);
    free(mount->parked.all);
    free(mount->opened.all);
    free(mount->folder);
    free(mount);
}

/* Starts the server, which no signal interrupts, and waits until it serves. */
static uint32_t start_server(struct tracectl_mounted *mount) {
    sigset_t every, before;
    if (sem_init(&mount->is_ready, 0, 0)) abort(); /* 0 is no number that is refused */
    sigfillset(&every);
    pthread_sigmask(SIG_SETMASK, &every, &before);
    int error = pthread_create(&mount->server, NULL, tracectl_serve, mount);
    pthread_sigmask(SIG_SETMASK, &before, NULL);
    if (!error) {
        while (sem_wait(&mount->is_ready) && errno == EINTR) {}
        if (mount->status) pthread_join(mount->server, NULL);
    }
    sem_destroy(&mount->is_ready);
    return error ? TRACECTL_MEMORY : mount->status;
}

static int has_wakes(tracectl *tracer) {
    if (!tracer->wakes) __atomic_store_n(&tracer->wakes, eventfd(0, EFD_CLOEXEC | EFD_NONBLOCK) + 1, __ATOMIC_RELEASE);
    return tracer->wakes != 0;
}

/* Mounts, and starts to serve. */
static uint32_t start(struct tracectl_mounted *mount, uint32_t flags) {
    uint32_t status = check_folder(mount->folder);
    if (!status && !has_wakes(mount->tracer)) status = TRACECTL_MEMORY;
    if (!status) status = mount_on(mount, flags);
    if (status) return status;
    status = start_server(mount);
    if (status) take_away(mount->folder);
    else mount->file_system = file_system_of(mount->folder);
    return status;
}

/* Takes the mount away, unless somebody has done that, ends the server, and gives back what it had. */
static void stop(struct tracectl_mounted *mount) {
    if (is_there(mount)) take_away(mount->folder);
    tracectl_stop_serving(mount);
    pthread_join(mount->server, NULL);
    forget(mount);
}

static struct tracectl_mounted *mount_of(const tracectl *tracer) {
    struct tracectl_mounted *mount = all;
    while (mount && mount->tracer != tracer) mount = mount->next;
    return mount;
}

/* Mounts a tracer that is not mounted. What programs that ended have left on the folder is taken away first. */
static uint32_t mount_anew(tracectl *tracer, const char *folder, uint32_t flags) {
    for (int dead = 0; dead < MOST_DEAD && is_dead(folder); dead++) take_away(folder);
    char *name = realpath(folder, NULL);
    if (!name) return errno == ENOMEM ? TRACECTL_MEMORY : TRACECTL_NO_FOLDER;
    struct tracectl_mounted *mount = new_mount(tracer, name);
    if (!mount) {
        free(name);
        return TRACECTL_MEMORY;
    }
    uint32_t status = start(mount, flags);
    int error = errno;
    if (status) forget(mount);
    errno = error;
    return status;
}

/* ---- The process. ---- */

/* Takes `mounting`, under which its thread is not cancelled: a thread that ended there would leave it locked, and each later fork waiting for `devices`. */
static int has_failed_to_lock(int waits) {
    int before;
    pthread_setcancelstate(PTHREAD_CANCEL_DISABLE, &before);
    int error = waits ? pthread_mutex_lock(&mounting) : pthread_mutex_trylock(&mounting);
    if (error) pthread_setcancelstate(before, NULL);
    else cancels = before;
    return error;
}

static void before_fork(void) {
    pthread_mutex_lock(&devices);
}

static void after_fork(void) {
    pthread_mutex_unlock(&devices);
}

/* A child has no server, and lets go of the devices, so that the end of the parent ends its mounts. */
static void forget_all(void) {
    pthread_mutex_t unlocked = PTHREAD_ERRORCHECK_MUTEX_INITIALIZER_NP;
    for (struct tracectl_mounted *mount = all; mount; mount = mount->next)
        if (mount->device >= 0) close(mount->device);
    all = NULL;
    mounting = devices = unlocked;
}

/* At exit. Within a call, from which a signal or malloc came here, nobody is awaited: the server perhaps waits for this thread. */
static void unmount_all(void) {
    int waits = !tracectl_is_in_call();
    if (has_failed_to_lock(waits)) return;
    while (waits && all) stop(all);
    for (struct tracectl_mounted *mount = all; mount; mount = mount->next)
        if (is_there(mount)) take_away(mount->folder);
    tracectl_unlock_mounts();
}

int tracectl_heed_forks(void) {
    return !pthread_atfork(before_fork, after_fork, forget_all);
}

static int heeds_exit(void) {
    static int is_told;
    is_told = is_told || !atexit(unmount_all);
    return is_told;
}

/* ---- The calls. ---- */

/* It is checked before, too, since a thread within a call may wait for nobody. */
uint32_t tracectl_lock_mounts(const tracectl *tracer) {
    uint32_t status = tracectl_check(tracer);
    if (status) return status;
    if (has_failed_to_lock(1)) return TRACECTL_IN_CALL;
    if ((status = tracectl_check(tracer))) tracectl_unlock_mounts();
    return status;
}

void tracectl_unlock_mounts(void) {
    int before = cancels;
    pthread_mutex_unlock(&mounting);
    pthread_setcancelstate(before, NULL);
}

int tracectl_end_mount(const tracectl *tracer) {
    struct tracectl_mounted *mount = mount_of(tracer);
    if (mount) stop(mount);
    return mount != NULL;
}

uint32_t tracectl_mount(tracectl *tracer, const char *folder, uint32_t flags) {
    uint32_t status = tracectl_lock_mounts(tracer);
    if (status) return status;
    struct tracectl_mounted *mount = mount_of(tracer);
    if (mount && !is_connected(mount)) { /* somebody else unmounted it */
        stop(mount);
        mount = NULL;
    }
    status = flags & ~(uint32_t)TRACECTL_ALLOW_OTHER ? TRACECTL_BAD_VALUE
             : tracer->is_limited                    ? TRACECTL_LIMITED
             : mount                                 ? TRACECTL_ALREADY_MOUNTED
             : !heeds_exit()                         ? TRACECTL_MEMORY
                                                     : mount_anew(tracer, folder, flags);
    tracectl_unlock_mounts();
    return status;
}

uint32_t tracectl_unmount(tracectl *tracer) {
    uint32_t status = tracectl_lock_mounts(tracer);
    if (status) return status;
    if (!tracectl_end_mount(tracer)) status = TRACECTL_NOT_MOUNTED;
    tracectl_unlock_mounts();
    return status;
}

/* What tracectl.c, tracectl_mount.c and tracectl_serve.c share of mounts. It is no part of what a user sees, and is not installed: none of these names leaves
 * the shared library. */
#ifndef TRACECTL_MOUNTED_H
#define TRACECTL_MOUNTED_H

#include <pthread.h>
#include <semaphore.h>

#include "tracectl.h"

#define TRACECTL_INSIDE __attribute__((visibility("hidden")))

enum { TRACECTL_MOST_BYTES = 135168 }; /* of a request, and of a reply */

/* Some numbers, in no order. */
struct tracectl_numbers {
    uint64_t *all;
    size_t count, room;
};

/* A mount. It is there from tracectl_mount to tracectl_unmount, even if somebody else unmounts the folder before. */
struct tracectl_mounted {
    tracectl *tracer;
    struct tracectl_mounted *next; /* of this process */
    char *folder;                  /* the whole name */
    uint64_t file_system;          /* number of what was mounted there, as st_dev tells it; 0 where it is not known */
    pthread_t server;
    sem_t is_ready;
    uint32_t status; /* of the server, once it is ready */
    int device;      /* -1 once it is closed. It changes under a lock of tracectl_mount.c; the server, which closes it, reads it without */
    int stops;       /* the server is to end */
    tracectl_thread thread;
    uint32_t contended_reads;       /* how many of the latest READs found the tracer taken, at most as many as make the server rest */
    struct tracectl_numbers parked; /* reads that wait */
    struct tracectl_numbers opened; /* handles of open files */
    char request[TRACECTL_MOST_BYTES], reply[TRACECTL_MOST_BYTES];
};

/* ---- tracectl.c ---- */

/* Whether this thread is within a call of tracectl, and so keeps others waiting. */
TRACECTL_INSIDE int tracectl_is_in_call(void);

/* Whether this thread may mount, unmount and close a tracer now: TRACECTL_DONE, or why not. */
TRACECTL_INSIDE uint32_t tracectl_check(const tracectl *tracer);

/* ---- tracectl_mount.c ---- */

/* Has each fork from now on heed mounts. This comes before there is a tracer, since a fork that has begun heeds nothing more. Whether that could be done. */
TRACECTL_INSIDE int tracectl_heed_forks(void);

/* Takes the lock under which mounts come and go, if this thread may change those of a tracer: TRACECTL_DONE, or why not. */
TRACECTL_INSIDE uint32_t tracectl_lock_mounts(const tracectl *tracer);
TRACECTL_INSIDE void tracectl_unlock_mounts(void);

/* Under that lock: ends a tracer's mount, and has whether there was one. */
TRACECTL_INSIDE int tracectl_end_mount(const tracectl *tracer);

TRACECTL_INSIDE void tracectl_close_device(struct tracectl_mounted *mount);

/* ---- tracectl_serve.c ---- */

/* What the serving thread does, of a mount. */
TRACECTL_INSIDE void *tracectl_serve(void *mounted);

/* Has that thread end. */
TRACECTL_INSIDE void tracectl_stop_serving(struct tracectl_mounted *mount);

#endif

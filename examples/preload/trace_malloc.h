/* What the files of trace_malloc.so share. */
#ifndef TRACE_MALLOC_H
#define TRACE_MALLOC_H

#include <stddef.h>
#include <sys/types.h>
#include "tracectl.h"

#define EXPORTED __attribute__((visibility("default")))

/* ---- memory.c ---- */

void *__wrap_malloc(size_t bytes);
void *__wrap_realloc(void *place, size_t bytes);
void __wrap_free(void *place);

/* Memory of its own, or null. */
void *mapped(size_t bytes);

/* In a child another thread may have held the lock when it was made: nothing is given any more, and nothing taken back. */
extern volatile int is_memory_closed;

/* ---- environment.c ---- */

enum { LINES, REPORT, SHOWN, MOUNT, LOADED, SETTINGS };

/* The process that is traced; 0 until it is known. */
extern pid_t traced;

void take_settings(void);

/* What the environment said of a setting, or the other text. */
const char *setting(int which, const char *otherwise);

void leave_environment(void);

/* ---- mount.c ---- */

uint32_t mount_tracer(tracectl *tracer, const char *folder);

#endif

/* The tracer's mount. Its descriptors have higher numbers than those that programs and shells use: `exec 3< file` closes what was 3 before, and a program
 * that is started without a standard input gets the lowest number as that. */
#define _GNU_SOURCE
#include <fcntl.h>
#include <sys/resource.h>
#include <unistd.h>
#include "trace_malloc.h"

enum { LEAST = 900, OF_MOUNT = 16 };

/* Opens all descriptors that are free below the first that the mount may have, and has their number. */
static int open_lower(int *lower) {
    struct rlimit limit;
    int count = 0, least = LEAST;
    if (getrlimit(RLIMIT_NOFILE, &limit)) return 0;
    if (limit.rlim_cur < LEAST + OF_MOUNT) least = (int)limit.rlim_cur - OF_MOUNT;
    int file = open("/dev/null", O_RDONLY | O_CLOEXEC);
    for (; file >= 0 && file < least; file = fcntl(file, F_DUPFD_CLOEXEC, 0)) lower[count++] = file;
    if (file >= 0) close(file);
    return count;
}

uint32_t mount_tracer(tracectl *tracer, const char *folder) {
    int lower[LEAST], count = open_lower(lower);
    uint32_t status = tracectl_mount(tracer, folder, 0);
    while (count) close(lower[--count]);
    return status;
}

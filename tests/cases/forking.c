/* Loaded before the C library by forking.py: in place of the program, as many of it as there are runs, each forked off before its `main`. A run has
   the first bytes of the script as its standard input. The allocation of a run that has its number, from 1, returns null, and no other does. Where
   a run has such a number and nothing was refused, it is the last one.

   In the folder RUNS are the files `script` and `runs`; `ended`, `stdout` and `stderr` are made there. */
#define _GNU_SOURCE
#include <errno.h>
#include <fcntl.h>
#include <signal.h>
#include <stdatomic.h>
#include <stddef.h>
#include <stdlib.h>
#include <sys/mman.h>
#include <sys/prctl.h>
#include <sys/stat.h>
#include <sys/wait.h>
#include <unistd.h>

enum { WRONG = 99 }; /* the status where nothing could be run */

struct run {
    long length; /* of the script */
    long refused;
};

struct ended {
    long was_refused;
    long status;
    long out, err; /* where what it wrote ends in the files */
};

extern void *__libc_malloc(size_t);
extern void *__libc_calloc(size_t, size_t);
extern void *__libc_realloc(void *, size_t);
extern void *__libc_memalign(size_t, size_t);

static atomic_long left = -1;
static long *was_refused; /* shared with what is forked off */

static int is_refused(void)
{
    if (atomic_fetch_sub(&left, 1) != 1)
        return 0;
    *was_refused = 1;
    errno = ENOMEM;
    return 1;
}

void *malloc(size_t size) { return is_refused() ? NULL : __libc_malloc(size); }

void *calloc(size_t count, size_t size) { return is_refused() ? NULL : __libc_calloc(count, size); }

void *realloc(void *block, size_t size) { return is_refused() ? NULL : __libc_realloc(block, size); }

void *aligned_alloc(size_t alignment, size_t size) { return is_refused() ? NULL : __libc_memalign(alignment, size); }

int posix_memalign(void **block, size_t alignment, size_t size)
{
    if (is_refused())
        return ENOMEM;
    *block = __libc_memalign(alignment, size);
    return *block ? 0 : ENOMEM;
}

static void expect(int is_right)
{
    if (!is_right)
        _exit(WRONG);
}

static int opened(int folder, const char *name, int flags)
{
    int file = openat(folder, name, flags | O_CLOEXEC, 0600);
    expect(file >= 0);
    return file;
}

static long size_of(int file)
{
    struct stat status;
    expect(fstat(file, &status) == 0);
    return status.st_size;
}

/* The bytes of a file, of which there are so many. */
static const void *bytes_of(int folder, const char *name, long *size)
{
    int file = opened(folder, name, O_RDONLY);
    *size = size_of(file);
    const void *bytes = *size ? mmap(NULL, *size, PROT_READ, MAP_PRIVATE, file, 0) : "";
    expect(bytes != MAP_FAILED);
    close(file);
    return bytes;
}

/* What a forked process does before the program's `main`. */
static void begin(const char *script, struct run run, int out, int err)
{
    int in = memfd_create("script", MFD_CLOEXEC);
    expect(prctl(PR_SET_PDEATHSIG, SIGKILL) == 0 && in >= 0);
    expect(write(in, script, run.length) == run.length && lseek(in, 0, SEEK_SET) == 0);
    expect(dup2(in, 0) == 0 && dup2(out, 1) == 1 && dup2(err, 2) == 2);
    left = run.refused ? run.refused : -1;
}

__attribute__((constructor)) static void run_each(void)
{
    int folder = open(getenv("RUNS"), O_RDONLY | O_DIRECTORY | O_CLOEXEC);
    long size;
    const char *script = bytes_of(folder, "script", &size);
    const struct run *runs = bytes_of(folder, "runs", &size);
    int made = O_CREAT | O_WRONLY | O_APPEND;
    int out = opened(folder, "stdout", made), err = opened(folder, "stderr", made), told = opened(folder, "ended", made);
    was_refused = mmap(NULL, sizeof *was_refused, PROT_READ | PROT_WRITE, MAP_SHARED | MAP_ANONYMOUS, -1, 0);
    expect(was_refused != MAP_FAILED);
    for (const struct run *run = runs; run < runs + size / sizeof *runs; run++) {
        *was_refused = 0;
        pid_t process = fork();
        if (process == 0) {
            begin(script, *run, out, err);
            return;
        }
        int status;
        expect(process > 0 && waitpid(process, &status, 0) == process);
        struct ended ended = {*was_refused, WIFEXITED(status) ? WEXITSTATUS(status) : -WTERMSIG(status), size_of(out), size_of(err)};
        expect(write(told, &ended, sizeof ended) == sizeof ended);
        if (run->refused && !ended.was_refused)
            break;
    }
    _exit(0);
}

/* A program that allocates as often as it says at each moment of its life, by each function, with a size for each, from 100,001 on. `known` is what
 * tests/preload counts. `known crowd` has more threads that allocate at a time than a tracer has passes, `known idle` as many that call nothing, one after
 * another. `known lines` does what lines of standard input say, and tells when it is done: `SIZE TIMES` allocates, and `child` has a child that does. */
#define _GNU_SOURCE
#include <malloc.h>
#include <pthread.h>
#include <stdio.h>
#include <stdlib.h>
#include <string.h>
#include <sys/wait.h>
#include <unistd.h>

enum { THREADS = 8, OF_EACH = 1000, CROWD = 1100 };
enum { CONSTRUCTOR = 100001, MAIN, THREAD, DESTRUCTOR, AT_EXIT, CHILD, PARENT, REALLOC, CALLOC, POSIX_MEMALIGN, ALIGNED_ALLOC, MEMALIGN, IN_CROWD };

static pthread_barrier_t barrier;

static void fail(const char *what) {
    fprintf(stderr, "%s\n", what);
    _exit(9);
}

/* Writes all of a block, so that it is one. */
static void *filled(void *block, size_t bytes) {
    if (!block) fail("no block");
    return memset(block, 0x5a, bytes);
}

static void take(size_t bytes, int times) {
    for (; times; times--) free(filled(malloc(bytes), bytes));
}

__attribute__((constructor)) static void construct(void) {
    take(CONSTRUCTOR, 3);
}

__attribute__((destructor)) static void destruct(void) {
    take(DESTRUCTOR, 7);
}

static void at_exit(void) {
    take(AT_EXIT, 2);
}

static void *run(void *unused) {
    take(THREAD, OF_EACH);
    return unused;
}

static void *be_one_of_crowd(void *unused) {
    char *block = filled(malloc(IN_CROWD), 1);
    pthread_barrier_wait(&barrier);
    free(block);
    return unused;
}

static void *be_idle(void *unused) {
    return unused;
}

static void start(int count, void *(*body)(void *)) {
    static pthread_t threads[CROWD];
    pthread_attr_t small;
    pthread_attr_init(&small);
    pthread_attr_setstacksize(&small, 1 << 18);
    for (int i = 0; i < count; i++)
        if (pthread_create(&threads[i], &small, body, NULL)) fail("no thread");
    for (int i = 0; i < count; i++) pthread_join(threads[i], NULL);
}

static void have_child(void) {
    int status;
    pid_t child = fork();
    if (!child) {
        take(CHILD, 9);
        exit(0);
    }
    if (waitpid(child, &status, 0) != child || status) fail("the child failed");
    take(PARENT, 1);
}

static void take_otherwise(void) {
    void *place, *old = malloc(1);
    free(filled(realloc(old, REALLOC), REALLOC));
    char *zeros = calloc(1, CALLOC);
    for (int i = 0; i < CALLOC; i++)
        if (zeros[i]) fail("calloc");
    free(zeros);
    if (posix_memalign(&place, 4096, POSIX_MEMALIGN) || (size_t)place % 4096) fail("posix_memalign");
    free(filled(place, POSIX_MEMALIGN));
    free(filled(aligned_alloc(64, ALIGNED_ALLOC), ALIGNED_ALLOC));
    free(filled(memalign(64, MEMALIGN), MEMALIGN));
    free(NULL);
    if (malloc((size_t)-1 / 2 - 100) || malloc_usable_size(place = malloc(5)) < 5) fail("malloc");
    free(place);
}

static int do_lines(void) {
    size_t bytes;
    int times;
    char line[64];
    setvbuf(stdin, malloc(BUFSIZ), _IOFBF, BUFSIZ);
    while (fgets(line, sizeof line, stdin)) {
        if (sscanf(line, "%zu %d", &bytes, &times) == 2) take(bytes, times);
        else have_child();
        puts("done");
        fflush(stdout);
    }
    return 4;
}

int main(int count, char **words) {
    if (count > 1 && !strcmp(words[1], "lines")) return do_lines();
    if (count > 1 && !strcmp(words[1], "idle")) {
        for (int i = 0; i < CROWD; i++) start(1, be_idle);
        return 0;
    }
    if (count > 1) {
        pthread_barrier_init(&barrier, NULL, CROWD);
        start(CROWD, be_one_of_crowd);
        return 0;
    }
    atexit(at_exit);
    take(MAIN, 5);
    start(THREADS, run);
    have_child();
    take_otherwise();
    puts("done");
    return 3;
}

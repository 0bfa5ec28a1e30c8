/* What a user would take in place of tracectl, for bench/peers: COUNT times a number is handed on. Prints the nanoseconds of one.
 *
 *   peers write PATH COUNT   formatted, to a file by write: a trace_marker of a kernel, or /dev/null
 *   peers ring COUNT         formatted, to a ring of two pages of 64 bytes in memory, which overwrites
 *   peers lttng COUNT        by a tracepoint of LTTng-UST, where this was compiled with -DLTTNG
 */
#include <fcntl.h>
#include <stdio.h>
#include <stdlib.h>
#include <string.h>
#include <time.h>
#include <unistd.h>
#ifdef LTTNG
#define LTTNG_UST_TRACEPOINT_CREATE_PROBES
#define LTTNG_UST_TRACEPOINT_DEFINE
#include "peers_event.h"
#endif

static double now(void)
{
	struct timespec t;

	clock_gettime(CLOCK_MONOTONIC, &t);
	return t.tv_sec * 1e9 + t.tv_nsec;
}

static int format(char *line, size_t size, long n)
{
	return snprintf(line, size, "tick: n=%ld\n", n);
}

static int write_all(const char *path, long count)
{
	char line[64];
	int file = open(path, O_WRONLY);

	if (file < 0)
		return -1;
	for (long n = 0; n < count; n++) {
		int length = format(line, sizeof line, 1000000 + n);

		if (write(file, line, length) != length)
			return -1;
	}
	return close(file);
}

/* A record is its line's length and the line; the oldest page is lost when the ring is full. */
static unsigned char pages[3][64];
static size_t tail, fill;
static unsigned long lost;

static int append_all(long count)
{
	char line[64];

	for (long n = 0; n < count; n++) {
		int length = format(line, sizeof line, 1000000 + n);

		if (fill + length + 1 > sizeof pages[0]) {
			tail = (tail + 1) % 3;
			lost += pages[tail][0] != 0;
			fill = 0;
		}
		pages[tail][fill] = length;
		memcpy(&pages[tail][fill + 1], line, length);
		fill += length + 1;
	}
	return 0;
}

static int trace_all(long count)
{
#ifdef LTTNG
	for (long n = 0; n < count; n++)
		lttng_ust_tracepoint(peers, tick, 1000000 + n);
	return 0;
#else
	(void)count;
	return -1;
#endif
}

int main(int argc, char **argv)
{
	long count = argc > 2 ? atol(argv[argc - 1]) : 0;
	double start = now();
	int failed = -1;

	if (argc == 4 && strcmp(argv[1], "write") == 0)
		failed = write_all(argv[2], count);
	else if (argc == 3 && strcmp(argv[1], "ring") == 0)
		failed = append_all(count);
	else if (argc == 3 && strcmp(argv[1], "lttng") == 0)
		failed = trace_all(count);
	if (failed || count <= 0)
		return 1;
	printf("%.1f\n", (now() - start) / count);
	fprintf(stderr, "%lu\n", lost); /* so that the ring isn't left out */
	return 0;
}

/* What a program does with the binary pages of a mounted tracer by libtracefs: it reads the events of two instances while another process makes them,
   and counts. Each event has to come once, in order, or to be told as lost. It prints the counts. */
#include <errno.h>
#include <stdio.h>
#include <stdlib.h>
#include <string.h>
#include <sys/wait.h>
#include <tracefs.h>
#include <unistd.h>

#define EVENTS 4000
#define LINES 50 /* in a write */

struct reader {
	const char *name;
	struct tracefs_instance *instance;
	struct tep_handle *tep;
	int first; /* the least number that it lets through */
	int records, lost, wrong, of_others;
	unsigned long long last[64]; /* of each CPU the last number, and 1 */
};

static void make_events(void)
{
	char text[64 * LINES];

	for (int n = 1; n <= EVENTS;) {
		int length = 0;

		for (int i = 0; i < LINES; i++, n++)
			length += snprintf(text + length, sizeof text - length, "n=%d d=%d who=%s\n", n, -n, n % 2 ? "odd" : "even");
		if (tracefs_event_file_write(NULL, "synthetic", "tick", "inject", text) != length)
			_exit(1);
		usleep(1000);
	}
	_exit(0);
}

static long long sign_extended(unsigned long long value)
{
	return (int)value;
}

static int on_event(struct tep_event *event, struct tep_record *record, int cpu, void *context)
{
	struct reader *reader = context;
	unsigned long long n, d;
	int length;
	const char *who;

	if (strcmp(event->name, "tick")) {
		reader->of_others++;
		return 0;
	}
	reader->records++;
	if (record->missed_events > 0)
		reader->lost += record->missed_events;
	who = tep_get_field_raw(NULL, event, "who", record, &length, 0);
	if (tep_get_field_val(NULL, event, "n", record, &n, 0) || tep_get_field_val(NULL, event, "d", record, &d, 0) || !who || length != 8
	    || sign_extended(d) != -(long long)n || strcmp(who, n % 2 ? "odd" : "even") || n <= reader->last[cpu] || (int)n < reader->first)
		reader->wrong++;
	reader->last[cpu] = n;
	return 0;
}

static void begin(struct reader *reader)
{
	char filter[32];

	reader->instance = tracefs_instance_create(reader->name);
	reader->tep = tracefs_local_events(NULL);
	snprintf(filter, sizeof filter, "n >= %d", reader->first);
	if (!reader->instance || !reader->tep || tracefs_event_file_write(reader->instance, "synthetic", "tick", "filter", filter) < 0
	    || tracefs_event_enable(reader->instance, "synthetic", "tick") < 0)
		printf("%s: not begun: %s\n", reader->name, strerror(errno));
}

static void read_now(struct reader *reader)
{
	if (tracefs_iterate_raw_events(reader->tep, reader->instance, NULL, 0, on_event, reader) < 0)
		printf("%s: not read: %s\n", reader->name, strerror(errno));
}

static void end(struct reader *reader)
{
	int records;

	read_now(reader);
	records = reader->records;
	read_now(reader);
	printf("%s: %d, records and lost ones, %d wrong, %d of other events, %d after the last\n", reader->name, reader->records + reader->lost, reader->wrong,
	       reader->of_others, reader->records - records);
	tracefs_instance_destroy(reader->instance);
	tracefs_instance_free(reader->instance);
	tep_free(reader->tep);
}

int main(void)
{
	struct reader all = {.name = "all", .first = 1}, late = {.name = "late", .first = 1001};
	int status;
	pid_t child;

	if (tracefs_instance_file_append(NULL, "synthetic_events", "tick u64 n; s32 d; char who[8]\n") < 0
	    || tracefs_instance_file_append(NULL, "synthetic_events", "tock u8 b\n") < 0)
		printf("not declared: %s\n", strerror(errno));
	begin(&all);
	begin(&late);
	child = fork();
	if (!child)
		make_events();
	while (!waitpid(child, &status, WNOHANG)) {
		read_now(&all);
		read_now(&late);
	}
	printf("written: %d\n", status);
	end(&all);
	end(&late);
	return 0;
}

/* What needs libtracefs's own description of all events (`tracefs_local_events`), and what reads the binary pages of one CPU, with a mounted tracer; and at
   the end what fails, for reasons that docs/MOUNT.md gives. It prints each answer. */
#include <errno.h>
#include <fcntl.h>
#include <kbuffer.h>
#include <stdio.h>
#include <stdlib.h>
#include <string.h>
#include <tracefs.h>
#include <unistd.h>

#define SYSTEM "synthetic"

static struct tep_handle *tep;

static void tell(const char *what, long answer)
{
	printf("%s: %ld%s%s\n", what, answer, answer < 0 ? " " : "", answer < 0 ? strerror(errno) : "");
	fflush(stdout);
}

static void tell_field(const char *event, const char *name)
{
	struct tep_event *found = tep_find_event_by_name(tep, SYSTEM, event);
	struct tep_format_field *field = found ? tep_find_any_field(found, name) : NULL;

	if (field)
		printf("%s.%s: at %d, %d bytes%s%s%s\n", event, name, field->offset, field->size, field->flags & TEP_FIELD_IS_SIGNED ? ", signed" : "",
		       field->flags & TEP_FIELD_IS_STRING ? ", a string" : "", field->flags & TEP_FIELD_IS_ARRAY ? ", an array" : "");
	else
		printf("%s.%s: none\n", event, name);
}

static void inject(const char *event, const char *text)
{
	if (tracefs_event_file_write(NULL, SYSTEM, event, "inject", text) < 0)
		tell("inject", -1);
}

static void describe(void)
{
	const char *systems[] = {SYSTEM, NULL};
	struct tep_handle *one;
	int failed = -1;

	tep = tracefs_local_events(NULL);
	tell("local events", tep != NULL);
	tell("how many", tep_get_events_count(tep));
	tell("id of tick", tep_find_event_by_name(tep, SYSTEM, "tick")->id);
	tell("id of kinds", tep_find_event_by_name(tep, SYSTEM, "kinds")->id);
	tell("print", tep_find_event_by_name(tep, "ftrace", "print") != NULL);
	for (const char **name = (const char *[]){"n", "who", "common_type", "common_pid", NULL}; *name; name++)
		tell_field("tick", *name);
	for (const char **name = (const char *[]){"a", "b", "c", "d", "e", "f", "g", "h", "i", NULL}; *name; name++)
		tell_field("kinds", *name);
	one = tracefs_local_events_system(NULL, systems);
	tell("those of a system", one ? tep_get_events_count(one) : -1);
	tep_free(one);
	one = tep_alloc();
	tell("fill", tracefs_fill_local_events(NULL, one, &failed));
	tell("that could not be parsed", failed);
	tep_free(one);
}

static void verify(const char *filter)
{
	struct tep_event *event = tep_find_event_by_name(tep, SYSTEM, "tick");
	char *error = NULL;
	int answer = tracefs_filter_string_verify(event, filter, &error);

	printf("filter %s: %d%s%s%s", filter, answer, error ? "\n" : "", error ? error : "", error && strchr(error, '\n') ? "" : "\n");
	free(error);
}

static void use_hist(void)
{
	struct tracefs_hist *hist = tracefs_hist_alloc(tep, SYSTEM, "tick", "who", TRACEFS_HIST_KEY_NORMAL);
	char *text;

	tell("hist", hist != NULL);
	tell("a second key", tracefs_hist_add_key(hist, "n", TRACEFS_HIST_KEY_LOG));
	tell("a value", tracefs_hist_add_value(hist, "n"));
	tell("a filter", tracefs_hist_append_filter(hist, TRACEFS_FILTER_COMPARE, "n", TRACEFS_COMPARE_GT, "1"));
	tell("start", tracefs_hist_start(NULL, hist));
	inject("tick", "n=1 who=a");
	inject("tick", "n=5 who=a");
	inject("tick", "n=6 who=b");
	text = tracefs_event_file_read(NULL, SYSTEM, "tick", "hist", NULL);
	printf("%s", text ? text : "no hist\n");
	free(text);
	tell("pause", tracefs_hist_pause(NULL, hist));
	tell("continue", tracefs_hist_continue(NULL, hist));
	tell("reset", tracefs_hist_reset(NULL, hist));
	tell("destroy", tracefs_hist_destroy(NULL, hist));
	tracefs_hist_free(hist);
}

static int count(struct tep_event *event, struct tep_record *record, int cpu, void *context)
{
	int *counts = context;

	(void)cpu;
	counts[!strcmp(event->name, "kinds")]++;
	if (record->missed_events)
		counts[2]++;
	return 0;
}

static int count_kinds(struct tep_event *event, struct tep_record *record, int cpu, void *context)
{
	(void)record;
	(void)cpu;
	*(int *)context += !strcmp(event->name, "kinds");
	return 0;
}

static void iterate(void)
{
	int counts[3] = {0}, followed = 0;

	tell("enable", tracefs_event_enable(NULL, NULL, NULL));
	inject("tick", "n=7 who=c");
	inject("kinds", "a=-1");
	tell("iterate", tracefs_iterate_raw_events(tep, NULL, NULL, 0, count, counts));
	printf("ticks: %d, kinds: %d, lost: %d\n", counts[0], counts[1], counts[2]);
	tell("follow", tracefs_follow_event(tep, NULL, SYSTEM, "kinds", count_kinds, &followed));
	inject("tick", "n=8");
	inject("kinds", "b=2");
	tell("iterate", tracefs_iterate_raw_events(tep, NULL, NULL, 0, count, counts));
	printf("followed: %d\n", followed);
}

/* The events of a page that was read of one CPU, by number. */
static int events_in(void *page, int size)
{
	struct kbuffer *buffer = kbuffer_alloc(KBUFFER_LSIZE_8, KBUFFER_ENDIAN_LITTLE);
	unsigned long long time;
	int found = 0;

	if (size > 0) {
		kbuffer_load_subbuffer(buffer, page);
		for (void *event = kbuffer_read_event(buffer, &time); event; event = kbuffer_next_event(buffer, &time))
			found++;
	}
	kbuffer_free(buffer);
	return found;
}

static int of_both(struct tracefs_cpu **cpus, int (*read)(struct tracefs_cpu *, void *, bool))
{
	static char page[2][65536];
	int found = 0;

	for (int i = 0; i < 2; i++)
		found += events_in(page[i], read(cpus[i], page[i], true));
	return found;
}

static int flush(struct tracefs_cpu *cpu, void *page, bool nonblock)
{
	(void)nonblock;
	return tracefs_cpu_flush(cpu, page);
}

static int by_pipe(struct tracefs_cpu *cpu, void *page, bool nonblock)
{
	int ends[2], size;

	if (pipe(ends))
		return -1;
	size = tracefs_cpu_pipe(cpu, ends[1], nonblock);
	size = size > 0 ? read(ends[0], page, size) : size;
	close(ends[0]);
	close(ends[1]);
	return size;
}

static void read_cpus(void)
{
	int has_splice = !getenv("ALLOW"); /* a tracer that is mounted with --allow-other gives nothing by splice */
	struct tracefs_cpu *cpus[2];

	for (int i = 0; i < 2; i++)
		cpus[i] = tracefs_cpu_open(NULL, i, true);
	tell("open", cpus[0] && cpus[1]);
	tell("size of a page", tracefs_cpu_read_size(cpus[0]));
	inject("tick", "n=9");
	tell("cpu_read, events", of_both(cpus, tracefs_cpu_read));
	inject("tick", "n=10");
	tell("cpu_buffered_read, events", of_both(cpus, has_splice ? tracefs_cpu_buffered_read : tracefs_cpu_read));
	inject("tick", "n=11");
	tell("cpu_pipe, events", of_both(cpus, has_splice ? by_pipe : tracefs_cpu_read));
	inject("tick", "n=12");
	tell("cpu_flush, events", of_both(cpus, flush));
	tell("nothing", of_both(cpus, tracefs_cpu_read));
	for (int i = 0; i < 2; i++)
		tracefs_cpu_close(cpus[i]);
}

static void try_what_fails(void)
{
	struct tracefs_synth *synth = tracefs_synth_alloc(tep, "latency", SYSTEM, "tick", SYSTEM, "kinds", "n", "i", "n");
	struct tracefs_dynevent *tick = tracefs_dynevent_get(TRACEFS_DYNEVENT_SYNTH, NULL, "tick");

	tell("names of processes", tracefs_load_cmdlines(NULL, tep) < 0);
	tell("printf", tracefs_printf(NULL, "hello") < 0);
	tell("an event of two that match", synth ? tracefs_synth_create(synth) < 0 : -2);
	tell("remove an event", tick ? tracefs_dynevent_destroy(tick, true) < 0 : -2);
	tell("another size", tracefs_instance_set_buffer_size(NULL, 1, -1) < 0);
	tell("other CPUs", tracefs_instance_set_affinity(NULL, "0") < 0);
	tell("the tracer of functions", tracefs_tracer_set(NULL, TRACEFS_TRACER_FUNCTION) < 0);
	tracefs_synth_free(synth);
	tracefs_dynevent_free(tick);
}

int main(void)
{
	tracefs_instance_file_append(NULL, "synthetic_events", "tick u64 n; char who[8]");
	tracefs_instance_file_append(NULL, "synthetic_events", "kinds s8 a; s16 b; s32 c; s64 d; u8 e; u16 f; u32 g; char h[3]; u64 i");
	describe();
	verify("n > 1 && who ~ \"a*\"");
	verify("n > 1 && m == 2");
	verify("(n > 1");
	use_hist();
	iterate();
	read_cpus();
	try_what_fails();
	tep_free(tep);
	return 0;
}

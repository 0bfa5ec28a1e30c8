/* What a program does with a mounted tracer by libtracefs: instances, events, filters, triggers, hist files, pipes, and the files that the library asks
   for. It prints each answer. */
#include <errno.h>
#include <fcntl.h>
#include <stdio.h>
#include <stdlib.h>
#include <string.h>
#include <sys/wait.h>
#include <tracefs.h>
#include <unistd.h>

#define SYSTEM "synthetic"
#define EVENT "tick"

static void tell(const char *what, long answer)
{
	printf("%s: %ld%s%s\n", what, answer, answer < 0 ? " " : "", answer < 0 ? strerror(errno) : "");
	fflush(stdout);
}

static void tell_text(const char *what, char *text)
{
	printf("%s: %s%s", what, text ? text : "none", text && *text && text[strlen(text) - 1] == '\n' ? "" : "\n");
	fflush(stdout);
	free(text);
}

static int by_bytes(const void *one, const void *other)
{
	return strcmp(*(char *const *)one, *(char *const *)other);
}

static void tell_list(const char *what, char **list)
{
	int count = list ? tracefs_list_size(list) : 0;

	qsort(list, count, sizeof *list, by_bytes);
	printf("%s:", what);
	for (int i = 0; i < count; i++)
		printf(" %s", list[i]);
	printf("\n");
	tracefs_list_free(list);
}

static void emit(int first, int count, const char *who)
{
	char text[64];

	for (int n = first; n < first + count; n++) {
		snprintf(text, sizeof text, "n=%d who=\"%s\"", n, who);
		if (tracefs_event_file_write(NULL, SYSTEM, EVENT, "inject", text) < 0)
			tell("inject", -1);
	}
}

static void look_around(void)
{
	long long number;

	printf("tracing_dir: %s\n", tracefs_tracing_dir());
	tell_list("systems", tracefs_event_systems(NULL));
	tell_list("events", tracefs_system_events(NULL, SYSTEM));
	tell_list("tracers", tracefs_tracers(NULL));
	tell("nop is available", tracefs_tracer_available(NULL, "nop"));
	tell_text("clock", tracefs_get_clock(NULL));
	tell("buffer size of CPU 0, in kB", tracefs_instance_get_buffer_size(NULL, 0));
	tell("buffer size of all, in kB", tracefs_instance_get_buffer_size(NULL, -1));
	tell_text("CPUs", tracefs_instance_get_affinity(NULL));
	tell("id", tracefs_instance_file_read_number(NULL, "events/" SYSTEM "/" EVENT "/id", &number));
	tell("id", number);
	tell("overwrite is supported", tracefs_option_is_supported(NULL, TRACEFS_OPTION_OVERWRITE));
	tell("overwrite is enabled", tracefs_option_is_enabled(NULL, TRACEFS_OPTION_OVERWRITE));
	tell("overwrite off", tracefs_option_disable(NULL, TRACEFS_OPTION_OVERWRITE));
	tell("overwrite is enabled", tracefs_option_is_enabled(NULL, TRACEFS_OPTION_OVERWRITE));
	tell("overwrite on", tracefs_option_enable(NULL, TRACEFS_OPTION_OVERWRITE));
	tell("tracer nop", tracefs_tracer_clear(NULL));
}

static void use_instances(void)
{
	struct tracefs_instance *a = tracefs_instance_create("a"), *b = tracefs_instance_create("b");

	tell("a is new", tracefs_instance_is_new(a));
	tell_list("instances", tracefs_instances(NULL));
	tell("enable in a", tracefs_event_enable(a, SYSTEM, EVENT));
	tell("enabled in a", tracefs_event_is_enabled(a, SYSTEM, EVENT));
	tell("enabled in b", tracefs_event_is_enabled(b, SYSTEM, EVENT));
	tell("enabled in the top", tracefs_event_is_enabled(NULL, SYSTEM, EVENT));
	tell("enable all of b", tracefs_event_enable(b, NULL, NULL));
	tell("filter in a", tracefs_event_file_write(a, SYSTEM, EVENT, "filter", "n > 2"));
	tell_text("filter in a", tracefs_event_file_read(a, SYSTEM, EVENT, "filter", NULL));
	tell("a bad filter in a", tracefs_event_file_write(a, SYSTEM, EVENT, "filter", "n >> 2"));
	tell("off in b", tracefs_trace_off(b));
	tell("b is on", tracefs_trace_is_on(b));
	emit(1, 4, "x");
	tell_text("trace of a", tracefs_instance_file_read(a, "trace", NULL));
	tell("on in b", tracefs_trace_on(b));
	emit(5, 1, "y");
	tell_text("trace of b", tracefs_instance_file_read(b, "trace", NULL));
	tell("clear a", tracefs_instance_file_clear(a, "trace"));
	tell_text("trace of a", tracefs_instance_file_read(a, "trace", NULL));
	tell("disable in a", tracefs_event_disable(a, SYSTEM, EVENT));
	tell("destroy a", tracefs_instance_destroy(a));
	tell("a exists", tracefs_instance_exists("a"));
	tell("destroy b", tracefs_instance_destroy(b));
	tracefs_instance_free(a);
	tracefs_instance_free(b);
}

/* The library's own description of the event, by its `format` file. */
static struct tep_handle *describe(void)
{
	int size;
	char *format = tracefs_event_file_read(NULL, SYSTEM, EVENT, "format", &size);
	struct tep_handle *tep = tep_alloc();

	tell("parse the format", tep_parse_event(tep, format, size, SYSTEM));
	free(format);
	return tep;
}

static void use_triggers(void)
{
	struct tep_handle *tep = describe();
	struct tracefs_hist *hist = tracefs_hist_alloc(tep, SYSTEM, EVENT, "who", TRACEFS_HIST_KEY_NORMAL);
	struct tep_event *event = tep_find_event_by_name(tep, SYSTEM, EVENT);
	char *filter = NULL;

	tell("add a value", tracefs_hist_add_value(hist, "n"));
	tell("add a sort key", tracefs_hist_add_sort_key(hist, "n"));
	tell("descending", tracefs_hist_sort_key_direction(hist, "n", TRACEFS_HIST_SORT_DESCENDING));
	tell("start", tracefs_hist_start(NULL, hist));
	emit(1, 3, "a");
	emit(10, 1, "b");
	tell_text("hist", tracefs_event_file_read(NULL, SYSTEM, EVENT, "hist", NULL));
	tell("pause", tracefs_hist_pause(NULL, hist));
	emit(100, 1, "a");
	tell("continue", tracefs_hist_continue(NULL, hist));
	emit(7, 1, "a");
	tell_text("hist", tracefs_event_file_read(NULL, SYSTEM, EVENT, "hist", NULL));
	tell("clear", tracefs_hist_reset(NULL, hist));
	tell_text("hist", tracefs_event_file_read(NULL, SYSTEM, EVENT, "hist", NULL));
	tell("a snapshot trigger", tracefs_event_file_append(NULL, SYSTEM, EVENT, "trigger", "snapshot:1 if n == 8"));
	tell_text("triggers", tracefs_event_file_read(NULL, SYSTEM, EVENT, "trigger", NULL));
	tell("destroy", tracefs_hist_destroy(NULL, hist));
	tell("append to a filter", tracefs_filter_string_append(event, &filter, TRACEFS_FILTER_COMPARE, "n", TRACEFS_COMPARE_GE, "8"));
	tell("apply it", tracefs_event_filter_apply(NULL, event, filter));
	tell_text("filter", tracefs_event_file_read(NULL, SYSTEM, EVENT, "filter", NULL));
	tell("enable", tracefs_event_enable(NULL, SYSTEM, EVENT));
	emit(7, 3, "s");
	tell_text("snapshot", tracefs_instance_file_read(NULL, "snapshot", NULL));
	tell("clear the filter", tracefs_event_filter_clear(NULL, event));
	tell("remove the trigger", tracefs_event_file_append(NULL, SYSTEM, EVENT, "trigger", "!snapshot"));
	tell_text("triggers", tracefs_event_file_read(NULL, SYSTEM, EVENT, "trigger", NULL));
	tell("free the snapshot", tracefs_instance_file_write(NULL, "snapshot", "0"));
	free(filter);
	tracefs_hist_free(hist);
	tep_free(tep);
}

/* Reads a pipe without waiting, until it has nothing. */
static void drain(int fd)
{
	char text[4096];
	long count;

	while ((count = read(fd, text, sizeof text)) > 0)
		printf("the pipe: %.*s", (int)count, text);
	tell("the pipe", count);
}

static void use_pipes(void)
{
	int fd = tracefs_instance_file_open(NULL, "trace_pipe", O_RDONLY | O_NONBLOCK);

	tell("clear", tracefs_instance_file_clear(NULL, "trace"));
	drain(fd);
	emit(1, 2, "p");
	drain(fd);
	close(fd);
}

/* A child reads a pipe that has nothing yet. */
static void wait_at_pipe(void)
{
	int status, fd = tracefs_instance_file_open(NULL, "trace_pipe", O_RDONLY);
	char text[4096];

	if (!fork()) {
		long count = read(fd, text, sizeof text - 1);

		text[count > 0 ? count : 0] = 0;
		tell_text("what the child waited for", strdup(text));
		_exit(count > 0 ? 0 : 1);
	}
	close(fd);
	usleep(200000);
	emit(3, 1, "w");
	wait(&status);
	tell("the child's status", status);
}

static void use_errors(void)
{
	tell("clear the errors", tracefs_error_clear(NULL));
	tell_text("errors", tracefs_error_all(NULL));
	tell("a bad trigger", tracefs_event_file_append(NULL, SYSTEM, EVENT, "trigger", "hist:keys=nobody"));
	tell_text("last error", tracefs_error_last(NULL));
}

int main(void)
{
	tell("declare", tracefs_instance_file_append(NULL, "synthetic_events", EVENT " u64 n; char who[8]"));
	look_around();
	use_instances();
	use_triggers();
	use_pipes();
	wait_at_pipe();
	use_errors();
	return 0;
}

/* report.c - what a run says of itself: calls that were refused, differences, and counts. */
#include "calls.h"

#include <errno.h>
#include <stdlib.h>
#include <string.h>

bool checking;
uint64_t checks, differences, stops, hidden_waits;

enum { MOST_UNKNOWN = 1024, MOST_HIDDEN = 32 };

static FILE *file;
static uint64_t *refused;                 /* by row */
static uint64_t refused_unknown[MOST_UNKNOWN]; /* by number; the last one counts all above */

_Noreturn void die(const char *what)
{
	fprintf(stderr, "pidtab-box: %s%s%s\n", what, errno ? ": " : "", errno ? strerror(errno) : "");
	exit(OWN_FAILURE);
}

/* Without a file nothing is said but differences, where they are looked for. */
void report_start(const char *name)
{
	refused = need(calloc((size_t)call_count, sizeof *refused));
	file = name ? fopen(name, "we") : NULL;
	if (name && !file)
		die(name);
}

void report_difference(const char *what, uint32_t root, int64_t kernel, int64_t table)
{
	differences++;
	if (checking)
		fprintf(file ? file : stderr, "pidtab-box: difference: log line %lu: %s of %u: kernel %ld, table %ld\n",
		        log_line, what, root, kernel, table);
}

/* A call that the table of calls has not has no row. */
void report_refused(const struct call *call, int64_t number)
{
	if (call)
		refused[call - calls]++;
	else
		refused_unknown[number >= 0 && number < MOST_UNKNOWN ? number : MOST_UNKNOWN - 1]++;
}

/* Programs by their names, which the kernel cuts at 15 bytes. The last one stands for all that have no room. */
static struct hidden {
	char name[16];
	uint64_t times;
} hidden[MOST_HIDDEN] = { [MOST_HIDDEN - 1] = { "others", 0 } };

static void read_name(pid_t tid, char name[16])
{
	char path[32];
	FILE *from;

	snprintf(path, sizeof path, "/proc/%d/comm", tid);
	from = fopen(path, "re");
	if (!from || fscanf(from, "%15[^\n]", name) != 1)
		strcpy(name, "ended");
	if (from)
		fclose(from);
}

/* The memory of the process cannot be read. */
void report_hidden(pid_t tid)
{
	char name[16];
	int i = 0;

	read_name(tid, name);
	while (i < MOST_HIDDEN - 1 && hidden[i].times && strcmp(hidden[i].name, name))
		i++;
	if (i < MOST_HIDDEN - 1)
		strcpy(hidden[i].name, name);
	hidden[i].times++;
}

void report_stop(void)
{
	if (!file)
		return;
	for (int i = 0; i < call_count; i++)
		if (refused[i])
			fprintf(file, "pidtab-box: refused: %s (%s): %lu\n", calls[i].name, calls[i].note, refused[i]);
	for (int i = 0; i < MOST_UNKNOWN; i++)
		if (refused_unknown[i])
			fprintf(file, "pidtab-box: refused: call %d (not in the table): %lu\n", i, refused_unknown[i]);
	for (int i = 0; i < MOST_HIDDEN; i++)
		if (hidden[i].times)
			fprintf(file, "pidtab-box: undumpable: %s (numbers in its memory are the kernel's): %lu\n", hidden[i].name,
				hidden[i].times);
	fprintf(file, "pidtab-box: calls %lu stops %lu checks %lu differences %lu hidden %lu\n",
	        log_line, stops, checks, differences, hidden_waits);
	if (fclose(file))
		die("the report");
}

/* content.c - files that have numbers, as this program writes them of the kernel's. */
#define _GNU_SOURCE
#include "box.h"

#include <stdlib.h>
#include <string.h>
#include <sys/wait.h>

/* The state of a thread that this program has stopped: to the program it runs, or is stopped by a signal. Its parent may know that before the
 * stop is reported here: so a report is fetched first. */
static const char *state_of(pid_t real, const char *kernel)
{
	const struct thread *thread = real > 0 && real < MOST_REAL ? thread_of_real(real) : NULL;

	if (*kernel != 't')
		return kernel;
	if (thread && thread->process && !thread->is_at_rest) {
		catch_up(thread->process, WNOHANG);
		thread = thread_of_real(real);
	}
	return thread && thread->is_at_rest ? "T (stopped)\n" : "R (running)\n";
}

/* Numbers behind a word, of the kinds of which the kernel says one, or one for each namespace. */
struct line {
	const char *word;
	enum kind kind;
	bool is_list;
};

static const struct line lines[] = {
	{ "Tgid:", PROCESS, false }, { "Ngid:", NO_KIND, false }, { "Pid:", TASK, false }, { "PPid:", PROCESS, false },
	{ "TracerPid:", NO_KIND, false }, { "NStgid:", PROCESS, true }, { "NSpid:", TASK, true }, { "NSpgid:", GROUP, true },
	{ "NSsid:", GROUP, true }
};

/* The numbers in the namespaces of a process, from the caller's inwards, of which there are so many. */
static void write_list(FILE *to, const struct process *caller, enum kind kind, pid_t real, uint32_t count)
{
	uint32_t numbers[PIDTAB_LEVELS_MAX] = { 0 };

	numbers_of(name_of_real(real), caller, numbers);
	fprintf(to, "\t%ld", to_number(caller, kind, real));
	for (uint32_t i = 1; i < count; i++)
		fprintf(to, "\t%u", numbers[i]);
}

static void write_status_line(FILE *to, const struct process *caller, const char *line, uint32_t count)
{
	for (size_t i = 0; i < sizeof lines / sizeof lines[0]; i++) {
		size_t length = strlen(lines[i].word);

		if (strncmp(line, lines[i].word, length))
			continue;
		fputs(lines[i].word, to);
		if (lines[i].is_list)
			write_list(to, caller, lines[i].kind, (pid_t)strtol(line + length, NULL, 10), count);
		else if (lines[i].kind)
			fprintf(to, "\t%ld", to_number(caller, lines[i].kind, strtol(line + length, NULL, 10)));
		else
			fputs("\t0", to);
		fputc('\n', to);
		return;
	}
	fputs(line, to);
}

/* How many namespaces there are to the process that a status is of is told by its line Tgid, or else Pid, which come before all lists. */
static void write_status(FILE *to, const struct process *caller, FILE *from, pid_t real)
{
	char line[4096];
	uint32_t numbers[PIDTAB_LEVELS_MAX], count = 0;

	while (fgets(line, sizeof line, from)) {
		if (!strncmp(line, "Tgid:", 5) || (count == 0 && !strncmp(line, "Pid:", 4)))
			count = numbers_of(name_of_real((pid_t)strtol(strchr(line, ':') + 1, NULL, 10)), caller, numbers);
		if (strncmp(line, "State:\t", 7))
			write_status_line(to, caller, line, count);
		else
			fprintf(to, "State:\t%s", state_of(real, line + 7));
	}
}

/* proc_pid_stat(5): the number, the name in brackets, the state, parent, group, session, terminal, and the terminal's group. */
static void write_stat(FILE *to, const struct process *caller, FILE *from)
{
	char text[4096], state;
	size_t size = fread(text, 1, sizeof text - 1, from);
	int parent, group, session, terminal, foreground, rest = 0;
	pid_t real;
	char *open, *close;

	text[size] = 0;
	open = strchr(text, '(');
	close = strrchr(text, ')');
	if (!open || !close || sscanf(close + 1, " %c %d %d %d %d %d%n", &state, &parent, &group, &session, &terminal, &foreground, &rest) != 6) {
		fputs(text, to);
		return;
	}
	real = (pid_t)strtol(text, NULL, 10);
	fprintf(to, "%ld %.*s %c %ld %ld %ld %d %ld%s", to_number(caller, TASK, real), (int)(close + 1 - open), open, *state_of(real, &state),
	        to_number(caller, PROCESS, parent), to_number(caller, GROUP, group), to_number(caller, GROUP, session), terminal,
	        to_number(caller, GROUP, foreground), close + 1 + rest);
}

static void write_children(FILE *to, const struct process *caller, FILE *from)
{
	long real;

	while (fscanf(from, "%ld", &real) == 1) {
		int64_t number = to_number(caller, PROCESS, real);

		if (number)
			fprintf(to, "%ld ", number);
	}
}

/* The control group of the table. */
static void write_group(FILE *to, pid_t real)
{
	const struct thread *thread = thread_of_real(real);
	const struct name *name = name_of_real(real);
	const struct process *process = thread ? thread->process : name ? name->process : NULL;

	if (process)
		control_write_path(to, process);
}

static void write_content(FILE *to, const struct process *caller, FILE *from, const char *file, pid_t real)
{
	if (!strcmp(file, "/stat"))
		write_stat(to, caller, from);
	else if (!strcmp(file, "/children"))
		write_children(to, caller, from);
	else if (!strcmp(file, "/cgroup"))
		write_group(to, real);
	else
		write_status(to, caller, from, real);
}

/* The file as the thread is to see it, in memory that the caller gives back; none where the kernel is to answer. */
char *content_of(const struct thread *thread, const char *path, const char *file, pid_t real, size_t *size)
{
	FILE *from = fopen(path, "re"), *to = NULL;
	char *text = NULL;

	if (from)
		to = open_memstream(&text, size);
	if (to) {
		write_content(to, thread->process, from, file, real);
		fclose(to);
	}
	if (from)
		fclose(from);
	return text;
}

/* The same of a file of a control group: who cannot be seen is a 0, or is left out. */
char *content_of_group(const struct thread *thread, const char *path, enum kind kind, bool has_unseen, size_t *size)
{
	FILE *from = fopen(path, "re"), *to = NULL;
	char *text = NULL;
	long real;

	if (from)
		to = open_memstream(&text, size);
	while (to && fscanf(from, "%ld", &real) == 1) {
		int64_t number = to_number(thread->process, kind, real);

		if (number || has_unseen)
			fprintf(to, "%ld\n", number);
	}
	if (to)
		fclose(to);
	if (from)
		fclose(from);
	return text;
}

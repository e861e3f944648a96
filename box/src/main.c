/* main.c - pidtab-box: runs a program whose processes live in a table of pidtab. It needs no privilege. */
#define _GNU_SOURCE
#include "calls.h"

#include <errno.h>
#include <fcntl.h>
#include <getopt.h>
#include <signal.h>
#include <stdlib.h>
#include <string.h>
#include <sys/prctl.h>
#include <unistd.h>

/* What env(1) and timeout(1) answer for a program that cannot be run. */
enum { CANNOT_RUN = 126, NOT_FOUND = 127 };

struct settings {
	const char *log, *answers, *report, *data, *cgroups;
	int64_t pids_max; /* -1 for no limit */
	uint32_t pid_max;
	bool prints_calls;
};

static const char usage[] =
	"usage: pidtab-box [--log FILE] [--answers FILE] [--check] [--report FILE] [--data FILE]\n"
	"                  [--cgroups DIR] [--pids-max N] [--pid-max N] [--proc box|kernel]\n"
	"                  PROGRAM [WORD ..]\n"
	"       pidtab-box --calls | --help\n";

static _Noreturn void misused(const char *what, const char *word)
{
	if (what)
		fprintf(stderr, "pidtab-box: %s: %s\n", what, word);
	fputs(usage, stderr);
	exit(OWN_FAILURE);
}

static int64_t number_in(const char *word, int64_t least, int64_t most, const char *what)
{
	char *end;
	long value;

	errno = 0;
	value = strtol(word, &end, 10);
	if (errno || end == word || *end || value < least || value > most)
		misused(what, word);
	errno = 0;
	return value;
}

static bool is_box(const char *word)
{
	if (strcmp(word, "box") && strcmp(word, "kernel"))
		misused("--proc takes box or kernel", word);
	return !strcmp(word, "box");
}

static struct settings read_words(int count, char **words)
{
	static const struct option known[] = {
		{ "log", required_argument, 0, 'l' }, { "answers", required_argument, 0, 'a' }, { "check", no_argument, 0, 'c' },
		{ "report", required_argument, 0, 'r' }, { "pids-max", required_argument, 0, 'p' }, { "pid-max", required_argument, 0, 'm' },
		{ "proc", required_argument, 0, 'P' }, { "calls", no_argument, 0, 't' }, { "data", required_argument, 0, 'd' },
		{ "cgroups", required_argument, 0, 'g' }, { "help", no_argument, 0, 'h' }, { 0, 0, 0, 0 }
	};
	struct settings settings = { .pids_max = -1, .pid_max = 32768 };
	int letter;

	while ((letter = getopt_long(count, words, "+h", known, NULL)) != -1) {
		switch (letter) {
		case 'l': settings.log = optarg; break;
		case 'a': settings.answers = optarg; break;
		case 'c': checking = true; break;
		case 'g': settings.cgroups = optarg; break;
		case 'd': settings.data = optarg; break;
		case 'r': settings.report = optarg; break;
		case 'p': settings.pids_max = number_in(optarg, 0, MOST_REAL, "--pids-max takes 0 to 4194304"); break;
		case 'm': settings.pid_max = (uint32_t)number_in(optarg, 301, MOST_REAL, "--pid-max takes 301 to 4194304"); break;
		case 'P': shows_proc = is_box(optarg); break;
		case 't': settings.prints_calls = true; break;
		case 'h': fputs(usage, stdout); exit(0);
		default: misused(NULL, NULL);
		}
	}
	if (optind >= count && !settings.prints_calls)
		misused(NULL, NULL);
	if (settings.cgroups && !shows_proc)
		misused("--cgroups wants --proc box", settings.cgroups);
	return settings;
}

/* Signals that this program leaves to those in the box, and what they did before. */
static struct {
	int signal;
	void (*former)(int);
} left_alone[] = { { SIGINT, SIG_DFL }, { SIGQUIT, SIG_DFL }, { SIGTTOU, SIG_DFL }, { SIGHUP, SIG_DFL }, { SIGTERM, SIG_DFL } };

enum { LEFT_ALONE = sizeof left_alone / sizeof left_alone[0] };

/* The program: it waits until it is traced, and then installs the filter. */
static _Noreturn void be_program(int ready, char **words)
{
	char go;

	for (int i = 0; i < LEFT_ALONE; i++)
		signal(left_alone[i].signal, left_alone[i].former);
	if (read(ready, &go, 1) != 1 || prctl(PR_SET_CHILD_SUBREAPER, 1))
		die("the start");
	filter_install();
	execvp(words[0], words);
	fprintf(stderr, "pidtab-box: %s: %s\n", words[0], strerror(errno));
	_exit(errno == ENOENT ? NOT_FOUND : CANNOT_RUN);
}

/* The supervisor's own group and session are outside: all three are the table's process 1. */
static void be_supervisor(void)
{
	name_outside(getpgrp());
	name_outside(getsid(0));
	name_outside(getpid());
	for (int i = 0; i < LEFT_ALONE; i++)
		left_alone[i].former = signal(left_alone[i].signal, SIG_IGN);
	ending_start();
	if (prctl(PR_SET_CHILD_SUBREAPER, 1))
		die("the start");
}

/* The control group of the program: the table's root, or one with a limit. */
static uint64_t make_group(int64_t pids_max)
{
	uint64_t group;

	if (pids_max < 0)
		return 0;
	group = (uint64_t)table_control(PIDTAB_MK, 0, 0, 0, 0);
	table_control(PIDTAB_LIMIT, 0, group, (uint32_t)pids_max, 1);
	return group;
}

/* The table's fork of the program. */
static struct process *make_init(pid_t real, uint64_t group)
{
	struct process *init;

	table_do(PIDTAB_FORK, SUPERVISOR, 0, 1);
	init = process_new(name_make(real, (uint32_t)reply.second));
	init->parent = SUPERVISOR;
	if (group)
		table_control(PIDTAB_MOVE, BOX_INIT, group, 0, 0);
	init->is_init = true;
	return init;
}

static pid_t start(char **words, uint64_t group)
{
	static const struct sigaction by_waits = { .sa_handler = SIG_DFL, .sa_flags = SA_NOCLDSTOP }; /* no signal at stops */
	struct sigaction former;
	pid_t init_real;
	struct process *init;
	int ready[2];

	sigaction(SIGCHLD, NULL, &former);
	be_supervisor();
	sigaction(SIGCHLD, &by_waits, NULL);
	if (pipe2(ready, O_CLOEXEC))
		die("the start");
	init_real = fork();
	if (init_real < 0)
		die("fork");
	if (init_real == 0) {
		sigaction(SIGCHLD, &former, NULL);
		be_program(ready[0], words);
	}
	init = make_init(init_real, group);
	init->ignores_children = former.sa_handler == SIG_IGN;
	trace_first(init_real, init);
	ending_of(init_real);
	if (write(ready[1], "", 1) != 1)
		die("the start");
	close(ready[0]);
	close(ready[1]);
	return init_real;
}

int main(int count, char **words)
{
	struct settings settings = read_words(count, words);
	uint64_t group;
	int status;

	if (settings.prints_calls) {
		calls_print();
		return 0;
	}
	report_start(settings.report);
	if (settings.data)
		data_open(settings.data);
	if (settings.data && !data_is_kept())
		die(settings.data);
	messages_start();
	table_start(settings.pid_max, settings.log, settings.answers);
	group = make_group(settings.pids_max);
	if (settings.cgroups)
		controls_start(settings.cgroups, group, settings.pids_max);
	status = supervise(start(words + optind, group));
	if (checking)
		compare("tasks left", 0, table_do(PIDTAB_NEXT, SUPERVISOR, SUPERVISOR + 1, PIDTAB_TASKS));
	report_stop();
	controls_stop();
	if (!data_close())
		die("the sums");
	table_stop();
	return status;
}

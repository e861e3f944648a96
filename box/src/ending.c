/* ending.c - SIGTERM ends the box: it is the program's first, and then nothing is waited for without end. */
#define _GNU_SOURCE
#include "box.h"

#include <signal.h>
#include <stdlib.h>
#include <string.h>
#include <unistd.h>

/* In seconds: how long a program that catches SIGTERM may take, and then how long all others may take to die. */
enum { GRACE = 10, LAST_GRACE = 5 };

static volatile pid_t init; /* none before it begins, and once its end is known */
static volatile sig_atomic_t is_asked;

/* What is left is killed by the kernel, as after a tracer that was killed. */
static void give_up(int signal)
{
	static const char text[] = "pidtab-box: SIGTERM: some processes did not end\n";

	(void)signal;
	if (write(STDERR_FILENO, text, sizeof text - 1) < 0)
		_exit(OWN_FAILURE);
	_exit(OWN_FAILURE);
}

static void kill_init(int signal_number)
{
	(void)signal_number;
	if (init)
		kill(init, SIGKILL);
	signal(SIGALRM, give_up);
	alarm(LAST_GRACE);
}

static void asked(int signal_number)
{
	if (is_asked || !init) {
		kill_init(signal_number);
		return;
	}
	is_asked = true;
	signal(SIGALRM, kill_init);
	alarm(GRACE);
	kill(init, signal_number);
}

void ending_start(void)
{
	signal(SIGTERM, asked);
}

void ending_of(pid_t real)
{
	init = real;
}

/* The program does not catch the SIGTERM by which this program was asked to end. */
void ending_not_caught(const struct process *process, int signal)
{
	if (is_asked && signal == SIGTERM && process->root == BOX_INIT)
		kill_init(signal);
}

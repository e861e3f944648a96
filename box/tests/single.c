/* single.c - what single calls cost, in microseconds: the least of ten batches, a line each. */
#define _GNU_SOURCE
#include <fcntl.h>
#include <signal.h>
#include <stdio.h>
#include <sys/syscall.h>
#include <sys/wait.h>
#include <time.h>
#include <unistd.h>

static double now(void)
{
	struct timespec time;

	clock_gettime(CLOCK_MONOTONIC, &time);
	return (double)time.tv_sec * 1e6 + (double)time.tv_nsec / 1e3;
}

static void plain(void)
{
	syscall(SYS_getuid);
}

static void query(void)
{
	syscall(SYS_getppid);
}

static void open_one(void)
{
	close(open("/etc/passwd", O_RDONLY));
}

static void signal_self(void)
{
	raise(SIGUSR1);
}

static void fork_one(void)
{
	pid_t child = fork();

	if (child == 0)
		_exit(0);
	waitpid(child, NULL, 0);
}

static void exec_one(void)
{
	pid_t child = vfork();

	if (child == 0) {
		execl("/bin/true", "true", NULL);
		_exit(1);
	}
	waitpid(child, NULL, 0);
}

static void ignore(int signal)
{
	(void)signal;
}

enum { BATCHES = 10 };

static double batch(void (*act)(void), int times)
{
	double begun = now();

	for (int i = 0; i < times; i++)
		act();
	return (now() - begun) / times;
}

int main(void)
{
	static const struct {
		const char *name;
		int times;
		void (*act)(void);
	} all[] = {
		{ "getuid, which is plain", 100000, plain }, { "getppid", 1000, query }, { "open and close", 1000, open_one },
		{ "a signal to itself", 500, signal_self }, { "fork, exit and wait", 100, fork_one }, { "vfork, execve, exit and wait", 50, exec_one }
	};

	signal(SIGUSR1, ignore);
	for (size_t i = 0; i < sizeof all / sizeof all[0]; i++) {
		double least = 0;

		for (int j = 0; j < BATCHES; j++) {
			double cost = batch(all[i].act, all[i].times);
			least = j == 0 || cost < least ? cost : least;
		}
		printf("%s: %.3f\n", all[i].name, least);
	}
}

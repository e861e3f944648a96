/* storm.c - processes that begin and end all at once, in one of several ways. What it prints is the same wherever it runs. */
#define _GNU_SOURCE
#include <errno.h>
#include <pthread.h>
#include <signal.h>
#include <stdio.h>
#include <stdlib.h>
#include <string.h>
#include <sys/wait.h>
#include <unistd.h>

enum { FAILED = 1, MISUSED = 2, MOMENT = 20000 /* us */, ROUNDS = 20 };

static void *nothing(void *word)
{
	return word;
}

/* Whether one was begun, and has ended. */
static int begin_thread(void)
{
	pthread_t thread;

	return !pthread_create(&thread, NULL, nothing, NULL) && !pthread_join(thread, NULL);
}

static int begin_fork(void)
{
	pid_t child = fork();

	if (child == 0)
		_exit(0);
	return child > 0 && waitpid(child, NULL, 0) == child;
}

static int begin_vfork(void)
{
	pid_t child = vfork();

	if (child == 0)
		_exit(0);
	return child > 0 && waitpid(child, NULL, 0) == child;
}

typedef int begins(void);

static begins *begins_of(const char *word)
{
	return !strcmp(word, "thread") ? begin_thread : !strcmp(word, "fork") ? begin_fork : begin_vfork;
}

static _Noreturn void go_on(begins *begin)
{
	for (;;)
		begin();
}

/* All those that wait for the end of a pipe begin in one moment. */
static int at_once(int count, begins *begin)
{
	int gate[2], status, ended = 0, bad = 0;

	if (pipe(gate))
		return FAILED;
	for (int i = 0; i < count; i++)
		if (fork() == 0) {
			int done = 0;
			char byte;

			close(gate[1]);
			while (read(gate[0], &byte, 1) == 0 && done < ROUNDS && begin())
				done++;
			_exit(done != ROUNDS);
		}
	close(gate[0]);
	close(gate[1]);
	while (wait(&status) > 0) {
		ended++;
		bad += status != 0;
	}
	printf("%d ended, %d of them badly\n", ended, bad);
	return bad != 0;
}

/* The init ends while the others begin. */
static int fall(int count, begins *begin)
{
	for (int i = 0; i < count; i++)
		if (fork() == 0)
			go_on(begin);
	usleep(MOMENT);
	puts("the init ends");
	return 0;
}

static begins *threads_begin;

static _Noreturn void *go_on_in_thread(void *word)
{
	(void)word;
	go_on(threads_begin);
}

/* The init ends while its own threads begin others. */
static int leave(int count, begins *begin)
{
	pthread_t thread;

	threads_begin = begin;
	for (int i = 0; i < count; i++)
		pthread_create(&thread, NULL, go_on_in_thread, NULL);
	usleep(MOMENT);
	puts("the init ends");
	return 0;
}

/* Each is killed while it begins others: in the midst of a fork at times. */
static int killed(int count, begins *begin)
{
	int ended = 0, status;

	for (int i = 0; i < count; i++) {
		pid_t child = fork();

		if (child == 0)
			go_on(begin);
		usleep(MOMENT / 20 + 37 * (unsigned)i);
		kill(child, SIGKILL);
		ended += waitpid(child, &status, 0) == child && WTERMSIG(status) == SIGKILL;
	}
	printf("%d killed\n", ended);
	return 0;
}

static void *execute(void *word)
{
	usleep(MOMENT / 20);
	execl("/bin/true", "true", NULL);
	return word;
}

/* A thread executes while the main one begins others. */
static int executed(int count, begins *begin)
{
	int ended = 0, status;

	for (int i = 0; i < count; i++) {
		pid_t child = fork();
		pthread_t thread;

		if (child == 0) {
			pthread_create(&thread, NULL, execute, NULL);
			go_on(begin);
		}
		ended += waitpid(child, &status, 0) == child && status == 0;
	}
	printf("%d executed\n", ended);
	return 0;
}

/* Forks until there is no room, and then a moment more. */
static int bomb(int count, begins *begin)
{
	(void)count;
	(void)begin;
	for (;;) {
		pid_t child = fork();

		if (child < 0)
			break;
		while (child == 0)
			if (fork() < 0)
				usleep(MOMENT / 20);
	}
	puts(errno == EAGAIN ? "EAGAIN" : strerror(errno));
	fflush(stdout);
	usleep(5 * MOMENT);
	_exit(0);
}

int main(int count, char **words)
{
	static const struct {
		const char *name;
		int (*act)(int count, begins *begin);
	} ways[] = { { "at-once", at_once }, { "fall", fall }, { "leave", leave }, { "killed", killed }, { "executed", executed }, { "bomb", bomb } };

	for (size_t i = 0; count == 4 && i < sizeof ways / sizeof ways[0]; i++)
		if (!strcmp(words[1], ways[i].name))
			return ways[i].act(atoi(words[2]), begins_of(words[3]));
	fputs("usage: storm at-once|fall|leave|killed|executed|bomb COUNT thread|fork|vfork\n", stderr);
	return MISUSED;
}

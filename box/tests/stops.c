/* stops.c - makes one call so many times: the test counts the stops that it takes. */
#define _GNU_SOURCE
#include <fcntl.h>
#include <signal.h>
#include <stdio.h>
#include <stdlib.h>
#include <string.h>
#include <sys/socket.h>
#include <sys/stat.h>
#include <sys/syscall.h>
#include <sys/wait.h>
#include <unistd.h>

enum { MISUSED = 2, LATE = 2000 /* us */ };

static int pair[2];

static void begin_pair(void)
{
	socketpair(AF_UNIX, SOCK_DGRAM, 0, pair);
}

static void begin_passing(void)
{
	int on = 1;

	begin_pair();
	setsockopt(pair[1], SOL_SOCKET, SO_PASSCRED, &on, sizeof on);
}

/* With room for credentials, which come if the socket has the option. */
static void receive(void)
{
	char byte = 'x', room[64];
	struct iovec part = { &byte, 1 };
	struct msghdr head = { .msg_iov = &part, .msg_iovlen = 1, .msg_control = room, .msg_controllen = sizeof room };

	if (write(pair[0], &byte, 1) != 1 || recvmsg(pair[1], &head, 0) != 1)
		exit(1);
}

static void nothing(void)
{
}

static void ask_descriptor(void)
{
	struct stat about;

	fstat(0, &about);
}

static void open_proc(void)
{
	close(open("/proc", O_RDONLY));
}

static void open_file(void)
{
	close(open("/dev/null", O_RDONLY));
}

static void ask(void)
{
	syscall(SYS_getppid);
}

static void wait_for_child(void)
{
	pid_t child = fork();

	if (child == 0)
		_exit(0);
	waitpid(child, NULL, 0);
}

/* The child ends while its parent waits. */
static void wait_for_any(void)
{
	if (fork() == 0)
		_exit(usleep(LATE));
	wait(NULL);
}

static void begin_child(void)
{
	if (fork() == 0)
		_exit(pause());
}

static void poll_children(void)
{
	waitpid(-1, NULL, WNOHANG);
}

static void ask_action(void)
{
	struct sigaction action;

	sigaction(SIGCHLD, NULL, &action);
}

int main(int count, char **words)
{
	static const struct {
		const char *name;
		void (*begin)(void);
		void (*act)(void);
	} ways[] = { { "receive", begin_pair, receive }, { "receive-passed", begin_passing, receive }, { "descriptor",
		nothing, ask_descriptor },
		     { "descriptor-proc", open_proc, ask_descriptor }, { "open", nothing, open_file }, { "query", nothing,
		     	ask }, { "fork", nothing, wait_for_child }, { "fork-any", nothing, wait_for_any }, { "poll", begin_child, poll_children },
		     { "poll-none", nothing, poll_children }, { "action", nothing, ask_action } };

	for (size_t i = 0; count == 3 && i < sizeof ways / sizeof ways[0]; i++)
		if (!strcmp(words[1], ways[i].name)) {
			ways[i].begin();
			for (int times = atoi(words[2]); times > 0; times--)
				ways[i].act();
			return 0;
		}
	fputs("usage: stops receive|receive-passed|descriptor|descriptor-proc|open|query|fork|fork-any|poll|poll-none|action "
	      "COUNT\n", stderr);
	return MISUSED;
}

/* A switch between the TAP devices of network namespaces. Each directed pair of them has a rule of its own: how many of 1,000 frames are lost or
 * doubled, how long each is held, in microseconds, and by how much more at random, which puts them out of order.
 *
 *     switch SEED NAMESPACE..     each is a file, as /proc/PID/ns/net; that of place N, from 0 on, has a device `tap0` with the address 10.77.0.N+1
 *
 * It says `ready`, and then reads rules from standard input, a line each: FROM TO LOSS DELAY JITTER DOUBLED. Where that ends, it says what it did. */
#define _GNU_SOURCE
#include <errno.h>
#include <fcntl.h>
#include <linux/if.h>
#include <linux/if_tun.h>
#include <poll.h>
#include <sched.h>
#include <stdint.h>
#include <stdio.h>
#include <stdlib.h>
#include <string.h>
#include <sys/ioctl.h>
#include <sys/prctl.h>
#include <signal.h>
#include <time.h>
#include <unistd.h>

enum { MOST_PLACES = 16, MOST_HELD = 1 << 14, MOST_FRAME = 2048, AT_ONCE = 64 };

struct rule {
	int loss, delay, jitter, doubled;
};

struct frame {
	uint64_t due, order;
	int to, size;
	unsigned char *bytes;
};

static struct rule rules[MOST_PLACES][MOST_PLACES];
static struct pollfd ends[MOST_PLACES + 1];
static int places;

/* The frames that are held, the one that is due first before all others: a heap. */
static struct frame held[MOST_HELD];
static int holds;
static uint64_t orders;

static uint64_t passed, dropped, delayed, doubled;

static void stop(const char *what)
{
	fprintf(stderr, "switch: %s: %s\n", what, strerror(errno));
	exit(1);
}

static uint64_t now(void)
{
	struct timespec it;
	clock_gettime(CLOCK_MONOTONIC, &it);
	return (uint64_t)it.tv_sec * 1000000 + (uint64_t)it.tv_nsec / 1000;
}

/* Whether what happens to so many of 1,000 frames happens to this one. */
static int comes(int of_thousand) { return of_thousand > 0 && rand() % 1000 < of_thousand; }

static int is_before(const struct frame *one, const struct frame *other)
{
	return one->due != other->due ? one->due < other->due : one->order < other->order;
}

static void swap(int one, int other)
{
	struct frame it = held[one];
	held[one] = held[other];
	held[other] = it;
}

static void hold(uint64_t due, int to, const unsigned char *bytes, int size)
{
	if (holds == MOST_HELD) {
		dropped++;
		return;
	}
	struct frame it = {due, orders++, to, size, malloc((size_t)size)};
	if (!it.bytes)
		stop("no memory for a frame");
	memcpy(it.bytes, bytes, (size_t)size);
	held[holds] = it;
	for (int at = holds++; at && is_before(&held[at], &held[(at - 1) / 2]); at = (at - 1) / 2)
		swap(at, (at - 1) / 2);
}

/* Puts the frame at a place of the heap, which may be due later than those below it, where it belongs. */
static void sink(int at)
{
	for (;;) {
		int first = at;
		for (int below = 2 * at + 1; below <= 2 * at + 2; below++)
			if (below < holds && is_before(&held[below], &held[first]))
				first = below;
		if (first == at)
			return;
		swap(first, at);
		at = first;
	}
}

static void send_to(int to, const unsigned char *bytes, int size)
{
	if (write(ends[to].fd, bytes, (size_t)size) < 0)
		dropped++;
	else
		passed++;
}

static void send_due(uint64_t time)
{
	while (holds && held[0].due <= time) {
		send_to(held[0].to, held[0].bytes, held[0].size);
		free(held[0].bytes);
		held[0] = held[--holds];
		sink(0);
	}
}

/* Where a frame goes: it is IPv4, from 10.77.0.0/24 to there. All others are none of ours. */
static int receiver(const unsigned char *bytes, ssize_t size)
{
	static const unsigned char ours[] = {10, 77, 0};
	if (size < 34 || bytes[12] != 8 || bytes[13] != 0 || memcmp(bytes + 26, ours, 3) || memcmp(bytes + 30, ours, 3))
		return -1;
	return bytes[33] >= 1 && bytes[33] <= places ? bytes[33] - 1 : -1;
}

static void pass_on(int from, const unsigned char *bytes, int size, uint64_t time)
{
	int to = receiver(bytes, size);
	if (to < 0 || to == from)
		return;
	const struct rule *rule = &rules[from][to];
	for (int copies = comes(rule->doubled) ? 2 : 1; copies; copies--) {
		doubled += copies == 2;
		if (comes(rule->loss)) {
			dropped++;
		} else if (rule->delay || rule->jitter) {
			delayed++;
			hold(time + (uint64_t)rule->delay + (uint64_t)(rule->jitter ? rand() % rule->jitter : 0), to, bytes, size);
		} else {
			send_to(to, bytes, size);
		}
	}
}

static void pass_all(int from)
{
	unsigned char bytes[MOST_FRAME];
	uint64_t time = now();
	for (int count = 0; count < AT_ONCE; count++) {
		ssize_t size = read(ends[from].fd, bytes, sizeof bytes);
		if (size <= 0)
			return;
		pass_on(from, bytes, (int)size, time);
	}
}

static void take_rule(const char *line)
{
	int from, to;
	struct rule it;
	int read = sscanf(line, "%d %d %d %d %d %d", &from, &to, &it.loss, &it.delay, &it.jitter, &it.doubled);
	if (read != 6 || from < 0 || to < 0 || from >= places || to >= places) {
		fprintf(stderr, "switch: no rule: %s\n", line);
		exit(1);
	}
	rules[from][to] = it;
}

/* Reads what there is of rules; a line may come in parts. */
static void read_rules(void)
{
	static char text[4096];
	static size_t have;
	ssize_t size = read(0, text + have, sizeof text - 1 - have);
	if (size == 0) {
		printf("passed %lu dropped %lu delayed %lu doubled %lu\n", passed, dropped, delayed, doubled);
		exit(0);
	}
	have += size > 0 ? (size_t)size : 0;
	text[have] = 0;
	char *line = text;
	for (char *end; (end = strchr(line, '\n')); line = end + 1) {
		*end = 0;
		take_rule(line);
	}
	have -= (size_t)(line - text);
	memmove(text, line, have);
}

/* The device of a namespace, into which the process goes. */
static int open_device(const char *path)
{
	struct ifreq wish = {.ifr_name = "tap0", .ifr_flags = IFF_TAP | IFF_NO_PI};
	int space = open(path, O_RDONLY | O_CLOEXEC);
	if (space < 0 || setns(space, CLONE_NEWNET))
		stop(path);
	close(space);
	int device = open("/dev/net/tun", O_RDWR | O_NONBLOCK | O_CLOEXEC);
	if (device < 0 || ioctl(device, TUNSETIFF, &wish))
		stop("/dev/net/tun");
	return device;
}

/* How long nothing is due, in milliseconds. */
static int wait_for(uint64_t time)
{
	if (!holds)
		return 1000;
	return held[0].due > time ? (int)((held[0].due - time + 999) / 1000) : 0;
}

int main(int count, char **words)
{
	if (count < 3 || count > MOST_PLACES + 2) {
		fprintf(stderr, "switch: SEED NAMESPACE.., at most %d of them\n", MOST_PLACES);
		return 2;
	}
	prctl(PR_SET_PDEATHSIG, SIGKILL);
	srand((unsigned)atoi(words[1]));
	places = count - 2;
	for (int place = 0; place < places; place++)
		ends[place] = (struct pollfd){open_device(words[place + 2]), POLLIN, 0};
	ends[places] = (struct pollfd){0, POLLIN, 0};
	fcntl(0, F_SETFL, O_NONBLOCK);
	printf("ready\n");
	fflush(stdout);
	for (;;) {
		poll(ends, (nfds_t)places + 1, wait_for(now()));
		send_due(now());
		if (ends[places].revents)
			read_rules();
		for (int place = 0; place < places; place++)
			if (ends[place].revents)
				pass_all(place);
	}
}

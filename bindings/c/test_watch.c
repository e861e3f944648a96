/* Who waits until a call is recorded: one or many, beside a saver, with a deadline, and until the waits end. While threads make calls, a
 * replica follows them by such waits to the end, and has the text of the table. */
#include "test_saved.h"

#include <limits.h>
#include <time.h>
#include <unistd.h>

#define WORKERS 4
#define EACH 5000
#define WAITERS 8

static const struct pidtab_saved_head head = { .pid_max = 32768, .workers = WORKERS, .first_stamp = 1 };
static struct pidtab shared;

static void begin(void)
{
	CHECK(open_threads(&shared, head.pid_max, head.first_stamp, head.workers, PIDTAB_KEEP_ALL) == PIDTAB_DONE);
}

/* A getpid of worker 0. */
static void asks(void)
{
	const struct pidtab_call call = { .operation = PIDTAB_GETPID, .caller = 1 };
	struct pidtab_reply reply;
	uint64_t ordinal;

	CHECK(pidtab_call_by(&shared, 0, &call, &reply, &ordinal) == PIDTAB_DONE);
}

/* A deadline in so many milliseconds. */
static struct timespec in(long milliseconds)
{
	struct timespec at;

	CHECK(clock_gettime(CLOCK_REALTIME, &at) == 0);
	at.tv_sec += milliseconds / 1000;
	at.tv_nsec += milliseconds % 1000 * 1000000;
	at.tv_sec += at.tv_nsec / 1000000000;
	at.tv_nsec %= 1000000000;
	return at;
}

/* How many calls a wait tells of that is done. */
static uint64_t waited(uint64_t ordinal, const struct timespec *until)
{
	uint64_t recorded = UINT64_MAX;

	CHECK(pidtab_await(&shared, ordinal, until, &recorded) == PIDTAB_DONE);
	return recorded;
}

/* What a thread waits for, and what it was told. */
struct waiter {
	pthread_t thread;
	uint64_t ordinal, recorded;
	const struct timespec *until;
	uint32_t status;
};

static void *waits(void *at)
{
	struct waiter *waiter = at;

	waiter->status = pidtab_await(&shared, waiter->ordinal, waiter->until, &waiter->recorded);
	return NULL;
}

static void start_until(struct waiter *waiter, uint64_t ordinal, const struct timespec *until)
{
	*waiter = (struct waiter){ .ordinal = ordinal, .until = until, .status = UINT32_MAX };
	CHECK(pthread_create(&waiter->thread, NULL, waits, waiter) == 0);
}

static void start(struct waiter *waiter, uint64_t ordinal)
{
	start_until(waiter, ordinal, NULL);
}

static void told(struct waiter *waiter, uint32_t status, uint64_t recorded)
{
	CHECK(pthread_join(waiter->thread, NULL) == 0);
	CHECK(waiter->status == status && waiter->recorded == recorded);
}

/* Gives the waits time to sleep. */
static void let_sleep(void)
{
	nanosleep(&(struct timespec){ .tv_nsec = 20000000 }, NULL);
}

/* What is recorded already is not waited for, also after a cut. */
static void is_there_already(void)
{
	begin();
	asks();
	asks();
	CHECK(waited(0, NULL) == 2 && waited(1, NULL) == 2);
	CHECK(pidtab_checkpoint(&shared) == PIDTAB_DONE && waited(0, NULL) == 2);
	pidtab_close(&shared);
}

/* A call wakes each that waits for it, and no query, cut or empty turn does. */
static void each_is_woken(void)
{
	const struct pidtab_call query = { .operation = PIDTAB_GETPID, .caller = 1 };
	struct waiter waiters[WAITERS], late;
	struct pidtab_reply reply;
	struct timespec soon;

	begin();
	for (int i = 0; i < WAITERS; i++)
		start(&waiters[i], 0);
	start(&late, 1);
	let_sleep();
	CHECK(pidtab_ask(&shared, &query, &reply) == PIDTAB_DONE && pidtab_checkpoint(&shared) == PIDTAB_DONE);
	pidtab_lock(&shared);
	pidtab_unlock(&shared);
	soon = in(20);
	CHECK(waited(0, &soon) == 0);
	asks();
	for (int i = 0; i < WAITERS; i++)
		told(&waiters[i], PIDTAB_DONE, 1);
	asks();
	told(&late, PIDTAB_DONE, 2);
	pidtab_close(&shared);
}

/* Calls that are made under the lock wake too, a call by a line, and one that tells its effects. */
static void calls_of_each_kind(void)
{
	const struct pidtab_call call = { .operation = PIDTAB_GETPID, .caller = 1 };
	char answer[PIDTAB_LONGEST_ANSWER];
	struct pidtab *table;
	struct pidtab_effect effects[1];
	struct pidtab_reply reply;
	struct waiter waiter;
	uint64_t ordinal, count;
	size_t size;

	begin();
	start(&waiter, 1);
	let_sleep();
	table = pidtab_lock(&shared);
	for (int i = 0; i < 3; i++)
		CHECK(pidtab_call_by(table, 1, &call, &reply, &ordinal) == PIDTAB_DONE);
	pidtab_unlock(&shared);
	told(&waiter, PIDTAB_DONE, 3);
	start(&waiter, 3);
	let_sleep();
	CHECK(pidtab_line_by(&shared, 0, "getpid 1", 8, answer, sizeof answer, &size, &ordinal) == PIDTAB_DONE);
	told(&waiter, PIDTAB_DONE, 4);
	start(&waiter, 4);
	let_sleep();
	CHECK(pidtab_call_told_by(&shared, 0, &call, &reply, &ordinal, effects, 0, &count) == PIDTAB_DONE);
	told(&waiter, PIDTAB_DONE, 5);
	pidtab_close(&shared);
}

/* A deadline that has come is done, and says that no more were recorded. It never comes too early. */
static void deadlines(void)
{
	const struct timespec past = { 0 }, wrong = { .tv_nsec = 1000000000 }, negative = { .tv_nsec = -1 };
	const struct timespec never = { .tv_sec = INT_MAX };
	struct timespec soon, now;
	struct waiter waiter;
	uint64_t recorded = 7;

	begin();
	CHECK(waited(0, &past) == 0);
	soon = in(30);
	CHECK(waited(0, &soon) == 0 && clock_gettime(CLOCK_REALTIME, &now) == 0);
	CHECK(now.tv_sec > soon.tv_sec || (now.tv_sec == soon.tv_sec && now.tv_nsec >= soon.tv_nsec));
	CHECK(pidtab_await(&shared, 0, &wrong, &recorded) == PIDTAB_OUT_OF_RANGE);
	CHECK(pidtab_await(&shared, 0, &negative, &recorded) == PIDTAB_OUT_OF_RANGE && recorded == 7);
	start_until(&waiter, 0, &never);
	let_sleep();
	asks();
	told(&waiter, PIDTAB_DONE, 1);
	CHECK(waited(0, &past) == 1 && waited(0, &never) == 1 && waited(1, &past) == 1);
	pidtab_close(&shared);
}

/* The end is for all waits, those that come later too; what was recorded is told still. */
static void ended(void)
{
	const struct timespec past = { 0 };
	struct waiter one, other;

	begin();
	asks();
	start(&one, 1);
	start(&other, UINT64_MAX);
	let_sleep();
	pidtab_end(&shared);
	told(&one, PIDTAB_CLOSED, 1);
	told(&other, PIDTAB_CLOSED, 1);
	asks();
	CHECK(waited(0, NULL) == 2 && waited(1, &past) == 2);
	start(&one, 2);
	told(&one, PIDTAB_CLOSED, 2);
	pidtab_close(&shared);
}

static struct pidtab_saved saved;

static void *saves(void *unused)
{
	CHECK(pidtab_saved_serve(&saved, &shared, 0, false) == PIDTAB_DONE);
	return unused;
}

/* A saver and a waiter sleep by one condition: each call wakes both, and the end of one is not that of the other. */
static void beside_a_saver(void)
{
	struct waiter waiter;
	pthread_t saver;
	int file = new_file();

	begin();
	CHECK(pidtab_saved_begin(&saved, file, &head) == PIDTAB_DONE && pthread_create(&saver, NULL, saves, NULL) == 0);
	for (uint64_t i = 0; i < 200; i++) {
		start(&waiter, i);
		asks();
		told(&waiter, PIDTAB_DONE, i + 1);
		CHECK(pidtab_saved_wait(&shared, i) == PIDTAB_DONE);
	}
	start(&waiter, 200);
	let_sleep();
	pidtab_end(&shared);
	told(&waiter, PIDTAB_CLOSED, 200);
	asks();
	CHECK(pidtab_saved_wait(&shared, 200) == PIDTAB_DONE);
	pidtab_saved_end(&shared);
	CHECK(pthread_join(saver, NULL) == 0 && saved.next == 201);
	pidtab_close(&shared);
	CHECK(close(file) == 0);
}

/* The end of the saver is none of the waits. */
static void saver_ended(void)
{
	struct waiter waiter;

	begin();
	start(&waiter, 0);
	let_sleep();
	pidtab_saved_end(&shared);
	let_sleep();
	asks();
	told(&waiter, PIDTAB_DONE, 1);
	pidtab_close(&shared);
}

/* Children that end. One of three is left a zombie. */
static void *works(void *unused)
{
	struct pidtab_call fork = { .operation = PIDTAB_FORK, .caller = 1 }, exit = { .operation = PIDTAB_EXIT };
	struct pidtab_call wait = { .operation = PIDTAB_WAIT, .caller = 1, .choice = PIDTAB_CHILD };
	struct pidtab_reply reply;
	uint64_t ordinal;
	uint32_t worker;

	CHECK(pidtab_seat(&shared, &worker) == PIDTAB_DONE);
	for (int i = 0; i < EACH; i++) {
		CHECK(pidtab_call_by(&shared, worker, &fork, &reply, &ordinal) == PIDTAB_DONE && reply.kind == PIDTAB_FORKED);
		exit.caller = (uint32_t)reply.second;
		wait.number = (uint32_t)reply.first;
		CHECK(pidtab_call_by(&shared, worker, &exit, &reply, &ordinal) == PIDTAB_DONE);
		if (i % 3 != 0)
			CHECK(pidtab_call_by(&shared, worker, &wait, &reply, &ordinal) == PIDTAB_DONE);
	}
	return unused;
}

/* Follows to the end of the waits: how many calls the replica has made. */
static void *follows(void *at)
{
	struct pidtab *replica = at;
	static uint64_t next;
	uint64_t recorded, before = 0;

	while (pidtab_await(&shared, next, NULL, &recorded) == PIDTAB_DONE) {
		CHECK(recorded > next && recorded >= before);
		before = recorded;
		CHECK(pidtab_follow(&shared, replica, &next) == PIDTAB_DONE && next >= recorded);
	}
	return &next;
}

static void same_texts(struct pidtab *replica)
{
	size_t size, other;
	char *one, *text;

	CHECK(pidtab_dump(replica, NULL, 0, &size) == PIDTAB_NO_ROOM);
	one = malloc(size);
	text = malloc(size);
	CHECK(one && text && pidtab_dump(replica, one, size, &size) == PIDTAB_DONE);
	CHECK(pidtab_dump(&shared, text, size, &other) == PIDTAB_DONE && other == size && memcmp(one, text, size) == 0);
	free(one);
	free(text);
}

/* The calls of four threads, to the last one. */
static void follows_to_the_end(void)
{
	struct pidtab replica = PIDTAB_INIT;
	pthread_t threads[WORKERS], follower;
	void *next;

	begin();
	CHECK(pidtab_open(&replica, head.pid_max) == PIDTAB_DONE && pthread_create(&follower, NULL, follows, &replica) == 0);
	for (int i = 0; i < WORKERS; i++)
		CHECK(pthread_create(&threads[i], NULL, works, NULL) == 0);
	for (int i = 0; i < WORKERS; i++)
		CHECK(pthread_join(threads[i], NULL) == 0);
	pidtab_end(&shared);
	CHECK(pthread_join(follower, &next) == 0);
	CHECK(*(uint64_t *)next == waited(0, NULL) && *(uint64_t *)next == WORKERS * (2 * EACH + EACH - (EACH + 2) / 3));
	same_texts(&replica);
	pidtab_close(&replica);
	pidtab_close(&shared);
}

int main(void)
{
	/* A thread that nobody wakes would wait for ever. */
	alarm(300);
	is_there_already();
	each_is_woken();
	calls_of_each_kind();
	deadlines();
	ended();
	beside_a_saver();
	saver_ended();
	follows_to_the_end();
	puts("ok");
	return 0;
}

/* A dump for which no call waits: while threads make calls, a replica follows them and is dumped. Each text is that of the state at the
 * ordinal that was told with it: a table that makes the calls up to there, alone, has the same text. */
#include "test.h"

#include <sched.h>
#include <stdatomic.h>

#define WORKERS 4
#define DUMPS 6
#define AHEAD 20000

static struct pidtab shared;

/* How many calls were made, how many of them the last dump had, and whether there are dumps enough. */
static atomic_ullong made, dumped;
static atomic_bool enough;

struct text {
	uint64_t next;
	char *bytes;
	size_t size;
};

static struct text texts[DUMPS];

static void makes(uint32_t worker, struct pidtab_call call, struct pidtab_reply *reply)
{
	uint64_t ordinal;

	CHECK(pidtab_call_by(&shared, worker, &call, reply, &ordinal) == PIDTAB_DONE);
	atomic_fetch_add(&made, 1);
}

/* Makes calls until there are dumps enough, and is never far ahead of them. Each third child stays, so that the texts grow. */
static void *serves(void *unused)
{
	struct pidtab_reply reply;
	uint32_t worker;

	CHECK(pidtab_seat(&shared, &worker) == PIDTAB_DONE);
	for (int i = 0; !atomic_load(&enough); i++) {
		makes(worker, (struct pidtab_call){ .operation = PIDTAB_FORK, .caller = 1, .choice = i % 100 == 0 }, &reply);
		uint32_t child = (uint32_t)reply.second;
		makes(worker, (struct pidtab_call){ .operation = PIDTAB_GETPID, .caller = child }, &reply);
		if (i % 3 != 0)
			makes(worker, (struct pidtab_call){ .operation = PIDTAB_EXIT, .caller = child, .number = 7 }, &reply);
		while (!atomic_load(&enough) && atomic_load(&made) > atomic_load(&dumped) + AHEAD)
			sched_yield();
	}
	return unused;
}

static void dump(struct pidtab *table, struct text *text)
{
	CHECK(pidtab_dump(table, NULL, 0, &text->size) == PIDTAB_NO_ROOM);
	text->bytes = malloc(text->size);
	CHECK(text->bytes != NULL && pidtab_dump(table, text->bytes, text->size, &text->size) == PIDTAB_DONE);
}

static void follow(struct pidtab *replica, uint64_t *next, struct text *text)
{
	CHECK(pidtab_follow(&shared, replica, next) == PIDTAB_DONE);
	dump(replica, text);
	text->next = *next;
	atomic_store(&dumped, *next);
}

/* The calls of the history up to each text, made by one table alone. */
static void check_texts(void)
{
	struct pidtab alone = PIDTAB_INIT;
	struct pidtab_reply reply;
	struct pidtab_entry entry;
	struct text text;
	uint64_t done = 0;
	size_t count;

	CHECK(pidtab_open(&alone, 4194304) == PIDTAB_DONE);
	for (int i = 0; i < DUMPS; i++) {
		for (; done < texts[i].next; done++) {
			CHECK(pidtab_read(&shared, done, &entry, 1, &count) == PIDTAB_DONE && count == 1);
			CHECK(pidtab_call(&alone, &entry.call, &reply) == PIDTAB_DONE);
		}
		dump(&alone, &text);
		CHECK(text.size == texts[i].size && memcmp(text.bytes, texts[i].bytes, text.size) == 0);
		free(text.bytes);
		free(texts[i].bytes);
	}
	pidtab_close(&alone);
}

static void under_load(void)
{
	struct pidtab replica = PIDTAB_INIT;
	pthread_t threads[WORKERS];
	uint64_t next = 0;

	CHECK(pidtab_open(&replica, 4194304) == PIDTAB_DONE);
	CHECK(open_threads(&shared, 4194304, 1, WORKERS, PIDTAB_KEEP_ALL) == PIDTAB_DONE);
	for (int i = 0; i < WORKERS; i++)
		CHECK(pthread_create(&threads[i], NULL, serves, NULL) == 0);
	for (int i = 0; i < DUMPS - 1; i++) {
		while (atomic_load(&made) < next + 1000)
			sched_yield();
		follow(&replica, &next, &texts[i]);
	}
	atomic_store(&enough, true);
	for (int i = 0; i < WORKERS; i++)
		CHECK(pthread_join(threads[i], NULL) == 0);
	follow(&replica, &next, &texts[DUMPS - 1]);
	CHECK(next == atomic_load(&made));
	check_texts();
	pidtab_close(&replica);
	pidtab_close(&shared);
}

/* A replica that is closed, one that lacks a call which was cut away, and one that is none. */
static void refuses(void)
{
	const struct pidtab_call fork_1 = { .operation = PIDTAB_FORK, .caller = 1 };
	struct pidtab replica = PIDTAB_INIT;
	struct pidtab_reply reply;
	uint64_t next = 0;

	CHECK(open_threads(&shared, 32768, 1, 1, 3) == PIDTAB_DONE);
	for (int i = 0; i < 3; i++)
		makes(0, fork_1, &reply);
	CHECK(pidtab_follow(&shared, &replica, &next) == PIDTAB_CLOSED && next == 0);
	CHECK(pidtab_open(&replica, 32768) == PIDTAB_DONE);
	CHECK(pidtab_follow(&shared, &replica, &next) == PIDTAB_DONE && next == 3);
	makes(0, fork_1, &reply);
	CHECK(pidtab_follow(&shared, &replica, &next) == PIDTAB_DONE && next == 4);
	CHECK(pidtab_call(&replica, &fork_1, &reply) == PIDTAB_DONE && reply.first == 6);
	makes(0, fork_1, &reply);
	CHECK(reply.first == 6);
	CHECK(pidtab_follow(&shared, &replica, &next) == PIDTAB_DIFFERS && next == 5);
	for (next = 1; next < 9; next += 5)
		CHECK(pidtab_follow(&shared, &replica, &next) == PIDTAB_NOT_KEPT && next % 5 == 1);
	pidtab_close(&replica);
	pidtab_close(&shared);
}

/* A replica that begins as a loaded table does, by the same text. */
static void goes_on_from_a_text(void)
{
	const struct pidtab_call fork_1 = { .operation = PIDTAB_FORK, .caller = 1 };
	const uint64_t counts[1] = { 2 };
	struct pidtab before = PIDTAB_INIT, replica = PIDTAB_INIT;
	struct pidtab_reply reply;
	struct pidtab_fault fault;
	struct text text, told, other;
	uint64_t next = 2;

	CHECK(pidtab_open(&before, 32768) == PIDTAB_DONE);
	CHECK(pidtab_call(&before, &fork_1, &reply) == PIDTAB_DONE && pidtab_call(&before, &fork_1, &reply) == PIDTAB_DONE);
	dump(&before, &text);
	CHECK(load_threads(&shared, text.bytes, text.size, counts, 1, 2, &fault) == PIDTAB_DONE);
	CHECK(pidtab_load(&replica, text.bytes, text.size, &fault) == PIDTAB_DONE);
	makes(0, fork_1, &reply);
	CHECK(pidtab_follow(&shared, &replica, &next) == PIDTAB_DONE && next == 3);
	CHECK(pidtab_call(&before, &fork_1, &reply) == PIDTAB_DONE);
	dump(&before, &told);
	dump(&replica, &other);
	CHECK(told.size == other.size && memcmp(told.bytes, other.bytes, told.size) == 0);
	free(text.bytes);
	free(told.bytes);
	free(other.bytes);
	pidtab_close(&before);
	pidtab_close(&replica);
	pidtab_close(&shared);
}

int main(void)
{
	under_load();
	refuses();
	goes_on_from_a_text();
	puts("ok");
	return 0;
}

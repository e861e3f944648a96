/* A table that sixteen threads share: each worker's receipts are the entries of its calls, in order; the counts add up; and the
 * history, replayed on a second table, has the same replies and leaves the same list. */
#include "test.h"

#include <errno.h>

#define WORKERS 16
#define EACH 20000

static struct pidtab shared;

/* The layout that the proved functions have. */
_Static_assert(sizeof(struct pidtab_entry) == 208 && offsetof(struct pidtab_entry, call) == 8 && offsetof(struct pidtab_entry, reply) == 40, "an entry");
_Static_assert(offsetof(struct pidtab, at) == 0 && offsetof(struct pidtab, is_open) == sizeof(void *), "a table");

struct receipt {
	uint64_t ordinal;
	struct pidtab_call call;
	struct pidtab_reply reply;
};

struct work {
	uint32_t worker;
	uint64_t count;
	struct receipt receipts[EACH];
};

static struct work *works;
static struct pidtab_entry *entries;

static struct pidtab_reply *makes(struct work *work, struct pidtab_call call)
{
	struct receipt *receipt = &work->receipts[work->count++];

	receipt->call = call;
	CHECK(pidtab_call_by(&shared, work->worker, &call, &receipt->reply, &receipt->ordinal) == PIDTAB_DONE);
	return &receipt->reply;
}

/* A namespace of the worker's own, and in it a child after the other, which ends with the worker's number. */
static void *serves(void *at)
{
	struct work *work = at;

	CHECK(pidtab_seat(&shared, &work->worker) == PIDTAB_DONE && work->worker < WORKERS);
	uint32_t own = (uint32_t)makes(work, (struct pidtab_call){ .operation = PIDTAB_FORK, .caller = 1, .choice = 1 })->second;
	while (work->count + 4 < EACH) {
		struct pidtab_reply *forked = makes(work, (struct pidtab_call){ .operation = PIDTAB_FORK, .caller = own });
		uint32_t child = (uint32_t)forked->first, root = (uint32_t)forked->second;
		CHECK(makes(work, (struct pidtab_call){ .operation = PIDTAB_GETPID, .caller = root })->first == child);
		makes(work, (struct pidtab_call){ .operation = PIDTAB_EXIT, .caller = root, .number = work->worker });
		struct pidtab_reply *reaped = makes(work, (struct pidtab_call){ .operation = PIDTAB_WAIT, .caller = own, .choice = PIDTAB_CHILD, .number = child });
		CHECK(reaped->kind == PIDTAB_REAPED && reaped->first == child && reaped->second == work->worker);
	}
	while (work->count < EACH)
		CHECK(makes(work, (struct pidtab_call){ .operation = PIDTAB_GETPID, .caller = own })->first == 1);
	return NULL;
}

static void sixteen_at_once(void)
{
	pthread_t threads[WORKERS];
	uint32_t worker;

	for (int i = 0; i < WORKERS; i++)
		CHECK(pthread_create(&threads[i], NULL, serves, &works[i]) == 0);
	for (int i = 0; i < WORKERS; i++)
		CHECK(pthread_join(threads[i], NULL) == 0);
	CHECK(pidtab_seat(&shared, &worker) == PIDTAB_OUT_OF_RANGE);
}

static void the_counts_add_up(void)
{
	uint64_t first_kept = 7, recorded = 7, calls = 7, sum = 0;

	CHECK(pidtab_counts(&shared, &first_kept, &recorded) == PIDTAB_DONE);
	CHECK(first_kept == 0 && recorded == (uint64_t)WORKERS * EACH);
	for (uint32_t i = 0; i < WORKERS; i++) {
		CHECK(pidtab_worker(&shared, i, &calls) == PIDTAB_DONE && calls == EACH);
		sum += calls;
	}
	CHECK(sum == recorded && pidtab_worker(&shared, WORKERS, &calls) == PIDTAB_OUT_OF_RANGE && calls == EACH);
}

static bool same_call(const struct pidtab_call *a, const struct pidtab_call *b)
{
	return a->operation == b->operation && a->caller == b->caller && a->id == b->id && a->number == b->number && a->choice == b->choice
		&& a->pid == b->pid && a->pgid == b->pgid;
}

static bool same_reply(const struct pidtab_reply *a, const struct pidtab_reply *b)
{
	return a->kind == b->kind && a->error == b->error && a->refusal == b->refusal && a->count == b->count && a->first == b->first
		&& a->second == b->second && memcmp(a->levels, b->levels, sizeof a->levels) == 0;
}

static void the_receipts_are_the_entries(void)
{
	struct work *of[WORKERS];
	uint64_t next[WORKERS] = { 0 }, worker;
	struct pidtab_call call;
	struct pidtab_reply reply;
	size_t count = 7;

	for (int i = 0; i < WORKERS; i++)
		of[works[i].worker] = &works[i];
	CHECK(pidtab_read(&shared, 0, entries, WORKERS * EACH, &count) == PIDTAB_DONE && count == WORKERS * EACH);
	for (uint64_t i = 0; i < count; i++) {
		const struct receipt *receipt = &of[entries[i].worker]->receipts[next[entries[i].worker]++];
		CHECK(receipt->ordinal == i && same_call(&receipt->call, &entries[i].call) && same_reply(&receipt->reply, &entries[i].reply));
		CHECK(pidtab_entry(&shared, i, &worker, &call, &reply) == PIDTAB_DONE && worker == entries[i].worker);
		CHECK(same_call(&call, &entries[i].call) && same_reply(&reply, &entries[i].reply));
	}
	CHECK(pidtab_entry(&shared, count, &worker, &call, &reply) == PIDTAB_NOT_KEPT);
	CHECK(pidtab_read(&shared, count, entries, 1, &count) == PIDTAB_DONE && count == 0);
	CHECK(pidtab_read(&shared, (uint64_t)WORKERS * EACH + 1, entries, 1, &count) == PIDTAB_NOT_KEPT);
}

static void same_lists(struct pidtab *one, struct pidtab *other)
{
	static char texts[2][1 << 20];
	size_t sizes[2] = { 0, 1 };

	CHECK(pidtab_list(one, texts[0], sizeof texts[0], &sizes[0]) == PIDTAB_DONE);
	CHECK(pidtab_list(other, texts[1], sizeof texts[1], &sizes[1]) == PIDTAB_DONE);
	CHECK(sizes[0] > 100 && sizes[0] == sizes[1] && memcmp(texts[0], texts[1], sizes[0]) == 0);
}

/* On a second table: the whole history, and then one with a reply that is not that of its call. */
static void the_history_replays(void)
{
	struct pidtab again = PIDTAB_INIT;
	uint64_t first_kept, recorded;
	size_t place = 7;

	CHECK(open_history(&again, 32768, 1, WORKERS) == PIDTAB_DONE);
	CHECK(pidtab_replay(&again, entries, WORKERS * EACH, &place) == PIDTAB_DONE && place == WORKERS * EACH);
	same_lists(pidtab_lock(&shared), &again);
	pidtab_unlock(&shared);
	CHECK(pidtab_close(&again) == PIDTAB_DONE && open_history(&again, 32768, 1, WORKERS) == PIDTAB_DONE);
	entries[5].reply.first++;
	CHECK(pidtab_replay(&again, entries, 9, &place) == PIDTAB_DIFFERS && place == 5);
	CHECK(pidtab_counts(&again, &first_kept, &recorded) == PIDTAB_DONE && first_kept == 0 && recorded == 6);
	CHECK(pidtab_replay(&again, &(struct pidtab_entry){ .worker = WORKERS }, 1, &place) == PIDTAB_OUT_OF_RANGE && place == 0);
	CHECK(pidtab_close(&again) == PIDTAB_DONE);
}

/* A cut says how many calls the caller has seen; a query is no call. */
static void a_cut(void)
{
	struct pidtab_call call = { .operation = PIDTAB_GETPID, .caller = 1 };
	struct pidtab_reply reply = { .kind = 77 };
	struct pidtab_task task = { .count = 77 };
	const uint64_t all = (uint64_t)WORKERS * EACH;
	uint64_t first_kept, recorded, ordinal;

	CHECK(pidtab_ask(&shared, &call, &reply) == PIDTAB_DONE && reply.kind == PIDTAB_NUMBER && reply.first == 1);
	CHECK(pidtab_stat(&shared, 1, 0, &task) == PIDTAB_DONE && task.error == 0 && task.count == 1 && task.levels[0] == 1);
	CHECK(pidtab_stat(&shared, 0, 1, &task) == PIDTAB_DONE && task.error == ESRCH && task.refusal == PIDTAB_NO_CALLER);
	CHECK(pidtab_checkpoint_at(&shared, all - 1) == PIDTAB_AGAIN);
	CHECK(pidtab_checkpoint_at(&shared, all) == PIDTAB_DONE);
	CHECK(pidtab_counts(&shared, &first_kept, &recorded) == PIDTAB_DONE && first_kept == all && recorded == all);
	CHECK(pidtab_call_by(&shared, 3, &call, &reply, &ordinal) == PIDTAB_DONE && ordinal == all);
}

struct waiting {
	uint32_t worker;
	uint32_t status;
	struct pidtab_reply reply;
	uint64_t ordinal;
};

static void *asks(void *at)
{
	const struct pidtab_call call = { .operation = PIDTAB_GETPID, .caller = 1 };
	struct waiting *it = at;

	it->status = pidtab_call_by(&shared, it->worker, &call, &it->reply, &it->ordinal);
	return NULL;
}

/* Calls that find the lock taken are made, each once and in some order; those of a worker that is none are not. */
static void calls_while_locked(void)
{
	static struct waiting waits[WORKERS];
	const struct timespec moment = { .tv_nsec = 20000000 };
	bool seen[WORKERS] = { false };
	pthread_t threads[WORKERS];
	uint64_t first_kept, before, recorded;

	CHECK(pidtab_counts(pidtab_lock(&shared), &first_kept, &before) == PIDTAB_DONE);
	for (uint32_t i = 0; i < WORKERS; i++) {
		waits[i] = (struct waiting){ .worker = i % 4 == 3 ? WORKERS : i, .reply = { .kind = 77 }, .ordinal = 77 };
		CHECK(pthread_create(&threads[i], NULL, asks, &waits[i]) == 0);
	}
	nanosleep(&moment, NULL);
	pidtab_unlock(&shared);
	for (uint32_t i = 0; i < WORKERS; i++) {
		const struct waiting *it = &waits[i];

		CHECK(pthread_join(threads[i], NULL) == 0);
		if (i % 4 == 3) {
			CHECK(it->status == PIDTAB_OUT_OF_RANGE && it->reply.kind == 77 && it->ordinal == 77);
			continue;
		}
		CHECK(it->status == PIDTAB_DONE && it->reply.kind == PIDTAB_NUMBER && it->reply.first == 1);
		CHECK(it->ordinal - before < WORKERS / 4 * 3 && !seen[it->ordinal - before]);
		seen[it->ordinal - before] = true;
	}
	CHECK(pidtab_counts(&shared, &first_kept, &recorded) == PIDTAB_DONE && recorded - before == WORKERS / 4 * 3);
}

int main(void)
{
	works = calloc(WORKERS, sizeof *works);
	entries = calloc((size_t)WORKERS * EACH, sizeof *entries);
	CHECK(works && entries && open_threads(&shared, 32768, 1, WORKERS, PIDTAB_KEEP_ALL) == PIDTAB_DONE);
	sixteen_at_once();
	the_counts_add_up();
	the_receipts_are_the_entries();
	the_history_replays();
	a_cut();
	calls_while_locked();
	pidtab_close(&shared);
	free(works);
	free(entries);
	return 0;
}

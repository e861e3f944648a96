/* Sixteen threads make calls on a table, and one saves them meanwhile; what it has saved, loaded again, leaves the same list. */
#include "test_saved.h"

#include <stdatomic.h>
#include <unistd.h>

#define WORKERS 16
#define EACH 5000

static struct pidtab shared;
static atomic_int at_work;

/* A namespace of the worker's own, and in it a child after the other. */
static void *serves(void *unused)
{
	struct pidtab_call call = { .operation = PIDTAB_FORK, .caller = 1, .choice = 1 };
	struct pidtab_reply reply;
	uint64_t ordinal;
	uint32_t worker, own;

	CHECK(pidtab_seat(&shared, &worker) == PIDTAB_DONE && pidtab_call_by(&shared, worker, &call, &reply, &ordinal) == PIDTAB_DONE);
	own = (uint32_t)reply.second;
	for (int i = 0; i < EACH; i++) {
		call = (struct pidtab_call){ .operation = PIDTAB_FORK, .caller = own };
		CHECK(pidtab_call_by(&shared, worker, &call, &reply, &ordinal) == PIDTAB_DONE && reply.kind == PIDTAB_FORKED);
		call = (struct pidtab_call){ .operation = PIDTAB_EXIT, .caller = (uint32_t)reply.second, .number = worker };
		CHECK(pidtab_call_by(&shared, worker, &call, &reply, &ordinal) == PIDTAB_DONE && reply.kind == PIDTAB_OK);
		call = (struct pidtab_call){ .operation = PIDTAB_WAIT, .caller = own };
		CHECK(pidtab_call_by(&shared, worker, &call, &reply, &ordinal) == PIDTAB_DONE && reply.second == worker);
	}
	atomic_fetch_sub(&at_work, 1);
	return unused;
}

/* Saves as long as one of them makes calls, and gives the memory of the saved ones back where nobody has made one since. */
static void *saves(void *at)
{
	struct pidtab_saved *saved = at;
	bool last;

	do {
		last = atomic_load(&at_work) == 0;
		CHECK(pidtab_saved_append(saved, &shared) == PIDTAB_DONE);
		uint32_t cut = pidtab_checkpoint_at(&shared, saved->next);
		CHECK(cut == PIDTAB_DONE || cut == PIDTAB_AGAIN);
	} while (!last);
	return NULL;
}

static void all_at_once(struct pidtab_saved *saved)
{
	pthread_t threads[WORKERS], saver;

	atomic_store(&at_work, WORKERS);
	CHECK(pthread_create(&saver, NULL, saves, saved) == 0);
	for (int i = 0; i < WORKERS; i++)
		CHECK(pthread_create(&threads[i], NULL, serves, NULL) == 0);
	for (int i = 0; i < WORKERS; i++)
		CHECK(pthread_join(threads[i], NULL) == 0);
	CHECK(pthread_join(saver, NULL) == 0);
}

/* The counts of the workers are the same too. */
static void same_counts(struct pidtab *other)
{
	uint64_t here, there;

	for (uint32_t i = 0; i < WORKERS; i++) {
		CHECK(pidtab_worker(&shared, i, &here) == PIDTAB_DONE && here == 1 + 3 * EACH);
		CHECK(pidtab_worker(other, i, &there) == PIDTAB_DONE && there == here);
	}
}

static void saved_while_threads_make_calls(void)
{
	const struct pidtab_saved_head sixteen = { .pid_max = 32768, .workers = WORKERS, .first_stamp = 5 };
	static struct pidtab again;
	struct pidtab_saved saved;
	uint32_t worker;
	int file = new_file();

	CHECK(open_threads(&shared, sixteen.pid_max, sixteen.first_stamp, sixteen.workers, PIDTAB_KEEP_ALL) == PIDTAB_DONE);
	CHECK(pidtab_saved_begin(&saved, file, &sixteen) == PIDTAB_DONE);
	all_at_once(&saved);
	CHECK(saved.next == WORKERS * (1 + 3 * EACH) && saved.bytes == 48 * (1 + saved.next));
	CHECK(pidtab_saved_load(&saved, file, &again, &(struct pidtab_settings){ .keep = 4096, .threads = true }) == PIDTAB_DONE);
	CHECK(saved.next == WORKERS * (1 + 3 * EACH) && saved.left_out == 0);
	same_lists(pidtab_lock(&shared), pidtab_lock(&again));
	pidtab_unlock(&shared);
	pidtab_unlock(&again);
	same_counts(&again);
	/* The workers take their seats again, and the file goes on. */
	CHECK(pidtab_seat(&again, &worker) == PIDTAB_DONE && worker == 0);
	CHECK(pidtab_saved_append(&saved, &again) == PIDTAB_DONE && close(file) == 0);
	pidtab_close(&shared);
	pidtab_close(&again);
}

int main(void)
{
	saved_while_threads_make_calls();
	return 0;
}

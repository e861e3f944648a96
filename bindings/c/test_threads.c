/* Tests of threads that take turns under no lock: while one is in a function, each other function is PIDTAB_BUSY, but a query beside a
 * query (test_readers.c). Built with the sanitizer for threads. */
#include "test.h"
#include "test_hold.h"

/* The heap that heap.c is built with here: one use of it waits. */
void *test_malloc(size_t size)
{
	hold_once();
	return malloc(size);
}

void *test_realloc(void *at, size_t size)
{
	hold_once();
	return realloc(at, size);
}

void test_free(void *at)
{
	hold_once();
	free(at);
}

static struct pidtab table = PIDTAB_INIT;

/* What a thread does: each uses the heap, so it is held. */

static void *opens(void *unused)
{
	CHECK(pidtab_open(&table, 32768) == PIDTAB_DONE);
	return unused;
}

static void *asks_lines(void *unused)
{
	char answer[PIDTAB_LONGEST_ANSWER + 1];
	while (hold)
		CHECK(ask(&table, "fork 1", answer) == PIDTAB_DONE && strncmp(answer, "child ", 6) == 0);
	return unused;
}

static void *forks_on(void *unused)
{
	while (hold)
		CHECK(pidtab_fork(&table, 1, false, NULL) > 1);
	return unused;
}

/* A child of the root init ends: that its effects are told takes memory. */
static const struct pidtab_call exit_2 = { .operation = PIDTAB_EXIT, .caller = 2 };

static void *tells_an_end(void *unused)
{
	struct pidtab_effect effects[4];
	struct pidtab_reply reply;
	uint64_t count;

	CHECK(pidtab_call_told(&table, &exit_2, &reply, effects, 4, &count) == PIDTAB_DONE && count == 1 && effects[0].number == 2);
	return unused;
}

static void *lists(void *unused)
{
	static char text[1 << 20];
	size_t size = 0;
	CHECK(pidtab_list(&table, text, sizeof text, &size) == PIDTAB_DONE);
	CHECK(size > 100 && strncmp(text, "task 1 space 0 parent 0 ", 24) == 0 && text[size - 1] == '\n');
	return unused;
}

/* What the table was saved as. */
static char text[1 << 20];
static size_t length;

static void *dumps(void *unused)
{
	CHECK(pidtab_dump(&table, text, sizeof text, &length) == PIDTAB_DONE && strncmp(text, "pidtab table 1 ", 15) == 0);
	return unused;
}

static void *loads(void *unused)
{
	struct pidtab_fault fault;
	CHECK(pidtab_load(&table, text, length, &fault) == PIDTAB_DONE);
	return unused;
}

static void *closes(void *unused)
{
	CHECK(pidtab_close(&table) == PIDTAB_DONE);
	return unused;
}

static void each_call_is_busy(void)
{
	char room[PIDTAB_LONGEST_ANSWER] = "kept";
	size_t size = 7;
	struct pidtab_call call = { PIDTAB_GETPID, 1, 0, 0, 0, 0, 0 };
	struct pidtab_reply reply = { .kind = 77 };
	struct pidtab_fault fault = { 77, 77 };
	struct pidtab_effect effect = { .number = 77 };
	uint64_t count = 77;

	CHECK(pidtab_open(&table, 32768) == PIDTAB_BUSY && pidtab_open(&table, 0) == PIDTAB_BUSY);
	CHECK(pidtab_line(&table, "getpid 1", 8, room, sizeof room, &size) == PIDTAB_BUSY);
	CHECK(pidtab_load(&table, room, sizeof room, &fault) == PIDTAB_BUSY && fault.kind == 0 && fault.line == 0);
	CHECK(size == 7 && strcmp(room, "kept") == 0);
	CHECK(pidtab_call(&table, &call, &reply) == PIDTAB_BUSY && reply.kind == 77);
	CHECK(pidtab_call_told(&table, &call, &reply, &effect, 1, &count) == PIDTAB_BUSY && reply.kind == 77 && effect.number == 77 && count == 77);
	CHECK(pidtab_fork(&table, 1, false, NULL) == -PIDTAB_BUSY);
	CHECK(pidtab_close(&table) == PIDTAB_BUSY);
}

static void each_function_is_busy(void)
{
	char room[PIDTAB_LONGEST_ANSWER] = "kept";
	size_t size = 7;
	uint32_t number = 7;
	struct pidtab_call call = { PIDTAB_GETPID, 1, 0, 0, 0, 0, 0 };
	struct pidtab_reply reply = { .kind = 77 };
	struct pidtab_task task = { .count = 77 };
	struct pidtab_space space = { .level = 77 };
	uint64_t id = 7, count = 77;

	each_call_is_busy();
	CHECK(pidtab_list(&table, room, sizeof room, &size) == PIDTAB_BUSY);
	CHECK(pidtab_dump(&table, room, sizeof room, &size) == PIDTAB_BUSY);
	CHECK(size == 7 && strcmp(room, "kept") == 0);
	CHECK(pidtab_ask(&table, &call, &reply) == PIDTAB_BUSY && reply.kind == 77);
	CHECK(pidtab_stat(&table, 1, 0, &task) == PIDTAB_BUSY && task.count == 77);
	CHECK(pidtab_page(&table, 1, PIDTAB_CHILDREN, 0, 0, &number, 1, &reply) == PIDTAB_BUSY && reply.kind == 77 && number == 7);
	CHECK(pidtab_space(&table, 0, &space) == PIDTAB_BUSY && space.level == 77);
	CHECK(pidtab_inside(&table, PIDTAB_SPACES, 0, 0, &id, 1, &count) == PIDTAB_BUSY && id == 7 && count == 77);
	CHECK(pidtab_control_tasks(&table, 1, 0, 0, &number, 1, &reply) == PIDTAB_BUSY && reply.kind == 77 && number == 7);
}

static struct pidtab kept = PIDTAB_INIT;

static struct pidtab_entry saved;

static void *opens_kept(void *unused)
{
	CHECK(open_history(&kept, 32768, 1, 2) == PIDTAB_DONE);
	return unused;
}

static void *calls(void *unused)
{
	const struct pidtab_call fork_1 = { .operation = PIDTAB_FORK, .caller = 1 };
	struct pidtab_reply reply;
	uint64_t ordinal;

	while (hold)
		CHECK(pidtab_call_by(&kept, 0, &fork_1, &reply, &ordinal) == PIDTAB_DONE && reply.kind == PIDTAB_FORKED);
	return unused;
}

static void *tells_a_recorded_end(void *unused)
{
	struct pidtab_effect effects[4];
	struct pidtab_reply reply;
	uint64_t ordinal, count;

	CHECK(pidtab_call_told_by(&kept, 1, &exit_2, &reply, &ordinal, effects, 4, &count) == PIDTAB_DONE && count == 1 && effects[0].number == 2);
	return unused;
}

static void *writes_lines(void *unused)
{
	char answer[PIDTAB_LONGEST_ANSWER];
	size_t size;
	uint64_t ordinal;

	while (hold)
		CHECK(pidtab_line_by(&kept, 1, "fork 1", 6, answer, sizeof answer, &size, &ordinal) == PIDTAB_DONE);
	return unused;
}

static void *replays(void *unused)
{
	size_t place;

	while (hold)
		CHECK(pidtab_replay(&kept, &saved, 1, &place) == PIDTAB_DONE);
	return unused;
}

static void *lists_kept(void *unused)
{
	static char text[1 << 20];
	size_t size = 0;
	CHECK(pidtab_list(&kept, text, sizeof text, &size) == PIDTAB_DONE && size > 100);
	return unused;
}

static void *lists_opening(void *unused)
{
	static char text[1 << 20];
	size_t size = 0;
	CHECK(pidtab_opening(&kept, text, sizeof text, &size) == PIDTAB_DONE && size > 24);
	return unused;
}

static void *dumps_kept(void *unused)
{
	CHECK(pidtab_dump(&kept, text, sizeof text, &length) == PIDTAB_DONE && strncmp(text, "pidtab table 1 ", 15) == 0);
	return unused;
}

static void *loads_kept(void *unused)
{
	static const uint64_t counts[2] = { 0, 1 };
	struct pidtab_fault fault;
	CHECK(load_history(&kept, text, length, counts, 2, &fault) == PIDTAB_DONE);
	return unused;
}

/* Forks that are cut away take memory on both tables. */
static void forks_for_a_cut(void)
{
	struct pidtab_call call = { .operation = PIDTAB_FORK, .caller = 1 };
	struct pidtab_reply reply;
	uint64_t ordinal;

	CHECK(pidtab_call_by(&kept, 0, &call, &reply, &ordinal) == PIDTAB_DONE && pidtab_keep(&kept, 8) == PIDTAB_DONE);
}

static void *cuts(void *unused)
{
	while (hold) {
		forks_for_a_cut();
		CHECK(pidtab_checkpoint(&kept) == PIDTAB_DONE);
	}
	return unused;
}

static void *cuts_at(void *unused)
{
	uint64_t first, recorded;
	while (hold) {
		forks_for_a_cut();
		CHECK(pidtab_counts(&kept, &first, &recorded) == PIDTAB_DONE);
		CHECK(pidtab_checkpoint_at(&kept, recorded) == PIDTAB_DONE);
	}
	return unused;
}

static void *closes_kept(void *unused)
{
	CHECK(pidtab_close(&kept) == PIDTAB_DONE);
	return unused;
}

static void each_call_of_a_history_is_busy(void)
{
	char room[PIDTAB_LONGEST_ANSWER] = "kept";
	size_t size = 7;
	uint64_t one = 7;
	struct pidtab_call call = { .operation = PIDTAB_GETPID, .caller = 1 };
	struct pidtab_reply reply = { .kind = 77 };
	struct pidtab_fault fault = { 77, 77 };
	struct pidtab_effect effect = { .number = 77 };
	uint64_t count = 77;
	uint32_t seat = 77;

	CHECK(open_history(&kept, 32768, 1, 2) == PIDTAB_BUSY && open_history(&kept, 300, 1, 17) == PIDTAB_BUSY);
	CHECK(pidtab_call_by(&kept, 0, &call, &reply, &one) == PIDTAB_BUSY);
	CHECK(pidtab_keep(&kept, 0) == PIDTAB_BUSY && pidtab_seat(&kept, &seat) == PIDTAB_BUSY && seat == 77);
	CHECK(pidtab_line_by(&kept, 0, "getpid 1", 8, room, sizeof room, &size, &one) == PIDTAB_BUSY);
	CHECK(pidtab_call_told_by(&kept, 0, &call, &reply, &one, &effect, 1, &count) == PIDTAB_BUSY && effect.number == 77 && count == 77);
	CHECK(pidtab_replay(&kept, &saved, 1, &size) == PIDTAB_BUSY);
	CHECK(pidtab_checkpoint(&kept) == PIDTAB_BUSY && pidtab_checkpoint_at(&kept, 0) == PIDTAB_BUSY);
	CHECK(load_history(&kept, room, sizeof room, &one, 1, &fault) == PIDTAB_BUSY && fault.kind == 0 && fault.line == 0);
	CHECK(pidtab_close(&kept) == PIDTAB_BUSY);
	CHECK(one == 7 && size == 7 && strcmp(room, "kept") == 0 && reply.kind == 77);
}

static void each_function_of_a_history_is_busy(void)
{
	char room[PIDTAB_LONGEST_ANSWER] = "kept";
	size_t size = 7;
	uint32_t number = 7;
	uint64_t one = 7, other = 7;
	struct pidtab_call call = { .operation = PIDTAB_GETPID, .caller = 1 };
	struct pidtab_reply reply = { .kind = 77 };
	struct pidtab_task task = { .count = 77 };
	struct pidtab_space space = { .level = 77 };
	uint64_t id = 7, count = 77;
	struct pidtab_entry entry = { .worker = 77 };

	each_call_of_a_history_is_busy();
	CHECK(pidtab_ask(&kept, &call, &reply) == PIDTAB_BUSY && pidtab_stat(&kept, 1, 0, &task) == PIDTAB_BUSY);
	CHECK(pidtab_page(&kept, 1, PIDTAB_CHILDREN, 0, 0, &number, 1, &reply) == PIDTAB_BUSY && reply.kind == 77 && number == 7);
	CHECK(pidtab_space(&kept, 0, &space) == PIDTAB_BUSY && space.level == 77);
	CHECK(pidtab_inside(&kept, PIDTAB_SPACES, 0, 0, &id, 1, &count) == PIDTAB_BUSY && id == 7 && count == 77);
	CHECK(pidtab_control_tasks(&kept, 1, 0, 0, &number, 1, &reply) == PIDTAB_BUSY && reply.kind == 77 && number == 7);
	CHECK(pidtab_counts(&kept, &one, &other) == PIDTAB_BUSY && pidtab_worker(&kept, 0, &one) == PIDTAB_BUSY);
	CHECK(pidtab_entry(&kept, 0, &one, &call, &reply) == PIDTAB_BUSY);
	CHECK(pidtab_read(&kept, 0, &entry, 1, &size) == PIDTAB_BUSY);
	CHECK(pidtab_list(&kept, room, sizeof room, &size) == PIDTAB_BUSY);
	CHECK(pidtab_opening(&kept, room, sizeof room, &size) == PIDTAB_BUSY);
	CHECK(pidtab_dump(&kept, room, sizeof room, &size) == PIDTAB_BUSY);
	CHECK(one == 7 && other == 7 && size == 7 && strcmp(room, "kept") == 0 && reply.kind == 77 && entry.worker == 77 && task.count == 77);
}

static void while_another(void *(*works)(void *), void (*each_is_busy)(void))
{
	pthread_t other;

	hold = true;
	CHECK(pthread_create(&other, NULL, works, NULL) == 0);
	sem_wait(&is_held);
	each_is_busy();
	sem_post(&go_on);
	CHECK(pthread_join(other, NULL) == 0);
}

static void in_the_middle_of_each(void)
{
	CHECK(sem_init(&is_held, 0, 0) == 0 && sem_init(&go_on, 0, 0) == 0);
	while_another(opens, each_function_is_busy);
	CHECK(pidtab_getpid(&table, 1) == 1 && pidtab_open(&table, 32768) == PIDTAB_BUSY);
	while_another(asks_lines, each_function_is_busy);
	while_another(forks_on, each_function_is_busy);
	while_another(tells_an_end, each_function_is_busy);
	while_another(lists, each_call_is_busy);
	int64_t tasks = pidtab_count(&table, 0);
	CHECK(tasks > 1 && pidtab_fork(&table, 1, false, NULL) > 1 && pidtab_count(&table, 0) == tasks + 1);
	while_another(dumps, each_call_is_busy);
	while_another(closes, each_function_is_busy);
	while_another(loads, each_function_is_busy);
	CHECK(pidtab_fork(&table, 1, false, NULL) > 1 && pidtab_count(&table, 0) == tasks + 2);
	while_another(closes, each_function_is_busy);
	CHECK(pidtab_getpid(&table, 1) == -PIDTAB_CLOSED && table.at == NULL && !table.is_open && !table.in_use);
}

/* A call that a replay may make at any time, with its reply. */
static void save_a_call(void)
{
	const struct pidtab_call call = { .operation = PIDTAB_GETPID, .caller = 1 };
	struct pidtab_reply reply;
	uint64_t ordinal;
	size_t count;

	CHECK(pidtab_call_by(&kept, 0, &call, &reply, &ordinal) == PIDTAB_DONE && reply.first == 1);
	CHECK(pidtab_read(&kept, ordinal, &saved, 1, &count) == PIDTAB_DONE && count == 1);
}

static void in_the_middle_of_each_of_a_history(void)
{
	void *(*const queries[])(void *) = { lists_kept, lists_opening, dumps_kept };
	void *(*const others[])(void *) = { calls, tells_a_recorded_end, writes_lines, replays, cuts, cuts_at, closes_kept, loads_kept, closes_kept };

	while_another(opens_kept, each_function_of_a_history_is_busy);
	save_a_call();
	for (size_t i = 0; i < sizeof queries / sizeof queries[0]; i++)
		while_another(queries[i], each_call_of_a_history_is_busy);
	for (size_t i = 0; i < sizeof others / sizeof others[0]; i++)
		while_another(others[i], each_function_of_a_history_is_busy);
	CHECK(kept.at == NULL && !kept.is_open && !kept.in_use);
}

#define THREADS 8
#define EACH 2000

static int given[THREADS * EACH + 2];
static atomic_int made, busy;

static void *forks(void *unused)
{
	for (int i = 0; i < EACH; i++) {
		int64_t child = pidtab_fork(&table, 1, false, NULL);
		CHECK(child == -PIDTAB_BUSY || (child > 1 && child < THREADS * EACH + 2));
		if (child > 0)
			given[child]++;
		atomic_fetch_add(child > 0 ? &made : &busy, 1);
	}
	return unused;
}

static void eight_at_once(void)
{
	pthread_t workers[THREADS];

	CHECK(pidtab_open(&table, 32768) == PIDTAB_DONE);
	for (int i = 0; i < THREADS; i++)
		CHECK(pthread_create(&workers[i], NULL, forks, NULL) == 0);
	for (int i = 0; i < THREADS; i++)
		CHECK(pthread_join(workers[i], NULL) == 0);
	CHECK(made > 0 && made + busy == THREADS * EACH && pidtab_count(&table, 0) == made + 1);
	for (int i = 2; i < THREADS * EACH + 2; i++)
		CHECK(given[i] == (i < made + 2));
	CHECK(pidtab_close(&table) == PIDTAB_DONE);
}

int main(void)
{
	in_the_middle_of_each();
	in_the_middle_of_each_of_a_history();
	eight_at_once();
	return 0;
}

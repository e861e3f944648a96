/* Tests of foretold replies: a call answers as it was told, nothing changes before, and a fork is made as it was told or not at all. */
#include "test.h"
#include "test_heap.h"

#define CALLS 20000
#define WORKERS 4
#define FORKS 500

static char texts[2][1 << 20];

/* The root control group, and the last ones that were made. */
static uint64_t controls[5];

/* Each operation with small numbers: many are refused, and none is out of range. Forks come twice as often. */
static struct pidtab_call random_call(void)
{
	uint32_t operation = random_below(PIDTAB_SUBREAPER + 2);

	return (struct pidtab_call){ .operation = operation > PIDTAB_SUBREAPER ? PIDTAB_FORK : operation, .caller = random_below(24), .id = controls[random_below(5)],
		.number = random_below(12), .choice = random_below(2), .pid = (int32_t)random_below(9) - 1, .pgid = (int32_t)random_below(9) - 1 };
}

static size_t text_of(struct pidtab *table, char *room)
{
	size_t size = 0;

	CHECK(pidtab_dump(table, room, sizeof texts[0], &size) == PIDTAB_DONE);
	return size;
}

/* The next call of each kind has the reply that was told, and telling it changed nothing: the text is the same up to the digest. */
static void calls_answer_as_told(void)
{
	struct pidtab table = PIDTAB_INIT;
	int kinds[PIDTAB_REFUSED + 1] = { 0 }, asked[PIDTAB_SUBREAPER + 1][2] = { { 0 } };

	CHECK(pidtab_open(&table, 301) == PIDTAB_DONE);
	for (int i = 0; i < CALLS; i++) {
		struct pidtab_call call = random_call();
		struct pidtab_reply told, again, reply;
		bool is_looked_at = i % 200 == 0;
		size_t size = is_looked_at ? text_of(&table, texts[0]) : 0;

		memset(&told, 0x55, sizeof told);
		memset(&again, 0xaa, sizeof again);
		memset(&reply, 0x33, sizeof reply);
		CHECK(pidtab_would(&table, &call, &told) == PIDTAB_DONE && pidtab_would(&table, &call, &again) == PIDTAB_DONE);
		CHECK(!is_looked_at || (text_of(&table, texts[1]) == size && memcmp(texts[0], texts[1], size) == 0));
		CHECK(pidtab_call(&table, &call, &reply) == PIDTAB_DONE);
		CHECK(told.kind == reply.kind && told.error == reply.error && told.refusal == reply.refusal && told.count == reply.count);
		CHECK(told.first == reply.first && told.second == reply.second && is_same_reply(&told, &again));
		CHECK(memcmp(told.levels, reply.levels, reply.count * sizeof reply.levels[0]) == 0);
		if (reply.kind == PIDTAB_CONTROL)
			controls[1 + random_below(4)] = reply.first;
		kinds[reply.kind]++;
		asked[call.operation][reply.kind == PIDTAB_REFUSED]++;
	}
	for (int kind = 0; kind <= PIDTAB_REFUSED; kind++)
		CHECK(kinds[kind] > 0);
	for (int operation = 0; operation <= PIDTAB_SUBREAPER; operation++)
		CHECK(asked[operation][0] > 0 && asked[operation][1] > 0);
	pidtab_close(&table);
}

static struct pidtab_reply blank(void)
{
	struct pidtab_reply reply;

	memset(&reply, 0x55, sizeof reply);
	return reply;
}

/* What a function that tells no reply leaves. */
static void is_untold(const struct pidtab_reply *reply)
{
	struct pidtab_reply was = blank();

	CHECK(is_same_reply(reply, &was));
}

static const struct pidtab_call fork_1 = { .operation = PIDTAB_FORK, .caller = 1 };
static const struct pidtab_call bad[] = { { .operation = 19, .caller = 1 }, { .operation = PIDTAB_FORK, .caller = 1, .choice = 2 },
	{ .operation = PIDTAB_EXIT, .caller = 1, .number = 256 }, { .operation = PIDTAB_WAIT, .caller = 1, .choice = 4 } };

static void would_is(const struct pidtab *table, const struct pidtab_call *call, uint32_t status)
{
	struct pidtab_reply reply = blank();

	CHECK(pidtab_would(table, call, &reply) == status);
	is_untold(&reply);
}

static void fork_is(struct pidtab *table, uint32_t new_space, uint32_t status)
{
	struct pidtab_reply reply = blank();

	CHECK(pidtab_fork_at(table, 1, new_space, 2, 2, &reply) == status);
	is_untold(&reply);
}

static void each_status_of_a_table(void)
{
	struct pidtab table = PIDTAB_INIT;
	struct pidtab_reply reply = blank();

	would_is(&table, &fork_1, PIDTAB_CLOSED);
	would_is(&table, &bad[0], PIDTAB_CLOSED);
	fork_is(&table, 0, PIDTAB_CLOSED);
	fork_is(&table, 2, PIDTAB_CLOSED);
	CHECK(pidtab_open(&table, 32768) == PIDTAB_DONE);
	for (size_t i = 0; i < sizeof bad / sizeof bad[0]; i++)
		would_is(&table, &bad[i], PIDTAB_OUT_OF_RANGE);
	fork_is(&table, 2, PIDTAB_OUT_OF_RANGE);
	fork_is(&table, UINT32_MAX, PIDTAB_OUT_OF_RANGE);
	table.in_use = UINT8_MAX;
	would_is(&table, &fork_1, PIDTAB_BUSY);
	fork_is(&table, 0, PIDTAB_BUSY);
	/* Others may ask beside a question, and no fork is made beside one. */
	table.in_use = 1;
	CHECK(pidtab_would(&table, &fork_1, &reply) == PIDTAB_DONE && reply.kind == PIDTAB_FORKED && reply.first == 2 && reply.second == 2);
	fork_is(&table, 0, PIDTAB_BUSY);
	table.in_use = 0;
	/* A refusal is a reply: there is no caller 7. */
	reply = blank();
	CHECK(pidtab_fork_at(&table, 7, 0, 2, 2, &reply) == PIDTAB_DIFFERS && reply.kind == PIDTAB_REFUSED && reply.refusal == PIDTAB_NO_CALLER);
	/* The root number alone, or the other one alone, is not enough: in a new namespace 2 sees its child as 2, the root as 3. */
	CHECK(pidtab_fork(&table, 1, 1, NULL) == 2);
	CHECK(pidtab_fork_at(&table, 2, 0, 3, 3, &reply) == PIDTAB_DIFFERS && reply.first == 2 && reply.second == 3);
	CHECK(pidtab_fork_at(&table, 2, 0, 2, 2, &reply) == PIDTAB_DIFFERS && reply.first == 2 && reply.second == 3);
	CHECK(pidtab_getppid(&table, 3) == -3);
	CHECK(pidtab_fork_at(&table, 2, 0, 2, 3, &reply) == PIDTAB_DONE && reply.kind == PIDTAB_FORKED && reply.first == 2 && reply.second == 3);
	CHECK(pidtab_getppid(&table, 3) == 1 && pidtab_getpid(&table, 3) == 2);
	/* Into a new namespace, where the child is 1 itself. */
	CHECK(pidtab_fork_at(&table, 1, 1, 4, 4, &reply) == PIDTAB_DONE && pidtab_getpid(&table, 4) == 1);
	pidtab_close(&table);
}

/* Each allocation of a fork finds no memory in turn. Then all is as it was, and the fork is made with the same numbers. */
static void want_of_memory(void)
{
	struct pidtab table = PIDTAB_INIT;
	struct pidtab_reply reply;
	int refused = 0;

	CHECK(pidtab_open(&table, 32768) == PIDTAB_DONE);
	for (uint32_t n = 2; n < 300; n++)
		for (int at = 1;; at++) {
			uint32_t status;

			reply = blank();
			refuse_at = at;
			status = pidtab_fork_at(&table, 1, n % 2, n, n, &reply);
			refuse_at = 0;
			if (status == PIDTAB_DONE)
				break;
			CHECK(status == PIDTAB_NO_MEMORY);
			is_untold(&reply);
			refused++;
			/* What is foretold needs no memory. */
			refuse_at = 1;
			CHECK(pidtab_would(&table, &(struct pidtab_call){ .operation = PIDTAB_FORK, .caller = 1, .choice = n % 2 }, &reply) == PIDTAB_DONE);
			CHECK(refuse_at == 1 && reply.first == n && reply.second == n);
			refuse_at = 0;
		}
	CHECK(refused > 20);
	pidtab_close(&table);
}

static struct pidtab opened(uint64_t first_stamp)
{
	struct pidtab kept = PIDTAB_INIT;

	CHECK(open_history(&kept, 32768, first_stamp, 2) == PIDTAB_DONE);
	return kept;
}

static void recorded_is(struct pidtab *kept, uint64_t wanted)
{
	uint64_t first_kept, recorded;

	CHECK(pidtab_counts(kept, &first_kept, &recorded) == PIDTAB_DONE && first_kept == 0 && recorded == wanted);
}

static void record_fork_is(struct pidtab *kept, uint32_t worker, uint32_t new_space, uint32_t status)
{
	struct pidtab_reply reply = blank();
	uint64_t ordinal = 77;

	CHECK(pidtab_fork_at_by(kept, worker, 1, new_space, 2, 2, &reply, &ordinal) == status && ordinal == 77);
	is_untold(&reply);
}

static void each_status_of_a_record(void)
{
	struct pidtab kept = PIDTAB_INIT;
	struct pidtab_reply reply = blank();
	struct pidtab_call call;
	uint64_t ordinal = 77, worker;

	CHECK(pidtab_would(&kept, &fork_1, &reply) == PIDTAB_CLOSED);
	record_fork_is(&kept, 0, 0, PIDTAB_CLOSED);
	kept = opened(1);
	CHECK(pidtab_would(&kept, &bad[0], &reply) == PIDTAB_OUT_OF_RANGE);
	is_untold(&reply);
	record_fork_is(&kept, 0, 2, PIDTAB_OUT_OF_RANGE);
	record_fork_is(&kept, 2, 0, PIDTAB_OUT_OF_RANGE);
	CHECK(pidtab_would(&kept, &fork_1, &reply) == PIDTAB_DONE && reply.kind == PIDTAB_FORKED && reply.first == 2 && reply.second == 2);
	recorded_is(&kept, 0);
	CHECK(pidtab_fork_at_by(&kept, 1, 1, 0, 3, 2, &reply, &ordinal) == PIDTAB_DIFFERS && ordinal == 77 && reply.first == 2);
	recorded_is(&kept, 0);
	CHECK(pidtab_fork_at_by(&kept, 1, 1, 0, 2, 2, &reply, &ordinal) == PIDTAB_DONE && ordinal == 0 && reply.first == 2 && reply.second == 2);
	recorded_is(&kept, 1);
	CHECK(pidtab_entry(&kept, 0, &worker, &call, &reply) == PIDTAB_DONE && worker == 1 && call.operation == PIDTAB_FORK && reply.first == 2);
	pidtab_close(&kept);
	/* One stamp is left: a refused fork takes none, and what is told takes none. */
	kept = opened(UINT64_MAX - 1);
	CHECK(pidtab_fork_at_by(&kept, 0, 1, 0, 9, 9, &reply, &ordinal) == PIDTAB_DIFFERS);
	CHECK(pidtab_fork_at_by(&kept, 0, 1, 0, 2, 2, &reply, &ordinal) == PIDTAB_DONE);
	reply = blank();
	CHECK(pidtab_would(&kept, &fork_1, &reply) == PIDTAB_SPENT);
	is_untold(&reply);
	record_fork_is(&kept, 0, 0, PIDTAB_SPENT);
	record_fork_is(&kept, 2, 0, PIDTAB_OUT_OF_RANGE);
	recorded_is(&kept, 1);
	pidtab_close(&kept);
}

static struct pidtab shared;

/* Forks by the numbers that were told. Where another thread was faster, they are told again. */
static void *forks_as_told(void *unused)
{
	uint32_t worker;
	uint64_t ordinal;

	CHECK(unused == NULL && pidtab_seat(&shared, &worker) == PIDTAB_DONE);
	for (int made = 0; made < FORKS;) {
		struct pidtab_reply told, reply;
		uint32_t status;

		CHECK(pidtab_would(&shared, &fork_1, &told) == PIDTAB_DONE && told.kind == PIDTAB_FORKED);
		status = pidtab_fork_at_by(&shared, worker, 1, 0, (uint32_t)told.first, (uint32_t)told.second, &reply, &ordinal);
		CHECK(status == PIDTAB_DONE ? is_same_reply(&told, &reply) : status == PIDTAB_DIFFERS && reply.first > told.first);
		made += status == PIDTAB_DONE;
	}
	return NULL;
}

/* All forks have numbers of their own, and no call except those was recorded. */
static void threads_fork_as_told(void)
{
	pthread_t threads[WORKERS];
	uint64_t first_kept, recorded;

	CHECK(open_threads(&shared, 32768, 1, WORKERS, 10) == PIDTAB_DONE);
	for (int i = 0; i < WORKERS; i++)
		CHECK(pthread_create(&threads[i], NULL, forks_as_told, NULL) == 0);
	for (int i = 0; i < WORKERS; i++)
		CHECK(pthread_join(threads[i], NULL) == 0);
	CHECK(pidtab_counts(&shared, &first_kept, &recorded) == PIDTAB_DONE);
	CHECK(recorded == WORKERS * FORKS && first_kept == recorded - 10);
	pidtab_close(&shared);
}

int main(void)
{
	calls_answer_as_told();
	each_status_of_a_table();
	want_of_memory();
	each_status_of_a_record();
	threads_fork_as_told();
	return 0;
}

/* Tests of the library from C: each function once, want of memory at each allocation in turn, threads under a lock, and the sentences of
 * statuses. */
#include "test.h"
#include "test_heap.h"

#include <errno.h>

/* The header against the archive, as far as a compiler can see it. */
_Static_assert(sizeof(struct pidtab) == 32 && offsetof(struct pidtab, at) == 0, "pidtab");
_Static_assert(offsetof(struct pidtab, is_open) == 8 && offsetof(struct pidtab, in_use) == 9 && offsetof(struct pidtab, threads) == 24, "pidtab");
_Static_assert(offsetof(struct pidtab_settings, pid_max) == 0 && offsetof(struct pidtab_settings, workers) == 4, "pidtab_settings");
_Static_assert(offsetof(struct pidtab_settings, first_stamp) == 8 && offsetof(struct pidtab_settings, keep) == 16, "pidtab_settings");
_Static_assert(sizeof(struct pidtab_call) == 32, "pidtab_call");
_Static_assert(offsetof(struct pidtab_call, id) == 8 && offsetof(struct pidtab_call, pgid) == 28, "pidtab_call");
_Static_assert(sizeof(struct pidtab_reply) == 168, "pidtab_reply");
_Static_assert(offsetof(struct pidtab_reply, first) == 16 && offsetof(struct pidtab_reply, levels) == 32, "pidtab_reply");
_Static_assert(sizeof(struct pidtab_task) == 192, "pidtab_task");
_Static_assert(offsetof(struct pidtab_task, space) == 40 && offsetof(struct pidtab_task, root) == 56, "pidtab_task");
_Static_assert(sizeof(struct pidtab_effect) == 16 && offsetof(struct pidtab_effect, value) == 8, "pidtab_effect");
_Static_assert(PIDTAB_CLOSED == EBADF && PIDTAB_NO_MEMORY == ENOMEM && PIDTAB_BUSY == EBUSY && PIDTAB_OUT_OF_RANGE == EINVAL, "status");
_Static_assert(PIDTAB_NO_ROOM == ERANGE && PIDTAB_EMPTY_LINE == ENODATA && PIDTAB_BAD_LINE == EPROTO && PIDTAB_SPENT == EOVERFLOW, "status");
_Static_assert(PIDTAB_SUBREAPER == 18 && PIDTAB_REFUSED == 9, "operations and kinds");

/* The list, to be freed. */
static char *listed(struct pidtab *table)
{
	size_t size = 0;
	char none[1];
	CHECK(pidtab_list(table, none, 0, &size) == PIDTAB_NO_ROOM);
	char *text = malloc(size + 1);
	CHECK(pidtab_list(table, text, size, &size) == PIDTAB_DONE);
	text[size] = 0;
	return text;
}

static void each_function(void)
{
	struct pidtab table = PIDTAB_INIT;
	char room[PIDTAB_LONGEST_ANSWER];
	char answer[PIDTAB_LONGEST_ANSWER + 1];
	size_t size = 7;

	CHECK(pidtab_version() == PIDTAB_VERSION);
	CHECK(ask(&table, "getpid 1", answer) == PIDTAB_CLOSED);
	CHECK(pidtab_list(&table, room, sizeof room, &size) == PIDTAB_CLOSED && size == 7);
	CHECK(pidtab_getpid(&table, 1) == -PIDTAB_CLOSED);
	CHECK(pidtab_open(&table, 300) == PIDTAB_OUT_OF_RANGE && pidtab_open(&table, 4194305) == PIDTAB_OUT_OF_RANGE);
	CHECK(pidtab_open(&table, 32768) == PIDTAB_DONE && pidtab_open(&table, 32768) == PIDTAB_BUSY);

	CHECK(answers(&table, "fork 1 new", "child 2 root 2"));
	CHECK(answers(&table, "fork 2", "child 2 root 3"));
	CHECK(answers(&table, "nspid 1 3", "3 2"));
	CHECK(answers(&table, "getpid 9", "ESRCH no-caller"));
	CHECK(ask(&table, "", answer) == PIDTAB_EMPTY_LINE);
	CHECK(ask(&table, "getpid 1\n", answer) == PIDTAB_BAD_LINE && ask(&table, "getpid 01", answer) == PIDTAB_BAD_LINE);
	CHECK(pidtab_line(&table, "getpid 1", 8, room, sizeof room - 1, &size) == PIDTAB_NO_ROOM);
	CHECK(size == PIDTAB_LONGEST_ANSWER);

	char *text = listed(&table);
	CHECK(strncmp(text, "task 1 space 0 parent 0 ", 24) == 0 && text[strlen(text) - 1] == '\n');
	free(text);
	CHECK(pidtab_close(&table) == PIDTAB_DONE && table.at == NULL && !table.is_open && !table.in_use);
	CHECK(pidtab_close(&table) == PIDTAB_DONE);
	CHECK(ask(&table, "getpid 1", answer) == PIDTAB_CLOSED);
}

/* What each call answers is in interface/cases. A call that is not made leaves the reply, and a read that is not made the task. */
static void what_is_no_call(void)
{
	struct pidtab table = PIDTAB_INIT;
	struct pidtab_call bad = { 99, 1, 0, 0, 0, 0, 0 };
	struct pidtab_reply reply = { .kind = 77 };
	struct pidtab_task task = { .count = 77 };

	CHECK(pidtab_stat(&table, 1, 0, &task) == PIDTAB_CLOSED && task.count == 77);
	CHECK(pidtab_open(&table, 32768) == PIDTAB_DONE);
	CHECK(pidtab_call(&table, &bad, &reply) == PIDTAB_OUT_OF_RANGE && reply.kind == 77);
	CHECK(pidtab_ask(&table, &bad, &reply) == PIDTAB_OUT_OF_RANGE && reply.kind == 77);
	CHECK(pidtab_fork(&table, 1, false, NULL) == 2 && pidtab_exit(&table, 2, 7) == 0);
	CHECK(pidtab_wait(&table, 1, PIDTAB_ANY, 0, NULL) == 2 && pidtab_wait(&table, 1, PIDTAB_CHILD, 5, NULL) == -ECHILD);
	pidtab_close(&table);
}

/* Of which numbers there is no answer. A room that is too short stays as it is. */
static void replies_as_lines(void)
{
	static const struct pidtab_reply none[] = {
		{ .kind = 10 }, { .kind = PIDTAB_REFUSED }, { .kind = PIDTAB_REFUSED, .refusal = 20 }, { .kind = PIDTAB_LEVELS, .count = PIDTAB_LEVELS_MAX + 1 },
		{ .kind = PIDTAB_FORKED, .first = (uint64_t)1 << 32 }, { .kind = PIDTAB_FORKED, .second = (uint64_t)1 << 32 },
		{ .kind = PIDTAB_NUMBER, .first = (uint64_t)1 << 32 }, { .kind = PIDTAB_REAPED, .first = 2, .second = PIDTAB_KILLED + 1 },
	};
	struct pidtab_reply reply = { .kind = PIDTAB_REAPED, .first = 7, .second = PIDTAB_KILLED, .refusal = 99, .count = 77 };
	char answer[PIDTAB_LONGEST_ANSWER + 1] = "kept";
	size_t size = 77;

	for (size_t i = 0; i < sizeof none / sizeof *none; i++)
		CHECK(pidtab_reply_line(&none[i], answer, sizeof answer, &size) == PIDTAB_OUT_OF_RANGE && size == 77 && strcmp(answer, "kept") == 0);
	CHECK(pidtab_reply_line(&reply, answer, 14, &size) == PIDTAB_NO_ROOM && size == 15 && strcmp(answer, "kept") == 0);
	CHECK(pidtab_reply_line(&reply, answer, 15, &size) == PIDTAB_DONE && size == 15 && memcmp(answer, "reaped 7 killed", 15) == 0);
}

/* What no line has is no call: nothing is cut off a number. */
static void numbers_that_do_not_fit(void)
{
	struct pidtab table = PIDTAB_INIT;
	char answer[PIDTAB_LONGEST_ANSWER + 1];
	uint32_t root, least = 256, many = 300, most = UINT32_MAX;

	CHECK(pidtab_open(&table, 32768) == PIDTAB_DONE && pidtab_fork(&table, 1, true, &root) == 2);
	CHECK(ask(&table, "exit 2 300", answer) == PIDTAB_BAD_LINE && pidtab_exit(&table, root, many) == -EINVAL);
	CHECK(pidtab_exit(&table, root, least) == -EINVAL && pidtab_exit(&table, root, most) == -EINVAL);
	CHECK(pidtab_fork(&table, 1, many, &root) == -EINVAL && root == 2 && pidtab_fork(&table, 1, 2, NULL) == -EINVAL);
	CHECK(pidtab_limit(&table, 0, many, 1) == -EINVAL && pidtab_subreaper(&table, 1, many) == -EINVAL);
	CHECK(pidtab_wait(&table, 1, (enum pidtab_which)300, 0, NULL) == -EINVAL && pidtab_next(&table, 1, (enum pidtab_use)300, 1) == -EINVAL);
	/* None of them was a call: this one is the second. */
	CHECK(answers(&table, "mk 0", "control 2") && pidtab_exit(&table, root, 255) == 0);
	CHECK(ask(&table, "wait 1 any", answer) == PIDTAB_DONE && strcmp(answer, "reaped 2 exit 255") == 0);
	CHECK(pidtab_close(&table) == PIDTAB_DONE);
}

/* Makes the call on the line with each of its allocations refused in turn; then it is made, and answered as on the twin. */
static int refused_in_turn(struct pidtab *table, struct pidtab *twin, const char *line)
{
	char answer[PIDTAB_LONGEST_ANSWER + 1], wanted[PIDTAB_LONGEST_ANSWER + 1];
	char *before = listed(table);
	int at = 0;
	uint32_t status;

	do {
		refuse_at = ++at;
		status = ask(table, line, answer);
		refuse_at = 0;
		if (status == PIDTAB_NO_MEMORY) {
			char *after = listed(table);
			CHECK(strcmp(before, after) == 0);
			free(after);
		}
	} while (status == PIDTAB_NO_MEMORY);
	free(before);
	CHECK(status == PIDTAB_DONE && ask(twin, line, wanted) == PIDTAB_DONE && strcmp(answer, wanted) == 0);
	return at - 1;
}

static void want_of_memory(void)
{
	struct pidtab table = PIDTAB_INIT, twin = PIDTAB_INIT;
	char line[64];
	int refusals = 0, at = 0;
	size_t size;

	do
		refuse_at = ++at;
	while (pidtab_open(&table, 4194304) == PIDTAB_NO_MEMORY && !table.is_open);
	refuse_at = 0;
	CHECK(at > 1 && table.is_open && pidtab_open(&twin, 4194304) == PIDTAB_DONE);
	for (unsigned i = 1; i <= 40; i++) {
		snprintf(line, sizeof line, "fork %u%s", i > 20 ? 1 : i, i % 3 == 1 && i < 30 ? " new" : "");
		refusals += refused_in_turn(&table, &twin, line);
		snprintf(line, sizeof line, "mk 0");
		refusals += refused_in_turn(&table, &twin, line);
		snprintf(line, sizeof line, "setpgid %u 0 0", i + 1);
		refusals += refused_in_turn(&table, &twin, line);
	}
	CHECK(refusals > 40);
	CHECK(refused_in_turn(&table, &twin, "exit 2 0") == 0 && refused_in_turn(&table, &twin, "wait 1 any") == 0);
	char *one = listed(&table), *other = listed(&twin);
	CHECK(strcmp(one, other) == 0);
	refuse_at = 1;
	size = 7;
	CHECK(pidtab_list(&table, one, strlen(one), &size) == PIDTAB_NO_MEMORY && size == 7 && strcmp(one, other) == 0);
	refuse_at = 0;
	free(one);
	free(other);
	pidtab_close(&table);
	pidtab_close(&twin);
}

static struct pidtab shared = PIDTAB_INIT;
static pthread_mutex_t lock = PTHREAD_MUTEX_INITIALIZER;
static int given[2000];

static void *forks(void *unused)
{
	for (int i = 0; i < 200; i++) {
		pthread_mutex_lock(&lock);
		int64_t child = pidtab_fork(&shared, 1, false, NULL);
		CHECK(child > 1 && child < 2000);
		given[child]++;
		pthread_mutex_unlock(&lock);
	}
	return unused;
}

static void threads(void)
{
	pthread_t workers[8];

	CHECK(pidtab_open(&shared, 32768) == PIDTAB_DONE);
	for (int i = 0; i < 8; i++)
		CHECK(pthread_create(&workers[i], NULL, forks, NULL) == 0);
	for (int i = 0; i < 8; i++)
		CHECK(pthread_join(workers[i], NULL) == 0);
	for (int i = 2; i <= 1601; i++)
		CHECK(given[i] == 1);
	CHECK(pidtab_count(&shared, 0) == 1601);
	pidtab_close(&shared);
}

static void no_refusal(void)
{
	CHECK(strcmp(pidtab_word(0), "no-such-refusal") == 0);
	CHECK(strcmp(pidtab_word(99), "no-such-refusal") == 0 && strcmp(pidtab_word(UINT32_MAX), "no-such-refusal") == 0);
}

/* Each status has a sentence of its own, and nothing else has. */
static void each_status(void)
{
	static const uint32_t statuses[] = { PIDTAB_DONE, PIDTAB_CLOSED, PIDTAB_NO_MEMORY, PIDTAB_BUSY, PIDTAB_OUT_OF_RANGE,
		PIDTAB_NO_ROOM, PIDTAB_EMPTY_LINE, PIDTAB_BAD_LINE, PIDTAB_SPENT, PIDTAB_NOT_KEPT, PIDTAB_AGAIN, PIDTAB_NO_HISTORY, PIDTAB_NO_THREADS, PIDTAB_DIFFERS, PIDTAB_BAD_TEXT };
	const unsigned count = sizeof statuses / sizeof statuses[0];
	unsigned known = 0;

	for (uint32_t status = 0; status < 200; status++)
		known += strcmp(pidtab_text(status), "no such status") != 0;
	CHECK(known == count && strcmp(pidtab_text(UINT32_MAX), "no such status") == 0);
	for (unsigned i = 0; i < count; i++)
		for (unsigned j = 0; j <= i; j++)
			CHECK((strcmp(pidtab_text(statuses[i]), pidtab_text(statuses[j])) == 0) == (i == j));
	CHECK(strcmp(pidtab_text(PIDTAB_CLOSED), "the table is not open") == 0);
}

int main(void)
{
	each_function();
	what_is_no_call();
	replies_as_lines();
	numbers_that_do_not_fit();
	want_of_memory();
	threads();
	no_refusal();
	each_status();
	return 0;
}

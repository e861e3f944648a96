/* Tests of a table's settings: what each field may be and what 0 stands for; what needs a history or threads and finds none; seats; tables that are closed
 * twice; and want of memory for the lock, where malloc is the heap that refuses. */
#include "test.h"
#include "pidtab_saved.h"
#include "test_heap.h"

#include <errno.h>
#include <sys/mman.h>
#include <unistd.h>

_Static_assert(PIDTAB_NO_HISTORY == EOPNOTSUPP && PIDTAB_NO_THREADS == ENOLCK, "status");

static const struct pidtab_call getpid_1 = { .operation = PIDTAB_GETPID, .caller = 1 };
static const struct pidtab_call fork_1 = { .operation = PIDTAB_FORK, .caller = 1 };

static bool is_zero(const struct pidtab *table)
{
	return table->at == NULL && !table->is_open && table->in_use == 0 && table->way == 0 && table->workers == 0 && table->seated == 0 && table->keep == 0
		&& table->threads == NULL;
}

static uint32_t open_status(struct pidtab_settings settings)
{
	struct pidtab table = PIDTAB_INIT;
	uint32_t status = pidtab_open_with(&table, &settings);

	CHECK(status == PIDTAB_DONE ? table.is_open : is_zero(&table));
	CHECK(pidtab_close(&table) == PIDTAB_DONE && is_zero(&table));
	return status;
}

/* The text of a table with process 1 alone, as it is opened by the settings. */
static size_t text_of(struct pidtab_settings settings, char *text, size_t room)
{
	struct pidtab table = PIDTAB_INIT;
	size_t size = 0;

	CHECK(pidtab_open_with(&table, &settings) == PIDTAB_DONE && pidtab_dump(&table, text, room, &size) == PIDTAB_DONE);
	CHECK(pidtab_close(&table) == PIDTAB_DONE);
	return size;
}

static void what_0_stands_for(void)
{
	const struct pidtab_settings said = { .pid_max = 32768, .workers = 1, .first_stamp = 1 }, none = { 0 };
	char texts[2][512];
	size_t size = text_of(none, texts[0], sizeof texts[0]);

	CHECK(size == text_of(said, texts[1], sizeof texts[1]) && memcmp(texts[0], texts[1], size) == 0);
	CHECK(strncmp(texts[0], "pidtab table 1 pid-max 32768 stamp 1\n", 37) == 0);
	size = text_of((struct pidtab_settings){ .pid_max = 301, .first_stamp = 7, .keep = 9, .threads = true }, texts[0], sizeof texts[0]);
	CHECK(size > 37 && strncmp(texts[0], "pidtab table 1 pid-max 301 stamp 7\n", 35) == 0);
}

static void out_of_range(void)
{
	for (int threads = 0; threads < 2; threads++) {
		CHECK(open_status((struct pidtab_settings){ .pid_max = 300, .threads = threads }) == PIDTAB_OUT_OF_RANGE);
		CHECK(open_status((struct pidtab_settings){ .pid_max = 4194305, .threads = threads }) == PIDTAB_OUT_OF_RANGE);
		CHECK(open_status((struct pidtab_settings){ .workers = 2, .threads = threads }) == PIDTAB_OUT_OF_RANGE);
		CHECK(open_status((struct pidtab_settings){ .workers = 17, .keep = 1, .threads = threads }) == PIDTAB_OUT_OF_RANGE);
		CHECK(open_status((struct pidtab_settings){ .workers = 1, .threads = threads }) == PIDTAB_DONE);
		CHECK(open_status((struct pidtab_settings){ .pid_max = 301, .workers = 16, .keep = 1, .threads = threads }) == PIDTAB_DONE);
		CHECK(open_status((struct pidtab_settings){ .pid_max = 4194304, .first_stamp = UINT64_MAX, .keep = PIDTAB_KEEP_ALL, .threads = threads }) == PIDTAB_DONE);
	}
	CHECK(pidtab_open(&(struct pidtab)PIDTAB_INIT, 0) == PIDTAB_OUT_OF_RANGE);
}

/* Each function that needs a history, on a table without one: nothing is told. */
static void no_history(bool threads)
{
	struct pidtab table = PIDTAB_INIT, replica = PIDTAB_INIT;
	struct pidtab_saved_head head = { 32768, 1, 1 };
	struct pidtab_entry entry = { .worker = 77 };
	struct pidtab_reply reply = { .kind = 77 };
	struct pidtab_call call = getpid_1;
	struct pidtab_saved saved;
	char room[64] = "kept";
	uint64_t one = 77, other = 77;
	size_t size = 77;

	CHECK(pidtab_open_with(&table, &(struct pidtab_settings){ .threads = threads }) == PIDTAB_DONE && pidtab_open(&replica, 32768) == PIDTAB_DONE);
	CHECK(pidtab_counts(&table, &one, &other) == PIDTAB_NO_HISTORY && pidtab_worker(&table, 0, &one) == PIDTAB_NO_HISTORY);
	CHECK(pidtab_entry(&table, 0, &one, &call, &reply) == PIDTAB_NO_HISTORY && pidtab_read(&table, 0, &entry, 1, &size) == PIDTAB_NO_HISTORY);
	CHECK(pidtab_replay(&table, &entry, 1, &size) == PIDTAB_NO_HISTORY && pidtab_keep(&table, 0) == PIDTAB_NO_HISTORY);
	CHECK(pidtab_checkpoint(&table) == PIDTAB_NO_HISTORY && pidtab_checkpoint_at(&table, 0) == PIDTAB_NO_HISTORY);
	CHECK(pidtab_opening(&table, room, sizeof room, &size) == PIDTAB_NO_HISTORY && pidtab_follow(&table, &replica, &one) == PIDTAB_NO_HISTORY);
	CHECK(one == 77 && other == 77 && size == 77 && entry.worker == 77 && reply.kind == 77 && strcmp(room, "kept") == 0);
	CHECK(pidtab_calls(&table, 0, &call, 1, &reply, 1, &size, &one) == PIDTAB_NO_HISTORY && size == 0 && one == 77 && reply.kind == 77);
	CHECK(pidtab_await(&table, 0, NULL, &one) == (threads ? PIDTAB_NO_HISTORY : PIDTAB_NO_THREADS) && one == 77);
	CHECK(pidtab_saved_begin(&saved, memfd_create("history", 0), &head) == PIDTAB_DONE && pidtab_saved_append(&saved, &table) == PIDTAB_NO_HISTORY);
	CHECK(pidtab_saved_serve(&saved, &table, 0, false) == (threads ? PIDTAB_NO_HISTORY : PIDTAB_NO_THREADS));
	CHECK(pidtab_saved_wait(&table, 0) == (threads ? PIDTAB_NO_HISTORY : PIDTAB_NO_THREADS) && close(saved.file) == 0);
	CHECK(pidtab_close(&table) == PIDTAB_DONE && pidtab_close(&replica) == PIDTAB_DONE);
}

/* Neither a load nor a resume makes a table without a history; the file and the table stay as they are. */
static void no_history_of_a_file(void)
{
	const struct pidtab_settings none = { .threads = true };
	struct pidtab table = PIDTAB_INIT;
	struct pidtab_saved saved;
	int file = memfd_create("history", 0);

	CHECK(pidtab_saved_load(&saved, file, &table, &none) == PIDTAB_NO_HISTORY && pidtab_saved_resume(&saved, file, &table, &none) == PIDTAB_NO_HISTORY);
	CHECK(is_zero(&table) && lseek(file, 0, SEEK_END) == 0 && pidtab_saved_append(&saved, &table) == PIDTAB_DEVICE && saved.error == EBADF);
	CHECK(close(file) == 0);
}

/* What a table without a history has all the same: calls of worker 0, which have no ordinal. */
static void worker_0_alone(bool threads)
{
	struct pidtab table = PIDTAB_INIT;
	struct pidtab_reply reply = { .kind = 77 };
	struct pidtab_effect effects[8];
	char answer[PIDTAB_LONGEST_ANSWER];
	uint64_t ordinal = 77, count, number;
	uint32_t seat = 77;
	size_t size;

	CHECK(pidtab_open_with(&table, &(struct pidtab_settings){ .threads = threads }) == PIDTAB_DONE);
	CHECK(pidtab_call_by(&table, 1, &getpid_1, &reply, &ordinal) == PIDTAB_OUT_OF_RANGE && reply.kind == 77);
	CHECK(pidtab_call_by(&table, 0, &fork_1, &reply, &ordinal) == PIDTAB_DONE && reply.first == 2);
	CHECK(pidtab_line_by(&table, 0, "fork 1", 6, answer, sizeof answer, &size, &ordinal) == PIDTAB_DONE && strncmp(answer, "child 3 root 3", size) == 0);
	CHECK(pidtab_fork_at_by(&table, 0, 1, 0, 4, 4, &reply, &ordinal) == PIDTAB_DONE && reply.second == 4);
	CHECK(pidtab_call_told_by(&table, 0, &fork_1, &reply, &ordinal, effects, 8, &count) == PIDTAB_DONE && count == 0 && ordinal == 77);
	CHECK(pidtab_getpid_of(&table, 5, &number) == PIDTAB_DONE && number == 5 && pidtab_count(&table, 0) == 5);
	CHECK(pidtab_seat(&table, &seat) == PIDTAB_DONE && seat == 0 && pidtab_seat(&table, &seat) == PIDTAB_OUT_OF_RANGE && seat == 0);
	CHECK(pidtab_close(&table) == PIDTAB_DONE && is_zero(&table));
}

/* What needs a lock, of a table that has none: before it is open, while it is, and after that. */
static void has_no_threads(struct pidtab *table, uint32_t status)
{
	struct pidtab_saved saved;
	uint64_t recorded = 77;

	CHECK(pidtab_lock(table) == NULL);
	CHECK(pidtab_await(table, 0, NULL, &recorded) == status && recorded == 77 && pidtab_end(table) == status);
	CHECK(pidtab_saved_serve(&saved, table, 0, false) == status && pidtab_saved_wait(table, 0) == status);
	CHECK(pidtab_saved_bound(table, 1) == status && pidtab_saved_end(table) == status);
}

static void no_threads(void)
{
	struct pidtab table = PIDTAB_INIT;

	has_no_threads(&table, PIDTAB_CLOSED);
	CHECK(open_history(&table, 32768, 1, 1) == PIDTAB_DONE);
	has_no_threads(&table, PIDTAB_NO_THREADS);
	CHECK(pidtab_close(&table) == PIDTAB_DONE && pidtab_close(&table) == PIDTAB_DONE);
	has_no_threads(&table, PIDTAB_CLOSED);
	CHECK(open_threads(&table, 32768, 1, 1, 7) == PIDTAB_DONE && pidtab_lock(&table) != NULL);
	pidtab_unlock(&table);
	CHECK(pidtab_close(&table) == PIDTAB_DONE && pidtab_close(&table) == PIDTAB_DONE && is_zero(&table));
	has_no_threads(&table, PIDTAB_CLOSED);
}

/* Each worker has a seat, once; a table that is opened anew has them again. */
static void seats(bool threads)
{
	struct pidtab table = PIDTAB_INIT;
	uint32_t seat = 77;

	CHECK(pidtab_seat(&table, &seat) == PIDTAB_CLOSED && seat == 77);
	for (int time = 0; time < 2; time++) {
		CHECK(pidtab_open_with(&table, &(struct pidtab_settings){ .workers = 16, .keep = 1, .threads = threads }) == PIDTAB_DONE);
		for (uint32_t i = 0; i < 16; i++)
			CHECK(pidtab_seat(&table, &seat) == PIDTAB_DONE && seat == i);
		CHECK(pidtab_seat(&table, &seat) == PIDTAB_OUT_OF_RANGE && seat == 15);
		CHECK(pidtab_close(&table) == PIDTAB_DONE);
	}
	CHECK(pidtab_seat(&table, &seat) == PIDTAB_CLOSED && seat == 15);
}

/* A table that is open stays as it is, whatever else is to be opened, and each function finds it so. */
static void open_already(bool threads)
{
	struct pidtab table = PIDTAB_INIT;
	struct pidtab_fault fault;
	uint64_t first_kept, recorded, ordinal;
	struct pidtab_reply reply;

	CHECK(pidtab_open_with(&table, &(struct pidtab_settings){ .workers = 2, .keep = 3, .threads = threads }) == PIDTAB_DONE);
	CHECK(pidtab_call_by(&table, 1, &fork_1, &reply, &ordinal) == PIDTAB_DONE && ordinal == 0);
	for (int other = 0; other < 2; other++) {
		CHECK(pidtab_open_with(&table, &(struct pidtab_settings){ .workers = 17, .threads = other }) == PIDTAB_BUSY);
		CHECK(pidtab_load_with(&table, "?", 1, &(struct pidtab_settings){ .workers = 17, .threads = other }, &ordinal, &fault) == PIDTAB_BUSY && fault.kind == 0);
	}
	CHECK(pidtab_open(&table, 32768) == PIDTAB_BUSY && pidtab_load(&table, "?", 1, &fault) == PIDTAB_BUSY);
	CHECK(pidtab_counts(&table, &first_kept, &recorded) == PIDTAB_DONE && first_kept == 0 && recorded == 1);
	for (uint64_t i = 1; i < 9; i++)
		CHECK(pidtab_call(&table, &fork_1, &reply) == PIDTAB_DONE && pidtab_counts(&table, &first_kept, &recorded) == PIDTAB_DONE && recorded == i + 1);
	CHECK(first_kept == 6 && pidtab_close(&table) == PIDTAB_DONE && is_zero(&table));
}

static void counts_are(const struct pidtab *table, uint64_t first_kept, uint64_t recorded)
{
	uint64_t first = 77, all = 77;

	CHECK(pidtab_counts(table, &first, &all) == PIDTAB_DONE && first == first_kept && all == recorded);
}

/* After each function that makes calls there are as many entries as the bound says. */
static void each_call_keeps_the_bound(bool threads)
{
	struct pidtab_call calls[9];
	struct pidtab_reply replies[9];
	struct pidtab_entry saved[9];
	struct pidtab_effect effects[8];
	char answer[PIDTAB_LONGEST_ANSWER];
	struct pidtab table = PIDTAB_INIT;
	uint64_t ordinal, count, number;
	size_t size;

	for (int i = 0; i < 9; i++) {
		calls[i] = getpid_1;
		saved[i] = (struct pidtab_entry){ .call = getpid_1, .reply = { .kind = PIDTAB_NUMBER, .first = 1 } };
	}
	CHECK(pidtab_open_with(&table, &(struct pidtab_settings){ .keep = 4, .threads = threads }) == PIDTAB_DONE);
	CHECK(pidtab_calls(&table, 0, calls, 9, replies, 9, &size, &ordinal) == PIDTAB_DONE && size == 9);
	counts_are(&table, 5, 9);
	CHECK(pidtab_replay(&table, saved, 9, &size) == PIDTAB_DONE && size == 9);
	counts_are(&table, 14, 18);
	CHECK(pidtab_call(&table, &getpid_1, replies) == PIDTAB_DONE && pidtab_call_by(&table, 0, &fork_1, replies, &ordinal) == PIDTAB_DONE && ordinal == 19);
	CHECK(pidtab_line(&table, "getpid 1", 8, answer, sizeof answer, &size) == PIDTAB_DONE);
	CHECK(pidtab_line_by(&table, 0, "getpid 1", 8, answer, sizeof answer, &size, &ordinal) == PIDTAB_DONE && ordinal == 21);
	counts_are(&table, 18, 22);
	CHECK(pidtab_fork_at(&table, 1, 0, 3, 3, replies) == PIDTAB_DONE && pidtab_fork_at_by(&table, 0, 1, 0, 4, 4, replies, &ordinal) == PIDTAB_DONE);
	CHECK(pidtab_call_told(&table, &getpid_1, replies, effects, 8, &count) == PIDTAB_DONE);
	CHECK(pidtab_call_told_by(&table, 0, &getpid_1, replies, &ordinal, effects, 8, &count) == PIDTAB_DONE && ordinal == 25);
	counts_are(&table, 22, 26);
	/* A query that is refused is recorded too. */
	CHECK(pidtab_getpid_of(&table, 1, &number) == PIDTAB_DONE && pidtab_getppid_of(&table, 1, &number) == PIDTAB_DONE);
	CHECK(pidtab_getpgid_of(&table, 99, 0, &number) == ESRCH && pidtab_getsid_of(&table, 1, 0, &number) == PIDTAB_DONE);
	CHECK(pidtab_next_of(&table, 1, PIDTAB_TASKS, 2, &number) == PIDTAB_DONE && pidtab_count_of(&table, 99, &number) == ENOENT);
	counts_are(&table, 28, 32);
	/* What is no call cuts nothing, and what cuts more is not undone. */
	CHECK(pidtab_call(&table, &(struct pidtab_call){ .operation = 99 }, replies) == PIDTAB_OUT_OF_RANGE && pidtab_keep(&table, 3) == PIDTAB_DONE);
	counts_are(&table, 29, 32);
	CHECK(pidtab_checkpoint(&table) == PIDTAB_DONE && pidtab_call(&table, &getpid_1, replies) == PIDTAB_DONE);
	counts_are(&table, 32, 33);
	CHECK(pidtab_close(&table) == PIDTAB_DONE);
}

/* A text goes on by the settings, except for those that it has itself. */
static void loaded_with(bool threads)
{
	const struct pidtab_settings bounded = { .pid_max = 1, .workers = 3, .first_stamp = 99, .keep = 2, .threads = threads }, bare = { .threads = threads };
	const struct pidtab_settings two = { .workers = 2, .threads = threads };
	const uint64_t counts[3] = { 4, 0, 1 };
	struct pidtab table = PIDTAB_INIT, loaded = PIDTAB_INIT;
	struct pidtab_fault fault = { 77, 77 };
	struct pidtab_reply reply;
	uint64_t calls, ordinal = 77;
	uint32_t seat;
	char text[1024];
	size_t size = 0;

	CHECK(pidtab_open_with(&table, &(struct pidtab_settings){ .pid_max = 301, .first_stamp = 9 }) == PIDTAB_DONE && pidtab_fork(&table, 1, 0, NULL) == 2);
	CHECK(pidtab_dump(&table, text, sizeof text, &size) == PIDTAB_DONE && pidtab_close(&table) == PIDTAB_DONE);
	CHECK(pidtab_load_with(&loaded, text, size, &two, counts, &fault) == PIDTAB_OUT_OF_RANGE && fault.kind == 0 && is_zero(&loaded));
	CHECK(pidtab_load_with(&loaded, text, size, &bounded, counts, &fault) == PIDTAB_DONE && fault.kind == 0 && fault.line == 0);
	counts_are(&loaded, 5, 5);
	for (uint32_t i = 0; i < 3; i++)
		CHECK(pidtab_worker(&loaded, i, &calls) == PIDTAB_DONE && calls == counts[i] && pidtab_seat(&loaded, &seat) == PIDTAB_DONE && seat == i);
	for (uint64_t i = 5; i < 9; i++)
		CHECK(pidtab_call_by(&loaded, 2, &getpid_1, &reply, &ordinal) == PIDTAB_DONE && ordinal == i);
	counts_are(&loaded, 7, 9);
	CHECK((pidtab_lock(&loaded) != NULL) == threads);
	if (threads)
		pidtab_unlock(&loaded);
	CHECK(pidtab_close(&loaded) == PIDTAB_DONE && is_zero(&loaded));

	CHECK(pidtab_load_with(&loaded, text, size, &bare, counts, &fault) == PIDTAB_DONE && pidtab_counts(&loaded, &calls, &ordinal) == PIDTAB_NO_HISTORY);
	CHECK(pidtab_getpid(&loaded, 2) == 2 && pidtab_close(&loaded) == PIDTAB_DONE);
	CHECK(pidtab_load_with(&loaded, text, size - 1, &bounded, counts, &fault) == PIDTAB_BAD_TEXT && fault.kind != 0 && is_zero(&loaded));
}

/* Under the lock all functions are called on what it answers, and on that alone. */
static void in_one_go(void)
{
	struct pidtab table = PIDTAB_INIT, *held;
	struct pidtab_reply reply;
	uint64_t first_kept, recorded, ordinal;

	CHECK(open_threads(&table, 32768, 1, 2, 3) == PIDTAB_DONE);
	held = pidtab_lock(&table);
	for (uint64_t i = 0; i < 9; i++)
		CHECK(pidtab_call_by(held, i % 2, &fork_1, &reply, &ordinal) == PIDTAB_DONE && ordinal == i);
	CHECK(pidtab_counts(held, &first_kept, &recorded) == PIDTAB_DONE && first_kept == 6 && recorded == 9);
	CHECK(pidtab_lock(held) == NULL && pidtab_open(held, 32768) == PIDTAB_BUSY && pidtab_getpid(held, 5) == 5);
	pidtab_unlock(&table);
	counts_are(&table, 7, 10);
	CHECK(pidtab_close(&table) == PIDTAB_DONE);
}

/* The lock of a table takes memory too: where there is none, nothing is to be closed, and nothing is left. */
static void want_of_memory(void)
{
	const struct pidtab_settings settings = { .keep = 1, .threads = true };
	struct pidtab table = PIDTAB_INIT;
	int at = 1;

	for (; refuse(at), pidtab_open_with(&table, &settings) == PIDTAB_NO_MEMORY; at++)
		CHECK(is_zero(&table));
	refuse(0);
	CHECK(at > 3 && table.is_open && pidtab_close(&table) == PIDTAB_DONE && is_zero(&table));
}

int main(void)
{
	what_0_stands_for();
	out_of_range();
	no_history_of_a_file();
	no_threads();
	in_one_go();
	want_of_memory();
	for (int threads = 0; threads < 2; threads++) {
		no_history(threads);
		worker_0_alone(threads);
		seats(threads);
		open_already(threads);
		each_call_keeps_the_bound(threads);
		loaded_with(threads);
	}
	return 0;
}

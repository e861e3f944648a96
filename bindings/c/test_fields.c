/* Tests that the proved functions write nothing of the struct that they work on, but those that open, load or close. So a call's mark stays in it. The
 * structs are in memory that is read-only meanwhile, and the proved functions are called without the guards. */
#include "proved.h"

#include "test.h"

#include <signal.h>
#include <sys/mman.h>
#include <sys/wait.h>
#include <unistd.h>

#define ROUNDS 5000
#define SETTINGS "pidtab-log 2 pid_max 4194304 model 1"
#define ENTRY "calls 4 1 2 4 a23d48e1e3a92dc8\nfork 1\ngetpid 2"

struct held {
	struct pidtab table, followed, recorded, replayed;
	struct pidtab_replica replica, late;
};
static struct held *held;

/* The function that is called, and whether each of those of a round was once done. */
static const char *volatile called = "";
static bool is_done[16];
#define TRY(place, call) (called = #call, is_done[place] |= (call) == PIDTAB_DONE)

static void tell(int signal)
{
	(void)signal;
	fprintf(stderr, "bindings/c/test_fields.c: it writes the struct: %s\n", called);
	_exit(1);
}

/* Calls that are refused before they work on anything would test nothing. */
static void each_was_done(int count)
{
	for (int i = 0; i < count; i++)
		CHECK(is_done[i]);
	memset(is_done, 0, sizeof is_done);
}

static void protect(int how)
{
	CHECK(mprotect(held, sizeof *held, how) == 0);
}

/* Process 1 does not end, since nothing could be called after it. */
static struct pidtab_call random_call(void)
{
	struct pidtab_call call = { .operation = random_below(PIDTAB_SUBREAPER + 1), .caller = random_below(12), .id = random_below(6), .number = random_below(12),
		.choice = random_below(4), .pid = (int32_t)random_below(9), .pgid = (int32_t)random_below(9) };

	if (call.operation == PIDTAB_EXIT && call.caller == 1)
		call.caller = 2;
	return call;
}

static const struct pidtab_call a_fork = { .operation = PIDTAB_FORK, .caller = 1 };

static void calls_by(struct pidtab *table, uint32_t worker)
{
	struct pidtab_effect effects[8];
	struct pidtab_reply reply;
	uint64_t number, count, ordinal;

	for (int i = 0; i < ROUNDS; i++) {
		struct pidtab_call call = random_call();
		char line[PIDTAB_LONGEST_CALL], answer[PIDTAB_LONGEST_ANSWER];
		size_t size;

		TRY(0, proved_call_by(table, worker, &call, &reply, &ordinal));
		TRY(1, proved_call_told_by(table, worker, &call, &reply, &ordinal, effects, 8, &count));
		if (pidtab_call_line(&call, line, sizeof line, &size) == PIDTAB_DONE)
			TRY(2, proved_line_by(table, worker, line, size, answer, sizeof answer, &size, &ordinal));
		TRY(3, proved_getpid_of(table, call.caller, &number));
		TRY(4, proved_getppid_of(table, call.caller, &number));
		TRY(5, proved_getpgid_of(table, call.caller, call.number, &number));
		TRY(6, proved_getsid_of(table, call.caller, call.number, &number));
		TRY(7, proved_next_of(table, call.caller, call.choice, call.number, &number));
		TRY(8, proved_count_of(table, call.id, &number));
		TRY(9, proved_call(table, &call, &reply));
		TRY(11, proved_call_keeping(table, worker, &call, 64, &reply, &ordinal));
		CHECK(proved_would(table, &a_fork, &reply) == PIDTAB_DONE);
		TRY(10, proved_fork_at_by(table, worker, 1, false, (uint32_t)reply.first, (uint32_t)reply.second, &reply, &ordinal));
	}
	each_was_done(12);
}

/* A table without a history has worker 0 alone, and no history to tell or to cut. No function of the headers asks for that. */
static void on_table(void)
{
	struct pidtab_call call = { .operation = PIDTAB_GETPID, .caller = 1 };
	struct pidtab_entry entry;
	struct pidtab_reply reply;
	uint64_t first, recorded;
	size_t count;

	calls_by(&held->table, 0);
	CHECK(proved_call_by(&held->table, 1, &call, &reply, &recorded) == PIDTAB_OUT_OF_RANGE);
	CHECK(proved_counts(&held->table, &first, &recorded) == PIDTAB_NO_HISTORY && proved_worker(&held->table, 0, &first) == PIDTAB_NO_HISTORY);
	CHECK(proved_entry(&held->table, 0, &first, &call, &reply) == PIDTAB_NO_HISTORY && proved_read(&held->table, 0, &entry, 1, &count) == PIDTAB_NO_HISTORY);
	CHECK(proved_keep(&held->table, 1) == PIDTAB_NO_HISTORY && proved_checkpoint(&held->table) == PIDTAB_NO_HISTORY);
	CHECK(proved_checkpoint_at(&held->table, 0) == PIDTAB_NO_HISTORY && proved_opening(&held->table, NULL, 0, &count) == PIDTAB_NO_HISTORY);
	CHECK(proved_replay(&held->table, &entry, 1, &count) == PIDTAB_NO_HISTORY && proved_calls(&held->table, 0, &call, 1, &reply, 1, &count, &first) == PIDTAB_NO_HISTORY);
}

static void on_recorded(void)
{
	struct pidtab_call calls[2] = { random_call(), random_call() };
	struct pidtab_reply reply, replies[2];
	uint64_t ordinal;
	size_t made;

	calls_by(&held->recorded, 1);
	CHECK(proved_calls(&held->recorded, 1, calls, 2, replies, 2, &made, &ordinal) == PIDTAB_DONE);
	CHECK(proved_keep(&held->recorded, 5) == PIDTAB_DONE && proved_checkpoint(&held->recorded) == PIDTAB_DONE);
	CHECK(proved_call_by(&held->recorded, 0, &(struct pidtab_call){ .operation = PIDTAB_GETPID, .caller = 1 }, &reply, &ordinal) == PIDTAB_DONE);
	CHECK(proved_checkpoint_at(&held->recorded, ordinal + 1) == PIDTAB_DONE);
}

static void on_replayed(void)
{
	struct pidtab_entry saved = { .worker = 0, .call = { .operation = PIDTAB_GETPID, .caller = 1 }, .reply = { .kind = PIDTAB_NUMBER, .first = 1 } };
	size_t place;

	CHECK(proved_replay(&held->replayed, &saved, 1, &place) == PIDTAB_DONE);
}

static void on_replica(void)
{
	static char text[1 << 16];
	struct pidtab_applied applied;
	size_t size = 0, used = 0;

	CHECK(proved_replica_apply(&held->replica, &held->recorded, 3, SETTINGS, strlen(SETTINGS), &applied) == PIDTAB_OUT_OF_RANGE);
	CHECK(proved_replica_apply(&held->replica, &held->followed, 3, SETTINGS, strlen(SETTINGS), &applied) == PIDTAB_DONE);
	CHECK(proved_replica_apply(&held->replica, &held->followed, 4, "open", 4, &applied) == PIDTAB_DONE);
	CHECK(proved_replica_apply(&held->replica, &held->followed, 6, ENTRY, strlen(ENTRY), &applied) == PIDTAB_DONE);
	CHECK(proved_replica_write(&held->replica, text, sizeof text, &size) == PIDTAB_DONE);
	CHECK(proved_replica_read(&held->late, text, size, &used) == PIDTAB_DONE);
}

/* What closes writes the struct, so here it is stopped: else the memory would be no test. */
static void closing_is_stopped(void)
{
	int status;
	pid_t child = fork();

	if (child == 0) {
		signal(SIGSEGV, SIG_DFL);
		proved_close(&held->recorded);
		_exit(0);
	}
	CHECK(child > 0 && waitpid(child, &status, 0) == child && WIFSIGNALED(status) && WTERMSIG(status) == SIGSEGV);
}

static uint32_t opened(struct pidtab *table, uint32_t pid_max, uint32_t workers, uint64_t first_stamp, uint64_t keep)
{
	const struct pidtab_settings settings = { pid_max, workers, first_stamp, keep, false };

	return proved_open_with(table, &settings);
}

/* A 0 is a default for the functions of the headers alone. */
static void no_defaults(void)
{
	struct pidtab none = PIDTAB_INIT;
	struct pidtab_fault fault = { 7, 7 };

	CHECK(opened(&none, 0, 1, 1, 1) == PIDTAB_OUT_OF_RANGE && opened(&none, 32768, 0, 1, 1) == PIDTAB_OUT_OF_RANGE);
	CHECK(opened(&none, 32768, 1, 0, 1) == PIDTAB_OUT_OF_RANGE && opened(&none, 32768, 0, 1, 0) == PIDTAB_OUT_OF_RANGE);
	CHECK(proved_load_with(&none, "", 0, &(uint64_t){ 0 }, 0, true, &fault) == PIDTAB_OUT_OF_RANGE && fault.line == 0 && fault.kind == 0);
	CHECK(none.at == NULL && !none.is_open);
}

int main(void)
{
	no_defaults();
	held = mmap(NULL, sizeof *held, PROT_READ | PROT_WRITE, MAP_PRIVATE | MAP_ANONYMOUS, -1, 0);
	CHECK(held != MAP_FAILED && opened(&held->table, 32768, 1, 1, 0) == PIDTAB_DONE && opened(&held->followed, 4194304, 1, 1, 0) == PIDTAB_DONE);
	CHECK(opened(&held->recorded, 32768, 2, 1, 1) == PIDTAB_DONE && opened(&held->replayed, 32768, 1, 1, 1) == PIDTAB_DONE);
	CHECK(proved_replica_open(&held->replica, 4194304, 1) == PIDTAB_DONE && proved_replica_open(&held->late, 4194304, 1) == PIDTAB_DONE);
	signal(SIGSEGV, tell);
	protect(PROT_READ);
	on_table();
	on_recorded();
	on_replayed();
	on_replica();
	closing_is_stopped();
	protect(PROT_READ | PROT_WRITE);
	proved_close(&held->table), proved_close(&held->followed);
	proved_close(&held->recorded), proved_close(&held->replayed);
	proved_replica_close(&held->replica), proved_replica_close(&held->late);
	return 0;
}

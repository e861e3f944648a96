/* Tests of a table with a history from C: each status of each function, and want of memory at each allocation in turn. */
#include "test.h"
#include "test_heap.h"

#include <errno.h>

_Static_assert(PIDTAB_NOT_KEPT == ENOENT && PIDTAB_AGAIN == EAGAIN && PIDTAB_DIFFERS == EBADMSG, "status");

static const struct pidtab_call getpid_1 = { .operation = PIDTAB_GETPID, .caller = 1 };
static const struct pidtab_call fork_1 = { .operation = PIDTAB_FORK, .caller = 1 };

static void counts_are(struct pidtab *table, uint64_t first_kept, uint64_t recorded)
{
	uint64_t first = first_kept + 1, all = recorded + 1;
	CHECK(pidtab_counts(table, &first, &all) == PIDTAB_DONE && first == first_kept && all == recorded);
}

/* The list, or that of the opening, with a zero byte after it. */
static const char *listed(struct pidtab *table, bool opening)
{
	static char texts[2][1 << 16];
	size_t size = 0;
	char *text = texts[opening];
	uint32_t status = opening ? pidtab_opening(table, text, sizeof texts[0] - 1, &size)
		: pidtab_list(table, text, sizeof texts[0] - 1, &size);

	CHECK(status == PIDTAB_DONE && size > 24);
	text[size] = 0;
	return text;
}

static void closed(void)
{
	struct pidtab table = PIDTAB_INIT;
	struct pidtab_reply reply = { .kind = 77 };
	struct pidtab_call call = getpid_1;
	struct pidtab_entry entry = { .worker = 77 };
	struct pidtab_task task = { .count = 77 };
	char room[PIDTAB_LONGEST_ANSWER] = "kept";
	uint64_t one = 7, other = 7;
	size_t size = 7;

	CHECK(pidtab_call_by(&table, 0, &call, &reply, &one) == PIDTAB_CLOSED);
	CHECK(pidtab_line_by(&table, 0, "", 0, room, sizeof room, &size, &one) == PIDTAB_CLOSED);
	CHECK(pidtab_ask(&table, &call, &reply) == PIDTAB_CLOSED);
	CHECK(pidtab_stat(&table, 1, 0, &task) == PIDTAB_CLOSED && task.count == 77);
	CHECK(pidtab_counts(&table, &one, &other) == PIDTAB_CLOSED);
	CHECK(pidtab_worker(&table, 0, &one) == PIDTAB_CLOSED);
	CHECK(pidtab_entry(&table, 0, &one, &call, &reply) == PIDTAB_CLOSED);
	CHECK(pidtab_read(&table, 0, &entry, 1, &size) == PIDTAB_CLOSED);
	CHECK(pidtab_replay(&table, &entry, 1, &size) == PIDTAB_CLOSED);
	CHECK(pidtab_checkpoint(&table) == PIDTAB_CLOSED && pidtab_checkpoint_at(&table, 0) == PIDTAB_CLOSED);
	CHECK(pidtab_list(&table, room, sizeof room, &size) == PIDTAB_CLOSED);
	CHECK(pidtab_opening(&table, room, sizeof room, &size) == PIDTAB_CLOSED);
	CHECK(one == 7 && other == 7 && size == 7 && strcmp(room, "kept") == 0 && reply.kind == 77 && entry.worker == 77);
	CHECK(pidtab_close(&table) == PIDTAB_DONE);
}

static void out_of_range(void)
{
	struct pidtab table = PIDTAB_INIT;
	struct pidtab_reply reply = { .kind = 77 };
	struct pidtab_call bad = { .operation = 99, .caller = 1 };
	char room[PIDTAB_LONGEST_ANSWER] = "kept";
	uint64_t one = 7;
	size_t size = 7;

	CHECK(open_history(&table, 300, 1, 1) == PIDTAB_OUT_OF_RANGE && open_history(&table, 4194305, 1, 1) == PIDTAB_OUT_OF_RANGE);
	CHECK(open_history(&table, 32768, 1, PIDTAB_MOST_WORKERS + 1) == PIDTAB_OUT_OF_RANGE && !table.is_open);
	CHECK(open_history(&table, 32768, 1, 2) == PIDTAB_DONE && open_history(&table, 300, 0, 17) == PIDTAB_BUSY);
	CHECK(pidtab_call_by(&table, 2, &getpid_1, &reply, &one) == PIDTAB_OUT_OF_RANGE);
	CHECK(pidtab_call_by(&table, 0, &bad, &reply, &one) == PIDTAB_OUT_OF_RANGE);
	CHECK(pidtab_ask(&table, &bad, &reply) == PIDTAB_OUT_OF_RANGE && pidtab_ask(&table, &fork_1, &reply) == PIDTAB_OUT_OF_RANGE);
	CHECK(pidtab_worker(&table, 2, &one) == PIDTAB_OUT_OF_RANGE);
	CHECK(pidtab_line_by(&table, 2, "", 0, room, 0, &size, &one) == PIDTAB_EMPTY_LINE);
	CHECK(pidtab_line_by(&table, 2, "getpid", 6, room, 0, &size, &one) == PIDTAB_BAD_LINE && size == 7);
	CHECK(pidtab_line_by(&table, 2, "getpid 1", 8, room, sizeof room - 1, &size, &one) == PIDTAB_NO_ROOM && size == PIDTAB_LONGEST_ANSWER);
	CHECK(pidtab_line_by(&table, 2, "getpid 1", 8, room, sizeof room, &size, &one) == PIDTAB_OUT_OF_RANGE);
	CHECK(one == 7 && reply.kind == 77 && strcmp(room, "kept") == 0);
	counts_are(&table, 0, 0);
	CHECK(pidtab_close(&table) == PIDTAB_DONE && table.at == NULL && !table.is_open && !table.in_use);
}

/* What each function tells is in interface/cases. What is after an answer, or after the entries that are read, stays. */
static void what_stays(void)
{
	struct pidtab table = PIDTAB_INIT;
	struct pidtab_call call;
	struct pidtab_reply reply;
	struct pidtab_entry entries[3] = { { .worker = 77 }, { .worker = 77 }, { .worker = 77 } };
	char room[PIDTAB_LONGEST_ANSWER];
	uint64_t one;
	size_t size;

	CHECK(open_history(&table, 32768, 1, 2) == PIDTAB_DONE);
	CHECK(pidtab_call_by(&table, 1, &fork_1, &reply, &one) == PIDTAB_DONE && one == 0);
	memset(room, 'x', sizeof room);
	CHECK(pidtab_line_by(&table, 0, "getpid 9", 8, room, sizeof room, &size, &one) == PIDTAB_DONE && one == 1);
	CHECK(size == 15 && strncmp(room, "ESRCH no-callerx", 16) == 0 && room[sizeof room - 1] == 'x');
	CHECK(pidtab_entry(&table, 2, &one, &call, &reply) == PIDTAB_NOT_KEPT && one == 1);
	CHECK(pidtab_read(&table, 0, entries, 1, &size) == PIDTAB_DONE && size == 1 && entries[0].worker == 1 && entries[1].worker == 77);
	CHECK(pidtab_read(&table, 1, entries + 1, 2, &size) == PIDTAB_DONE && size == 1 && entries[1].worker == 0 && entries[2].worker == 77);
	pidtab_close(&table);
}

/* A replay finds the stamps used up as a call does. */
static void a_replay_behind_the_last_stamp(void)
{
	struct pidtab table = PIDTAB_INIT;
	struct pidtab_entry saved = { .call = getpid_1 };
	struct pidtab_reply reply;
	uint64_t ordinal = 7;
	size_t place = 7;

	CHECK(open_history(&table, 32768, UINT64_MAX - 1, 1) == PIDTAB_DONE);
	CHECK(pidtab_call_by(&table, 0, &fork_1, &reply, &ordinal) == PIDTAB_DONE && ordinal == 0);
	CHECK(pidtab_replay(&table, &saved, 1, &place) == PIDTAB_SPENT && place == 0);
	counts_are(&table, 0, 1);
	pidtab_close(&table);
}

/* A query on a table without a history. */
static void asked(void)
{
	struct pidtab table = PIDTAB_INIT;
	struct pidtab_reply reply = { .kind = 77 };

	CHECK(pidtab_ask(&table, &getpid_1, &reply) == PIDTAB_CLOSED && pidtab_open(&table, 32768) == PIDTAB_DONE);
	CHECK(pidtab_ask(&table, &fork_1, &reply) == PIDTAB_OUT_OF_RANGE && reply.kind == 77);
	CHECK(pidtab_ask(&table, &getpid_1, &reply) == PIDTAB_DONE && reply.kind == PIDTAB_NUMBER && reply.first == 1);
	CHECK(pidtab_count(&table, 0) == 1);
	pidtab_close(&table);
}

/* A checkpoint that found no memory for the table of the opening: each later call makes two of the calls that were cut. */
static void later_calls_make_up(struct pidtab *table)
{
	char room[1 << 16];
	struct pidtab_reply reply;
	uint64_t ordinal;
	size_t size = 7;

	CHECK(strcmp(listed(table, true), listed(table, false)) == 0);
	for (uint64_t i = 0; i < 20; i++) {
		CHECK(i == 0 || (pidtab_opening(table, room, sizeof room, &size) == PIDTAB_NO_MEMORY && size == 7));
		CHECK(pidtab_call_by(table, 0, &getpid_1, &reply, &ordinal) == PIDTAB_DONE && ordinal == 40 + i);
	}
	counts_are(table, 40, 60);
	CHECK(strcmp(listed(table, true), listed(table, false)) == 0);
}

/* Each allocation is refused in turn, of each call: nothing changes until it is made. A cut is made all the same. */
static void want_of_memory(void)
{
	struct pidtab table = PIDTAB_INIT;
	struct pidtab_reply reply;
	uint64_t ordinal;
	int refusals = 0, at = 0;

	do
		refuse_at = ++at;
	while (open_history(&table, 32768, 1, 3) == PIDTAB_NO_MEMORY && !table.is_open);
	refuse_at = 0;
	CHECK(at > 1 && table.is_open);
	for (uint64_t i = 0; i < 40; i++) {
		for (at = 1; refuse(at), pidtab_call_by(&table, i % 3, &fork_1, &reply, &ordinal) == PIDTAB_NO_MEMORY; at++, refusals++) {
			refuse_at = 0;
			counts_are(&table, 0, i);
		}
		refuse_at = 0;
		CHECK(ordinal == i && reply.kind == PIDTAB_FORKED && reply.second == i + 2);
	}
	CHECK(refusals > 5);
	refuse_at = 1;
	CHECK(pidtab_checkpoint(&table) == PIDTAB_DONE);
	refuse_at = 0;
	counts_are(&table, 40, 40);
	later_calls_make_up(&table);
	pidtab_close(&table);
}

/* A fork on a table that keeps at most three entries. */
static void fork_keeping_three(struct pidtab *table, uint64_t ordinal)
{
	struct pidtab_reply reply;
	uint64_t place = 77;

	CHECK(pidtab_call_by(table, 0, &fork_1, &reply, &place) == PIDTAB_DONE && place == ordinal);
	CHECK(reply.kind == PIDTAB_FORKED && reply.second == ordinal + 2);
	counts_are(table, ordinal < 3 ? 0 : ordinal - 2, ordinal + 1);
}

/* The opening is the state of a table that made the calls before the kept ones. What is asked to keep fewer gets there by two entries each time. */
static void keeps_a_bound(void)
{
	const struct pidtab_settings three = { .keep = 3 };
	struct pidtab table = PIDTAB_INIT, behind = PIDTAB_INIT;
	struct pidtab_reply reply = { .kind = 77 };
	uint64_t ordinal = 7;

	CHECK(pidtab_keep(&table, 3) == PIDTAB_CLOSED);
	CHECK(pidtab_open_with(&table, &three) == PIDTAB_DONE && open_history(&behind, 32768, 1, 1) == PIDTAB_DONE);
	CHECK(pidtab_call_by(&table, 1, &fork_1, &reply, &ordinal) == PIDTAB_OUT_OF_RANGE && reply.kind == 77 && ordinal == 7);
	for (uint64_t i = 0; i < 20; i++)
		fork_keeping_three(&table, i);
	for (uint64_t i = 0; i < 17; i++)
		CHECK(pidtab_call_by(&behind, 0, &fork_1, &reply, &ordinal) == PIDTAB_DONE);
	CHECK(strcmp(listed(&table, true), listed(&behind, false)) == 0);
	CHECK(pidtab_keep(&table, 3) == PIDTAB_DONE);
	counts_are(&table, 17, 20);
	CHECK(pidtab_keep(&table, 0) == PIDTAB_DONE);
	counts_are(&table, 19, 20);
	CHECK(pidtab_keep(&table, 0) == PIDTAB_DONE);
	counts_are(&table, 20, 20);
	CHECK(strcmp(listed(&table, true), listed(&table, false)) == 0);
	pidtab_close(&behind);
	pidtab_close(&table);
}

/* The room for entries grows with them: 1,000 calls ask for less than four times 64 bytes each, and a few pages. */
static void room_grows_with_the_calls(void)
{
	struct pidtab table = PIDTAB_INIT;
	struct pidtab_reply reply;
	uint64_t ordinal;

	CHECK(open_history(&table, 32768, 1, 1) == PIDTAB_DONE);
	bytes_asked = 0;
	for (int i = 0; i < 1000; i++)
		CHECK(pidtab_call_by(&table, 0, &getpid_1, &reply, &ordinal) == PIDTAB_DONE);
	CHECK(bytes_asked >= 1000 * 64 && bytes_asked < 4 * 1000 * 64 + 65536);
	pidtab_close(&table);
}

/* The reply of a task at the level in a chain of inits: each namespace has one task fewer than the one around it. */
static void numbers_are(const struct pidtab_reply *reply, uint32_t level)
{
	CHECK(reply->kind == PIDTAB_LEVELS && reply->count == level + 1 && reply->first == 0 && reply->second == 0);
	for (uint32_t i = 0; i < PIDTAB_LEVELS_MAX; i++)
		CHECK(reply->levels[i] == (i <= level ? level + 1 - i : 0));
}

static void entry_has_numbers(struct pidtab *table, uint64_t ordinal, uint32_t level)
{
	struct pidtab_entry entry;
	size_t count;

	CHECK(pidtab_read(table, ordinal, &entry, 1, &count) == PIDTAB_DONE && count == 1);
	CHECK(entry.call.operation == PIDTAB_NSPID && entry.call.number == level + 1);
	numbers_are(&entry.reply, level);
}

static int numbers_refused;

/* Makes the query once no allocation of it is refused, each in turn before that, and answers its place. */
static uint64_t query(struct pidtab *table, const struct pidtab_call *call, struct pidtab_reply *reply)
{
	uint64_t place = 77;

	*reply = (struct pidtab_reply){ .kind = 77 };
	for (int at = 1; refuse(at), pidtab_call_by(table, 0, call, reply, &place) == PIDTAB_NO_MEMORY; at++, numbers_refused++)
		CHECK(reply->kind == 77 && place == 77);
	refuse(0);
	return place;
}

/* The call after a list of numbers tells none of them, and fetches what the next list may need. */
static uint64_t ask_numbers(struct pidtab *table, uint32_t level)
{
	const struct pidtab_call nspid = { .operation = PIDTAB_NSPID, .caller = 1, .number = level + 1 };
	struct pidtab_reply reply;
	uint64_t place = query(table, &nspid, &reply);

	numbers_are(&reply, level);
	entry_has_numbers(table, place, level);
	CHECK(query(table, &getpid_1, &reply) == place + 1);
	CHECK(reply.kind == PIDTAB_NUMBER && reply.first == 1 && reply.count == 0 && reply.levels[0] == 0);
	entry_has_numbers(table, place, level);
	return place;
}

/* Lists of 1 to 33 numbers, the longer ones of which are not in their entries: as they are told, as they are read, and after cuts. */
static void lists_of_each_length(void)
{
	struct pidtab table = PIDTAB_INIT;
	struct pidtab_reply reply;
	uint64_t places[PIDTAB_LEVELS_MAX], ordinal, first = 0, all = 0;

	CHECK(open_history(&table, 32768, 1, 1) == PIDTAB_DONE);
	for (uint32_t level = 0; level < PIDTAB_LEVELS_MAX; level++) {
		const struct pidtab_call fork = { .operation = PIDTAB_FORK, .caller = level + 1, .choice = 1 };
		places[level] = ask_numbers(&table, level);
		if (level + 1 < PIDTAB_LEVELS_MAX)
			CHECK(pidtab_call_by(&table, 0, &fork, &reply, &ordinal) == PIDTAB_DONE && reply.kind == PIDTAB_FORKED);
	}
	/* The entries grow, and so does the queue of the 28 lists that have more than five numbers: each at least twice. */
	CHECK(numbers_refused >= 4);
	CHECK(pidtab_counts(&table, &first, &all) == PIDTAB_DONE && first == 0);
	for (uint32_t level = 0; level < PIDTAB_LEVELS_MAX; level++) {
		while (first < places[level]) {
			CHECK(pidtab_keep(&table, all - first - 1) == PIDTAB_DONE);
			CHECK(pidtab_counts(&table, &first, &all) == PIDTAB_DONE);
		}
		for (uint32_t kept = level; kept < PIDTAB_LEVELS_MAX; kept++)
			entry_has_numbers(&table, places[kept], kept);
	}
	CHECK(pidtab_checkpoint(&table) == PIDTAB_DONE);
	CHECK(pidtab_counts(&table, &first, &all) == PIDTAB_DONE && first == all);
	pidtab_close(&table);
}

/* Long lists, of which at most two are kept: their queue goes round, and takes no more memory. */
static void lists_behind_a_bound(void)
{
	struct pidtab table = PIDTAB_INIT;
	const uint32_t level = 8;
	struct pidtab_reply reply;
	uint64_t ordinal, asked = 0;

	CHECK(open_history(&table, 32768, 1, 1) == PIDTAB_DONE);
	for (uint32_t i = 0; i < level; i++) {
		const struct pidtab_call fork = { .operation = PIDTAB_FORK, .caller = i + 1, .choice = 1 };
		CHECK(pidtab_call_by(&table, 0, &fork, &reply, &ordinal) == PIDTAB_DONE && reply.kind == PIDTAB_FORKED);
	}
	for (int i = 0; i < 1000; i++) {
		uint64_t place = ask_numbers(&table, level);

		CHECK(pidtab_keep(&table, 4) == PIDTAB_DONE && pidtab_keep(&table, 4) == PIDTAB_DONE);
		entry_has_numbers(&table, place, level);
		if (i > 10)
			entry_has_numbers(&table, place - 2, level);
		if (i == 100)
			asked = bytes_asked;
	}
	CHECK(bytes_asked == asked);
	pidtab_close(&table);
}

/* What cutting away so many such calls asks for, in bytes. */
static size_t asked_by_a_cut(struct pidtab *table, const struct pidtab_call *call, int calls)
{
	struct pidtab_reply reply;
	uint64_t ordinal;

	for (int i = 0; i < calls; i++)
		CHECK(pidtab_call_by(table, 0, call, &reply, &ordinal) == PIDTAB_DONE && reply.kind != PIDTAB_REFUSED);
	bytes_asked = 0;
	for (int i = 0; i < calls; i++)
		CHECK(pidtab_keep(table, 0) == PIDTAB_DONE);
	return bytes_asked;
}

/* What makes something is made once more as it is cut away, and takes memory. A query is not. */
static void cut_queries_take_no_memory(void)
{
	static const struct pidtab_call getpid_1 = { .operation = PIDTAB_GETPID, .caller = 1 }, fork_1 = { .operation = PIDTAB_FORK, .caller = 1 };
	struct pidtab table = PIDTAB_INIT;
	uint64_t first_kept, recorded;

	CHECK(open_history(&table, 32768, 1, 1) == PIDTAB_DONE);
	CHECK(asked_by_a_cut(&table, &fork_1, 1000) > 0 && asked_by_a_cut(&table, &getpid_1, 1000) == 0);
	CHECK(pidtab_counts(&table, &first_kept, &recorded) == PIDTAB_DONE && first_kept == 2000 && recorded == 2000);
	pidtab_close(&table);
}

int main(void)
{
	closed();
	out_of_range();
	what_stays();
	a_replay_behind_the_last_stamp();
	asked();
	want_of_memory();
	keeps_a_bound();
	room_grows_with_the_calls();
	lists_of_each_length();
	lists_behind_a_bound();
	cut_queries_take_no_memory();
	return 0;
}

/* Tests of many calls in one turn: beside as many single calls, with each status, with want of memory at each allocation, and in threads. */
#include "test.h"
#include "test_heap.h"

#define MOST 512
#define WORKERS 4
#define TURNS 300
#define A_TURN 7

static struct pidtab_call calls[MOST];
static struct pidtab_reply replies[MOST], alone[MOST];
static struct pidtab_entry entries[2][MOST];

/* Each operation with small numbers: some are refused, and none is out of range. */
static struct pidtab_call random_call(void)
{
	return (struct pidtab_call){ .operation = random_below(PIDTAB_SUBREAPER + 1), .caller = random_below(9), .id = random_below(4),
		.number = random_below(9), .choice = random_below(2), .pid = (int32_t)random_below(9), .pgid = (int32_t)random_below(9) };
}

static void fill(void *room, size_t size)
{
	memset(room, 0x55, size);
}

static bool is_filled(const void *room, size_t size)
{
	const unsigned char *bytes = room;

	while (size > 0 && bytes[size - 1] == 0x55)
		size--;
	return size == 0;
}

static void counts_are(struct pidtab *table, uint64_t first_kept, uint64_t recorded)
{
	uint64_t first = first_kept + 1, all = recorded + 1;

	CHECK(pidtab_counts(table, &first, &all) == PIDTAB_DONE && first == first_kept && all == recorded);
}

/* Lists, texts and entries are the same. */
static void same(struct pidtab *one, struct pidtab *other)
{
	static char texts[2][1 << 17];
	size_t sizes[2] = { 0, 1 }, counts[2] = { 0, 1 };
	struct pidtab *tables[] = { one, other };

	memset(entries, 0, sizeof entries);
	for (int i = 0; i < 2; i++) {
		CHECK(pidtab_dump(tables[i], texts[i], sizeof texts[0], &sizes[i]) == PIDTAB_DONE);
		CHECK(pidtab_read(tables[i], 0, entries[i], MOST, &counts[i]) == PIDTAB_DONE);
	}
	CHECK(sizes[0] == sizes[1] && memcmp(texts[0], texts[1], sizes[0]) == 0);
	CHECK(counts[0] == counts[1] && memcmp(entries[0], entries[1], counts[0] * sizeof entries[0][0]) == 0);
}

static void opened(struct pidtab *table)
{
	*table = (struct pidtab)PIDTAB_INIT;
	CHECK(open_history(table, 32768, 1, WORKERS) == PIDTAB_DONE);
}

/* Turns of 0 to 40 calls on one table, and each call alone on the other. */
static void as_single_calls(void)
{
	struct pidtab one, other;
	uint64_t ordinal, place, all = 0;

	opened(&one);
	opened(&other);
	for (size_t i = 0; i < MOST; i++)
		calls[i] = random_call();
	for (size_t from = 0, count; from < MOST; from += count) {
		uint32_t worker = random_below(WORKERS);
		size_t made = 77;

		count = random_below(41);
		count = count < MOST - from ? count : MOST - from;
		ordinal = place = 77;
		fill(replies, sizeof replies);
		fill(alone, sizeof alone);
		CHECK(pidtab_calls(&one, worker, calls + from, count, replies, count, &made, &ordinal) == PIDTAB_DONE && made == count);
		for (size_t i = 0; i < count; i++, all++)
			CHECK(pidtab_call_by(&other, worker, calls + from + i, &alone[i], &place) == PIDTAB_DONE && place == all);
		CHECK(ordinal == place && memcmp(replies, alone, sizeof replies) == 0);
	}
	same(&one, &other);
	counts_are(&one, 0, MOST);
	pidtab_close(&one);
	pidtab_close(&other);
}

/* What a turn that makes no call leaves as it is. */
static void makes_none(struct pidtab *table, uint32_t worker, size_t count, size_t room, uint32_t status)
{
	size_t made = 77;
	uint64_t ordinal = 77;

	fill(replies, sizeof replies);
	CHECK(pidtab_calls(table, worker, calls, count, replies, room, &made, &ordinal) == status);
	CHECK(made == 0 && ordinal == 77 && is_filled(replies, sizeof replies));
}

static void none_is_made(void)
{
	struct pidtab table = PIDTAB_INIT;

	for (size_t i = 0; i < 5; i++)
		calls[i] = (struct pidtab_call){ .operation = PIDTAB_FORK, .caller = 1 };
	makes_none(&table, 0, 5, 5, PIDTAB_CLOSED);
	opened(&table);
	table.in_use = UINT8_MAX;
	makes_none(&table, 0, 5, 5, PIDTAB_BUSY);
	table.in_use = 1;
	makes_none(&table, 0, 5, 5, PIDTAB_BUSY);
	table.in_use = 0;
	makes_none(&table, WORKERS, 5, 5, PIDTAB_OUT_OF_RANGE);
	makes_none(&table, WORKERS, 0, 0, PIDTAB_OUT_OF_RANGE);
	makes_none(&table, 0, 0, 0, PIDTAB_DONE);
	makes_none(&table, 0, 0, 5, PIDTAB_DONE);
	makes_none(&table, 0, 5, 4, PIDTAB_NO_ROOM);
	makes_none(&table, 0, 1, 0, PIDTAB_NO_ROOM);
	for (size_t i = 0; i < 5; i++) {
		struct pidtab_call bad[] = { { .operation = 19, .caller = 1 }, { .operation = PIDTAB_FORK, .caller = 1, .choice = 2 },
			{ .operation = PIDTAB_EXIT, .caller = 1, .number = 256 }, { .operation = PIDTAB_WAIT, .caller = 1, .choice = 4 } };
		struct pidtab_call good = calls[i];
		calls[i] = bad[i % 4];
		makes_none(&table, 0, 5, 5, PIDTAB_OUT_OF_RANGE);
		makes_none(&table, 0, 5, 0, PIDTAB_OUT_OF_RANGE);
		calls[i] = good;
	}
	counts_are(&table, 0, 0);
	pidtab_close(&table);
}

/* There is room for more replies than calls, and stamps for fewer. */
static void the_last_stamps(void)
{
	struct pidtab table = PIDTAB_INIT;
	size_t made = 77;
	uint64_t ordinal = 77;

	CHECK(open_history(&table, 32768, UINT64_MAX - 3, 2) == PIDTAB_DONE);
	fill(replies, sizeof replies);
	CHECK(pidtab_calls(&table, 1, calls, 5, replies, 9, &made, &ordinal) == PIDTAB_SPENT && made == 3 && ordinal == 2);
	for (size_t i = 0; i < 3; i++)
		CHECK(replies[i].kind == PIDTAB_FORKED && replies[i].first == i + 2);
	CHECK(is_filled(replies + 3, sizeof replies - 3 * sizeof replies[0]));
	makes_none(&table, 1, 5, 5, PIDTAB_SPENT);
	makes_none(&table, 1, 0, 0, PIDTAB_DONE);
	calls[4].operation = 99;
	makes_none(&table, 1, 5, 5, PIDTAB_OUT_OF_RANGE);
	counts_are(&table, 0, 3);
	pidtab_close(&table);
}

/* Forks, groups and queries: each finds no memory in turn, and the calls before it were made. The rest is made later. */
static void want_of_memory(void)
{
	const size_t count = 300;
	struct pidtab one, other;
	uint64_t ordinal, place;
	size_t made = 0, whole = 0;

	for (size_t i = 0; i < count; i++)
		calls[i] = (struct pidtab_call){ .operation = i % 3 == 0 ? PIDTAB_FORK : i % 3 == 1 ? PIDTAB_MK : PIDTAB_GETPID, .caller = i % 3 == 1 ? 0 : 1 };
	for (int at = 1; made < count; at++) {
		size_t done = 0;
		uint32_t status;

		opened(&one);
		opened(&other);
		fill(replies, sizeof replies);
		ordinal = 77;
		refuse_at = at;
		status = pidtab_calls(&one, 2, calls, count, replies, count, &made, &ordinal);
		refuse_at = 0;
		CHECK(status == (made < count ? PIDTAB_NO_MEMORY : PIDTAB_DONE) && ordinal == (made == 0 ? 77 : made - 1) && made >= whole);
		whole = made;
		CHECK(is_filled(replies + made, (MOST - made) * sizeof replies[0]));
		for (size_t i = 0; i < made; i++)
			CHECK(pidtab_call_by(&other, 2, &calls[i], &alone[i], &place) == PIDTAB_DONE);
		CHECK(memcmp(replies, alone, made * sizeof replies[0]) == 0);
		same(&one, &other);
		CHECK(pidtab_calls(&one, 2, calls + made, count - made, replies + made, count - made, &done, &ordinal) == PIDTAB_DONE);
		CHECK(done == count - made && ordinal == count - 1);
		pidtab_close(&one);
		pidtab_close(&other);
		CHECK(at > 9 || made < count);
	}
}

static struct pidtab shared;

/* Turns of so many forks, waits and queries, whose replies are those of a table that has nobody else's children. */
static void *takes_turns(void *unused)
{
	struct pidtab_call mine[A_TURN];
	struct pidtab_reply told[A_TURN];
	uint32_t worker;

	CHECK(unused == NULL && pidtab_seat(&shared, &worker) == PIDTAB_DONE);
	for (int i = 0; i < A_TURN; i++)
		mine[i] = (struct pidtab_call){ .operation = PIDTAB_GETPID, .caller = 1 };
	mine[0] = mine[A_TURN - 1] = (struct pidtab_call){ .operation = PIDTAB_COUNT };
	mine[2] = (struct pidtab_call){ .operation = PIDTAB_FORK, .caller = 1 };
	for (uint64_t turn = 0, last = 0, ordinal = 77; turn < TURNS; turn++, last = ordinal) {
		size_t made = 77;

		CHECK(pidtab_calls(&shared, worker, mine, A_TURN, told, A_TURN, &made, &ordinal) == PIDTAB_DONE && made == A_TURN);
		CHECK((turn == 0 || ordinal > last) && (ordinal + 1) % A_TURN == 0);
		CHECK(told[2].kind == PIDTAB_FORKED && told[A_TURN - 1].first == told[0].first + 1);
	}
	return NULL;
}

/* No call of another worker is between those of a turn. */
static void turns_are_whole(void)
{
	const size_t all = (size_t)WORKERS * TURNS * A_TURN;
	struct pidtab_entry *told = calloc(all, sizeof *told);
	pthread_t threads[WORKERS];
	size_t count = 0;

	CHECK(told && open_threads(&shared, 32768, 1, WORKERS, PIDTAB_KEEP_ALL) == PIDTAB_DONE);
	for (int i = 0; i < WORKERS; i++)
		CHECK(pthread_create(&threads[i], NULL, takes_turns, NULL) == 0);
	for (int i = 0; i < WORKERS; i++)
		CHECK(pthread_join(threads[i], NULL) == 0);
	CHECK(pidtab_read(&shared, 0, told, all, &count) == PIDTAB_DONE && count == all);
	for (size_t i = 0; i < all; i++)
		CHECK(told[i].worker == told[i - i % A_TURN].worker && (told[i].call.operation == PIDTAB_FORK) == (i % A_TURN == 2));
	pidtab_close(&shared);
	free(told);
}

/* The last so many entries are kept after each turn, a shorter or a longer one, and after single calls. */
static void a_bound_is_kept(void)
{
	struct pidtab_call call = { .operation = PIDTAB_FORK, .caller = 1 };
	uint64_t first_kept, recorded, ordinal, all = 0;
	size_t made;

	CHECK(open_threads(&shared, 32768, 1, 1, 10) == PIDTAB_DONE);
	for (size_t i = 0; i < MOST; i++)
		calls[i] = call;
	for (size_t count = 0; count < 30; count++, all += count) {
		CHECK(pidtab_calls(&shared, 0, calls, count, replies, count, &made, &ordinal) == PIDTAB_DONE && made == count);
		CHECK(pidtab_call_by(&shared, 0, &call, replies, &ordinal) == PIDTAB_DONE && ordinal == all + count);
		CHECK(pidtab_counts(&shared, &first_kept, &recorded) == PIDTAB_DONE && recorded == all + count + 1);
		CHECK(first_kept == (recorded > 10 ? recorded - 10 : 0));
	}
	made = 77;
	CHECK(pidtab_calls(&shared, 1, calls, 3, replies, 3, &made, &ordinal) == PIDTAB_OUT_OF_RANGE && made == 0);
	pidtab_close(&shared);
}

int main(void)
{
	as_single_calls();
	none_is_made();
	the_last_stamps();
	want_of_memory();
	turns_are_whole();
	a_bound_is_kept();
	return 0;
}

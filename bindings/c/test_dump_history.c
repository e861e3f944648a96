/* Tests of tables with a history that go on from texts: each status, the ordinals and the counts of workers, and want of memory at each allocation in
 * turn; and of tables with threads, which go on. */
#include "test_dump.h"
#include "test_heap.h"

/* A fault that nothing has written. */
#define UNTOLD (struct pidtab_fault){ 77, 77 }

static const struct pidtab_call getpid_1 = { .operation = PIDTAB_GETPID, .caller = 1 };

static bool fault_is(struct pidtab_fault fault, uint32_t kind, uint64_t line)
{
	return fault.kind == kind && fault.line == line;
}

static bool dumps_as(struct pidtab *table, struct text wanted)
{
	struct text text = dumped(table);
	bool same = same_text(text, wanted);

	free(text.bytes);
	return same;
}

static void counts_are(struct pidtab *table, uint64_t first_kept, uint64_t recorded)
{
	uint64_t first = first_kept + 1, all = recorded + 1;
	CHECK(pidtab_counts(table, &first, &all) == PIDTAB_DONE && first == first_kept && all == recorded);
}

static uint64_t calls_of(struct pidtab *table, uint32_t worker)
{
	uint64_t calls = 7;
	CHECK(pidtab_worker(table, worker, &calls) == PIDTAB_DONE);
	return calls;
}

static void statuses_of_a_dump(void)
{
	struct pidtab table = PIDTAB_INIT;
	struct text wanted = first_text("5");
	char room[512] = "kept";
	size_t size = 7;

	CHECK(pidtab_dump(&table, room, sizeof room, &size) == PIDTAB_CLOSED && size == 7 && strcmp(room, "kept") == 0);
	CHECK(open_history(&table, 301, 5, 2) == PIDTAB_DONE && dumps_as(&table, wanted));
	CHECK(pidtab_dump(&table, room, wanted.size - 1, &size) == PIDTAB_NO_ROOM && size == wanted.size && strcmp(room, "kept") == 0);
	memset(room, 'x', sizeof room);
	CHECK(pidtab_dump(&table, room, sizeof room, &size) == PIDTAB_DONE && room[size - 1] == '\n' && room[size] == 'x');
	counts_are(&table, 0, 0);
	CHECK(pidtab_close(&table) == PIDTAB_DONE);
	free(wanted.bytes);
}

/* The load of a text with the stamp 7 after so many calls. */
static uint32_t loaded_behind(struct pidtab *table, const uint64_t *counts, uint32_t workers)
{
	struct text text = first_text("7");
	struct pidtab_fault fault = UNTOLD;
	uint32_t status = load_history(table, text.bytes, text.size, counts, workers, &fault);

	CHECK(fault_is(fault, 0, 0));
	free(text.bytes);
	return status;
}

static void statuses_of_a_load(void)
{
	static const uint64_t six[] = { 3, 3 }, seven[] = { 3, 4 }, past[] = { UINT64_MAX, 1 }, more[] = { 6, UINT64_MAX, UINT64_MAX };
	static const uint64_t none[PIDTAB_MOST_WORKERS + 1];
	struct pidtab table = PIDTAB_INIT;
	struct pidtab_fault fault = UNTOLD;

	CHECK(loaded_behind(&table, none, PIDTAB_MOST_WORKERS + 1) == PIDTAB_OUT_OF_RANGE);
	CHECK(loaded_behind(&table, seven, 2) == PIDTAB_OUT_OF_RANGE && loaded_behind(&table, past, 2) == PIDTAB_OUT_OF_RANGE);
	CHECK(loaded_behind(&table, more, 3) == PIDTAB_OUT_OF_RANGE && table.at == NULL && !table.is_open && !table.in_use);

	/* The workers are looked at before the text, and the text before what they have made. */
	CHECK(load_history(&table, "?\n", 2, none, PIDTAB_MOST_WORKERS + 1, &fault) == PIDTAB_OUT_OF_RANGE && fault_is(fault, 0, 0));
	CHECK(load_history(&table, "?\n", 2, past, 2, &fault) == PIDTAB_BAD_TEXT && fault_is(fault, PIDTAB_FAULT_BAD_LINE, 1));
	CHECK(table.at == NULL && !table.is_open && !table.in_use);

	CHECK(loaded_behind(&table, six, 2) == PIDTAB_DONE && calls_of(&table, 0) == 3 && calls_of(&table, 1) == 3);
	counts_are(&table, 6, 6);
	CHECK(loaded_behind(&table, six, 2) == PIDTAB_BUSY && loaded_behind(&table, none, PIDTAB_MOST_WORKERS + 1) == PIDTAB_BUSY);
	fault = UNTOLD;
	CHECK(load_history(&table, "?\n", 2, six, 2, &fault) == PIDTAB_BUSY && fault_is(fault, 0, 0));
	CHECK(pidtab_close(&table) == PIDTAB_DONE);

	/* No call was recorded before, by as many workers as there may be. */
	CHECK(loaded_behind(&table, none, PIDTAB_MOST_WORKERS) == PIDTAB_DONE && calls_of(&table, PIDTAB_MOST_WORKERS - 1) == 0);
	counts_are(&table, 0, 0);
	CHECK(pidtab_close(&table) == PIDTAB_DONE);
}

#define WORKERS 3
#define CALLS 600
#define LATER 400

/* Makes a drawn call of a drawn worker on both tables: the ordinal and the reply are the same. */
static void make_on_both(struct pidtab *one, struct pidtab *other, uint64_t *seed)
{
	struct pidtab_call call = drawn_call(seed);
	uint32_t worker = drawn(seed, WORKERS), status;
	struct pidtab_reply a, b;
	uint64_t at = 7, place = 7;

	status = pidtab_call_by(one, worker, &call, &a, &at);
	CHECK(pidtab_call_by(other, worker, &call, &b, &place) == status && at == place);
	CHECK(status == PIDTAB_OUT_OF_RANGE || (status == PIDTAB_DONE && same_reply(&a, &b)));
}

/* Opens a table and makes calls on it. */
static void begin(struct pidtab *table, uint64_t first_stamp, uint64_t *seed)
{
	CHECK(open_history(table, 32768, first_stamp, WORKERS) == PIDTAB_DONE);
	for (int i = 0; i < CALLS; i++) {
		struct pidtab_call call = drawn_call(seed);
		struct pidtab_reply reply;
		uint64_t ordinal;
		uint32_t status = pidtab_call_by(table, drawn(seed, WORKERS), &call, &reply, &ordinal);
		CHECK(status == PIDTAB_DONE || status == PIDTAB_OUT_OF_RANGE);
	}
}

/* Opens a table that goes on as the other one is now. */
static void go_on_from(struct pidtab *loaded, struct pidtab *table)
{
	struct text text = dumped(table);
	struct pidtab_fault fault = UNTOLD;
	uint64_t counts[WORKERS], sum = 0;

	for (uint32_t i = 0; i < WORKERS; i++)
		sum += counts[i] = calls_of(table, i);
	CHECK(load_history(loaded, text.bytes, text.size, counts, WORKERS, &fault) == PIDTAB_DONE && fault_is(fault, 0, 0));
	CHECK(dumps_as(loaded, text));
	counts_are(loaded, sum, sum);
	free(text.bytes);
}

/* Both have one text, and the same counts. */
static void same_with_counts(struct pidtab *one, struct pidtab *other)
{
	CHECK(same_tables(one, other));
	for (uint32_t i = 0; i < WORKERS; i++)
		CHECK(calls_of(one, i) == calls_of(other, i));
}

/* The entries of both from the ordinal on are the same, and have the same replies again on a third table. */
static void same_entries(struct pidtab *one, struct pidtab *other, struct pidtab *third, uint64_t from)
{
	static struct pidtab_entry a[LATER + 1], b[LATER + 1];
	size_t count = 0, many = 1, place;

	CHECK(pidtab_read(one, from, a, LATER + 1, &count) == PIDTAB_DONE && pidtab_read(other, from, b, LATER + 1, &many) == PIDTAB_DONE);
	CHECK(count == many && count > LATER / 2 && count <= LATER);
	for (size_t i = 0; i < count; i++)
		CHECK(a[i].worker == b[i].worker && a[i].call.operation == b[i].call.operation && same_reply(&a[i].reply, &b[i].reply));
	CHECK(pidtab_replay(third, a, count, &place) == PIDTAB_DONE && place == count);
	same_with_counts(one, third);
}

/* A table that was loaded, beside one that never was: ordinals, stamps, counts and replies go on alike, and nothing before is kept. */
static void a_table_goes_on(uint64_t seed, uint64_t first_stamp)
{
	struct pidtab table = PIDTAB_INIT, loaded = PIDTAB_INIT, third = PIDTAB_INIT;
	uint64_t first_kept, recorded;

	begin(&table, first_stamp, &seed);
	CHECK(pidtab_counts(&table, &first_kept, &recorded) == PIDTAB_DONE && first_kept == 0 && recorded > CALLS / 2);
	go_on_from(&loaded, &table);
	go_on_from(&third, &loaded);
	for (int i = 0; i < LATER; i++)
		make_on_both(&table, &loaded, &seed);
	same_with_counts(&table, &loaded);
	same_entries(&table, &loaded, &third, recorded);
	CHECK(pidtab_checkpoint(&loaded) == PIDTAB_DONE);
	make_on_both(&table, &loaded, &seed);
	CHECK(pidtab_close(&table) == PIDTAB_DONE && pidtab_close(&loaded) == PIDTAB_DONE && pidtab_close(&third) == PIDTAB_DONE);
}

/* A table goes on up to the last stamp, and is saved after it too. */
static void the_last_stamp(void)
{
	static const uint64_t none[1];
	struct text last = first_text("18446744073709551614"), spent = first_text("18446744073709551615");
	struct pidtab table = PIDTAB_INIT;
	struct pidtab_fault fault;
	struct pidtab_reply reply;
	uint64_t ordinal = 7;

	CHECK(load_history(&table, last.bytes, last.size, none, 1, &fault) == PIDTAB_DONE);
	CHECK(pidtab_call_by(&table, 0, &getpid_1, &reply, &ordinal) == PIDTAB_DONE && ordinal == 0);
	CHECK(pidtab_call_by(&table, 0, &getpid_1, &reply, &ordinal) == PIDTAB_SPENT && dumps_as(&table, spent));
	CHECK(pidtab_close(&table) == PIDTAB_DONE);
	CHECK(load_history(&table, spent.bytes, spent.size, &(uint64_t){ UINT64_MAX }, 1, &fault) == PIDTAB_OUT_OF_RANGE);
	CHECK(load_history(&table, spent.bytes, spent.size, &(uint64_t){ UINT64_MAX - 1 }, 1, &fault) == PIDTAB_DONE);
	counts_are(&table, UINT64_MAX - 1, UINT64_MAX - 1);
	CHECK(pidtab_call_by(&table, 0, &getpid_1, &reply, &ordinal) == PIDTAB_SPENT && dumps_as(&table, spent));
	CHECK(pidtab_close(&table) == PIDTAB_DONE);
	free(last.bytes);
	free(spent.bytes);
}

static void want_of_memory(void)
{
	static const uint64_t counts[WORKERS] = { 1, 2, 3 };
	struct pidtab table = PIDTAB_INIT, loaded = PIDTAB_INIT;
	struct pidtab_fault fault = UNTOLD;
	uint64_t seed = 7;
	size_t size = 7;
	int at;

	begin(&table, 1, &seed);
	struct text text = dumped(&table), again = { calloc(1, text.size), text.size };
	for (at = 1; refuse(at), pidtab_dump(&table, again.bytes, again.size, &size) == PIDTAB_NO_MEMORY; at++)
		CHECK(size == 7 && again.bytes[0] == 0);
	refuse_at = 0;
	CHECK(at > 5 && size == text.size && same_text(text, again));
	for (at = 1; refuse(at), load_history(&loaded, text.bytes, text.size, counts, WORKERS, &fault) == PIDTAB_NO_MEMORY; at++) {
		CHECK(fault_is(fault, 0, 0) && loaded.at == NULL && !loaded.is_open && !loaded.in_use);
		fault = UNTOLD;
	}
	refuse_at = 0;
	CHECK(at > 50 && loaded.is_open && dumps_as(&loaded, text));
	CHECK(pidtab_close(&table) == PIDTAB_DONE && pidtab_close(&loaded) == PIDTAB_DONE);
	free(text.bytes);
	free(again.bytes);
}

#define THREADS 4
#define EACH 500

static struct pidtab shared;

/* Control groups, whose ids are the stamps of their calls: those of the text's stamp on. */
static void *makes_groups(void *at)
{
	const struct pidtab_call mk_0 = { .operation = PIDTAB_MK };
	struct pidtab_reply reply;
	uint64_t ordinal, last = 0;
	uint32_t worker;

	CHECK(pidtab_seat(&shared, &worker) == PIDTAB_DONE && worker < THREADS);
	for (int i = 0; i < EACH; i++, last = ordinal) {
		CHECK(pidtab_call_by(&shared, worker, &mk_0, &reply, &ordinal) == PIDTAB_DONE && ordinal > last);
		CHECK(ordinal >= 80 && reply.kind == PIDTAB_CONTROL && reply.first == ordinal + 1);
	}
	return at;
}

/* Opens the table of the threads from the text, after 20 calls of each worker, and has its threads go on. */
static void share(struct text text, uint64_t keep)
{
	static const uint64_t counts[THREADS] = { 20, 20, 20, 20 };
	struct pidtab_fault fault = UNTOLD;
	pthread_t threads[THREADS];
	uint64_t calls;

	CHECK(load_threads(&shared, text.bytes, text.size, counts, THREADS, keep, &fault) == PIDTAB_DONE && fault_is(fault, 0, 0));
	for (int i = 0; i < THREADS; i++)
		CHECK(pthread_create(&threads[i], NULL, makes_groups, NULL) == 0);
	for (int i = 0; i < THREADS; i++)
		CHECK(pthread_join(threads[i], NULL) == 0);
	for (uint32_t i = 0; i < THREADS; i++)
		CHECK(pidtab_worker(&shared, i, &calls) == PIDTAB_DONE && calls == 20 + EACH);
}

/* What threads have made is what one thread makes from the same text; and a history with `keep` is never longer. */
static void threads_go_on(void)
{
	static struct pidtab_entry entries[THREADS * EACH];
	static const uint64_t counts[THREADS] = { 20, 20, 20, 20 };
	struct text text = first_text("81"), end = { malloc(1 << 20), 1 << 20 };
	struct pidtab table = PIDTAB_INIT;
	struct pidtab_fault fault = UNTOLD;
	uint64_t first_kept, recorded;
	size_t count, place;

	share(text, PIDTAB_KEEP_ALL);
	CHECK(pidtab_read(&shared, 80, entries, THREADS * EACH, &count) == PIDTAB_DONE && count == THREADS * EACH);
	CHECK(end.bytes && pidtab_dump(&shared, end.bytes, 3, &place) == PIDTAB_NO_ROOM && place > 1000);
	CHECK(pidtab_dump(&shared, end.bytes, end.size, &end.size) == PIDTAB_DONE && end.size == place);
	pidtab_close(&shared);
	CHECK(load_history(&table, text.bytes, text.size, counts, THREADS, &fault) == PIDTAB_DONE);
	CHECK(pidtab_replay(&table, entries, count, &place) == PIDTAB_DONE && dumps_as(&table, end));
	CHECK(pidtab_close(&table) == PIDTAB_DONE);

	share(text, 300);
	CHECK(pidtab_counts(&shared, &first_kept, &recorded) == PIDTAB_DONE && recorded == 80 + THREADS * EACH && first_kept == 80 + THREADS * EACH - 300);
	pidtab_close(&shared);

	/* Nothing is to be closed. */
	CHECK(load_threads(&shared, text.bytes, text.size, counts, PIDTAB_MOST_WORKERS + 1, PIDTAB_KEEP_ALL, &fault) == PIDTAB_OUT_OF_RANGE);
	CHECK(load_threads(&shared, text.bytes, text.size, &(uint64_t){ 81 }, 1, PIDTAB_KEEP_ALL, &fault) == PIDTAB_OUT_OF_RANGE);
	CHECK(load_threads(&shared, text.bytes, text.size - 1, counts, 1, PIDTAB_KEEP_ALL, &fault) == PIDTAB_BAD_TEXT && fault_is(fault, PIDTAB_FAULT_BAD_LINE, 5));
	free(text.bytes);
	free(end.bytes);
}

int main(void)
{
	statuses_of_a_dump();
	statuses_of_a_load();
	for (uint64_t seed = 1; seed <= 4; seed++)
		a_table_goes_on(seed, seed == 4 ? UINT64_MAX - 2000 : seed);
	the_last_stamp();
	want_of_memory();
	threads_go_on();
	return 0;
}

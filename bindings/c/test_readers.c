/* Tests of queries at the same time: each is answered while another is in the middle of one, a call is not; a change of a table with threads
 * waits for them, and none passes it; many beside a writer see whole states; and none writes to the memory of a table. Built with and
 * without the sanitizer for threads. */
#include "threads.h"

#include "test.h"
#include "test_hold.h"

#include <sys/mman.h>
#include <unistd.h>

/* The heap that heap.c is built with here. One use waits until it is told to go on, where that is wanted. At first it is of two parts, which
 * are never freed: what is taken while the first is sealed comes from the second. */
#define PART ((size_t)64 << 20)
static char *parts[2];
static _Atomic size_t used[2];
static atomic_bool sealed, is_plain;

static void *take_of_part(size_t size)
{
	bool part = sealed;
	size_t taken = (size + 31) / 16 * 16, at = atomic_fetch_add(&used[part], taken);

	if (at + taken > PART)
		return NULL;
	memcpy(parts[part] + at, &size, sizeof size);
	return parts[part] + at + 16;
}

static bool is_of_part(const char *at)
{
	return (at >= parts[0] && at < parts[0] + PART) || (at >= parts[1] && at < parts[1] + PART);
}

void *test_malloc(size_t size)
{
	hold_once();
	return is_plain ? malloc(size) : take_of_part(size);
}

void *test_realloc(void *from, size_t size)
{
	void *to;
	size_t before;

	if (!from)
		return test_malloc(size);
	if (!is_of_part(from))
		return realloc(from, size);
	to = take_of_part(size);
	memcpy(&before, (char *)from - 16, sizeof before);
	return to ? memcpy(to, from, before < size ? before : size) : NULL;
}

void test_free(void *at)
{
	if (at && !is_of_part(at))
		free(at);
}

static void make_heap(void)
{
	for (int i = 0; i < 2; i++) {
		parts[i] = mmap(NULL, PART, PROT_READ | PROT_WRITE, MAP_PRIVATE | MAP_ANONYMOUS | MAP_NORESERVE, -1, 0);
		CHECK(parts[i] != MAP_FAILED);
	}
	CHECK(sem_init(&is_held, 0, 0) == 0 && sem_init(&go_on, 0, 0) == 0);
}

static const struct pidtab_call getpid_1 = { .operation = PIDTAB_GETPID, .caller = 1 }, fork_1 = { .operation = PIDTAB_FORK, .caller = 1 },
	count_all = { .operation = PIDTAB_COUNT };

static struct pidtab table = PIDTAB_INIT;
static struct pidtab kept = PIDTAB_INIT;
static struct pidtab shared;

/* Room for a list or a text, one for each thread. */
struct text {
	size_t size;
	char bytes[1 << 16];
};

static void *lists(void *at)
{
	struct text *text = at;
	CHECK(pidtab_list(&table, text->bytes, sizeof text->bytes, &text->size) == PIDTAB_DONE);
	return NULL;
}

static void *lists_recorded(void *at)
{
	struct text *text = at;
	CHECK(pidtab_list(&kept, text->bytes, sizeof text->bytes, &text->size) == PIDTAB_DONE);
	return NULL;
}

static void *lists_shared(void *at)
{
	struct text *text = at;
	CHECK(pidtab_list(&shared, text->bytes, sizeof text->bytes, &text->size) == PIDTAB_DONE);
	return NULL;
}

/* Each query of a table, without a history and with one: two tasks are there. */
static void ask_table(const struct pidtab *it)
{
	struct pidtab_reply reply;
	struct pidtab_task task;
	struct pidtab_space space;
	struct text text;
	uint32_t numbers[2];
	uint64_t ids[2], count;

	CHECK(pidtab_ask(it, &getpid_1, &reply) == PIDTAB_DONE && reply.kind == PIDTAB_NUMBER && reply.first == 1);
	CHECK(pidtab_ask(it, &fork_1, &reply) == PIDTAB_OUT_OF_RANGE);
	CHECK(pidtab_stat(it, 1, 2, &task) == PIDTAB_DONE && task.error == 0 && task.levels[0] == 2);
	CHECK(pidtab_page(it, 1, PIDTAB_CHILDREN, 0, 0, numbers, 2, &reply) == PIDTAB_DONE && reply.first == 1 && numbers[0] == 2);
	CHECK(pidtab_space(it, 0, &space) == PIDTAB_DONE && space.init == 1 && pidtab_space(it, 1, &space) == PIDTAB_OUT_OF_RANGE);
	CHECK(pidtab_inside(it, PIDTAB_SPACES, 0, 0, ids, 2, &count) == PIDTAB_DONE && count == 0);
	CHECK(pidtab_control_tasks(it, 1, 0, 2, numbers, 2, &reply) == PIDTAB_DONE && reply.first == 1 && numbers[0] == 2);
	CHECK(pidtab_list(it, text.bytes, sizeof text.bytes, &text.size) == PIDTAB_DONE && strncmp(text.bytes, "task 1 ", 7) == 0);
	CHECK(pidtab_dump(it, text.bytes, sizeof text.bytes, &text.size) == PIDTAB_DONE && strncmp(text.bytes, "pidtab table 1 ", 15) == 0);
}

static void ask_recorded(const struct pidtab *it)
{
	struct pidtab_reply reply;
	struct pidtab_task task;
	struct pidtab_space space;
	struct pidtab_entry entry;
	struct text text;
	uint64_t first_kept, recorded, calls;
	uint32_t numbers[2];
	uint64_t ids[2], inside;
	size_t count;

	CHECK(pidtab_ask(it, &count_all, &reply) == PIDTAB_DONE && reply.kind == PIDTAB_COUNTED && reply.first == 2);
	CHECK(pidtab_stat(it, 1, 2, &task) == PIDTAB_DONE && task.error == 0 && task.levels[0] == 2);
	CHECK(pidtab_page(it, 1, PIDTAB_GROUP_MEMBERS, 0, 0, numbers, 2, &reply) == PIDTAB_DONE && reply.first == 2 && numbers[1] == 2);
	CHECK(pidtab_space(it, 0, &space) == PIDTAB_DONE && space.init == 1 && pidtab_space(it, 1, &space) == PIDTAB_OUT_OF_RANGE);
	CHECK(pidtab_inside(it, PIDTAB_CONTROLS, 0, 0, ids, 2, &inside) == PIDTAB_DONE && inside == 0);
	CHECK(pidtab_control_tasks(it, 1, 0, 0, numbers, 2, &reply) == PIDTAB_DONE && reply.first == 2 && numbers[1] == 2);
	CHECK(pidtab_counts(it, &first_kept, &recorded) == PIDTAB_DONE && first_kept == 0 && recorded == 1);
	CHECK(pidtab_worker(it, 0, &calls) == PIDTAB_DONE && calls == 1);
	CHECK(pidtab_entry(it, 0, &entry.worker, &entry.call, &entry.reply) == PIDTAB_DONE && entry.reply.first == 2);
	CHECK(pidtab_read(it, 0, &entry, 1, &count) == PIDTAB_DONE && count == 1 && entry.call.operation == PIDTAB_FORK);
	CHECK(pidtab_list(it, text.bytes, sizeof text.bytes, &text.size) == PIDTAB_DONE && strncmp(text.bytes, "task 1 ", 7) == 0);
	CHECK(pidtab_opening(it, text.bytes, sizeof text.bytes, &text.size) == PIDTAB_DONE && strncmp(text.bytes, "task 1 ", 7) == 0);
	CHECK(pidtab_dump(it, text.bytes, sizeof text.bytes, &text.size) == PIDTAB_DONE && strncmp(text.bytes, "pidtab table 1 ", 15) == 0);
}

static void open_both(void)
{
	struct pidtab_reply reply;
	uint64_t ordinal;

	CHECK(pidtab_open(&table, 32768) == PIDTAB_DONE && pidtab_fork(&table, 1, false, NULL) == 2);
	CHECK(open_history(&kept, 32768, 1, 2) == PIDTAB_DONE);
	CHECK(pidtab_call_by(&kept, 0, &fork_1, &reply, &ordinal) == PIDTAB_DONE && reply.first == 2);
}

static pthread_t begin_held(void *(*works)(void *), struct text *text)
{
	pthread_t other;

	hold = true;
	CHECK(pthread_create(&other, NULL, works, text) == 0);
	sem_wait(&is_held);
	return other;
}

static void end_held(pthread_t other)
{
	sem_post(&go_on);
	CHECK(pthread_join(other, NULL) == 0);
}

/* In the middle of a list, queries are answered, and calls are not. */
static void beside_a_query(void)
{
	static struct text first, second;
	struct pidtab_reply reply = { .kind = 77 };
	uint64_t ordinal = 77;
	pthread_t other = begin_held(lists, &first);

	ask_table(&table);
	CHECK(pidtab_call(&table, &fork_1, &reply) == PIDTAB_BUSY && pidtab_open(&table, 32768) == PIDTAB_BUSY && pidtab_close(&table) == PIDTAB_BUSY);
	end_held(other);
	lists(&second);
	CHECK(first.size == second.size && memcmp(first.bytes, second.bytes, first.size) == 0);
	CHECK(pidtab_fork(&table, 1, false, NULL) == 3 && table.in_use == 0);

	other = begin_held(lists_recorded, &first);
	ask_recorded(&kept);
	CHECK(pidtab_call_by(&kept, 0, &fork_1, &reply, &ordinal) == PIDTAB_BUSY && reply.kind == 77 && ordinal == 77);
	CHECK(pidtab_checkpoint(&kept) == PIDTAB_BUSY && pidtab_close(&kept) == PIDTAB_BUSY);
	end_held(other);
	CHECK(pidtab_checkpoint(&kept) == PIDTAB_DONE && kept.in_use == 0);
	CHECK(pidtab_close(&table) == PIDTAB_DONE && pidtab_close(&kept) == PIDTAB_DONE);
}

/* Each query, where a write to what the table has taken of the heap would end this process. */
static void none_writes_to_the_table(void)
{
	open_both();
	CHECK(mprotect(parts[0], PART, PROT_READ) == 0);
	sealed = true;
	ask_table(&table);
	ask_recorded(&kept);
	sealed = false;
	CHECK(mprotect(parts[0], PART, PROT_READ | PROT_WRITE) == 0);
	beside_a_query();
}

static atomic_int calls_made, queries_made;

static void *calls_shared(void *unused)
{
	struct pidtab_reply reply;
	uint64_t ordinal;
	CHECK(pidtab_call_by(&shared, 0, &fork_1, &reply, &ordinal) == PIDTAB_DONE);
	calls_made++;
	return unused;
}

static void *asks_shared(void *seen)
{
	struct pidtab_reply reply;
	CHECK(pidtab_ask(&shared, &count_all, &reply) == PIDTAB_DONE);
	*(uint64_t *)seen = reply.first;
	queries_made++;
	return NULL;
}

static void rest(long milliseconds)
{
	nanosleep(&(struct timespec){ 0, milliseconds * 1000000 }, NULL);
}

/* While a list is under way a query is answered, and a call waits; then a query waits after that call, and sees what it has done. */
static void a_change_waits(void)
{
	static struct text text;
	uint64_t seen = 0, first_kept, recorded;
	struct pidtab_task task;
	pthread_t lister, caller, asker;

	CHECK(open_threads(&shared, 32768, 1, 1, PIDTAB_KEEP_ALL) == PIDTAB_DONE);
	lister = begin_held(lists_shared, &text);
	asks_shared(&seen);
	CHECK(seen == 1 && pidtab_stat(&shared, 1, 0, &task) == PIDTAB_DONE);
	CHECK(pidtab_counts(&shared, &first_kept, &recorded) == PIDTAB_DONE && recorded == 0);
	CHECK(pthread_create(&caller, NULL, calls_shared, NULL) == 0);
	while (__atomic_load_n(&threads_of(&shared)->queries, __ATOMIC_RELAXED) == 1)
		rest(50);
	CHECK(pthread_create(&asker, NULL, asks_shared, &seen) == 0);
	rest(50);
	CHECK(calls_made == 0 && queries_made == 1);
	end_held(lister);
	CHECK(pthread_join(caller, NULL) == 0 && pthread_join(asker, NULL) == 0);
	CHECK(calls_made == 1 && queries_made == 2 && seen == 2);
	CHECK(strncmp(text.bytes, "task 1 ", 7) == 0 && !strstr(text.bytes, "\ntask 2 "));
	pidtab_close(&shared);
}

#define READERS 16
#define ROUNDS 500

static atomic_bool is_over;

/* Children that end with the status 7 and are waited for: a reader sees one task or two, and a child that has ended only so. */
static void *reads(void *at)
{
	struct text *text = at;
	struct pidtab_reply reply;
	struct pidtab_task task;
	struct pidtab_entry entry;
	uint64_t first_kept, recorded, before = 0;
	size_t count;

	while (!is_over) {
		CHECK(pidtab_ask(&shared, &count_all, &reply) == PIDTAB_DONE && (reply.first == 1 || reply.first == 2));
		CHECK(pidtab_stat(&shared, 1, 0, &task) == PIDTAB_DONE && task.error == 0 && task.levels[0] == 1);
		CHECK(pidtab_counts(&shared, &first_kept, &recorded) == PIDTAB_DONE && recorded >= before);
		before = recorded;
		if (recorded > 0)
			CHECK(pidtab_read(&shared, recorded - 1, &entry, 1, &count) == PIDTAB_DONE && count == 1 && entry.worker == 0);
		CHECK(pidtab_list(&shared, text->bytes, sizeof text->bytes, &text->size) == PIDTAB_DONE && text->bytes[text->size - 1] == '\n');
		queries_made += 5;
		rest(1);
	}
	return NULL;
}

static void made(struct pidtab_call call)
{
	struct pidtab_reply reply;
	uint64_t ordinal;
	CHECK(pidtab_call_by(&shared, 0, &call, &reply, &ordinal) == PIDTAB_DONE && reply.kind != PIDTAB_REFUSED);
}

/* The writer comes to its end beside queries. */
static void many_beside_a_writer(void)
{
	pthread_t readers[READERS];
	struct text *texts = calloc(READERS, sizeof *texts);
	struct pidtab_reply reply;
	uint64_t ordinal;

	CHECK(texts && open_threads(&shared, 32768, 1, 1, PIDTAB_KEEP_ALL) == PIDTAB_DONE);
	queries_made = 0;
	for (int i = 0; i < READERS; i++)
		CHECK(pthread_create(&readers[i], NULL, reads, &texts[i]) == 0);
	while (queries_made < 5 * READERS)
		rest(1);
	for (uint64_t i = 0; i < ROUNDS; i++) {
		CHECK(pidtab_call_by(&shared, 0, &fork_1, &reply, &ordinal) == PIDTAB_DONE && ordinal == 3 * i);
		made((struct pidtab_call){ .operation = PIDTAB_EXIT, .caller = (uint32_t)reply.second, .number = 7 });
		made((struct pidtab_call){ .operation = PIDTAB_WAIT, .caller = 1 });
	}
	is_over = true;
	for (int i = 0; i < READERS; i++)
		CHECK(pthread_join(readers[i], NULL) == 0);
	CHECK(threads_of(&shared)->queries == 0);
	pidtab_close(&shared);
	free(texts);
}

int main(void)
{
	/* What waits for ever is found too. */
	alarm(300);
	make_heap();
	none_writes_to_the_table();
	is_plain = true;
	a_change_waits();
	many_beside_a_writer();
	return 0;
}

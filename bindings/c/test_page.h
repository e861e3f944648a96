/* What a page of numbers has told, for tests that compare it. A test takes this in after test_text.h. */
#define MOST 400

static struct pidtab_reply blank(void)
{
	struct pidtab_reply reply;

	memset(&reply, 0x55, sizeof reply);
	return reply;
}

/* What a page writes into, and the reply beside it. */
struct page {
	uint32_t numbers[MOST];
	struct pidtab_reply reply;
};

static void clear(struct page *it)
{
	memset(it->numbers, 0x55, sizeof it->numbers);
	it->reply = blank();
}

/* The numbers from a place on are as they were. */
static bool is_rest_untold(const struct page *it, size_t place)
{
	while (place < MOST && it->numbers[place] == 0x55555555)
		place++;
	return place == MOST;
}

static void is_untold(const struct page *it)
{
	struct pidtab_reply was = blank();

	CHECK(is_rest_untold(it, 0) && is_same_reply(&it->reply, &was));
}

/* All that belong to the number from one on are these, of which as many were told as there was room for, and one more counted where there are more. */
static void has_told(const struct page *it, size_t room, const uint32_t *wanted, size_t count)
{
	size_t told = count < room ? count : room;
	struct pidtab_reply reply = { .kind = PIDTAB_COUNTED, .first = told + (count > room) };

	CHECK(is_same_reply(&it->reply, &reply));
	CHECK(memcmp(it->numbers, wanted, told * sizeof *wanted) == 0 && is_rest_untold(it, told));
}

/* A function that writes a page of what is asked for, from one number on, and answers a status. */
typedef uint32_t read_page(const void *asked, uint32_t from, struct page *it, size_t room);

static void page_has(read_page *read, const void *asked, uint32_t from, size_t room, const uint32_t *wanted, size_t count)
{
	struct page it;

	clear(&it);
	CHECK(read(asked, from, &it, room) == PIDTAB_DONE);
	has_told(&it, room, wanted, count);
}

/* These are told, from each number on, with each room, and one page after another. */
static void pages_have(read_page *read, const void *asked, const uint32_t *wanted, size_t count)
{
	for (size_t behind = 0; behind <= count; behind++)
		for (size_t room = 0; room <= count + 2; room++) {
			page_has(read, asked, behind == 0 ? 0 : wanted[behind - 1] + 1, room, wanted + behind, count - behind);
			if (behind < count)
				page_has(read, asked, wanted[behind], room, wanted + behind, count - behind);
		}
	page_has(read, asked, UINT32_MAX, MOST, wanted, 0);
}

/* Each allocation finds no memory in turn: then nothing is told. Else all are. */
static void pages_want_memory(read_page *read, const void *asked, size_t room, const uint32_t *wanted, size_t count)
{
	uint32_t status = PIDTAB_NO_MEMORY;
	struct page it;
	int at = 1;

	for (; status != PIDTAB_DONE; at++) {
		clear(&it);
		refuse_at = at;
		status = read(asked, 0, &it, room);
		refuse_at = 0;
		CHECK(status == PIDTAB_DONE || status == PIDTAB_NO_MEMORY);
		if (status == PIDTAB_NO_MEMORY)
			is_untold(&it);
	}
	CHECK(at > 2);
	has_told(&it, room, wanted, count);
}

static struct pidtab_task read_task(uint32_t caller, uint32_t number)
{
	struct pidtab_task task;

	CHECK(pidtab_stat(&table, caller, number, &task) == PIDTAB_DONE && task.error == 0);
	return task;
}

/* Whether a task is one of those that are asked for, as the caller sees it. */
typedef bool is_asked_for(const void *asked, const struct pidtab_task *seen);

/* Those of all tasks from one number on that the caller sees. */
static size_t search(uint32_t caller, uint32_t from, is_asked_for *is_one, const void *asked, uint32_t *found)
{
	struct pidtab_call next = { .operation = PIDTAB_NEXT, .caller = caller, .choice = PIDTAB_TASKS, .number = from };
	struct pidtab_reply reply;
	size_t count = 0;

	while (pidtab_ask(&table, &next, &reply) == PIDTAB_DONE && reply.kind == PIDTAB_NUMBER) {
		struct pidtab_task seen = read_task(caller, (uint32_t)reply.first);

		next.number = (uint32_t)reply.first + 1;
		if (is_one(asked, &seen) && count < MOST)
			found[count++] = (uint32_t)reply.first;
	}
	CHECK(reply.kind == PIDTAB_END);
	return count;
}

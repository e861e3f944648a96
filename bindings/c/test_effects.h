/* What a call has told of what it did, for tests that compare it. A test takes this in after test_text.h. */
#define MOST 700

/* A room for effects, and what is told beside them. */
struct told {
	struct pidtab_effect effects[MOST];
	struct pidtab_reply reply;
	uint64_t count, ordinal;
};

static const uint64_t UNTOLD = 0x5555555555555555;

static void clear(struct told *it)
{
	memset(it, 0x55, sizeof *it);
}

/* The effects from a place on are as they were. */
static bool is_rest_untold(const struct told *it, size_t place)
{
	struct told was;

	clear(&was);
	return memcmp(it->effects + place, was.effects + place, (MOST - place) * sizeof was.effects[0]) == 0;
}

/* Nothing is told but the count. */
static void is_untold(const struct told *it, uint64_t count)
{
	struct told was;

	clear(&was);
	CHECK(it->count == count && is_rest_untold(it, 0) && is_same_reply(&it->reply, &was.reply));
}

static uint32_t make(struct told *it, const struct pidtab_call *call, size_t room)
{
	clear(it);
	return pidtab_call_told(&table, call, &it->reply, it->effects, room, &it->count);
}

#define ENDED(number, value) { PIDTAB_TASK_ENDED, number, value }
#define KILLED(number) ENDED(number, PIDTAB_KILLED)
#define ADOPTED(number, value) { PIDTAB_TASK_ADOPTED, number, value }
#define GONE(number) { PIDTAB_TASK_GONE, number, 0 }
#define GROUP_GONE(number) { PIDTAB_GROUP_GONE, number, 0 }
#define SESSION_GONE(number) { PIDTAB_SESSION_GONE, number, 0 }
#define FELL(id) { PIDTAB_SPACE_FELL, 0, id }
#define SPACE_GONE(id) { PIDTAB_SPACE_GONE, 0, id }

static struct pidtab_call exit_of(uint32_t caller, uint32_t status)
{
	return (struct pidtab_call){ .operation = PIDTAB_EXIT, .caller = caller, .number = status };
}

static const struct pidtab_call wait_1 = { .operation = PIDTAB_WAIT, .caller = 1, .choice = PIDTAB_ANY };

static void close_table(void)
{
	CHECK(pidtab_close(&table) == PIDTAB_DONE);
}

/* Tests of calls that tell what they did, by hand. */
#include "test.h"
#include "test_heap.h"
#include "test_text.h"
#include "test_effects.h"

#include <pthread.h>

#define MANY 300
#define WORKERS 4
#define ROUNDS 200
#define INSIDE 5
/* The room for the end of a namespace with so many: two for each task, one for the group and the session of all, and two for the namespace. */
#define TAKEN (2 * (1 + INSIDE) + 4)

static void status_is(const struct pidtab_call *call, size_t room, uint32_t status)
{
	struct told it;

	CHECK(make(&it, call, room) == status);
	is_untold(&it, UNTOLD);
}

/* With each room that is shorter the call is not made, and tells the room that it takes. */
static void takes_room(const struct pidtab_call *call, size_t most)
{
	size_t size = text_of(texts[0]);
	struct told it;

	for (size_t room = 0; room < most; room++) {
		CHECK(make(&it, call, room) == PIDTAB_NO_ROOM);
		is_untold(&it, most);
	}
	CHECK(text_of(texts[1]) == size && memcmp(texts[0], texts[1], size) == 0);
}

/* The call takes so much room. In that it has these effects, and the reply that was foretold. */
static void has_effects(struct pidtab_call call, size_t most, const struct pidtab_effect *wanted, size_t count)
{
	struct pidtab_reply foretold;
	struct told it;

	takes_room(&call, most);
	CHECK(pidtab_would(&table, &call, &foretold) == PIDTAB_DONE);
	CHECK(make(&it, &call, most) == PIDTAB_DONE && is_same_reply(&it.reply, &foretold));
	CHECK(it.count == count && memcmp(it.effects, wanted, count * sizeof *wanted) == 0 && is_rest_untold(&it, count));
}

#define HAS(call, most, ...) \
	has_effects(call, most, (const struct pidtab_effect[]){ __VA_ARGS__ }, sizeof (struct pidtab_effect[]){ __VA_ARGS__ } / sizeof(struct pidtab_effect))
#define HAS_NONE(call, most) has_effects(call, most, (const struct pidtab_effect[1]){ { 0, 0, 0 } }, 0)

/* The numbers are those of the caller's namespace. */
static struct pidtab_call wait_of(uint32_t caller, uint32_t child)
{
	return (struct pidtab_call){ .operation = PIDTAB_WAIT, .caller = caller, .choice = PIDTAB_CHILD, .number = child };
}

static struct pidtab_call setpgid_of(uint32_t caller, int32_t pid, int32_t pgid)
{
	return (struct pidtab_call){ .operation = PIDTAB_SETPGID, .caller = caller, .pid = pid, .pgid = pgid };
}

static struct pidtab_call setsid_of(uint32_t caller)
{
	return (struct pidtab_call){ .operation = PIDTAB_SETSID, .caller = caller };
}

/* The child of a fork has the root number. */
struct forked {
	uint32_t caller, new_space, child;
};

static void forks(uint32_t caller, uint32_t new_space, uint32_t child)
{
	uint32_t root = 0;

	CHECK(pidtab_fork(&table, caller, new_space, &root) > 0 && root == child);
}

static void open_with(const struct forked *all, size_t count)
{
	CHECK(pidtab_open(&table, 32768) == PIDTAB_DONE);
	for (size_t i = 0; i < count; i++)
		forks(all[i].caller, all[i].new_space, all[i].child);
}

/* Opens a table, and makes these forks in it, the calls 1, 2 and so on: a namespace has the number of its call as id. */
#define OPEN(...) open_with((const struct forked[]){ __VA_ARGS__ }, sizeof (struct forked[]){ __VA_ARGS__ } / sizeof(struct forked))

/* _exit(2): the children go to the init, zombies too. A child of a child stays where it is. */
static void an_exit_hands_on_its_children(void)
{
	OPEN({ 1, 0, 2 }, { 2, 0, 3 }, { 2, 0, 4 }, { 3, 0, 5 });
	HAS(exit_of(4, 255), 4, ENDED(4, 255));
	HAS(exit_of(2, 9), 8, ENDED(2, 9), ADOPTED(3, 1), ADOPTED(4, 1));
	HAS(exit_of(3, 0), 6, ENDED(3, 0), ADOPTED(5, 1));
	HAS(wait_1, 4, GONE(2));
	HAS(wait_1, 4, GONE(3));
	HAS(wait_1, 4, GONE(4));
	HAS_NONE(wait_1, 0);
	close_table();
}

/* PR_SET_CHILD_SUBREAPER(2const): the nearest living ancestor that is one takes them, and none that is one no more. */
static void a_subreaper_takes_them(void)
{
	OPEN({ 1, 0, 2 }, { 2, 0, 3 }, { 3, 0, 4 }, { 4, 0, 5 }, { 4, 0, 6 }, { 5, 0, 7 });
	CHECK(pidtab_subreaper(&table, 2, 1) == 0);
	HAS(exit_of(4, 1), 8, ENDED(4, 1), ADOPTED(5, 2), ADOPTED(6, 2));
	HAS(exit_of(5, 2), 6, ENDED(5, 2), ADOPTED(7, 2));
	CHECK(pidtab_subreaper(&table, 2, 0) == 0);
	HAS(exit_of(3, 3), 6, ENDED(3, 3), ADOPTED(4, 1));
	CHECK(pidtab_subreaper(&table, 2, 1) == 0);
	HAS(exit_of(2, 4), 12, ENDED(2, 4), ADOPTED(3, 1), ADOPTED(5, 1), ADOPTED(6, 1), ADOPTED(7, 1));
	close_table();
}

/* pid_namespaces(7): the init of the parent's namespace takes them, and no subreaper around that. A child of 6 is in the namespace of 3, and 6 outside. */
static void the_init_of_the_parent_takes_them(void)
{
	OPEN({ 1, 0, 2 });
	CHECK(pidtab_subreaper(&table, 2, 1) == 0);
	forks(2, 1, 3);
	forks(3, 0, 4);
	forks(4, 0, 5);
	HAS(exit_of(4, 1), 8, ENDED(4, 1), ADOPTED(5, 3));
	forks(1, 0, 6);
	CHECK(pidtab_join(&table, 6, 3) == 0);
	forks(6, 0, 7);
	HAS(exit_of(6, 0), 8, ENDED(6, 0), ADOPTED(7, 1));
	close_table();
}

/* 2 is the init of the namespace 1, in which are its child 3 and a zombie, 4. 5, a child of 3, is the init of the namespace 4 in it, and has the child 6.
 * 7 is there too, a child of the root init, who has joined. 8 is outside. */
static void make_nest(void)
{
	OPEN({ 1, 1, 2 }, { 2, 0, 3 }, { 2, 0, 4 }, { 3, 1, 5 }, { 5, 0, 6 });
	HAS(exit_of(4, 7), 6, ENDED(4, 7));
	CHECK(pidtab_join(&table, 1, 5) == 0);
	forks(1, 0, 7);
	CHECK(pidtab_join(&table, 1, 1) == 0);
	forks(1, 0, 8);
}

/* pid_namespaces(7): all in the namespace are killed, and no namespace in it takes a task any more. Whose parent is outside waits for that, and has numbers
 * in both until then. */
static void an_init_ends_all_in_its_namespace(void)
{
	make_nest();
	HAS(exit_of(2, 3), 18, ENDED(2, 3), KILLED(3), GONE(3), GONE(4), KILLED(5), GONE(5), KILLED(6), GONE(6), KILLED(7), FELL(1), FELL(4));
	HAS(wait_of(1, 7), 8, GONE(7), SPACE_GONE(4));
	HAS(wait_of(1, 2), 6, GONE(2), SPACE_GONE(1));
	HAS(exit_of(8, 0), 4, ENDED(8, 0));
	close_table();
}

/* A namespace falls once. */
static void an_inner_init_ends_those_in_its_own(void)
{
	make_nest();
	HAS(exit_of(5, 1), 12, ENDED(5, 1), KILLED(6), GONE(6), KILLED(7), FELL(4));
	/* To 3 it has the number 4. */
	HAS(wait_of(3, 4), 8, GONE(5));
	HAS(exit_of(2, 0), 14, ENDED(2, 0), KILLED(3), GONE(3), GONE(4), FELL(1));
	HAS(wait_of(1, 2), 6, GONE(2));
	HAS(wait_of(1, 7), 8, GONE(7), SPACE_GONE(1), SPACE_GONE(4));
	close_table();
}

/* One that falls with the one around it, and has nobody any more, is gone by the same call. */
static void an_inner_namespace_falls_and_goes(void)
{
	OPEN({ 1, 1, 2 }, { 2, 1, 3 }, { 3, 1, 4 }, { 1, 1, 5 });
	HAS(exit_of(2, 0), 14, ENDED(2, 0), KILLED(3), GONE(3), KILLED(4), GONE(4), FELL(1), FELL(2), SPACE_GONE(2), FELL(3), SPACE_GONE(3));
	HAS(exit_of(5, 0), 6, ENDED(5, 0), FELL(4));
	HAS(wait_1, 6, GONE(2), SPACE_GONE(1));
	HAS(wait_1, 6, GONE(5), SPACE_GONE(4));
	close_table();
}

/* waitpid(2): who is reaped is gone, by its root number, and nobody where none has ended. The wait of 1 is the first call, so the namespace has the id 3. */
static void a_wait_takes_one(void)
{
	CHECK(pidtab_open(&table, 32768) == PIDTAB_DONE);
	HAS_NONE(wait_1, 0);
	forks(1, 0, 2);
	forks(1, 1, 3);
	forks(3, 0, 4);
	HAS_NONE(wait_1, 0);
	HAS(exit_of(4, 5), 6, ENDED(4, 5));
	HAS_NONE(wait_of(1, 4), 0);
	HAS(wait_of(3, 2), 6, GONE(4));
	HAS(exit_of(3, 0), 6, ENDED(3, 0), FELL(3));
	HAS(exit_of(2, 0), 4, ENDED(2, 0));
	HAS_NONE(wait_of(9, 2), 0);
	HAS(wait_1, 4, GONE(2));
	HAS(wait_1, 6, GONE(3), SPACE_GONE(3));
	close_table();
}

/* setpgid(2): who goes elsewhere was the last member, or one of several. credentials(7): a zombie is a member, and the leader need not be there. */
static void a_group_goes_with_its_last_member(void)
{
	OPEN({ 1, 0, 2 });
	HAS_NONE(setsid_of(2), 4);
	forks(2, 0, 3);
	forks(2, 0, 4);
	HAS_NONE(setpgid_of(2, 3, 0), 4);
	HAS_NONE(setpgid_of(2, 4, 3), 4);
	HAS_NONE(setpgid_of(2, 3, 2), 4);
	HAS(setpgid_of(2, 4, 4), 4, GROUP_GONE(3));
	/* 3 is in the group 2, and 4 in its own: there are three tasks, two groups and a session. */
	HAS(exit_of(2, 1), 9, ENDED(2, 1), ADOPTED(3, 1), ADOPTED(4, 1));
	HAS(wait_1, 4, GONE(2));
	HAS(exit_of(3, 0), 4, ENDED(3, 0));
	HAS(wait_1, 4, GONE(3), GROUP_GONE(2));
	HAS(exit_of(4, 0), 4, ENDED(4, 0));
	HAS(wait_1, 4, GONE(4), GROUP_GONE(4), SESSION_GONE(2));
	close_table();
}

/* setsid(2): the caller leaves its session and its group. 3 is the last of both, and its child 4 is in the new ones. */
static void a_session_goes_with_its_last_member(void)
{
	OPEN({ 1, 0, 2 });
	HAS_NONE(setsid_of(2), 4);
	forks(2, 0, 3);
	HAS(exit_of(2, 0), 6, ENDED(2, 0), ADOPTED(3, 1));
	HAS(wait_1, 4, GONE(2));
	HAS(setsid_of(3), 4, GROUP_GONE(2), SESSION_GONE(2));
	forks(3, 0, 4);
	HAS_NONE(setsid_of(4), 4);
	/* Of 3 and 4 each leads a group and a session. */
	HAS(exit_of(3, 0), 8, ENDED(3, 0), ADOPTED(4, 1));
	HAS(wait_1, 4, GONE(3), GROUP_GONE(3), SESSION_GONE(3));
	close_table();
}

/* Groups and sessions are by rising numbers, after the tasks. 2, 3 and 5 lead sessions, 4 is in that of 2 and leads a group, and 6 is in both of 5. */
static void groups_and_sessions_go_with_a_namespace(void)
{
	OPEN({ 1, 1, 2 });
	HAS_NONE(setsid_of(2), 6);
	for (uint32_t child = 3; child <= 5; child++)
		forks(2, 0, child);
	/* It has the number 3 in the namespace. */
	HAS_NONE(setpgid_of(2, 3, 3), 6);
	HAS_NONE(setsid_of(5), 6);
	HAS_NONE(setsid_of(3), 6);
	forks(5, 0, 6);
	HAS(exit_of(2, 0), 19, ENDED(2, 0), KILLED(3), GONE(3), KILLED(4), GONE(4), KILLED(5), GONE(5), KILLED(6), GONE(6), GROUP_GONE(3), GROUP_GONE(4), GROUP_GONE(5),
		SESSION_GONE(3), SESSION_GONE(5), FELL(1));
	HAS(wait_1, 6, GONE(2), GROUP_GONE(2), SESSION_GONE(2), SPACE_GONE(1));
	close_table();
}

/* 3 is the init of the namespace 2, and leads a group, into which 2 goes, its parent outside. So the number of the group keeps the namespace when no task is
 * in it any more, until 2 leaves the group. */
static void a_group_keeps_a_namespace(void)
{
	OPEN({ 1, 0, 2 }, { 2, 1, 3 });
	HAS_NONE(setpgid_of(2, 3, 0), 6);
	HAS_NONE(setpgid_of(2, 0, 3), 4);
	HAS(exit_of(3, 0), 6, ENDED(3, 0), FELL(2));
	HAS(wait_of(2, 3), 6, GONE(3));
	HAS(setpgid_of(2, 0, 1), 6, GROUP_GONE(3), SPACE_GONE(2));
	close_table();
}

/* What has no effect, and the room that it takes. */
struct of_groups {
	struct pidtab_call call;
	size_t most;
};

/* The seventh call makes the control group 7. A setpgid and a setsid may touch one: 3 is in a namespace. */
static void others_have_none(void)
{
	static const struct pidtab_call others[] = { { .operation = PIDTAB_FORK, .caller = 1 }, { .operation = PIDTAB_FORK, .caller = 1, .choice = 1 },
		{ .operation = PIDTAB_GETPID, .caller = 2 }, { .operation = PIDTAB_NSPID, .caller = 1, .number = 2 }, { .operation = PIDTAB_EXEC, .caller = 2 },
		{ .operation = PIDTAB_GETPPID, .caller = 2 }, { .operation = PIDTAB_MK }, { .operation = PIDTAB_LIMIT, .id = 7, .choice = 1 },
		{ .operation = PIDTAB_MOVE, .caller = 2 }, { .operation = PIDTAB_RM, .id = 7 }, { .operation = PIDTAB_COUNT },
		{ .operation = PIDTAB_GETPGID, .caller = 2 }, { .operation = PIDTAB_GETSID, .caller = 2 }, { .operation = PIDTAB_NEXT, .caller = 2 },
		{ .operation = PIDTAB_JOIN, .caller = 1, .number = 3 }, { .operation = PIDTAB_SUBREAPER, .caller = 2, .choice = 1 } };
	const struct of_groups of_groups[] = { { setpgid_of(2, 0, 0), 4 }, { setpgid_of(1, 3, 2), 6 }, { setsid_of(3), 6 } };

	CHECK(pidtab_open(&table, 32768) == PIDTAB_DONE);
	for (size_t i = 0; i < sizeof others / sizeof others[0]; i++)
		HAS_NONE(others[i], 0);
	for (size_t i = 0; i < sizeof of_groups / sizeof of_groups[0]; i++)
		HAS_NONE(of_groups[i].call, of_groups[i].most);
	CHECK(pidtab_getpgid(&table, 1, 3) == 3 && pidtab_getpgid(&table, 1, 2) == 2 && pidtab_getsid(&table, 3, 0) == 1);
	/* Refused: there is no 9, and the root init does not exit. */
	HAS_NONE(exit_of(9, 0), 0);
	HAS_NONE(exit_of(1, 0), 0);
	close_table();
}

/* Two stamps are left: a table without a history goes on by the text of one with it. A call that finds no room takes none. */
static void spent(void)
{
	struct pidtab kept = PIDTAB_INIT;
	struct pidtab_fault fault;
	struct pidtab_call exits = exit_of(2, 0);
	size_t size = 0;

	CHECK(open_history(&kept, 32768, UINT64_MAX - 2, 1) == PIDTAB_DONE);
	CHECK(pidtab_dump(&kept, texts[0], sizeof texts[0], &size) == PIDTAB_DONE && pidtab_close(&kept) == PIDTAB_DONE);
	CHECK(pidtab_load(&table, texts[0], size, &fault) == PIDTAB_DONE);
	forks(1, 0, 2);
	HAS(exits, 4, ENDED(2, 0));
	status_is(&exits, MOST, PIDTAB_SPENT);
	status_is(&exits, 0, PIDTAB_SPENT);
	status_is(&(struct pidtab_call){ .operation = 19 }, 0, PIDTAB_OUT_OF_RANGE);
	close_table();
}

static void each_status_of_a_table(void)
{
	static const struct pidtab_call bad[] = { { .operation = 19, .caller = 1 }, { .operation = PIDTAB_FORK, .caller = 1, .choice = 2 },
		{ .operation = PIDTAB_EXIT, .caller = 2, .number = 256 }, { .operation = PIDTAB_WAIT, .caller = 1, .choice = 4 } };
	struct pidtab_call exits = exit_of(2, 0);

	status_is(&exits, MOST, PIDTAB_CLOSED);
	status_is(&bad[0], 0, PIDTAB_CLOSED);
	OPEN({ 1, 0, 2 });
	for (size_t i = 0; i < sizeof bad / sizeof bad[0]; i++) {
		status_is(&bad[i], MOST, PIDTAB_OUT_OF_RANGE);
		status_is(&bad[i], 0, PIDTAB_OUT_OF_RANGE);
	}
	table.in_use = UINT8_MAX;
	status_is(&exits, MOST, PIDTAB_BUSY);
	/* It is made alone, beside no query. */
	table.in_use = 1;
	status_is(&exits, 0, PIDTAB_BUSY);
	table.in_use = 0;
	HAS(exits, 4, ENDED(2, 0));
	close_table();
	status_is(&exits, MOST, PIDTAB_CLOSED);
}

/* Each allocation finds no memory in turn, and nothing is made. At last the call is, and has so many effects. */
static void fails_at_each_allocation(struct pidtab_call call, size_t effects)
{
	size_t size = text_of(texts[0]);
	struct told it;
	int at = 1;

	for (;; at++) {
		uint32_t status;

		refuse_at = at;
		status = make(&it, &call, MOST);
		refuse_at = 0;
		if (status == PIDTAB_DONE)
			break;
		CHECK(status == PIDTAB_NO_MEMORY);
		is_untold(&it, UNTOLD);
		CHECK(text_of(texts[1]) == size && memcmp(texts[0], texts[1], size) == 0);
	}
	CHECK(at > 1 && it.count == effects && is_rest_untold(&it, effects));
}

static void want_of_memory(void)
{
	static const struct pidtab_call gets = { .operation = PIDTAB_GETPID, .caller = 1 };
	struct told it;

	OPEN({ 1, 0, 2 }, { 1, 1, 3 });
	for (uint32_t i = 0; i < MANY; i++) {
		forks(2, 0, 4 + 2 * i);
		forks(3, 0, 5 + 2 * i);
	}
	fails_at_each_allocation(setsid_of(2), 0);
	fails_at_each_allocation(exit_of(2, 1), 1 + MANY);
	/* With the namespace, which falls. */
	fails_at_each_allocation(exit_of(3, 1), 2 + 2 * MANY);
	/* With the group and the session of 2. */
	fails_at_each_allocation(wait_1, 3);
	/* What may touch nobody takes none. */
	refuse_at = 1;
	bytes_asked = 0;
	CHECK(make(&it, &gets, 0) == PIDTAB_DONE && it.count == 0);
	CHECK(refuse_at == 1 && bytes_asked == 0);
	refuse_at = 0;
	close_table();
	OPEN({ 1, 0, 2 });
	fails_at_each_allocation(setpgid_of(2, 0, 0), 0);
	close_table();
}

static struct pidtab kept = PIDTAB_INIT;

static uint32_t make_recorded(struct told *it, uint32_t worker, struct pidtab_call call, size_t room)
{
	clear(it);
	return pidtab_call_told_by(&kept, worker, &call, &it->reply, &it->ordinal, it->effects, room, &it->count);
}

/* Nothing is made, and nothing recorded. */
static void record_status_is(uint32_t worker, struct pidtab_call call, size_t room, uint32_t status)
{
	struct told it;
	uint64_t first_kept, was = 0, recorded = 0;
	uint32_t counted = pidtab_counts(&kept, &first_kept, &was);

	CHECK(make_recorded(&it, worker, call, room) == status && it.ordinal == UNTOLD);
	is_untold(&it, status == PIDTAB_NO_ROOM ? 4 : UNTOLD);
	CHECK(pidtab_counts(&kept, &first_kept, &recorded) == counted && recorded == was);
}

static void open_record(uint64_t first_stamp)
{
	struct pidtab_call fork = { .operation = PIDTAB_FORK, .caller = 1 };
	struct pidtab_reply reply;
	uint64_t ordinal;

	CHECK(open_history(&kept, 32768, first_stamp, 2) == PIDTAB_DONE);
	CHECK(pidtab_call_by(&kept, 0, &fork, &reply, &ordinal) == PIDTAB_DONE && reply.second == 2);
}

static void each_status_of_a_record(void)
{
	const struct pidtab_effect ended = ENDED(2, 6);
	struct pidtab_entry entry;
	struct told it;
	size_t count;

	record_status_is(0, exit_of(2, 6), MOST, PIDTAB_CLOSED);
	open_record(1);
	record_status_is(0, exit_of(2, 256), MOST, PIDTAB_OUT_OF_RANGE);
	record_status_is(2, exit_of(2, 6), 0, PIDTAB_OUT_OF_RANGE);
	record_status_is(0, exit_of(2, 6), 0, PIDTAB_NO_ROOM);
	record_status_is(0, exit_of(2, 6), 3, PIDTAB_NO_ROOM);
	kept.in_use = 1;
	CHECK(make_recorded(&it, 0, exit_of(2, 6), MOST) == PIDTAB_BUSY && it.ordinal == UNTOLD);
	is_untold(&it, UNTOLD);
	kept.in_use = 0;
	CHECK(make_recorded(&it, 1, exit_of(2, 6), 4) == PIDTAB_DONE && it.ordinal == 1 && it.reply.kind == PIDTAB_OK);
	CHECK(it.count == 1 && memcmp(it.effects, &ended, sizeof ended) == 0 && is_rest_untold(&it, 1));
	CHECK(pidtab_read(&kept, 1, &entry, 1, &count) == PIDTAB_DONE && count == 1 && entry.worker == 1 && is_same_reply(&entry.reply, &it.reply));
	CHECK(entry.call.operation == PIDTAB_EXIT && entry.call.caller == 2 && entry.call.number == 6);
	CHECK(pidtab_close(&kept) == PIDTAB_DONE);
	/* One stamp was left, and the fork took it. */
	open_record(UINT64_MAX - 1);
	record_status_is(0, exit_of(2, 6), MOST, PIDTAB_SPENT);
	record_status_is(2, exit_of(2, 6), MOST, PIDTAB_OUT_OF_RANGE);
	CHECK(pidtab_close(&kept) == PIDTAB_DONE);
}

/* Each allocation finds no memory in turn: so many. At last the call is made, and has so many effects. */
static int recorded_at_last(struct pidtab_call call, size_t effects)
{
	struct told it;
	int at = 1;

	for (;; at++) {
		uint32_t status;

		refuse_at = at;
		status = make_recorded(&it, 0, call, MOST);
		refuse_at = 0;
		if (status == PIDTAB_DONE)
			break;
		CHECK(status == PIDTAB_NO_MEMORY && it.ordinal == UNTOLD);
		is_untold(&it, UNTOLD);
	}
	CHECK(it.ordinal != UNTOLD && it.count == effects);
	return at - 1;
}

/* For what a call makes, for its entry, and for its effects. */
static void want_of_memory_for_a_record(void)
{
	uint64_t first_kept, recorded;
	int refused = 0;

	open_record(1);
	for (uint32_t child = 2; child < MANY; child++) {
		refused += recorded_at_last(exit_of(child, 0), 1);
		refused += recorded_at_last(wait_1, 1);
		refused += recorded_at_last((struct pidtab_call){ .operation = PIDTAB_FORK, .caller = 1 }, 0);
	}
	CHECK(refused > MANY);
	CHECK(pidtab_counts(&kept, &first_kept, &recorded) == PIDTAB_DONE && recorded == 3 * (MANY - 2) + 1);
	CHECK(pidtab_close(&kept) == PIDTAB_DONE);
}

static struct pidtab shared;

static uint32_t share(struct told *it, uint32_t worker, struct pidtab_call call, size_t room)
{
	clear(it);
	return pidtab_call_told_by(&shared, worker, &call, &it->reply, &it->ordinal, it->effects, room, &it->count);
}

/* A fork that has no effects. The id of a new namespace is the stamp of the fork: the first call has 1, and the ordinal 0. */
static uint32_t share_fork(uint32_t worker, uint32_t caller, uint64_t *new_space)
{
	struct told it;

	CHECK(share(&it, worker, (struct pidtab_call){ .operation = PIDTAB_FORK, .caller = caller, .choice = new_space != NULL }, 0) == PIDTAB_DONE);
	CHECK(it.reply.kind == PIDTAB_FORKED && it.count == 0);
	if (new_space != NULL)
		*new_space = it.ordinal + 1;
	return (uint32_t)it.reply.second;
}

/* Each makes a namespace, and ends it: all in it are told, and nobody of another thread. */
static void *ends_namespaces(void *unused)
{
	uint32_t worker;

	CHECK(unused == NULL && pidtab_seat(&shared, &worker) == PIDTAB_DONE);
	for (int round = 0; round < ROUNDS; round++) {
		struct pidtab_effect wanted[2 + 2 * INSIDE], waited[2];
		uint64_t space;
		uint32_t init = share_fork(worker, 1, &space);
		struct told it;

		wanted[0] = (struct pidtab_effect)ENDED(init, 3);
		for (int i = 0; i < INSIDE; i++) {
			uint32_t child = share_fork(worker, init, NULL);

			wanted[1 + 2 * i] = (struct pidtab_effect)KILLED(child);
			wanted[2 + 2 * i] = (struct pidtab_effect)GONE(child);
		}
		wanted[1 + 2 * INSIDE] = (struct pidtab_effect)FELL(space);
		CHECK(share(&it, worker, exit_of(init, 3), TAKEN - 1) == PIDTAB_NO_ROOM && it.count == TAKEN);
		CHECK(share(&it, worker, exit_of(init, 3), MOST) == PIDTAB_DONE && it.count == 2 + 2 * INSIDE && is_rest_untold(&it, 2 + 2 * INSIDE));
		CHECK(memcmp(it.effects, wanted, sizeof wanted) == 0);
		waited[0] = (struct pidtab_effect)GONE(init);
		waited[1] = (struct pidtab_effect)SPACE_GONE(space);
		CHECK(share(&it, worker, wait_of(1, init), 6) == PIDTAB_DONE && it.count == 2 && memcmp(it.effects, waited, sizeof waited) == 0);
	}
	return NULL;
}

static void threads_end_namespaces(void)
{
	static const struct pidtab_call count_all = { .operation = PIDTAB_COUNT };
	uint64_t first_kept, recorded;
	pthread_t threads[WORKERS];
	struct pidtab_reply reply;
	struct told it;

	CHECK(open_threads(&shared, 32768, 1, WORKERS, 10) == PIDTAB_DONE);
	CHECK(share(&it, WORKERS, wait_1, MOST) == PIDTAB_OUT_OF_RANGE);
	is_untold(&it, UNTOLD);
	for (int i = 0; i < WORKERS; i++)
		CHECK(pthread_create(&threads[i], NULL, ends_namespaces, NULL) == 0);
	for (int i = 0; i < WORKERS; i++)
		CHECK(pthread_join(threads[i], NULL) == 0);
	/* None that found no room was recorded, and no more are kept than may be. */
	CHECK(pidtab_counts(&shared, &first_kept, &recorded) == PIDTAB_DONE && recorded == WORKERS * ROUNDS * (INSIDE + 3) && first_kept == recorded - 10);
	CHECK(pidtab_ask(&shared, &count_all, &reply) == PIDTAB_DONE && reply.first == 1);
	pidtab_close(&shared);
}

int main(void)
{
	an_exit_hands_on_its_children();
	a_subreaper_takes_them();
	the_init_of_the_parent_takes_them();
	an_init_ends_all_in_its_namespace();
	an_inner_init_ends_those_in_its_own();
	an_inner_namespace_falls_and_goes();
	a_wait_takes_one();
	a_group_goes_with_its_last_member();
	a_session_goes_with_its_last_member();
	groups_and_sessions_go_with_a_namespace();
	a_group_keeps_a_namespace();
	others_have_none();
	spent();
	each_status_of_a_table();
	want_of_memory();
	each_status_of_a_record();
	want_of_memory_for_a_record();
	threads_end_namespaces();
	return 0;
}

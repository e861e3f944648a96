/* Tests of the live tasks of a control group: by hand, and beside a search that reads each task by itself. */
#include "test.h"
#include "test_heap.h"
#include "test_tasks.h"
#include "test_page.h"

#include <errno.h>

#define TABLES 20
#define CALLS 2000
#define GROUPS 6
#define CHILDREN 100

/* What a page is asked for. */
struct asked {
	uint32_t caller;
	uint64_t control;
};

static uint32_t read_asked(const void *asked, uint32_t from, struct page *it, size_t room)
{
	const struct asked *of = asked;

	return pidtab_control_tasks(&table, of->caller, of->control, from, it->numbers, room, &it->reply);
}

/* The control group has these, as the caller sees them. */
static void are_in(uint64_t control, uint32_t caller, const uint32_t *wanted, size_t count)
{
	pages_have(read_asked, &(struct asked){ caller, control }, wanted, count);
}

#define ARE_IN(control, caller, ...) are_in(control, caller, (const uint32_t[]){ __VA_ARGS__ }, sizeof (uint32_t[]){ __VA_ARGS__ } / sizeof(uint32_t))
#define NOBODY_IN(control, caller) are_in(control, caller, (const uint32_t[1]){ 0 }, 0)

static void is_refused(uint32_t caller, uint64_t control, uint32_t refusal)
{
	struct pidtab_reply refused = { .kind = PIDTAB_REFUSED, .error = refusal == PIDTAB_NO_CALLER ? ESRCH : ENOENT, .refusal = refusal };
	struct page it;

	clear(&it);
	CHECK(read_asked(&(struct asked){ caller, control }, 0, &it, MOST) == PIDTAB_DONE);
	CHECK(is_same_reply(&it.reply, &refused) && is_rest_untold(&it, 0));
}

/* The control group 2 is in 1, and 1 in the root. 3 is the init of the namespace 4, in which is its child 4, with the number 2. 2 and 4 are in the control
 * group 1, 5 in 2, and 1 and 3 in the root. */
static void make_tasks(void)
{
	CHECK(pidtab_open(&table, 32768) == PIDTAB_DONE);
	CHECK(pidtab_mk(&table, 0) == 1 && pidtab_mk(&table, 1) == 2);
	CHECK(pidtab_fork(&table, 1, 0, NULL) == 2 && pidtab_fork(&table, 1, 1, NULL) == 3 && pidtab_fork(&table, 3, 0, NULL) == 2);
	CHECK(pidtab_fork(&table, 2, 0, NULL) == 5);
	CHECK(pidtab_move(&table, 2, 1) == 0 && pidtab_move(&table, 4, 1) == 0 && pidtab_move(&table, 5, 2) == 0);
}

/* cgroup-v2.rst: cgroup.procs has the processes of its own cgroup, and none of those below it. pid_namespaces(7): a process sees the processes of its
 * namespace and of those inside it, by their numbers there. */
static void each_group(void)
{
	make_tasks();
	for (uint32_t caller = 1; caller < 3; caller++) {
		ARE_IN(0, caller, 1, 3);
		ARE_IN(1, caller, 2, 4);
		ARE_IN(2, caller, 5);
	}
	for (uint32_t caller = 3; caller < 5; caller++) {
		ARE_IN(0, caller, 1);
		ARE_IN(1, caller, 2);
		NOBODY_IN(2, caller);
	}
	CHECK(pidtab_close(&table) == PIDTAB_DONE);
}

/* clone(2): a child begins in the cgroup of its parent. A write of a PID into cgroup.procs moves that process alone. */
static void by_forks_and_moves(void)
{
	make_tasks();
	CHECK(pidtab_fork(&table, 2, 0, NULL) == 6);
	ARE_IN(1, 1, 2, 4, 6);
	CHECK(pidtab_move(&table, 2, 2) == 0);
	ARE_IN(1, 1, 4, 6);
	ARE_IN(2, 1, 2, 5);
	CHECK(pidtab_move(&table, 2, 2) == 0 && pidtab_move(&table, 6, 0) == 0);
	ARE_IN(0, 1, 1, 3, 6);
	ARE_IN(1, 1, 4);
	ARE_IN(2, 1, 2, 5);
	/* 5 goes there and back. */
	CHECK(pidtab_move(&table, 5, 0) == 0 && pidtab_move(&table, 5, 2) == 0);
	ARE_IN(2, 2, 2, 5);
	CHECK(pidtab_close(&table) == PIDTAB_DONE);
}

/* cgroup-v2.rst: a zombie process does not appear in cgroup.procs. It counts, until it is reaped. */
static void zombies_are_in_none(void)
{
	make_tasks();
	CHECK(pidtab_exit(&table, 5, 0) == 0 && pidtab_count(&table, 2) == 1);
	NOBODY_IN(2, 1);
	is_refused(5, 2, PIDTAB_NO_CALLER);
	CHECK(pidtab_wait(&table, 2, PIDTAB_ANY, 0, NULL) == 5 && pidtab_count(&table, 2) == 0);
	NOBODY_IN(2, 1);
	/* All of the namespace of 3 end with it. 3 waits to be reaped, and its child is gone. */
	CHECK(pidtab_exit(&table, 3, 0) == 0 && pidtab_count(&table, 1) == 1);
	ARE_IN(0, 1, 1);
	ARE_IN(1, 1, 2);
	CHECK(pidtab_close(&table) == PIDTAB_DONE);
}

/* A group that is removed is there no more, and its id comes not again. The caller is looked for first. */
static void refusals_in_their_order(void)
{
	make_tasks();
	is_refused(0, 0, PIDTAB_NO_CALLER);
	is_refused(6, 1, PIDTAB_NO_CALLER);
	is_refused(UINT32_MAX, 99, PIDTAB_NO_CALLER);
	/* 4 is the id of a namespace, and 10 that of the next call. */
	is_refused(1, 4, PIDTAB_NO_CONTROL);
	is_refused(1, 10, PIDTAB_NO_CONTROL);
	is_refused(3, UINT64_MAX, PIDTAB_NO_CONTROL);
	is_refused(1, 1ull << 32, PIDTAB_NO_CONTROL);
	CHECK(pidtab_mk(&table, 1) == 10);
	NOBODY_IN(10, 1);
	CHECK(pidtab_move(&table, 2, 10) == 0);
	ARE_IN(10, 1, 2);
	CHECK(pidtab_move(&table, 2, 0) == 0 && pidtab_rm(&table, 10) == 0);
	is_refused(1, 10, PIDTAB_NO_CONTROL);
	CHECK(pidtab_mk(&table, 1) == 14);
	is_refused(1, 10, PIDTAB_NO_CONTROL);
	NOBODY_IN(14, 1);
	CHECK(pidtab_close(&table) == PIDTAB_DONE);
}

static void status_is(uint32_t caller, uint64_t control, uint32_t status)
{
	struct page it;

	clear(&it);
	CHECK(read_asked(&(struct asked){ caller, control }, 0, &it, MOST) == status);
	is_untold(&it);
}

static void each_status_of_a_table(void)
{
	status_is(1, 0, PIDTAB_CLOSED);
	status_is(9, 99, PIDTAB_CLOSED);
	make_tasks();
	table.in_use = UINT8_MAX;
	status_is(1, 0, PIDTAB_BUSY);
	/* It is told beside other queries. */
	table.in_use = 1;
	ARE_IN(1, 1, 2, 4);
	CHECK(table.in_use == 1);
	table.in_use = 0;
	CHECK(pidtab_close(&table) == PIDTAB_DONE);
	status_is(1, 0, PIDTAB_CLOSED);
}

static void want_of_memory(void)
{
	uint32_t all[CHILDREN + 1] = { 1 };
	size_t size;

	CHECK(pidtab_open(&table, 32768) == PIDTAB_DONE);
	for (uint32_t i = 1; i <= CHILDREN; i++)
		CHECK(pidtab_fork(&table, 1, 0, NULL) == i + 1 && (all[i] = i + 1) == i + 1);
	size = text_of(texts[0]);
	for (size_t room = 0; room <= MOST; room += MOST / 2)
		pages_want_memory(read_asked, &(struct asked){ 1, 0 }, room, all, CHILDREN + 1);
	CHECK(text_of(texts[1]) == size && memcmp(texts[0], texts[1], size) == 0);
	CHECK(pidtab_close(&table) == PIDTAB_DONE);
}

static bool lives_in(const void *asked, const struct pidtab_task *seen)
{
	const struct asked *of = asked;

	return seen->control == of->control && !seen->ended;
}

/* The control groups that were made. One that was removed has its id no more. */
static uint64_t groups[GROUPS];

static void make_random_call(void)
{
	static const uint32_t operations[] = { PIDTAB_FORK, PIDTAB_FORK, PIDTAB_FORK, PIDTAB_MOVE, PIDTAB_MOVE, PIDTAB_EXIT, PIDTAB_WAIT, PIDTAB_JOIN, PIDTAB_MK, PIDTAB_RM };
	uint32_t operation = operations[random_below(sizeof operations / sizeof operations[0])], caller = random_task();
	struct pidtab_call call = { .operation = operation, .caller = caller, .id = groups[random_below(GROUPS)], .number = operation == PIDTAB_JOIN ? random_number(caller) : 0,
		.choice = operation == PIDTAB_WAIT ? (uint32_t)PIDTAB_ANY : operation == PIDTAB_FORK && random_below(8) == 0 };
	struct pidtab_reply reply;

	CHECK(pidtab_call(&table, &call, &reply) == PIDTAB_DONE);
	if (reply.kind == PIDTAB_CONTROL)
		groups[1 + random_below(GROUPS - 1)] = reply.first;
	if (reply.kind == PIDTAB_FORKED)
		hold_forked(&reply, 2);
}

/* What was met: several in one that is not the root, as a task of another namespace sees them, fewer than its count, cut short, and a group that is not there. */
static int several, nested, fewer, short_of_room, no_group;

static void compare_random_page(void)
{
	uint32_t caller = random_task(), from = random_below(2) * random_below(100), wanted[MOST];
	uint64_t control = groups[random_below(GROUPS)];
	const struct asked asked = { caller, control };
	int64_t counted = pidtab_count(&table, control);
	struct pidtab_task own;
	size_t count, room;

	CHECK(pidtab_stat(&table, caller, 0, &own) == PIDTAB_DONE);
	if (own.error != 0 || counted < 0) {
		is_refused(caller, control, own.error != 0 ? PIDTAB_NO_CALLER : PIDTAB_NO_CONTROL);
		no_group += own.error == 0;
		return;
	}
	count = search(caller, from, lives_in, &asked, wanted);
	room = random_below(2) == 0 ? MOST : random_below((uint32_t)count + 2);
	page_has(read_asked, &asked, from, room, wanted, count);
	several += count > 2 && control != 0;
	nested += count > 0 && own.root != own.levels[0];
	fewer += count > 0 && from == 0 && control != 0 && (int64_t)count < counted;
	short_of_room += room < count;
}

static void are_as_searched(void)
{
	for (int i = 0; i < TABLES; i++) {
		CHECK(pidtab_open(&table, 301) == PIDTAB_DONE);
		hold_none();
		memset(groups, 0, sizeof groups);
		for (int j = 0; j < CALLS; j++) {
			make_random_call();
			if (j % 16 == 0)
				pidtab_join(&table, 1, 1);
			if (j % 2 == 0)
				compare_random_page();
		}
		CHECK(pidtab_close(&table) == PIDTAB_DONE);
	}
	CHECK(several > 50 && nested > 50 && fewer > 50 && short_of_room > 50 && no_group > 50);
}

static struct pidtab kept = PIDTAB_INIT;

static uint32_t read_recorded(const void *asked, uint32_t from, struct page *it, size_t room)
{
	const struct asked *of = asked;

	return pidtab_control_tasks(&kept, of->caller, of->control, from, it->numbers, room, &it->reply);
}

/* The stamps are used up, and a read uses none. */
static void of_a_record(void)
{
	struct pidtab_call fork = { .operation = PIDTAB_FORK, .caller = 1 };
	const struct asked root = { 1, 0 }, nobody = { 1, 7 };
	uint64_t ordinal, first_kept, recorded;
	struct pidtab_reply reply;
	struct page it;

	clear(&it);
	CHECK(read_recorded(&root, 0, &it, MOST) == PIDTAB_CLOSED);
	is_untold(&it);
	CHECK(open_history(&kept, 32768, UINT64_MAX - 1, 1) == PIDTAB_DONE);
	CHECK(pidtab_call_by(&kept, 0, &fork, &reply, &ordinal) == PIDTAB_DONE && pidtab_call_by(&kept, 0, &fork, &reply, &ordinal) == PIDTAB_SPENT);
	pages_have(read_recorded, &root, (const uint32_t[]){ 1, 2 }, 2);
	pages_want_memory(read_recorded, &root, MOST, (const uint32_t[]){ 1, 2 }, 2);
	CHECK(read_recorded(&nobody, 0, &it, MOST) == PIDTAB_DONE && it.reply.kind == PIDTAB_REFUSED && it.reply.refusal == PIDTAB_NO_CONTROL);
	kept.in_use = UINT8_MAX;
	clear(&it);
	CHECK(read_recorded(&root, 0, &it, MOST) == PIDTAB_BUSY);
	is_untold(&it);
	kept.in_use = 0;
	CHECK(pidtab_counts(&kept, &first_kept, &recorded) == PIDTAB_DONE && recorded == 1);
	CHECK(pidtab_close(&kept) == PIDTAB_DONE);
}

int main(void)
{
	each_group();
	by_forks_and_moves();
	zombies_are_in_none();
	refusals_in_their_order();
	each_status_of_a_table();
	want_of_memory();
	are_as_searched();
	of_a_record();
	return 0;
}

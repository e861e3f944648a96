/* Tests of pages: the children of a task, and the members of a process group or of a session, beside a search that reads each task by itself. */
#include "test.h"
#include "test_heap.h"
#include "test_tasks.h"
#include "test_page.h"

#include <errno.h>
#include <pthread.h>

#define TABLES 20
#define CALLS 2000
#define READERS 3
#define FORKS 300
#define CHILDREN 100

/* What a page is asked for. */
struct asked {
	const struct pidtab *table;
	uint32_t caller, whom, number;
};

static uint32_t read_asked(const void *asked, uint32_t from, struct page *it, size_t room)
{
	const struct asked *of = asked;

	return pidtab_page(of->table, of->caller, of->whom, of->number, from, it->numbers, room, &it->reply);
}

/* To the number these belong. */
static void belong(uint32_t caller, uint32_t whom, uint32_t number, const uint32_t *wanted, size_t count)
{
	pages_have(read_asked, &(struct asked){ &table, caller, whom, number }, wanted, count);
}

#define BELONG(caller, whom, number, ...) belong(caller, whom, number, (const uint32_t[]){ __VA_ARGS__ }, sizeof (uint32_t[]){ __VA_ARGS__ } / sizeof(uint32_t))
#define NOBODY(caller, whom, number) belong(caller, whom, number, (const uint32_t[1]){ 0 }, 0)

static void is_refused(uint32_t caller, uint32_t whom)
{
	struct pidtab_reply refused = { .kind = PIDTAB_REFUSED, .error = ESRCH, .refusal = PIDTAB_NO_CALLER };
	struct page it;

	clear(&it);
	CHECK(pidtab_page(&table, caller, whom, 0, 0, it.numbers, MOST, &it.reply) == PIDTAB_DONE);
	CHECK(is_same_reply(&it.reply, &refused) && is_rest_untold(&it, 0));
}

/* 1 has the children 2, 3 and 6. 3 is 1 of a new namespace, its child 4 is 2 there, and the child 5 of that is 3. 2 leads a session, of which are
 * its children 7, a zombie, and 8, which leads a group. 4 leads a session. */
static void make_tasks(void)
{
	CHECK(pidtab_open(&table, 32768) == PIDTAB_DONE);
	CHECK(pidtab_fork(&table, 1, 0, NULL) == 2 && pidtab_fork(&table, 1, 1, NULL) == 3);
	CHECK(pidtab_fork(&table, 3, 0, NULL) == 2 && pidtab_fork(&table, 4, 0, NULL) == 3);
	CHECK(pidtab_fork(&table, 1, 0, NULL) == 6 && pidtab_setsid(&table, 2) == 2 && pidtab_setsid(&table, 4) == 2);
	CHECK(pidtab_fork(&table, 2, 0, NULL) == 7 && pidtab_fork(&table, 2, 0, NULL) == 8);
	CHECK(pidtab_setpgid(&table, 2, 8, 8) == 0 && pidtab_exit(&table, 7, 0) == 0);
}

static void each_kind(void)
{
	make_tasks();
	for (uint32_t itself = 0; itself < 2; itself++) {
		BELONG(1, PIDTAB_CHILDREN, itself, 2, 3, 6);
		BELONG(1, PIDTAB_GROUP_MEMBERS, itself, 1, 3, 5, 6);
		BELONG(1, PIDTAB_SESSION_MEMBERS, itself, 1, 3, 5, 6);
	}
	for (uint32_t itself = 0; itself < 3; itself += 2) {
		BELONG(2, PIDTAB_CHILDREN, itself, 7, 8);
		BELONG(2, PIDTAB_GROUP_MEMBERS, itself, 2, 7);
		BELONG(2, PIDTAB_SESSION_MEMBERS, itself, 2, 7, 8);
	}
	BELONG(1, PIDTAB_CHILDREN, 3, 4);
	BELONG(1, PIDTAB_CHILDREN, 4, 5);
	BELONG(1, PIDTAB_GROUP_MEMBERS, 8, 8);
	BELONG(8, PIDTAB_GROUP_MEMBERS, 0, 8);
	BELONG(8, PIDTAB_SESSION_MEMBERS, 0, 2, 7, 8);
	BELONG(1, PIDTAB_SESSION_MEMBERS, 4, 4);
	/* 8 leads no session, 6 no group, 5 has no child, and of 9 there is none. */
	NOBODY(1, PIDTAB_SESSION_MEMBERS, 8);
	NOBODY(1, PIDTAB_GROUP_MEMBERS, 6);
	NOBODY(1, PIDTAB_CHILDREN, 5);
	for (uint32_t whom = PIDTAB_CHILDREN; whom <= PIDTAB_NAMESPACE_OWN; whom++) {
		NOBODY(1, whom, 9);
		NOBODY(1, whom, UINT32_MAX);
		is_refused(0, whom);
		is_refused(7, whom);
		is_refused(9, whom);
	}
}

/* The namespace of 3 sees neither the group nor the session of 1, in which 3 and 5 are, and their numbers there are its own. */
static void in_a_namespace(void)
{
	BELONG(3, PIDTAB_CHILDREN, 0, 2);
	BELONG(5, PIDTAB_CHILDREN, 1, 2);
	BELONG(3, PIDTAB_CHILDREN, 2, 3);
	NOBODY(3, PIDTAB_CHILDREN, 4);
	BELONG(3, PIDTAB_GROUP_MEMBERS, 0, 1, 3);
	BELONG(5, PIDTAB_SESSION_MEMBERS, 0, 1, 3);
	NOBODY(5, PIDTAB_GROUP_MEMBERS, 1);
	NOBODY(5, PIDTAB_SESSION_MEMBERS, 1);
	BELONG(4, PIDTAB_GROUP_MEMBERS, 0, 2);
	BELONG(5, PIDTAB_GROUP_MEMBERS, 2, 2);
	BELONG(5, PIDTAB_SESSION_MEMBERS, 2, 2);
}

/* 9 is 4 of the namespace of 3, and 1 of a namespace inside it, which falls as it ends, and has it until it is reaped. */
static void of_namespaces(void)
{
	for (uint32_t itself = 0; itself < 3; itself++) {
		BELONG(1, PIDTAB_NAMESPACE_MEMBERS, itself, 1, 2, 3, 4, 5, 6, 7, 8);
		BELONG(1, PIDTAB_NAMESPACE_OWN, itself, 1, 2, 6, 7, 8);
	}
	CHECK(pidtab_fork(&table, 5, 1, NULL) == 4);
	for (uint32_t member = 3; member < 6; member++) {
		BELONG(1, PIDTAB_NAMESPACE_MEMBERS, member, 3, 4, 5, 9);
		BELONG(1, PIDTAB_NAMESPACE_OWN, member, 3, 4, 5);
		BELONG(member, PIDTAB_NAMESPACE_MEMBERS, member - 2, 1, 2, 3, 4);
		BELONG(member, PIDTAB_NAMESPACE_OWN, 0, 1, 2, 3);
		BELONG(member, PIDTAB_NAMESPACE_MEMBERS, 4, 4);
		NOBODY(member, PIDTAB_NAMESPACE_MEMBERS, 5);
	}
	for (uint32_t whom = PIDTAB_NAMESPACE_MEMBERS; whom <= PIDTAB_NAMESPACE_OWN; whom++) {
		BELONG(1, whom, 9, 9);
		BELONG(9, whom, 0, 1);
		NOBODY(9, whom, 2);
	}
	CHECK(pidtab_exit(&table, 9, 0) == 0);
	BELONG(1, PIDTAB_NAMESPACE_OWN, 9, 9);
	CHECK(pidtab_wait(&table, 5, PIDTAB_ANY, 0, NULL) == 4);
	NOBODY(1, PIDTAB_NAMESPACE_MEMBERS, 9);
}

/* After its last child a parent has none. A session stays whose leader was reaped, and so does its number, which no task has any more. */
static void behind_ends(void)
{
	CHECK(pidtab_wait(&table, 2, PIDTAB_ANY, 0, NULL) == 7);
	BELONG(1, PIDTAB_CHILDREN, 2, 8);
	BELONG(1, PIDTAB_GROUP_MEMBERS, 2, 2);
	CHECK(pidtab_exit(&table, 2, 0) == 0);
	BELONG(1, PIDTAB_CHILDREN, 1, 2, 3, 6, 8);
	NOBODY(1, PIDTAB_CHILDREN, 2);
	CHECK(pidtab_wait(&table, 1, PIDTAB_ANY, 0, NULL) == 2);
	BELONG(1, PIDTAB_SESSION_MEMBERS, 2, 8);
	NOBODY(1, PIDTAB_GROUP_MEMBERS, 2);
	/* All of the namespace of 3 end with it, and 3 waits to be reaped. */
	CHECK(pidtab_exit(&table, 3, 0) == 0);
	BELONG(1, PIDTAB_CHILDREN, 0, 3, 6, 8);
	BELONG(1, PIDTAB_GROUP_MEMBERS, 0, 1, 3, 6);
	NOBODY(1, PIDTAB_SESSION_MEMBERS, 4);
	CHECK(pidtab_close(&table) == PIDTAB_DONE);
}

static void status_is(uint32_t whom, uint32_t caller, uint32_t status)
{
	struct page it;

	clear(&it);
	CHECK(pidtab_page(&table, caller, whom, 0, 0, it.numbers, MOST, &it.reply) == status);
	is_untold(&it);
}

static void each_status_of_a_table(void)
{
	status_is(PIDTAB_CHILDREN, 1, PIDTAB_CLOSED);
	status_is(5, 1, PIDTAB_CLOSED);
	CHECK(pidtab_open(&table, 32768) == PIDTAB_DONE);
	status_is(5, 1, PIDTAB_OUT_OF_RANGE);
	status_is(5, 9, PIDTAB_OUT_OF_RANGE);
	status_is(UINT32_MAX, 1, PIDTAB_OUT_OF_RANGE);
	table.in_use = UINT8_MAX;
	status_is(PIDTAB_CHILDREN, 1, PIDTAB_BUSY);
	/* A page is told beside other queries. */
	table.in_use = 1;
	BELONG(1, PIDTAB_SESSION_MEMBERS, 0, 1);
	table.in_use = 0;
	CHECK(pidtab_close(&table) == PIDTAB_DONE);
}

/* Each allocation finds no memory in turn: then nothing is told. Else all are, and nothing has changed. */
static void want_of_memory(void)
{
	uint32_t children[CHILDREN], all[CHILDREN + 1] = { 1 };
	size_t size;

	CHECK(pidtab_open(&table, 32768) == PIDTAB_DONE);
	for (uint32_t i = 0; i < CHILDREN; i++)
		CHECK(pidtab_fork(&table, 1, 0, NULL) == i + 2 && (all[i + 1] = children[i] = i + 2) == i + 2);
	size = text_of(texts[0]);
	for (uint32_t whom = PIDTAB_CHILDREN; whom <= PIDTAB_NAMESPACE_OWN; whom++)
		for (size_t room = 0; room <= MOST; room += MOST / 2) {
			const struct asked asked = { &table, 1, whom, 1 };

			pages_want_memory(read_asked, &asked, room, whom == PIDTAB_CHILDREN ? children : all, whom == PIDTAB_CHILDREN ? CHILDREN : CHILDREN + 1);
		}
	CHECK(text_of(texts[1]) == size && memcmp(texts[0], texts[1], size) == 0);
	CHECK(pidtab_close(&table) == PIDTAB_DONE);
}

/* By the number of its parent, of its group or of its session. */
static uint32_t number_of(const struct pidtab_task *task, uint32_t whom)
{
	return whom == PIDTAB_CHILDREN ? task->parent : whom == PIDTAB_GROUP_MEMBERS ? task->group : task->session;
}

/* Whether the first namespace is the second one, or inside it, as the parents of namespaces say. */
static bool is_within(uint64_t inner, uint64_t outer)
{
	struct pidtab_space space;

	while (inner != outer && inner != 0) {
		CHECK(pidtab_space(&table, inner, &space) == PIDTAB_DONE);
		inner = space.parent;
	}
	return inner == outer;
}

/* Whether the task is in the namespace that the task with the number is in. */
static bool is_in_namespace(const struct pidtab_task *task, uint32_t caller, uint32_t whom, uint32_t number)
{
	struct pidtab_task named;

	CHECK(pidtab_stat(&table, caller, number, &named) == PIDTAB_DONE);
	return named.error == 0 && (whom == PIDTAB_NAMESPACE_OWN ? task->space == named.space : is_within(task->space, named.space));
}

/* Whether the task belongs to the number. The root namespace knows what the caller's own is that it does not see. */
static bool belongs(const void *asked, const struct pidtab_task *seen)
{
	const struct asked *of = asked;
	struct pidtab_task own = read_task(1, of->caller), whole = read_task(1, seen->root);
	uint32_t wanted = of->number != 0 ? of->number : of->whom == PIDTAB_CHILDREN ? of->caller : number_of(&own, of->whom);

	if (of->whom >= PIDTAB_NAMESPACE_MEMBERS)
		return is_in_namespace(&whole, of->caller, of->whom, of->number);
	return number_of(of->number != 0 ? seen : &whole, of->whom) == wanted;
}

static size_t searched(uint32_t caller, uint32_t whom, uint32_t number, uint32_t from, uint32_t *found)
{
	return search(caller, from, belongs, &(struct asked){ &table, caller, whom, number }, found);
}

/* The children of the caller, whose namespace for them has fallen, go into its own again. */
static void goes_home(uint32_t caller)
{
	CHECK(pidtab_join(&table, caller, (uint32_t)pidtab_getpid(&table, caller)) == 0);
}

static void make_random_call(void)
{
	static const uint32_t operations[] = { PIDTAB_FORK, PIDTAB_FORK, PIDTAB_FORK, PIDTAB_FORK, PIDTAB_WAIT, PIDTAB_WAIT, PIDTAB_SETPGID, PIDTAB_SETPGID,
		PIDTAB_SETPGID, PIDTAB_SETSID, PIDTAB_JOIN, PIDTAB_SUBREAPER };
	uint32_t operation = operations[random_below(sizeof operations / sizeof operations[0])], caller = random_task();
	struct pidtab_call call = { .operation = operation, .caller = caller, .number = operation == PIDTAB_JOIN ? random_number(caller) : 0,
		.choice = operation == PIDTAB_WAIT ? (uint32_t)PIDTAB_ANY : random_below(8) == 0, .pid = (int32_t)random_number(caller), .pgid = (int32_t)random_number(caller) };
	struct pidtab_reply reply;

	CHECK(pidtab_call(&table, &call, &reply) == PIDTAB_DONE);
	if (reply.kind == PIDTAB_REFUSED && reply.refusal == PIDTAB_SPACE_FALLEN)
		goes_home(caller);
	if (reply.kind == PIDTAB_FORKED)
		hold_forked(&reply, 3);
}

/* What was met, so that the comparison is none of empty lists: those of several, from within a namespace, of what is not seen there, of a namespace
 * without those inside it, and cut short. */
static int several, nested, unseen, apart, short_of_room;

static void compare_random_page(void)
{
	uint32_t caller = random_task(), whom = random_below(5), number = random_number(caller), from = random_below(2) * random_below(100);
	uint32_t wanted[MOST], others[MOST];
	struct pidtab_task own;
	struct page it;
	size_t count, room;

	CHECK(pidtab_stat(&table, caller, 0, &own) == PIDTAB_DONE);
	if (own.error != 0) {
		is_refused(caller, whom);
		return;
	}
	count = searched(caller, whom, number, from, wanted);
	room = random_below(2) == 0 ? MOST : random_below((uint32_t)count + 2);
	clear(&it);
	CHECK(pidtab_page(&table, caller, whom, number, from, it.numbers, room, &it.reply) == PIDTAB_DONE);
	has_told(&it, room, wanted, count);
	several += count > 2;
	nested += count > 1 && own.root != own.levels[0];
	unseen += count > 0 && number == 0 && whom != PIDTAB_CHILDREN && whom < PIDTAB_NAMESPACE_MEMBERS && number_of(&own, whom) == 0;
	apart += whom == PIDTAB_NAMESPACE_OWN && count > 0 && searched(caller, PIDTAB_NAMESPACE_MEMBERS, number, from, others) > count;
	short_of_room += room < count;
}

static void are_as_searched(void)
{
	for (int i = 0; i < TABLES; i++) {
		CHECK(pidtab_open(&table, 301) == PIDTAB_DONE);
		hold_none();
		for (int j = 0; j < CALLS; j++) {
			make_random_call();
			if (j % 2 == 0)
				compare_random_page();
		}
		CHECK(pidtab_close(&table) == PIDTAB_DONE);
	}
	CHECK(several > 50 && nested > 50 && unseen > 50 && apart > 50 && short_of_room > 50);
}

static void of_a_record(void)
{
	struct pidtab kept = PIDTAB_INIT;
	struct pidtab_call fork = { .operation = PIDTAB_FORK, .caller = 1 };
	uint64_t ordinal, first_kept, recorded;
	struct pidtab_reply reply;
	struct page it;

	clear(&it);
	CHECK(pidtab_page(&kept, 1, PIDTAB_CHILDREN, 0, 0, it.numbers, MOST, &it.reply) == PIDTAB_CLOSED);
	CHECK(open_history(&kept, 32768, UINT64_MAX - 2, 1) == PIDTAB_DONE);
	CHECK(pidtab_page(&kept, 1, 5, 0, 0, it.numbers, MOST, &it.reply) == PIDTAB_OUT_OF_RANGE);
	is_untold(&it);
	CHECK(pidtab_call_by(&kept, 0, &fork, &reply, &ordinal) == PIDTAB_DONE && pidtab_call_by(&kept, 0, &fork, &reply, &ordinal) == PIDTAB_DONE);
	/* The stamps are used up, and a page uses none. */
	CHECK(pidtab_call_by(&kept, 0, &fork, &reply, &ordinal) == PIDTAB_SPENT);
	for (int turn = 0; turn < 2; turn++) {
		clear(&it);
		CHECK(pidtab_page(&kept, 1, PIDTAB_CHILDREN, 0, 0, it.numbers, MOST, &it.reply) == PIDTAB_DONE);
		has_told(&it, MOST, (const uint32_t[]){ 2, 3 }, 2);
		clear(&it);
		refuse_at = 1;
		CHECK(pidtab_page(&kept, 1, PIDTAB_GROUP_MEMBERS, 0, 0, it.numbers, MOST, &it.reply) == PIDTAB_NO_MEMORY);
		CHECK(refuse_at == 0);
		is_untold(&it);
	}
	CHECK(pidtab_page(&kept, 4, PIDTAB_CHILDREN, 0, 0, it.numbers, MOST, &it.reply) == PIDTAB_DONE && it.reply.refusal == PIDTAB_NO_CALLER);
	CHECK(pidtab_counts(&kept, &first_kept, &recorded) == PIDTAB_DONE && recorded == 2);
	CHECK(pidtab_close(&kept) == PIDTAB_DONE);
}

static struct pidtab shared;

/* A page of the children, or of the live tasks of the root control group from 2 on: they are the same. */
static uint32_t read_shared(bool by_control, uint32_t *numbers, size_t room, struct pidtab_reply *reply)
{
	return by_control ? pidtab_control_tasks(&shared, 1, 0, 2, numbers, room, reply)
			  : pidtab_page(&shared, 1, PIDTAB_CHILDREN, 0, 0, numbers, room, reply);
}

/* They are 2, 3, 4 and so on, never fewer than before: what a page tells is of one moment. */
static void *reads_pages(void *unused)
{
	uint32_t numbers[FORKS + 1];
	struct pidtab_reply reply;
	bool by_control = false;

	for (size_t before = 0, room = 0; before < FORKS; room = (room + 13) % (FORKS + 1)) {
		CHECK(unused == NULL && read_shared(by_control, numbers, room, &reply) == PIDTAB_DONE);
		CHECK(reply.kind == PIDTAB_COUNTED && reply.first <= FORKS && reply.first <= room + 1);
		CHECK(reply.first > room || reply.first >= before);
		for (uint32_t i = 0; i < room && i < reply.first; i++)
			CHECK(numbers[i] == i + 2);
		before = reply.first > before ? reply.first : before;
		by_control = !by_control;
	}
	return NULL;
}

static void threads_read_beside_a_writer(void)
{
	struct pidtab_call fork = { .operation = PIDTAB_FORK, .caller = 1 };
	uint64_t ordinal, first_kept, recorded;
	pthread_t readers[READERS];
	struct pidtab_reply reply;
	uint32_t worker;

	CHECK(open_threads(&shared, 32768, 1, 1, 10) == PIDTAB_DONE && pidtab_seat(&shared, &worker) == PIDTAB_DONE);
	for (int i = 0; i < READERS; i++)
		CHECK(pthread_create(&readers[i], NULL, reads_pages, NULL) == 0);
	for (int i = 0; i < FORKS; i++)
		CHECK(pidtab_call_by(&shared, worker, &fork, &reply, &ordinal) == PIDTAB_DONE && reply.kind == PIDTAB_FORKED);
	for (int i = 0; i < READERS; i++)
		CHECK(pthread_join(readers[i], NULL) == 0);
	CHECK(pidtab_counts(&shared, &first_kept, &recorded) == PIDTAB_DONE && recorded == FORKS);
	pidtab_close(&shared);
}

int main(void)
{
	each_kind();
	in_a_namespace();
	of_namespaces();
	behind_ends();
	each_status_of_a_table();
	want_of_memory();
	are_as_searched();
	of_a_record();
	threads_read_beside_a_writer();
	return 0;
}

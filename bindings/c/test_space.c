/* Tests of reads of namespaces, and of what is directly inside one, or inside a control group: by hand, and beside the list. */
#include "test.h"
#include "test_heap.h"
#include "test_tasks.h"

#include <errno.h>
#include <inttypes.h>
#include <pthread.h>

#define TABLES 20
#define CALLS 1000
#define MOST 512
#define READERS 3
#define FORKS 300
#define DEEPEST 32

static struct pidtab_space blank(void)
{
	struct pidtab_space space;

	memset(&space, 0x55, sizeof space);
	return space;
}

/* After the last field is room that has no meaning. */
static bool is_same(const struct pidtab_space *a, const struct pidtab_space *b)
{
	return memcmp(a, b, offsetof(struct pidtab_space, fallen) + sizeof a->fallen) == 0;
}

/* The namespace is so. */
static void is_told(uint64_t id, uint64_t parent, uint32_t level, uint32_t init, uint32_t fallen)
{
	struct pidtab_space wanted = { id, parent, level, init, fallen }, told = blank();

	CHECK(pidtab_space(&table, id, &told) == PIDTAB_DONE && is_same(&told, &wanted));
}

/* Nothing is told. */
static void status_is(uint64_t id, uint32_t status)
{
	struct pidtab_space was = blank(), told = blank();

	CHECK(pidtab_space(&table, id, &told) == status && is_same(&told, &was));
}

static void is_none(uint64_t id)
{
	status_is(id, PIDTAB_OUT_OF_RANGE);
}

/* A room for ids, and what is told of them. */
struct inside {
	uint64_t ids[MOST];
	uint64_t count;
};

static const uint64_t UNTOLD = 0x5555555555555555;

static void clear(struct inside *it)
{
	memset(it, 0x55, sizeof *it);
}

static bool is_rest_untold(const struct inside *it, size_t place)
{
	while (place < MOST && it->ids[place] == UNTOLD)
		place++;
	return place == MOST;
}

/* A page from an id on, with room for so many, has these. One more is counted where there are more. */
static void page_has(uint32_t tree, uint64_t id, uint64_t from, size_t room, const uint64_t *wanted, size_t count)
{
	size_t told = count < room ? count : room;
	struct inside it;

	clear(&it);
	CHECK(pidtab_inside(&table, tree, id, from, it.ids, room, &it.count) == PIDTAB_DONE && it.count == told + (count > room));
	CHECK(memcmp(it.ids, wanted, told * sizeof *wanted) == 0 && is_rest_untold(&it, told));
}

/* These are directly inside, from each id on, with each room, and one page after another. */
static void are_inside(uint32_t tree, uint64_t id, const uint64_t *wanted, size_t count)
{
	for (size_t behind = 0; behind <= count; behind++)
		for (size_t room = 0; room <= count + 2; room++) {
			page_has(tree, id, behind == 0 ? 0 : wanted[behind - 1] + 1, room, wanted + behind, count - behind);
			if (behind < count)
				page_has(tree, id, wanted[behind], room, wanted + behind, count - behind);
		}
	page_has(tree, id, UINT64_MAX, 1, wanted, 0);
}

#define INSIDE(tree, id, ...) are_inside(tree, id, (const uint64_t[]){ __VA_ARGS__ }, sizeof (uint64_t[]){ __VA_ARGS__ } / sizeof(uint64_t))
#define NONE_INSIDE(tree, id) are_inside(tree, id, (const uint64_t[1]){ 0 }, 0)

static void inside_status_is(uint32_t tree, uint64_t id, uint32_t status)
{
	struct inside it;

	clear(&it);
	CHECK(pidtab_inside(&table, tree, id, 0, it.ids, MOST, &it.count) == status && it.count == UNTOLD && is_rest_untold(&it, 0));
}

/* Reaps the child of the root init. */
static void is_reaped(uint32_t child)
{
	CHECK(pidtab_wait(&table, 1, PIDTAB_CHILD, child, NULL) == child);
}

/* What has an id is named by the number of the call that made it. 2 is the init of the namespace 1, in which is 3. A child of that, 4, is the init of 3 there, and
 * a child of 4, 6, that of 6. 5 is the init of 4, beside. */
static void make_nest(void)
{
	uint32_t root = 0;

	CHECK(pidtab_open(&table, 32768) == PIDTAB_DONE);
	CHECK(pidtab_fork(&table, 1, 1, NULL) == 2 && pidtab_fork(&table, 2, 0, &root) == 2 && root == 3);
	CHECK(pidtab_fork(&table, 3, 1, &root) == 3 && root == 4);
	CHECK(pidtab_fork(&table, 1, 1, NULL) == 5 && pidtab_mk(&table, 0) == 5);
	CHECK(pidtab_fork(&table, 4, 1, &root) == 2 && root == 6);
}

static void each_field(void)
{
	CHECK(pidtab_open(&table, 32768) == PIDTAB_DONE);
	is_told(0, 0, 0, 1, 0);
	is_none(1);
	CHECK(pidtab_close(&table) == PIDTAB_DONE);
	make_nest();
	is_told(0, 0, 0, 1, 0);
	is_told(1, 0, 1, 2, 0);
	is_told(3, 1, 2, 4, 0);
	is_told(4, 0, 1, 5, 0);
	is_told(6, 3, 3, 6, 0);
	/* 2 made a task alone, and 5 a control group. 7 is the next id, which a read does not take. */
	is_none(2);
	is_none(5);
	is_none(7);
	is_none(UINT64_MAX);
	is_none(1ull << 32);
	is_none((1ull << 32) + 1);
	CHECK(pidtab_mk(&table, 0) == 7);
	is_none(7);
	CHECK(pidtab_close(&table) == PIDTAB_DONE);
}

/* Of the nest: the namespaces 1 and 4 are in the root, 3 in 1, and 6 in 3. The control groups 7 and 9 are in 5, and 8 in 7. */
static void each_tree(void)
{
	CHECK(pidtab_open(&table, 32768) == PIDTAB_DONE);
	NONE_INSIDE(PIDTAB_SPACES, 0);
	NONE_INSIDE(PIDTAB_CONTROLS, 0);
	CHECK(pidtab_close(&table) == PIDTAB_DONE);
	make_nest();
	CHECK(pidtab_mk(&table, 5) == 7 && pidtab_mk(&table, 7) == 8 && pidtab_mk(&table, 5) == 9);
	INSIDE(PIDTAB_SPACES, 0, 1, 4);
	INSIDE(PIDTAB_SPACES, 1, 3);
	INSIDE(PIDTAB_SPACES, 3, 6);
	NONE_INSIDE(PIDTAB_SPACES, 4);
	NONE_INSIDE(PIDTAB_SPACES, 6);
	INSIDE(PIDTAB_CONTROLS, 0, 5);
	INSIDE(PIDTAB_CONTROLS, 5, 7, 9);
	INSIDE(PIDTAB_CONTROLS, 7, 8);
	NONE_INSIDE(PIDTAB_CONTROLS, 9);
	/* 5 is no namespace, 4 no control group, and 10 is neither. */
	inside_status_is(PIDTAB_SPACES, 5, PIDTAB_OUT_OF_RANGE);
	inside_status_is(PIDTAB_CONTROLS, 4, PIDTAB_OUT_OF_RANGE);
	for (uint32_t tree = PIDTAB_SPACES; tree <= PIDTAB_CONTROLS; tree++) {
		inside_status_is(tree, 10, PIDTAB_OUT_OF_RANGE);
		inside_status_is(tree, UINT64_MAX, PIDTAB_OUT_OF_RANGE);
	}
	CHECK(pidtab_rm(&table, 8) == 0 && pidtab_rm(&table, 7) == 0 && pidtab_exit(&table, 2, 0) == 0);
	INSIDE(PIDTAB_CONTROLS, 5, 9);
	inside_status_is(PIDTAB_CONTROLS, 7, PIDTAB_OUT_OF_RANGE);
	/* 1 has fallen, and is there until its init is reaped. Those in it are gone. */
	INSIDE(PIDTAB_SPACES, 0, 1, 4);
	NONE_INSIDE(PIDTAB_SPACES, 1);
	is_reaped(2);
	INSIDE(PIDTAB_SPACES, 0, 4);
	inside_status_is(PIDTAB_SPACES, 1, PIDTAB_OUT_OF_RANGE);
	CHECK(pidtab_close(&table) == PIDTAB_DONE);
}

/* Each allocation finds no memory in turn: then nothing is told. Else all are, and nothing has changed. */
static void want_of_memory(void)
{
	uint64_t wanted[2][FORKS];
	size_t size;
	struct inside it;

	CHECK(pidtab_open(&table, 32768) == PIDTAB_DONE);
	for (size_t i = 0; i < FORKS; i++) {
		CHECK(pidtab_fork(&table, 1, 1, NULL) > 0 && pidtab_mk(&table, 0) == (int64_t)(2 * i + 2));
		wanted[PIDTAB_SPACES][i] = 2 * i + 1;
		wanted[PIDTAB_CONTROLS][i] = 2 * i + 2;
	}
	size = text_of(texts[0]);
	for (uint32_t tree = PIDTAB_SPACES; tree <= PIDTAB_CONTROLS; tree++) {
		int at = 1;

		for (uint32_t status = PIDTAB_NO_MEMORY; status != PIDTAB_DONE; at++) {
			clear(&it);
			refuse_at = at;
			status = pidtab_inside(&table, tree, 0, 0, it.ids, MOST, &it.count);
			refuse_at = 0;
			CHECK(status == PIDTAB_DONE || (status == PIDTAB_NO_MEMORY && it.count == UNTOLD && is_rest_untold(&it, 0)));
		}
		CHECK(at > 2);
		page_has(tree, 0, 0, MOST, wanted[tree], FORKS);
	}
	CHECK(text_of(texts[1]) == size && memcmp(texts[0], texts[1], size) == 0);
	CHECK(pidtab_close(&table) == PIDTAB_DONE);
}

static void each_level(void)
{
	uint32_t root = 0;

	CHECK(pidtab_open(&table, 32768) == PIDTAB_DONE);
	for (uint32_t level = 1; level <= DEEPEST; level++)
		CHECK(pidtab_fork(&table, level, 1, &root) > 0 && root == level + 1);
	CHECK(pidtab_fork(&table, DEEPEST + 1, 1, NULL) == -ENOSPC);
	is_told(0, 0, 0, 1, 0);
	for (uint32_t level = 1; level <= DEEPEST; level++)
		is_told(level, level - 1, level, level + 1, 0);
	is_none(DEEPEST + 1);
	CHECK(pidtab_close(&table) == PIDTAB_DONE);
}

/* A fallen namespace is there as long as its init is a zombie. Those within it go with all who were in them. */
static void falls_with_its_init(void)
{
	make_nest();
	CHECK(pidtab_exit(&table, 2, 7) == 0);
	is_told(1, 0, 1, 2, 1);
	is_none(3);
	is_none(6);
	is_told(4, 0, 1, 5, 0);
	is_reaped(2);
	is_none(1);
	is_told(4, 0, 1, 5, 0);
	is_told(0, 0, 0, 1, 0);
	CHECK(pidtab_close(&table) == PIDTAB_DONE);
}

/* 7 is in the namespace 3, and a child of the root init, who has joined that. As a zombie it keeps that namespace and the one around it, whose inits are gone:
 * that of 3 went with its parent, who had to reap it. */
static void a_zombie_keeps_it(void)
{
	make_nest();
	CHECK(pidtab_join(&table, 1, 4) == 0 && pidtab_fork(&table, 1, 0, NULL) == 7);
	is_told(3, 1, 2, 4, 0);
	CHECK(pidtab_exit(&table, 2, 0) == 0);
	is_told(1, 0, 1, 2, 1);
	is_told(3, 1, 2, 0, 1);
	is_none(6);
	is_reaped(2);
	is_told(1, 0, 1, 0, 1);
	is_told(3, 1, 2, 0, 1);
	CHECK(pidtab_fork(&table, 1, 0, NULL) == -ENOMEM);
	is_reaped(7);
	is_none(1);
	is_none(3);
	is_told(4, 0, 1, 5, 0);
	CHECK(pidtab_close(&table) == PIDTAB_DONE);
}

/* 2 is the init of the namespace 1, and 4 a child of the root init there. 3, of the root namespace, is in the group of 4. So the number of the group keeps the
 * namespace when no task is in it any more. */
static void a_group_keeps_it(void)
{
	CHECK(pidtab_open(&table, 32768) == PIDTAB_DONE);
	CHECK(pidtab_fork(&table, 1, 1, NULL) == 2 && pidtab_fork(&table, 1, 0, NULL) == 3);
	CHECK(pidtab_join(&table, 1, 2) == 0 && pidtab_fork(&table, 1, 0, NULL) == 4);
	CHECK(pidtab_setpgid(&table, 1, 4, 4) == 0 && pidtab_setpgid(&table, 1, 3, 4) == 0);
	CHECK(pidtab_exit(&table, 2, 0) == 0);
	is_told(1, 0, 1, 2, 1);
	is_reaped(4);
	is_told(1, 0, 1, 2, 1);
	is_reaped(2);
	is_told(1, 0, 1, 0, 1);
	CHECK(pidtab_setpgid(&table, 1, 3, 3) == 0);
	is_none(1);
	CHECK(pidtab_close(&table) == PIDTAB_DONE);
}

/* A read takes no memory, and nothing has changed. */
static void each_status_of_a_table(void)
{
	size_t size;

	status_is(0, PIDTAB_CLOSED);
	status_is(1, PIDTAB_CLOSED);
	inside_status_is(PIDTAB_SPACES, 0, PIDTAB_CLOSED);
	inside_status_is(2, 0, PIDTAB_CLOSED);
	make_nest();
	inside_status_is(2, 0, PIDTAB_OUT_OF_RANGE);
	inside_status_is(UINT32_MAX, 9, PIDTAB_OUT_OF_RANGE);
	size = text_of(texts[0]);
	refuse_at = 1;
	bytes_asked = 0;
	is_told(3, 1, 2, 4, 0);
	is_none(9);
	CHECK(refuse_at == 1 && bytes_asked == 0);
	refuse_at = 0;
	CHECK(text_of(texts[1]) == size && memcmp(texts[0], texts[1], size) == 0);
	table.in_use = UINT8_MAX;
	status_is(0, PIDTAB_BUSY);
	inside_status_is(PIDTAB_CONTROLS, 0, PIDTAB_BUSY);
	/* A namespace is read beside other queries. */
	table.in_use = 1;
	INSIDE(PIDTAB_SPACES, 0, 1, 4);
	is_told(0, 0, 0, 1, 0);
	CHECK(table.in_use == 1);
	table.in_use = 0;
	CHECK(pidtab_close(&table) == PIDTAB_DONE);
	status_is(0, PIDTAB_CLOSED);
}

/* The namespaces of a list, in its order. */
static struct pidtab_space listed[MOST];
static size_t count_listed;

static struct pidtab_space *find_listed(uint64_t id)
{
	size_t place = 0;

	while (place < count_listed && listed[place].id != id)
		place++;
	return place < count_listed ? &listed[place] : NULL;
}

/* `space 4 parent 0 cursor 5 fallen`: a namespace is in one that was listed before. */
static void read_space_line(const char *line)
{
	struct pidtab_space *it = &listed[count_listed];
	int used = 0;

	CHECK(count_listed < MOST);
	*it = (struct pidtab_space){ 0 };
	CHECK(sscanf(line, "space %" SCNu64 " parent%n", &it->id, &used) == 1);
	if (strncmp(line + used, " - ", 3) != 0) {
		CHECK(sscanf(line + used, " %" SCNu64, &it->parent) == 1 && find_listed(it->parent) != NULL);
		it->level = find_listed(it->parent)->level + 1;
	}
	it->fallen = strncmp(strchr(line, '\n') - 7, " fallen", 7) == 0;
	count_listed++;
}

/* `task 5,2,1 space 4 ..`: it is the init of its own namespace if it has the number 1 there. */
static void read_task_line(const char *line)
{
	const char *end = strstr(line, " space ");
	uint64_t id = strtoull(end + 7, NULL, 10);

	if (line[5] == '1' && line[6] == ' ')
		CHECK(id == 0);
	if (end[-1] == '1' && (end[-2] == ',' || end[-2] == ' ')) {
		CHECK(find_listed(id) != NULL);
		find_listed(id)->init = (uint32_t)strtoul(line + 5, NULL, 10);
	}
}

/* The control groups of a list, in its order, each with the one that it is in. */
static struct group {
	uint64_t id, parent;
} groups[MOST];
static size_t count_groups;

/* `control 5 parent 0 limit max count 1`: only the root's has no number. */
static void read_control_line(const char *line)
{
	struct group *it = &groups[count_groups];

	CHECK(count_groups < MOST && sscanf(line, "control %" SCNu64, &it->id) == 1);
	if (sscanf(line, "control %*u parent %" SCNu64, &it->parent) != 1)
		it->parent = UINT64_MAX;
	count_groups++;
}

static void read_lines(const char *word, void (*read)(const char *line))
{
	for (const char *line = texts[0]; *line; line = strchr(line, '\n') + 1)
		if (strncmp(line, word, strlen(word)) == 0)
			read(line);
}

static void read_list(void)
{
	size_t size = 0;

	CHECK(pidtab_list(&table, texts[0], sizeof texts[0] - 1, &size) == PIDTAB_DONE);
	texts[0][size] = 0;
	count_listed = 0;
	count_groups = 0;
	read_lines("space ", read_space_line);
	read_lines("control ", read_control_line);
	read_lines("task ", read_task_line);
}

/* What was met, so that the comparison is none of the root namespace alone. */
static int nested, fallen, kept_by_others, gone, several, groups_inside;

/* The namespaces that the list has in this one. */
static void inside_as_listed(const struct pidtab_space *outer)
{
	uint64_t wanted[MOST];
	size_t count = 0;

	for (size_t i = 0; i < count_listed; i++)
		if (listed[i].parent == outer->id && listed[i].level != 0)
			wanted[count++] = listed[i].id;
	page_has(PIDTAB_SPACES, outer->id, 0, MOST, wanted, count);
	several += count > 1;
}

static void groups_as_listed(uint64_t outer)
{
	uint64_t wanted[MOST];
	size_t count = 0;

	for (size_t i = 0; i < count_groups; i++)
		if (groups[i].parent == outer)
			wanted[count++] = groups[i].id;
	page_has(PIDTAB_CONTROLS, outer, 0, MOST, wanted, count);
	groups_inside += count > 0;
}

static void compare_with_the_list(uint64_t next_id)
{
	read_list();
	for (size_t i = 0; i < count_listed; i++) {
		const struct pidtab_space *it = &listed[i];

		is_told(it->id, it->parent, it->level, it->init, it->fallen);
		inside_as_listed(it);
		nested += it->level > 1;
		fallen += it->fallen && it->init != 0;
		kept_by_others += it->fallen && it->init == 0;
	}
	for (size_t i = 0; i < count_groups; i++)
		groups_as_listed(groups[i].id);
	for (int i = 0; i < 10; i++) {
		uint64_t id = random_below((uint32_t)next_id + 2);

		if (find_listed(id) == NULL) {
			is_none(id);
			inside_status_is(PIDTAB_SPACES, id, PIDTAB_OUT_OF_RANGE);
			gone++;
		}
	}
}

/* The control group in which the next one is made, mostly the last one. */
static uint64_t made;

static void make_random_call(void)
{
	static const uint32_t operations[] = { PIDTAB_FORK, PIDTAB_FORK, PIDTAB_FORK, PIDTAB_FORK, PIDTAB_EXIT, PIDTAB_WAIT, PIDTAB_WAIT, PIDTAB_SETPGID, PIDTAB_SETPGID,
		PIDTAB_SETSID, PIDTAB_JOIN, PIDTAB_JOIN, PIDTAB_MK };
	uint32_t operation = operations[random_below(sizeof operations / sizeof operations[0])], caller = random_task();
	struct pidtab_call call = { .operation = operation, .caller = caller, .number = operation == PIDTAB_JOIN ? random_number(caller) : 0,
		.choice = operation == PIDTAB_WAIT ? (uint32_t)PIDTAB_ANY : random_below(3) == 0, .id = made, .pid = (int32_t)random_number(caller), .pgid = (int32_t)random_number(caller) };
	struct pidtab_reply reply;

	CHECK(pidtab_call(&table, &call, &reply) == PIDTAB_DONE);
	if (reply.kind == PIDTAB_CONTROL)
		made = random_below(3) == 0 ? 0 : reply.first;
	if (reply.kind == PIDTAB_FORKED)
		hold_forked(&reply, 2);
}

static void is_as_listed(void)
{
	CHECK(pidtab_open(&table, 301) == PIDTAB_DONE);
	hold_none();
	made = 0;
	for (int i = 0; i < CALLS; i++) {
		make_random_call();
		/* The root init may have joined a namespace that has fallen. */
		if (i % 16 == 0)
			pidtab_join(&table, 1, 1);
		if (i % 4 == 0) {
			/* A control group tells the id of the call. */
			int64_t next_id = pidtab_mk(&table, 0);

			CHECK(next_id > 0 && pidtab_rm(&table, (uint64_t)next_id) == 0);
			compare_with_the_list((uint64_t)next_id);
		}
	}
	CHECK(pidtab_close(&table) == PIDTAB_DONE);
}

static void are_as_listed(void)
{
	for (int i = 0; i < TABLES; i++)
		is_as_listed();
	CHECK(nested > 50 && fallen > 50 && kept_by_others > 50 && gone > 50 && several > 50 && groups_inside > 50);
}

static void of_a_record(void)
{
	struct pidtab kept = PIDTAB_INIT;
	struct pidtab_call fork = { .operation = PIDTAB_FORK, .caller = 1, .choice = 1 };
	struct pidtab_space was = blank(), told = blank(), wanted = { UINT64_MAX - 2, 0, 1, 2, 0 };
	uint64_t ordinal, first_kept, recorded, ids[3] = { 7, 7, 7 }, count;
	struct pidtab_reply reply;

	CHECK(pidtab_space(&kept, 0, &told) == PIDTAB_CLOSED && pidtab_inside(&kept, PIDTAB_SPACES, 0, 0, ids, 3, &count) == PIDTAB_CLOSED);
	CHECK(open_history(&kept, 32768, UINT64_MAX - 2, 1) == PIDTAB_DONE);
	CHECK(pidtab_space(&kept, UINT64_MAX - 2, &told) == PIDTAB_OUT_OF_RANGE && is_same(&told, &was));
	CHECK(pidtab_call_by(&kept, 0, &fork, &reply, &ordinal) == PIDTAB_DONE && pidtab_call_by(&kept, 0, &fork, &reply, &ordinal) == PIDTAB_DONE);
	/* The stamps are used up, and a read uses none. */
	CHECK(pidtab_call_by(&kept, 0, &fork, &reply, &ordinal) == PIDTAB_SPENT);
	for (int turn = 0; turn < 2; turn++) {
		told = blank();
		CHECK(pidtab_space(&kept, UINT64_MAX - 2, &told) == PIDTAB_DONE && is_same(&told, &wanted));
		wanted = (struct pidtab_space){ UINT64_MAX - 1, 0, 1, 3, 0 };
		CHECK(pidtab_space(&kept, UINT64_MAX - 1, &told) == PIDTAB_DONE && is_same(&told, &wanted));
		wanted = (struct pidtab_space){ UINT64_MAX - 2, 0, 1, 2, 0 };
	}
	CHECK(pidtab_inside(&kept, PIDTAB_SPACES, 0, 0, ids, 3, &count) == PIDTAB_DONE && count == 2 && ids[0] == UINT64_MAX - 2 && ids[1] == UINT64_MAX - 1 && ids[2] == 7);
	CHECK(pidtab_counts(&kept, &first_kept, &recorded) == PIDTAB_DONE && recorded == 2);
	kept.in_use = UINT8_MAX;
	told = blank();
	CHECK(pidtab_space(&kept, 0, &told) == PIDTAB_BUSY && is_same(&told, &was));
	kept.in_use = 0;
	CHECK(pidtab_close(&kept) == PIDTAB_DONE);
}

static struct pidtab shared;

/* The first fork makes the namespace 1 with the init 2, and so on. What was read once is there for good. */
static void *reads_spaces(void *unused)
{
	uint64_t ids[FORKS], count;

	for (uint64_t id = 1; id <= FORKS;) {
		struct pidtab_space told = blank(), wanted = { id, 0, 1, (uint32_t)id + 1, 0 };
		uint32_t status = pidtab_space(&shared, id, &told);

		CHECK(unused == NULL && (status == PIDTAB_OUT_OF_RANGE || (status == PIDTAB_DONE && is_same(&told, &wanted))));
		/* Those that are in the root namespace are 1, 2 and so on, never fewer than were read. */
		CHECK(pidtab_inside(&shared, PIDTAB_SPACES, 0, 0, ids, FORKS, &count) == PIDTAB_DONE && count + 1 >= id && count <= FORKS);
		for (uint64_t i = 0; i < count; i++)
			CHECK(ids[i] == i + 1);
		id += status == PIDTAB_DONE;
	}
	return NULL;
}

static void threads_read_beside_a_writer(void)
{
	struct pidtab_call fork = { .operation = PIDTAB_FORK, .caller = 1, .choice = 1 };
	uint64_t ordinal, first_kept, recorded;
	struct pidtab_space told = blank(), was = blank();
	pthread_t readers[READERS];
	struct pidtab_reply reply;
	uint32_t worker;

	CHECK(open_threads(&shared, 32768, 1, 1, 10) == PIDTAB_DONE && pidtab_seat(&shared, &worker) == PIDTAB_DONE);
	for (int i = 0; i < READERS; i++)
		CHECK(pthread_create(&readers[i], NULL, reads_spaces, NULL) == 0);
	for (int i = 0; i < FORKS; i++)
		CHECK(pidtab_call_by(&shared, worker, &fork, &reply, &ordinal) == PIDTAB_DONE && reply.kind == PIDTAB_FORKED);
	for (int i = 0; i < READERS; i++)
		CHECK(pthread_join(readers[i], NULL) == 0);
	CHECK(pidtab_counts(&shared, &first_kept, &recorded) == PIDTAB_DONE && recorded == FORKS);
	CHECK(pidtab_space(&shared, FORKS + 1, &told) == PIDTAB_OUT_OF_RANGE && is_same(&told, &was));
	pidtab_close(&shared);
}

int main(void)
{
	each_field();
	each_tree();
	want_of_memory();
	each_level();
	falls_with_its_init();
	a_zombie_keeps_it();
	a_group_keeps_it();
	each_status_of_a_table();
	are_as_listed();
	of_a_record();
	threads_read_beside_a_writer();
	return 0;
}

/* Tests of calls that tell what they did, beside the text of the table before and after each call. */
#include "test.h"
#include "test_tasks.h"
#include "test_effects.h"

#include <inttypes.h>

#define TABLES 20
#define CALLS 1500
/* Numbers begin anew at 300, so that children have lower ones than their parents. */
#define PID_MAX 330

/* A name as the text of the table has it: its root number, and the namespace that it is of. */
struct name {
	uint32_t root;
	uint64_t space;
};

/* A task by its root number. */
struct seen {
	bool is_there, has_ended;
	uint32_t status;
	struct name own, parent, group, session;
};

struct space {
	uint64_t id, parent;
	bool has_fallen;
};

/* All of a table. Namespaces are by rising ids. */
struct state {
	struct seen tasks[PID_MAX];
	struct space spaces[MOST];
	size_t count;
};

static struct state before, behind;

/* `3,1@2` after the word; `-` is none. */
static struct name name_behind(const char *line, const char *word)
{
	const char *at = strstr(line, word) + strlen(word);

	return *at == '-' ? (struct name){ 0, 0 } : (struct name){ (uint32_t)strtoul(at, NULL, 10), strtoull(strchr(at, '@') + 1, NULL, 10) };
}

/* `task 3,1@2 parent 2@0 group 2@0 session 1@0 control 0 children 2 exit 7`. */
static void see_task(struct state *it, const char *line)
{
	struct seen task = { .is_there = true, .own = name_behind(line, "task "), .parent = name_behind(line, " parent "), .group = name_behind(line, " group "),
		.session = name_behind(line, " session ") };
	const char *exits = strstr(line, " exit ");

	task.has_ended = exits != NULL || strstr(line, " killed") != NULL;
	task.status = exits != NULL ? (uint32_t)strtoul(exits + strlen(" exit "), NULL, 10) : PIDTAB_KILLED;
	CHECK(task.own.root < PID_MAX);
	it->tasks[task.own.root] = task;
}

/* `space 2 parent 0 cursor 2 fallen`. */
static void see_space(struct state *it, const char *line)
{
	struct space *space = &it->spaces[it->count++];

	CHECK(it->count < MOST && sscanf(line, "space %" SCNu64 " parent %" SCNu64, &space->id, &space->parent) >= 1);
	space->has_fallen = strstr(line, " fallen") != NULL;
}

static void see_all(struct state *it)
{
	size_t size = text_of(texts[0]);

	memset(it, 0, sizeof *it);
	texts[0][size] = 0;
	for (char *line = strtok(texts[0], "\n"); line != NULL; line = strtok(NULL, "\n"))
		if (strncmp(line, "task ", 5) == 0)
			see_task(it, line);
		else if (strncmp(line, "space ", 6) == 0)
			see_space(it, line);
}

static const struct space *find_space(const struct state *it, uint64_t id)
{
	size_t place = 0;

	while (place < it->count && it->spaces[place].id != id)
		place++;
	return place < it->count ? &it->spaces[place] : NULL;
}

/* What was met, so that the comparison is none of calls without effects. */
static int many, adopted, lower, killed, kept, gone, reaped, groups_gone, sessions_gone, fell, spaces_gone, gone_at_once;

/* What became of the task by the call: so many effects. */
static size_t became(uint32_t number, const struct pidtab_call *call, struct pidtab_effect *effects)
{
	const struct seen *was = &before.tasks[number], *is = &behind.tasks[number];
	size_t count = 0;

	if (!was->is_there)
		return 0;
	if (!was->has_ended && (!is->is_there || is->has_ended)) {
		uint32_t status = is->is_there ? is->status : PIDTAB_KILLED;

		effects[count++] = (struct pidtab_effect)ENDED(number, status);
		killed += status == PIDTAB_KILLED;
		kept += status == PIDTAB_KILLED && is->is_there;
	}
	if (is->is_there && is->parent.root != was->parent.root) {
		effects[count++] = (struct pidtab_effect)ADOPTED(number, is->parent.root);
		adopted++;
		lower += number < call->caller;
	}
	if (!is->is_there) {
		effects[count++] = (struct pidtab_effect)GONE(number);
		gone += was->has_ended && call->operation == PIDTAB_EXIT;
	}
	return count;
}

static const struct name *name_of(const struct seen *task, uint32_t what)
{
	return what == PIDTAB_GROUP_GONE ? &task->group : &task->session;
}

/* The process groups, or the sessions, that have no member any more: so many effects. */
static size_t emptied(uint32_t what, struct pidtab_effect *effects)
{
	bool was[PID_MAX] = { false }, is[PID_MAX] = { false };
	size_t count = 0;

	for (uint32_t task = 1; task < PID_MAX; task++) {
		was[name_of(&before.tasks[task], what)->root] |= before.tasks[task].is_there;
		is[name_of(&behind.tasks[task], what)->root] |= behind.tasks[task].is_there;
	}
	for (uint32_t number = 1; number < PID_MAX; number++)
		if (was[number] && !is[number])
			effects[count++] = (struct pidtab_effect){ what, number, 0 };
	return count;
}

/* What became of the namespaces by the call. */
static size_t became_of_spaces(struct pidtab_effect *effects)
{
	size_t count = 0;

	for (size_t i = 0; i < before.count; i++) {
		const struct space *was = &before.spaces[i], *is = find_space(&behind, was->id);
		bool falls = !was->has_fallen && (is == NULL || is->has_fallen);

		if (falls)
			effects[count++] = (struct pidtab_effect)FELL(was->id);
		if (is == NULL)
			effects[count++] = (struct pidtab_effect)SPACE_GONE(was->id);
		fell += falls;
		spaces_gone += is == NULL;
		gone_at_once += falls && is == NULL;
	}
	return count;
}

/* All effects of the call, as the two states have them. */
static size_t all_effects(const struct pidtab_call *call, struct pidtab_effect *effects)
{
	size_t count = 0, groups, sessions;

	for (uint32_t number = 1; number < PID_MAX; number++)
		count += became(number, call, effects + count);
	groups = emptied(PIDTAB_GROUP_GONE, effects + count);
	sessions = emptied(PIDTAB_SESSION_GONE, effects + count + groups);
	groups_gone += (int)groups;
	sessions_gone += (int)sessions;
	count += groups + sessions;
	return count + became_of_spaces(effects + count);
}

static bool is_within(uint64_t inner, uint64_t outer)
{
	while (inner > outer)
		inner = find_space(&before, inner)->parent;
	return inner == outer;
}

static bool is_init(uint32_t task)
{
	const struct pidtab_call gets = { .operation = PIDTAB_GETPID, .caller = task };
	struct pidtab_reply reply;

	CHECK(pidtab_ask(&table, &gets, &reply) == PIDTAB_DONE && reply.kind == PIDTAB_NUMBER);
	return reply.first == 1;
}

static bool is_of_groups(const struct pidtab_call *call)
{
	return call->operation == PIDTAB_SETPGID || call->operation == PIDTAB_SETSID;
}

/* Whom an exit touches: itself and its children, or all in the namespace whose init it is. */
static void touch_by_exit(uint32_t caller, bool touched[PID_MAX])
{
	bool all = is_init(caller);

	for (uint32_t task = 1; task < PID_MAX; task++) {
		const struct seen *it = &before.tasks[task];

		touched[task] = it->is_there && (task == caller || (all ? is_within(it->own.space, before.tasks[caller].own.space) : it->parent.root == caller));
	}
}

/* Whom the call touches, as it would be answered: of a setpgid and a setsid one at most. */
static void touch(const struct pidtab_call *call, bool touched[PID_MAX])
{
	struct pidtab_task task = { 0 };
	struct pidtab_reply reply;

	CHECK(pidtab_would(&table, call, &reply) == PIDTAB_DONE);
	if (call->operation == PIDTAB_EXIT && reply.kind != PIDTAB_REFUSED)
		touch_by_exit(call->caller, touched);
	if (call->operation == PIDTAB_WAIT && reply.kind == PIDTAB_REAPED)
		CHECK(pidtab_stat(&table, call->caller, (uint32_t)reply.first, &task) == PIDTAB_DONE && task.root != 0);
	if (is_of_groups(call))
		CHECK(pidtab_stat(&table, call->caller, call->operation == PIDTAB_SETPGID ? (uint32_t)call->pid : 0, &task) == PIDTAB_DONE);
	touched[task.root] |= task.root != 0;
}

/* Adds two for each namespace from the one of a name to the root that is not counted yet, except for the root. */
static size_t add_path(bool counted[MOST], const struct name *name)
{
	size_t room = 0;

	for (const struct space *it = find_space(&before, name->space); it->id != 0; it = find_space(&before, it->parent)) {
		bool *is_counted = &counted[it - before.spaces];

		room += *is_counted ? 0 : 2;
		*is_counted = true;
	}
	return room;
}

/* The room that the call takes. */
static size_t room_for(const struct pidtab_call *call)
{
	bool touched[PID_MAX] = { false }, groups[PID_MAX] = { false }, sessions[PID_MAX] = { false }, spaces[MOST] = { false };
	size_t room = 0;

	touch(call, touched);
	for (uint32_t number = 1; number < PID_MAX; number++) {
		const struct seen *it = &before.tasks[number];

		if (!touched[number])
			continue;
		room += 2u + !groups[it->group.root] + !sessions[it->session.root];
		groups[it->group.root] = true;
		sessions[it->session.root] = true;
		room += add_path(spaces, &it->own) + add_path(spaces, &it->group) + add_path(spaces, &it->session);
	}
	return room;
}

/* The same calls are made on another table, by pidtab_call. */
static struct pidtab twin = PIDTAB_INIT;

/* Makes the call in the room that it takes, or in more. With less it is not made. */
static void make_in_its_room(struct told *it, const struct pidtab_call *call)
{
	size_t room = room_for(call);
	uint32_t status = make(it, call, 0);

	if (status == PIDTAB_DONE) {
		CHECK(room == 0 || is_of_groups(call));
		return;
	}
	CHECK(status == PIDTAB_NO_ROOM && room > 0);
	is_untold(it, room);
	CHECK(make(it, call, room - 1) == PIDTAB_NO_ROOM && it->count == room);
	CHECK(make(it, call, random_below(2) == 0 ? room : MOST) == PIDTAB_DONE);
}

static struct pidtab_reply make_and_compare(struct pidtab_call call)
{
	struct pidtab_effect wanted[MOST];
	struct pidtab_reply reply;
	struct told it;
	size_t count;

	make_in_its_room(&it, &call);
	CHECK(pidtab_call(&twin, &call, &reply) == PIDTAB_DONE && is_same_reply(&it.reply, &reply));
	see_all(&behind);
	count = all_effects(&call, wanted);
	CHECK(it.count == count && memcmp(it.effects, wanted, count * sizeof wanted[0]) == 0 && is_rest_untold(&it, count));
	before = behind;
	many += count > 3;
	reaped += reply.kind == PIDTAB_REAPED;
	return reply;
}

static void make_random_call(void)
{
	static const uint32_t operations[] = { PIDTAB_FORK, PIDTAB_FORK, PIDTAB_FORK, PIDTAB_FORK, PIDTAB_EXIT, PIDTAB_WAIT, PIDTAB_SETPGID, PIDTAB_SETSID, PIDTAB_JOIN,
		PIDTAB_JOIN, PIDTAB_SUBREAPER, PIDTAB_MK };
	uint32_t operation = operations[random_below(sizeof operations / sizeof operations[0])], caller = random_task(), place = 1 + random_below(HELD_TASKS - 1);
	struct pidtab_call call = { .operation = operation, .caller = caller, .number = operation == PIDTAB_JOIN ? random_number(caller) : random_below(256),
		.choice = operation == PIDTAB_WAIT ? (uint32_t)PIDTAB_ANY : random_below(3) == 0, .pid = (int32_t)random_number(caller), .pgid = (int32_t)random_number(caller) };
	struct pidtab_reply reply = make_and_compare(call);

	if (reply.kind != PIDTAB_FORKED)
		return;
	if (held[place] != 0)
		make_and_compare(exit_of(held[place], random_below(256)));
	held[place] = (uint32_t)reply.second;
	/* Most zombies are reaped by the root init at last. */
	for (int i = 0; i < 2; i++)
		make_and_compare(wait_1);
}

static void is_same_table(void)
{
	size_t size = text_of(texts[0]), other = 0;

	CHECK(pidtab_dump(&twin, texts[1], sizeof texts[1], &other) == PIDTAB_DONE && other == size && memcmp(texts[0], texts[1], size) == 0);
}

static void is_as_read(void)
{
	CHECK(pidtab_open(&table, PID_MAX) == PIDTAB_DONE && pidtab_open(&twin, PID_MAX) == PIDTAB_DONE);
	hold_none();
	see_all(&before);
	for (int i = 0; i < CALLS; i++) {
		make_random_call();
		/* The root init may have joined a namespace that has fallen. */
		if (i % 16 == 0)
			make_and_compare((struct pidtab_call){ .operation = PIDTAB_JOIN, .caller = 1, .number = 1 });
		if (i % 50 == 0)
			is_same_table();
	}
	is_same_table();
	CHECK(pidtab_close(&twin) == PIDTAB_DONE);
	close_table();
}

int main(void)
{
	for (int i = 0; i < TABLES; i++)
		is_as_read();
	CHECK(many > 50 && adopted > 50 && lower > 50 && killed > 50 && kept > 50 && gone > 50 && reaped > 50);
	CHECK(groups_gone > 50 && sessions_gone > 50 && fell > 50 && spaces_gone > 50 && gone_at_once > 50);
	return 0;
}

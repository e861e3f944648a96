/* The cases of interface/cases, whose README says what each step is: by lines, by values and by methods, on tables without a history and on one with it that
 * has threads. Its arguments are the files. */
#include "proved.h"

#include "test.h"

#include <errno.h>
#include <inttypes.h>

#define ENTRIES 4096
#define EFFECTS 256
#define TEXT (1 << 20)

struct named {
	uint32_t number;
	const char *name;
};

/* Written by tools/interface: names. */
static const struct named errnos[] = {
	{ ESRCH, "ESRCH" },
	{ ECHILD, "ECHILD" },
	{ EAGAIN, "EAGAIN" },
	{ ENOMEM, "ENOMEM" },
	{ ENOSPC, "ENOSPC" },
	{ EPERM, "EPERM" },
	{ EACCES, "EACCES" },
	{ EBUSY, "EBUSY" },
	{ ENOENT, "ENOENT" },
	{ EINVAL, "EINVAL" },
	{ 0, NULL }
};

static const struct named statuses[] = {
	{ PIDTAB_DONE, "DONE" },
	{ PIDTAB_CLOSED, "CLOSED" },
	{ PIDTAB_NO_MEMORY, "NO_MEMORY" },
	{ PIDTAB_BUSY, "BUSY" },
	{ PIDTAB_OUT_OF_RANGE, "OUT_OF_RANGE" },
	{ PIDTAB_NO_ROOM, "NO_ROOM" },
	{ PIDTAB_EMPTY_LINE, "EMPTY_LINE" },
	{ PIDTAB_BAD_LINE, "BAD_LINE" },
	{ PIDTAB_SPENT, "SPENT" },
	{ PIDTAB_DIFFERS, "DIFFERS" },
	{ PIDTAB_BAD_TEXT, "BAD_TEXT" },
	{ PIDTAB_NOT_KEPT, "NOT_KEPT" },
	{ PIDTAB_AGAIN, "AGAIN" },
	{ PIDTAB_NO_HISTORY, "NO_HISTORY" },
	{ PIDTAB_NO_THREADS, "NO_THREADS" },
	{ 0, NULL }
};

static const char *const queries[] = { "getpid", "nspid", "getppid", "count", "getpgid", "getsid", "next", NULL };
/* The end of names. */

/* What a case has open: tables whose calls are made by lines, by values and by methods, if it is not of a history alone; and one with a
 * history, whose workers are all seated. */
static struct pidtab tables[3];
static struct pidtab shared;
static bool has_tables, is_open, is_whole;
static uint32_t worker, workers, bound;
static uint64_t calls, kept;

/* What the step tells, and the text below it. */
static char told[TEXT], text[TEXT];

static const char *name_of(const struct named *names, uint32_t number)
{
	while (names->name && names->number != number)
		names++;
	CHECK(names->name);
	return names->name;
}

static bool done(uint32_t status)
{
	if (status != PIDTAB_DONE)
		strcpy(told, name_of(statuses, status));
	return status == PIDTAB_DONE;
}

static void say_levels(char *to, const uint32_t *levels, uint32_t count, char between)
{
	for (uint32_t i = 0; i < count; i++)
		to += sprintf(to, "%.*s%" PRIu32, i > 0, &between, levels[i]);
}

static void say_end(char *to, uint64_t status)
{
	if (status == PIDTAB_KILLED)
		strcpy(to, "killed");
	else
		sprintf(to, "exit %" PRIu64, status);
}

/* The answer that a reply is, by docs/SCRIPT.md. */
static void say(char *to, const struct pidtab_reply *it)
{
	switch (it->kind) {
	case PIDTAB_FORKED: sprintf(to, "child %" PRIu64 " root %" PRIu64, it->first, it->second); break;
	case PIDTAB_OK: strcpy(to, "ok"); break;
	case PIDTAB_NUMBER: case PIDTAB_COUNTED: sprintf(to, "%" PRIu64, it->first); break;
	case PIDTAB_LEVELS: say_levels(to, it->levels, it->count, ' '); break;
	case PIDTAB_REAPED: say_end(to + sprintf(to, "reaped %" PRIu64 " ", it->first), it->second); break;
	case PIDTAB_NONE_YET: strcpy(to, "none"); break;
	case PIDTAB_CONTROL: sprintf(to, "control %" PRIu64, it->first); break;
	case PIDTAB_END: strcpy(to, "end"); break;
	default:
		CHECK(it->kind == PIDTAB_REFUSED);
		to += sprintf(to, "%s %s", name_of(errnos, it->error), pidtab_word(it->refusal));
		if (it->refusal == PIDTAB_NO_NUMBER || it->refusal == PIDTAB_PIDS_LIMIT)
			sprintf(to, " %" PRIu64, it->first);
	}
}

static bool same_reply(const struct pidtab_reply *a, const struct pidtab_reply *b)
{
	return a->kind == b->kind && a->error == b->error && a->refusal == b->refusal && a->count == b->count && a->first == b->first
		&& a->second == b->second && memcmp(a->levels, b->levels, sizeof a->levels) == 0;
}

static void close_all(void)
{
	for (int i = 0; i < 3 && has_tables; i++)
		CHECK(pidtab_close(&tables[i]) == PIDTAB_DONE);
	if (is_open)
		pidtab_close(&shared);
	has_tables = is_open = is_whole = false;
	worker = 0;
}

/* All seats are taken, and there is no other. */
static void take_seats(void)
{
	uint32_t seat;

	for (uint32_t i = 0; i < workers; i++)
		CHECK(pidtab_seat(&shared, &seat) == PIDTAB_DONE && seat == i);
	CHECK(pidtab_seat(&shared, &seat) == PIDTAB_OUT_OF_RANGE);
	is_open = true;
}

/* Opens the one with a history. A 0 is a default there, and refused by the proved function. */
static uint32_t open_shared(uint64_t first_stamp)
{
	const struct pidtab_settings settings = { bound, workers, first_stamp, kept == 0 ? PIDTAB_KEEP_ALL : kept, true };
	struct pidtab none = PIDTAB_INIT;

	return bound == 0 || workers == 0 || first_stamp == 0 ? proved_open_with(&none, &settings) : pidtab_open_with(&shared, &settings);
}

static void open_all(const uint64_t settings[4])
{
	uint32_t status;

	close_all();
	bound = (uint32_t)settings[0], workers = (uint32_t)settings[1], kept = settings[3], calls = 0;
	has_tables = settings[1] == 1 && settings[2] == 1 && settings[3] == 0;
	status = open_shared(settings[2]);
	for (int i = 0; i < 3 && has_tables; i++)
		CHECK(pidtab_open(&tables[i], bound) == status);
	if (done(status))
		take_seats();
	has_tables = has_tables && is_open;
	is_whole = is_open && settings[2] == 1;
}

static void load_all(const uint64_t *counts, size_t many)
{
	struct pidtab_fault fault, other = { 0, 0 };
	uint32_t status;

	close_all();
	has_tables = many == 1 && counts[0] == 0 && kept == 0;
	status = load_threads(&shared, text, strlen(text), counts, (uint32_t)many, kept == 0 ? PIDTAB_KEEP_ALL : kept, &fault);
	for (int i = 0; i < 3 && has_tables; i++)
		CHECK(pidtab_load(&tables[i], text, strlen(text), &other) == status && other.line == fault.line && other.kind == fault.kind);
	workers = (uint32_t)many;
	if (status == PIDTAB_BAD_TEXT)
		sprintf(told, "line %" PRIu64 ": %s", fault.line, pidtab_fault_text(fault.kind));
	else if (done(status))
		take_seats();
	has_tables = has_tables && is_open;
	calls = 0;
	for (size_t i = 0; i < many; i++)
		calls += counts[i];
}

/* Goes on with what is made of the texts. */
static void reload(void)
{
	uint64_t counts[PIDTAB_MOST_WORKERS];
	char *again = calloc(1, TEXT);
	size_t size;

	CHECK(again && pidtab_dump(&shared, text, TEXT - 1, &size) == PIDTAB_DONE);
	text[size] = 0;
	for (int i = 0; i < 3 && has_tables; i++)
		CHECK(pidtab_dump(&tables[i], again, TEXT, &size) == PIDTAB_DONE && strlen(text) == size && memcmp(text, again, size) == 0);
	for (uint32_t i = 0; i < workers; i++)
		CHECK(pidtab_worker(&shared, i, &counts[i]) == PIDTAB_DONE);
	bool had_tables = has_tables;
	uint32_t at = worker;
	load_all(counts, workers);
	worker = at;
	for (int i = 0; i < 3 && had_tables && !has_tables; i++)
		CHECK(pidtab_load(&tables[i], text, strlen(text), &(struct pidtab_fault){ 0, 0 }) == PIDTAB_DONE);
	has_tables = had_tables;
	free(again);
}

/* Written by tools/interface: calls. */
static int64_t by_its_method(struct pidtab *table, const struct pidtab_call *it, uint32_t *second, uint32_t *levels)
{
	switch (it->operation) {
	case PIDTAB_FORK: return pidtab_fork(table, it->caller, it->choice, second);
	case PIDTAB_GETPID: return pidtab_getpid(table, it->caller);
	case PIDTAB_NSPID: return pidtab_nspid(table, it->caller, it->number, levels);
	case PIDTAB_EXEC: return pidtab_exec(table, it->caller);
	case PIDTAB_EXIT: return pidtab_exit(table, it->caller, it->number);
	case PIDTAB_WAIT: return pidtab_wait(table, it->caller, (enum pidtab_which)it->choice, it->number, second);
	case PIDTAB_GETPPID: return pidtab_getppid(table, it->caller);
	case PIDTAB_SETPGID: return pidtab_setpgid(table, it->caller, it->pid, it->pgid);
	case PIDTAB_SETSID: return pidtab_setsid(table, it->caller);
	case PIDTAB_MK: return pidtab_mk(table, it->id);
	case PIDTAB_RM: return pidtab_rm(table, it->id);
	case PIDTAB_LIMIT: return pidtab_limit(table, it->id, it->choice, it->number);
	case PIDTAB_MOVE: return pidtab_move(table, it->caller, it->id);
	case PIDTAB_COUNT: return pidtab_count(table, it->id);
	case PIDTAB_GETPGID: return pidtab_getpgid(table, it->caller, it->number);
	case PIDTAB_GETSID: return pidtab_getsid(table, it->caller, it->number);
	case PIDTAB_NEXT: return pidtab_next(table, it->caller, (enum pidtab_use)it->choice, it->number);
	case PIDTAB_JOIN: return pidtab_join(table, it->caller, it->number);
	case PIDTAB_SUBREAPER: return pidtab_subreaper(table, it->caller, it->choice);
	}
	CHECK(false);
	return 0;
}
/* The end of calls. */

/* Makes the call on a table that foretells its reply; a fork by the numbers that were told. */
static void make_as_told(struct pidtab *table, const struct pidtab_call *call, const struct pidtab_reply *wanted)
{
	uint32_t child, root;
	struct pidtab_reply reply;

	CHECK(pidtab_would(table, call, &reply) == PIDTAB_DONE && same_reply(&reply, wanted));
	if (call->operation != PIDTAB_FORK) {
		CHECK(pidtab_call(table, call, &reply) == PIDTAB_DONE && same_reply(&reply, wanted));
		return;
	}
	child = wanted->kind == PIDTAB_FORKED ? (uint32_t)wanted->first : 2;
	root = wanted->kind == PIDTAB_FORKED ? (uint32_t)wanted->second : 2;
	CHECK(pidtab_fork_at(table, call->caller, call->choice, child + 1, root, &reply) == PIDTAB_DIFFERS && same_reply(&reply, wanted));
	CHECK(pidtab_fork_at(table, call->caller, call->choice, child, root + 1, &reply) == PIDTAB_DIFFERS && same_reply(&reply, wanted));
	if (wanted->kind == PIDTAB_FORKED) {
		CHECK(pidtab_fork_at(table, call->caller, call->choice, child, root, &reply) == PIDTAB_DONE && same_reply(&reply, wanted));
		return;
	}
	CHECK(pidtab_fork_at(table, call->caller, call->choice, child, root, &reply) == PIDTAB_DIFFERS && same_reply(&reply, wanted));
	/* The refused call has a stamp here as on the other tables. */
	CHECK(pidtab_call(table, call, &reply) == PIDTAB_DONE && same_reply(&reply, wanted));
}

/* By a value, which may be asked too if it is a query; and by its method, which tells a number or minus an errno. */
static void make_again(const struct pidtab_call *call, const struct pidtab_reply *wanted, uint32_t asked)
{
	uint32_t second = 0, levels[PIDTAB_LEVELS_MAX] = { 0 };
	struct pidtab_reply reply;

	CHECK(pidtab_ask(&tables[1], call, &reply) == asked && (asked != PIDTAB_DONE || same_reply(&reply, wanted)));
	make_as_told(&tables[1], call, wanted);
	if (wanted->kind == PIDTAB_CONTROL && wanted->first > INT64_MAX) {
		CHECK(by_its_method(&tables[2], call, &second, levels) == -PIDTAB_SPENT && pidtab_call(&tables[2], call, &reply) == PIDTAB_DONE);
		CHECK(same_reply(&reply, wanted));
		return;
	}
	int64_t number = wanted->kind == PIDTAB_REFUSED ? -(int64_t)wanted->error : wanted->kind == PIDTAB_LEVELS ? (int64_t)wanted->count : (int64_t)wanted->first;
	CHECK(by_its_method(&tables[2], call, &second, levels) == number);
	CHECK(second == (wanted->kind == PIDTAB_FORKED || wanted->kind == PIDTAB_REAPED ? wanted->second : 0));
	CHECK(wanted->kind != PIDTAB_LEVELS || memcmp(levels, wanted->levels, sizeof levels) == 0);
}

static void make_call(const char *line)
{
	char answer[PIDTAB_LONGEST_ANSWER + 1], said[PIDTAB_LONGEST_ANSWER + 1];
	uint32_t asked = PIDTAB_OUT_OF_RANGE, status;
	struct pidtab_call call;
	struct pidtab_reply reply, other;
	uint64_t ordinal, by;
	size_t size = 0;

	status = pidtab_line_by(&shared, worker, line, strlen(line), told, PIDTAB_LONGEST_ANSWER, &size, &ordinal);
	told[size] = 0;
	CHECK(!has_tables || (ask(&tables[0], line, answer) == status && strcmp(answer, told) == 0));
	if (!done(status))
		return;
	CHECK(ordinal == calls++ && pidtab_entry(&shared, ordinal, &by, &call, &reply) == PIDTAB_DONE && by == worker);
	CHECK(pidtab_call_line(&call, said, PIDTAB_LONGEST_CALL, &size) == PIDTAB_DONE && size == strlen(line) && memcmp(said, line, size) == 0);
	say(said, &reply);
	CHECK(strcmp(said, told) == 0);
	CHECK(pidtab_reply_line(&reply, said, PIDTAB_LONGEST_ANSWER, &size) == PIDTAB_DONE && size == strlen(told) && memcmp(said, told, size) == 0);
	for (const char *const *it = queries; *it; it++)
		if (strcspn(line, " ") == strlen(*it) && strncmp(line, *it, strlen(*it)) == 0)
			asked = PIDTAB_DONE;
	CHECK(pidtab_ask(&shared, &call, &other) == asked && (asked != PIDTAB_DONE || same_reply(&reply, &other)));
	if (has_tables)
		make_again(&call, &reply, asked);
}

/* The call of a line, as a table of its own has it. */
static struct pidtab_call call_of(const char *line)
{
	struct pidtab scratch = PIDTAB_INIT;
	char answer[PIDTAB_LONGEST_ANSWER];
	struct pidtab_call call;
	struct pidtab_reply reply;
	uint64_t ordinal, by;
	size_t size;

	CHECK(open_history(&scratch, 301, 1, 1) == PIDTAB_DONE);
	CHECK(pidtab_line_by(&scratch, 0, line, strlen(line), answer, sizeof answer, &size, &ordinal) == PIDTAB_DONE);
	CHECK(pidtab_entry(&scratch, ordinal, &by, &call, &reply) == PIDTAB_DONE && pidtab_close(&scratch) == PIDTAB_DONE);
	return call;
}

static struct pidtab_effect effects[EFFECTS], others[EFFECTS];

static void say_effect(char *to, const struct pidtab_effect *it)
{
	static const char *const words[] = { [PIDTAB_TASK_ENDED] = "ended", [PIDTAB_TASK_ADOPTED] = "adopted", [PIDTAB_TASK_GONE] = "gone",
		[PIDTAB_GROUP_GONE] = "group-gone", [PIDTAB_SESSION_GONE] = "session-gone", [PIDTAB_SPACE_FELL] = "space-fell", [PIDTAB_SPACE_GONE] = "space-gone" };
	bool is_of_space = it->what == PIDTAB_SPACE_FELL || it->what == PIDTAB_SPACE_GONE;

	CHECK(it->what < sizeof words / sizeof *words && (!is_of_space || it->number == 0));
	to += sprintf(to, ", %s %" PRIu64, words[it->what], is_of_space ? it->value : it->number);
	if (it->what == PIDTAB_TASK_ENDED)
		say_end(strcpy(to, " ") + 1, it->value);
	else if (it->what == PIDTAB_TASK_ADOPTED)
		sprintf(to, " %" PRIu64, it->value);
	else
		CHECK(is_of_space || it->value == 0);
}

/* Makes the call, and tells its answer and what it did to tasks. Of the tables one makes it by its line. */
static void make_told(const char *line)
{
	struct pidtab_call call = call_of(line), recorded;
	struct pidtab_reply reply, other;
	uint64_t ordinal, by, count, again;
	char answer[PIDTAB_LONGEST_ANSWER + 1];

	if (!done(pidtab_call_told_by(&shared, worker, &call, &reply, &ordinal, effects, EFFECTS, &count)))
		return;
	CHECK(ordinal == calls++ && pidtab_entry(&shared, ordinal, &by, &recorded, &other) == PIDTAB_DONE && by == worker && same_reply(&reply, &other));
	say(told, &reply);
	for (int i = 1; i < 3 && has_tables; i++) {
		CHECK(pidtab_call_told(&tables[i], &call, &other, others, EFFECTS, &again) == PIDTAB_DONE && same_reply(&reply, &other));
		CHECK(again == count && memcmp(effects, others, (size_t)count * sizeof *effects) == 0);
	}
	CHECK(!has_tables || (ask(&tables[0], line, answer) == PIDTAB_DONE && strcmp(answer, told) == 0));
	for (uint64_t i = 0; i < count; i++)
		say_effect(told + strlen(told), &effects[i]);
}

/* The line for each number, which stands in the place of #. None is refused. */
static void make_each(uint64_t from, uint64_t to, const char *form)
{
	char line[200], number[32];

	for (uint64_t it = from; it <= to; it++) {
		char *end = line;
		snprintf(number, sizeof number, "%" PRIu64, it);
		for (const char *at = form; *at; at++)
			end += *at == '#' ? sprintf(end, "%s", number) : sprintf(end, "%c", *at);
		make_call(line);
		CHECK(told[0] < 'A' || told[0] > 'Z');
	}
	told[0] = 0;
}

/* What a question tells. A list has room for so many. */
enum { TELLS_TASK, TELLS_SPACE, TELLS_NUMBERS, TELLS_IDS, LISTED = 64 };

struct answered {
	uint32_t tells, status;
	struct pidtab_task task;
	struct pidtab_space space;
	struct pidtab_reply reply;
	uint32_t numbers[LISTED];
	uint64_t ids[LISTED], count;
};

/* Written by tools/interface: questions. */
static bool ask_question(const char *word, const struct pidtab *table, const uint64_t *n, size_t room, struct answered *to)
{
	if (strcmp(word, "stat") == 0) {
		to->tells = TELLS_TASK;
		to->status = pidtab_stat(table, (uint32_t)n[0], (uint32_t)n[1], &to->task);
		return true;
	}
	if (strcmp(word, "children") == 0) {
		to->tells = TELLS_NUMBERS;
		to->status = pidtab_page(table, (uint32_t)n[0], PIDTAB_CHILDREN, (uint32_t)n[1], (uint32_t)n[2], to->numbers, room, &to->reply);
		return true;
	}
	if (strcmp(word, "group_members") == 0) {
		to->tells = TELLS_NUMBERS;
		to->status = pidtab_page(table, (uint32_t)n[0], PIDTAB_GROUP_MEMBERS, (uint32_t)n[1], (uint32_t)n[2], to->numbers, room, &to->reply);
		return true;
	}
	if (strcmp(word, "session_members") == 0) {
		to->tells = TELLS_NUMBERS;
		to->status = pidtab_page(table, (uint32_t)n[0], PIDTAB_SESSION_MEMBERS, (uint32_t)n[1], (uint32_t)n[2], to->numbers, room, &to->reply);
		return true;
	}
	if (strcmp(word, "namespace_members") == 0) {
		to->tells = TELLS_NUMBERS;
		to->status = pidtab_page(table, (uint32_t)n[0], PIDTAB_NAMESPACE_MEMBERS, (uint32_t)n[1], (uint32_t)n[2], to->numbers, room, &to->reply);
		return true;
	}
	if (strcmp(word, "namespace_own") == 0) {
		to->tells = TELLS_NUMBERS;
		to->status = pidtab_page(table, (uint32_t)n[0], PIDTAB_NAMESPACE_OWN, (uint32_t)n[1], (uint32_t)n[2], to->numbers, room, &to->reply);
		return true;
	}
	if (strcmp(word, "space") == 0) {
		to->tells = TELLS_SPACE;
		to->status = pidtab_space(table, n[0], &to->space);
		return true;
	}
	if (strcmp(word, "spaces_inside") == 0) {
		to->tells = TELLS_IDS;
		to->status = pidtab_inside(table, PIDTAB_SPACES, n[0], n[1], to->ids, room, &to->count);
		return true;
	}
	if (strcmp(word, "controls_inside") == 0) {
		to->tells = TELLS_IDS;
		to->status = pidtab_inside(table, PIDTAB_CONTROLS, n[0], n[1], to->ids, room, &to->count);
		return true;
	}
	if (strcmp(word, "control_tasks") == 0) {
		to->tells = TELLS_NUMBERS;
		to->status = pidtab_control_tasks(table, (uint32_t)n[0], n[1], (uint32_t)n[2], to->numbers, room, &to->reply);
		return true;
	}
	return false;
}
/* The end of questions. */

static bool same_task(const struct pidtab_task *a, const struct pidtab_task *b)
{
	return memcmp(a, b, offsetof(struct pidtab_task, levels)) == 0 && memcmp(a->levels, b->levels, sizeof a->levels) == 0;
}

static bool same_space(const struct pidtab_space *a, const struct pidtab_space *b)
{
	return a->id == b->id && a->parent == b->parent && a->level == b->level && a->init == b->init && a->fallen == b->fallen;
}

static bool same_answer(const struct answered *a, const struct answered *b)
{
	return a->status == b->status && same_task(&a->task, &b->task) && same_space(&a->space, &b->space) && same_reply(&a->reply, &b->reply)
		&& a->count == b->count && memcmp(a->numbers, b->numbers, sizeof a->numbers) == 0 && memcmp(a->ids, b->ids, sizeof a->ids) == 0;
}

static void say_task(const struct pidtab_task *it)
{
	char levels[512], end[32] = "live";

	if (it->error != 0) {
		sprintf(told, "%s %s", name_of(errnos, it->error), pidtab_word(it->refusal));
		return;
	}
	say_levels(levels, it->levels, it->count, ',');
	if (it->ended)
		say_end(end, it->status);
	sprintf(told, "%s root %u space %" PRIu64 " parent %u group %u session %u control %" PRIu64 " %s%s%s", levels, it->root, it->space, it->parent,
		it->group, it->session, it->control, end, it->executed ? " executed" : "", it->subreaper ? " subreaper" : "");
}

static void say_space(const struct pidtab_space *it)
{
	char parent[32] = "-", init[32] = "-";

	if (it->level != 0)
		sprintf(parent, "%" PRIu64, it->parent);
	if (it->init != 0)
		sprintf(init, "%" PRIu32, it->init);
	sprintf(told, "space %" PRIu64 " parent %s level %" PRIu32 " init %s%s", it->id, parent, it->level, init, it->fallen ? " fallen" : "");
}

static void say_numbers(const struct answered *it)
{
	if (it->reply.kind == PIDTAB_REFUSED) {
		say(told, &it->reply);
		return;
	}
	CHECK(it->reply.kind == PIDTAB_COUNTED && it->reply.first <= LISTED);
	strcpy(told, "none");
	if (it->reply.first != 0)
		say_levels(told, it->numbers, (uint32_t)it->reply.first, ' ');
}

static void say_ids(const struct answered *it)
{
	CHECK(it->count <= LISTED);
	strcpy(told, it->count == 0 ? "none" : "");
	for (uint64_t i = 0; i < it->count; i++)
		sprintf(told + strlen(told), "%s%" PRIu64, i == 0 ? "" : " ", it->ids[i]);
}

/* A list is cut short to one: so it counts two where there are more. */
static bool is_cut(const struct answered *cut, const struct answered *whole)
{
	struct answered wanted = *whole;

	if (wanted.reply.kind == PIDTAB_COUNTED && wanted.reply.first > 2)
		wanted.reply.first = 2;
	if (wanted.count > 2)
		wanted.count = 2;
	return cut->status == whole->status && same_reply(&cut->reply, &wanted.reply) && cut->count == wanted.count
		&& cut->numbers[0] == whole->numbers[0] && cut->ids[0] == whole->ids[0] && cut->numbers[1] == 0 && cut->ids[1] == 0;
}

/* Whether the step is a question. Each table answers it alike, and a list that is cut short has the first of all. */
static bool read_question(const char *word, const uint64_t *numbers)
{
	struct answered it = { 0 }, other = { 0 }, cut = { 0 };

	if (!ask_question(word, &shared, numbers, LISTED, &it))
		return false;
	for (int i = 0; i < 3 && has_tables; i++) {
		other = (struct answered){ 0 };
		CHECK(ask_question(word, &tables[i], numbers, LISTED, &other) && same_answer(&it, &other));
	}
	CHECK(ask_question(word, &shared, numbers, 1, &cut) && is_cut(&cut, &it));
	if (!done(it.status))
		return true;
	switch (it.tells) {
	case TELLS_TASK: say_task(&it.task); break;
	case TELLS_SPACE: say_space(&it.space); break;
	case TELLS_NUMBERS: say_numbers(&it); break;
	default: say_ids(&it);
	}
	return true;
}

static struct pidtab_entry entries[ENTRIES];

/* What a step of a history tells. */
static bool read_history(const char *word, const uint64_t *numbers)
{
	struct pidtab_call call;
	struct pidtab_reply reply;
	uint64_t first = 0, second = 0;
	size_t size = 0;

	if (strcmp(word, "counts") == 0) {
		if (done(pidtab_counts(&shared, &first, &second)))
			sprintf(told, "%" PRIu64 " %" PRIu64, first, second);
	} else if (strcmp(word, "worker") == 0) {
		if (done(pidtab_worker(&shared, (uint32_t)numbers[0], &first)))
			sprintf(told, "%" PRIu64, first);
	} else if (strcmp(word, "entry") == 0) {
		if (done(pidtab_entry(&shared, numbers[0], &first, &call, &reply))) {
			char line[PIDTAB_LONGEST_CALL], answer[PIDTAB_LONGEST_ANSWER + 1];
			CHECK(pidtab_call_line(&call, line, sizeof line, &size) == PIDTAB_DONE);
			say(answer, &reply);
			sprintf(told, "%" PRIu64 " %.*s: %s", first, (int)size, line, answer);
		}
	} else if (strcmp(word, "read") == 0) {
		if (done(pidtab_read(&shared, numbers[0], entries, numbers[1], &size)))
			sprintf(told, "%zu", size);
	} else if (strcmp(word, "checkpoint") == 0) {
		strcpy(told, done(pidtab_checkpoint(&shared)) ? "DONE" : told);
	} else if (strcmp(word, "checkpoint_at") == 0) {
		if (done(pidtab_checkpoint_at(&shared, numbers[0])))
			strcpy(told, "DONE");
	} else {
		return false;
	}
	return true;
}

/* The text of this name is the one below the step, also of each table. */
static bool same_text(const char *word)
{
	char *found = calloc(1, TEXT);
	struct pidtab *held = pidtab_lock(&shared);
	bool is_list = strcmp(word, "list") == 0, is_dump = strcmp(word, "dump") == 0;
	size_t size = 0;
	uint32_t status = is_list ? pidtab_list(held, found, TEXT, &size) : is_dump ? pidtab_dump(held, found, TEXT, &size)
		: pidtab_opening(held, found, TEXT, &size);
	bool same = status == PIDTAB_DONE && size == strlen(text) && memcmp(found, text, size) == 0;

	pidtab_unlock(&shared);
	for (int i = 0; i < 3 && has_tables && (is_list || is_dump); i++)
		CHECK((is_list ? pidtab_list : pidtab_dump)(&tables[i], found, TEXT, &size) == PIDTAB_DONE && size == strlen(text) && memcmp(found, text, size) == 0);
	free(found);
	return same;
}

/* The history on a second table: the same replies, counts and list; or it stops at an entry with another reply, or of a worker that is none. */
static void replay(const char *change, uint64_t at)
{
	struct pidtab again = PIDTAB_INIT;
	bool differs = change && strcmp(change, "differs") == 0;
	uint64_t first, recorded;
	size_t count, place;

	CHECK(pidtab_read(&shared, 0, entries, ENTRIES, &count) == PIDTAB_DONE && open_history(&again, bound, 1, workers) == PIDTAB_DONE);
	if (change)
		*(differs ? &entries[at].reply.second : &entries[at].worker) += workers;
	CHECK(pidtab_replay(&again, entries, count, &place) == (!change ? PIDTAB_DONE : differs ? (uint32_t)PIDTAB_DIFFERS : PIDTAB_OUT_OF_RANGE));
	CHECK(pidtab_counts(&again, &first, &recorded) == PIDTAB_DONE && first == 0);
	CHECK(place == (change ? at : count) && recorded == (change ? at + differs : count));
	if (!change) {
		CHECK(pidtab_list(&again, text, TEXT - 1, &count) == PIDTAB_DONE);
		text[count] = 0;
		CHECK(same_text("list"));
	}
	CHECK(pidtab_close(&again) == PIDTAB_DONE);
}

/* No table is made of the text with a byte changed, or with its end cut off. */
static void damage(void)
{
	struct pidtab table = PIDTAB_INIT;
	struct pidtab_fault fault;

	for (size_t i = 0, size = strlen(text); i < size; i++) {
		CHECK(pidtab_load(&table, text, i, &fault) == PIDTAB_BAD_TEXT);
		text[i] ^= 1;
		CHECK(pidtab_load(&table, text, size, &fault) == PIDTAB_BAD_TEXT && !table.is_open);
		text[i] ^= 1;
	}
}

static void line_of_numbers(const char *step)
{
	struct pidtab_call it;
	size_t size = 0;

	CHECK(sscanf(step, "numbers %u %u %" SCNu64 " %u %u %d %d", &it.operation, &it.caller, &it.id, &it.number, &it.choice, &it.pid, &it.pgid) == 7);
	if (done(pidtab_call_line(&it, told, PIDTAB_LONGEST_CALL, &size)))
		told[size] = 0;
}

/* The history of a case that ends. */
static void end_case(void)
{
	uint64_t first = 1, recorded;

	if (is_whole && pidtab_counts(&shared, &first, &recorded) == PIDTAB_DONE && first == 0)
		replay(NULL, 0);
}

/* Whether the step told what is wanted: the answer to a line, or that it was as its README says. */
static bool make(const char *step, const char *wanted)
{
	uint64_t numbers[PIDTAB_MOST_WORKERS + 1] = { 0 };
	char word[256] = "";
	int many = 0, used = 0, behind;

	told[0] = 0;
	if (sscanf(step, "%255s%n", word, &used) != 1)
		word[0] = 0;
	for (const char *at = step + used; many <= PIDTAB_MOST_WORKERS && sscanf(at, " %" SCNu64 "%n", &numbers[many], &behind) == 1; at += behind)
		many++;
	if (strcmp(word, "case") == 0 || strcmp(word, "open") == 0)
		end_case();
	if (strcmp(word, "case") == 0)
		close_all(), kept = 0;
	else if (strcmp(word, "open") == 0)
		open_all(numbers);
	else if (strcmp(word, "load") == 0)
		load_all(numbers, (size_t)many);
	else if (strcmp(word, "reload") == 0)
		reload();
	else if (strcmp(word, "seat") == 0)
		worker = (uint32_t)numbers[0];
	else if (strcmp(word, "each") == 0)
		make_each(numbers[0], numbers[1], strchr(strchr(strchr(step, ' ') + 1, ' ') + 1, ' ') + 1);
	else if (strcmp(word, "told") == 0)
		make_told(step + strlen("told "));
	else if (strcmp(word, "list") == 0 || strcmp(word, "dump") == 0 || strcmp(word, "opening") == 0)
		return same_text(word);
	else if (strcmp(word, "differs") == 0 || strcmp(word, "stranger") == 0)
		replay(word, numbers[0]);
	else if (strcmp(word, "damage") == 0)
		damage();
	else if (strcmp(word, "numbers") == 0)
		line_of_numbers(step);
	else if (!read_question(word, numbers) && !read_history(word, numbers))
		make_call(step);
	return strcmp(told, wanted) == 0;
}

/* The next line of the file, without its newline. */
static char *next_line(FILE *file, char line[1024])
{
	if (!fgets(line, 1024, file))
		return NULL;
	line[strcspn(line, "\n")] = 0;
	return line;
}

static void play(const char *path)
{
	FILE *file = fopen(path, "r");
	char step[1024], line[1024], *more;
	int made = 0;

	CHECK(file);
	more = next_line(file, line);
	while (more) {
		strcpy(step, line);
		text[0] = 0;
		while ((more = next_line(file, line)) && line[0] == '\t')
			strcat(strcat(text, line + 1), "\n");
		/* What has a zero byte is no text of C, and no function of C reads lists or writes JSON. */
		if (step[0] == 0 || step[0] == '#' || strchr(step, '\\') || strncmp(step, "parse", 5) == 0 || strncmp(step, "json", 4) == 0)
			continue;
		char *arrow = strstr(step, " -> ");
		if (arrow)
			*arrow = 0;
		if (!make(step, arrow ? arrow + 4 : "")) {
			fprintf(stderr, "%s: %s: %s\n", path, step, told);
			exit(1);
		}
		made++;
	}
	end_case();
	close_all();
	fclose(file);
	CHECK(made > 0);
}

int main(int count, char **paths)
{
	CHECK(count > 5);
	for (int i = 1; i < count; i++)
		play(paths[i]);
	return 0;
}

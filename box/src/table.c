/* table.c - calls on the table, each of which is a line of the log. */
#include "box.h"

#include <errno.h>
#include <stdlib.h>

enum { LEAST_ROOM = 64, GROWTH = 4 };

uint64_t log_line;
struct pidtab_reply reply;

static struct pidtab table = PIDTAB_INIT;
static FILE *log_file, *answers_file;

static FILE *open_to_write(const char *name)
{
	FILE *file = name ? fopen(name, "we") : NULL;

	if (name && !file)
		die(name);
	return file;
}

/* A status of the library says all; errno has nothing to do with it. */
static void must(uint32_t status)
{
	if (status == PIDTAB_DONE)
		return;
	errno = 0;
	die(pidtab_text(status));
}

void table_start(uint32_t pid_max, const char *log, const char *answers)
{
	must(pidtab_open(&table, pid_max));
	log_file = open_to_write(log);
	answers_file = open_to_write(answers);
}

/* A full disk shows when the files are closed. */
void table_stop(void)
{
	if (log_file && (ferror(log_file) | fclose(log_file)))
		die("the log");
	if (answers_file && (ferror(answers_file) | fclose(answers_file)))
		die("the answers");
	pidtab_close(&table);
}

static void write_line(FILE *to, char *line, size_t size)
{
	line[size] = '\n';
	fwrite(line, 1, size + 1, to);
}

/* A call was made: it and its reply are written as `pidtab run` has them. Its value is a number, or minus an errno. */
static int64_t log_call(const struct pidtab_call *call)
{
	char line[PIDTAB_LONGEST_ANSWER + 1];
	size_t size;

	log_line++;
	if (log_file) {
		must(pidtab_call_line(call, line, sizeof line - 1, &size));
		write_line(log_file, line, size);
	}
	if (answers_file) {
		must(pidtab_reply_line(&reply, line, sizeof line - 1, &size));
		write_line(answers_file, line, size);
	}
	return reply.kind == PIDTAB_REFUSED ? -(int64_t)reply.error : (int64_t)reply.first;
}

static int64_t make(const struct pidtab_call *call)
{
	must(pidtab_call(&table, call, &reply));
	return log_call(call);
}

int64_t table_do(uint32_t operation, uint32_t caller, uint32_t number, uint32_t choice)
{
	return make(&(struct pidtab_call){ .operation = operation, .caller = caller, .number = number, .choice = choice });
}

int64_t table_setpgid(uint32_t caller, int32_t pid, int32_t pgid)
{
	return make(&(struct pidtab_call){ .operation = PIDTAB_SETPGID, .caller = caller, .pid = pid, .pgid = pgid });
}

int64_t table_control(uint32_t operation, uint32_t caller, uint64_t id, uint32_t number, uint32_t choice)
{
	return make(&(struct pidtab_call){ .operation = operation, .caller = caller, .id = id, .number = number, .choice = choice });
}

/* A list with room for as many things of a size as are wanted. */
static void *with_room(void *list, uint64_t *room, uint64_t wanted, size_t size)
{
	if (wanted <= *room)
		return list;
	*room = wanted;
	return need(realloc(list, wanted * size));
}

/* What the exit did to others: nothing where it is no init's and leaves no child, and then the table need not tell. The
 * list stands until the next exit. */
const struct pidtab_effect *table_exit(uint32_t caller, uint32_t status, bool is_init, uint64_t *count)
{
	static struct pidtab_effect *effects;
	static uint64_t room;
	const struct pidtab_call call = { .operation = PIDTAB_EXIT, .caller = caller, .number = status };
	uint32_t told;

	*count = 0;
	if (!is_init && !table_first(SUPERVISOR, PIDTAB_CHILDREN, caller)) {
		make(&call);
		return effects;
	}
	*count = LEAST_ROOM;
	do {
		effects = with_room(effects, &room, *count, sizeof *effects);
		told = pidtab_call_told(&table, &call, &reply, effects, room, count);
	} while (told == PIDTAB_NO_ROOM);
	must(told);
	log_call(&call);
	return effects;
}

/* ---- questions: they are no calls, and so they are not in the log ---- */

struct pidtab_task table_stat(uint32_t caller, uint32_t number)
{
	struct pidtab_task task;

	must(pidtab_stat(&table, caller, number, &task));
	return task;
}

/* The namespace that the one with the id is in. */
uint64_t table_around(uint64_t id)
{
	struct pidtab_space space;

	must(pidtab_space(&table, id, &space));
	return space.parent;
}

/* Whether the control group would go. */
bool table_would_remove(uint64_t id)
{
	const struct pidtab_call call = { .operation = PIDTAB_RM, .id = id };
	struct pidtab_reply told;

	must(pidtab_would(&table, &call, &told));
	return told.kind != PIDTAB_REFUSED;
}

/* The least number of a page, 0 where it has none. */
uint32_t table_first(uint32_t caller, uint32_t whom, uint32_t number)
{
	uint32_t least = 0;
	struct pidtab_reply counted;

	must(pidtab_page(&table, caller, whom, number, 0, &least, 1, &counted));
	return least;
}

/* A list of numbers, which stands until the next one. */
static uint32_t *numbers;
static uint64_t room;

/* The list has room for more than are counted so far. */
static void with_more_room(uint64_t counted)
{
	numbers = with_room(numbers, &room, counted > room ? GROWTH * counted : room, sizeof *numbers);
}

/* All numbers of a page, in rising order. */
const uint32_t *table_list(uint32_t caller, uint32_t whom, uint32_t number, uint64_t *count)
{
	struct pidtab_reply counted = { .first = LEAST_ROOM };

	do {
		with_more_room(counted.first);
		must(pidtab_page(&table, caller, whom, number, 0, numbers, room, &counted));
	} while (counted.first > room);
	*count = counted.first;
	return numbers;
}

/* The root numbers of all that live in the control group itself, in rising order. */
const uint32_t *table_members(uint64_t control, uint64_t *count)
{
	struct pidtab_reply counted = { .first = LEAST_ROOM };

	do {
		with_more_room(counted.first);
		must(pidtab_control_tasks(&table, SUPERVISOR, control, 0, numbers, room, &counted));
	} while (counted.first > room);
	*count = counted.first;
	return numbers;
}

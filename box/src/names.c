/* names.c - which number of the kernel goes with which root number. The table is asked for all other numbers. */
#include "box.h"

#include <stdlib.h>
#include <string.h>

struct process *processes;

static struct name *by_real[MOST_REAL], *by_root[MOST_REAL];

void *need(void *memory)
{
	if (!memory)
		die("no memory");
	return memory;
}

/* A pair of before that had one of the two numbers is over: its process, group and session are gone. */
static void drop_former(struct name *former)
{
	if (!former)
		return;
	if (former->process)
		die("two live processes have one number");
	if (by_real[former->real] == former)
		by_real[former->real] = NULL;
	if (by_root[former->root] == former)
		by_root[former->root] = NULL;
	free(former->kept);
	free(former);
}

/* The pair of a new process. */
struct name *name_make(pid_t real, uint32_t root)
{
	struct name *name = need(calloc(1, sizeof *name));

	drop_former(by_real[real]);
	drop_former(by_root[root]);
	name->real = real;
	name->root = root;
	return by_real[real] = by_root[root] = name;
}

/* A process, group or session of outside: to the table it is the supervisor, which is all that it knows of them. */
void name_outside(pid_t real)
{
	static struct name outside = { .root = SUPERVISOR };

	by_root[SUPERVISOR] = &outside;
	outside.real = real;
	by_real[real] = &outside;
}

struct name *name_of_real(pid_t real)
{
	return real > 0 && real < MOST_REAL ? by_real[real] : NULL;
}

/* The process of a task of the table, live or ended; none of the supervisor, nor of a task that the kernel has not made yet. */
struct process *process_of_root(uint32_t root)
{
	return by_root[root] ? by_root[root]->process : NULL;
}

/* The process that has the number, which is not 0, in the caller's namespace. */
struct process *process_seen(const struct process *caller, uint32_t number)
{
	return process_of_root(table_stat(caller->root, number).root);
}

/* ---- the numbers of a name. A group may still use them, and a signal or a message that comes late may say them,
 * when the table has them no more ---- */

static void read_levels(struct name *name)
{
	struct pidtab_task task = table_stat(SUPERVISOR, name->root);
	uint64_t space = task.space;

	name->count = task.count;
	name->kept = need(calloc(task.count + 1, sizeof *name->kept));
	for (uint32_t i = task.count; i-- > 0;) {
		name->kept[i] = (struct level){ space, task.levels[i] };
		space = i > 0 ? table_around(space) : 0;
	}
}

/* A child in its parent's namespace, which is the outermost one of the box, has one number there and its root number: nothing is to be asked. */
void name_beside(struct name *name, const struct name *parent, uint32_t number)
{
	enum { LEVELS = 2 };

	if (parent->count != LEVELS)
		return;
	name->count = LEVELS;
	name->kept = need(calloc(LEVELS, sizeof *name->kept));
	name->kept[0] = (struct level){ parent->kept[0].space, name->root };
	name->kept[1] = (struct level){ parent->kept[1].space, number };
}

/* Those in the caller's namespace and in the ones inside it, and how many; none where the caller cannot see it. */
uint32_t numbers_of(const struct name *name, const struct process *caller, uint32_t *numbers)
{
	uint32_t count = name ? name->count : 0, first = 0;

	while (first < count && name->kept[first].space != caller->space)
		first++;
	for (uint32_t i = first; i < count; i++)
		numbers[i - first] = name->kept[i].number;
	return count - first;
}

/* The number in the caller's namespace, 0 where it cannot be seen. */
uint32_t number_of(const struct name *name, const struct process *caller)
{
	uint32_t numbers[PIDTAB_LEVELS_MAX];

	return numbers_of(name, caller, numbers) ? numbers[0] : 0;
}

/* ---- processes ---- */

struct process *process_new(struct name *name)
{
	struct process *process = need(calloc(1, sizeof *process));

	if (!name->kept)
		read_levels(name);
	*process = (struct process){ .name = name, .real = name->real, .root = name->root,
		.space = name->kept[name->count - 1].space, .memory = memory_new(),
		.next = processes };
	if (processes)
		processes->previous = process;
	name->process = process;
	return processes = process;
}

void process_free(struct process *process)
{
	if (process->name && process->name->process == process)
		process->name->process = NULL;
	if (process->previous)
		process->previous->next = process->next;
	else
		processes = process->next;
	if (process->next)
		process->next->previous = process->previous;
	while (process->threads)
		thread_free(process->threads); /* one that was never seen */
	memory_leave(process->memory);
	free(process);
}

/* ---- by kind ---- */

/* A clock of a process is the complement of its number, above three bits; in these, 3 says that it is a descriptor's. */
enum { CLOCK_BITS = 3, CLOCK_OF_FILE = 3 };

/* A group or a session whose leader is gone has a number and no task: a member that the caller sees tells the root number. */
static const struct name *leader_gone(const struct process *caller, uint32_t number)
{
	uint32_t member = table_first(caller->root, PIDTAB_GROUP_MEMBERS, number);
	bool is_group = member != 0;
	struct pidtab_task task;

	if (!is_group)
		member = table_first(caller->root, PIDTAB_SESSION_MEMBERS, number);
	if (member == 0)
		return NULL;
	task = table_stat(SUPERVISOR, table_stat(caller->root, member).root);
	return by_root[is_group ? task.group : task.session];
}

/* A process that is gone is nobody, though a group or a session may have its number; who may own a descriptor still. */
static pid_t real_seen(const struct process *caller, enum kind kind, int64_t number)
{
	const struct process *process = process_seen(caller, (uint32_t)number);
	bool may_be_gone = !process && kind != PROCESS && kind != TASK;
	const struct name *leader = may_be_gone ? leader_gone(caller, (uint32_t)number) : NULL;

	if (process)
		return process->real;
	return leader ? leader->real : NOBODY;
}

static pid_t real_task(const struct process *caller, enum kind kind, int64_t number)
{
	const struct thread *thread = thread_named(caller, number);

	return number < FIRST_THREAD ? real_seen(caller, kind, number) : thread ? thread->tid : NOBODY;
}

static int64_t number_of_task(const struct process *caller, int64_t real)
{
	const struct thread *thread = real < MOST_REAL ? thread_of_real((pid_t)real) : NULL;

	if (thread && thread->process && thread->number)
		return number_of(thread->process->name, caller) ? thread->number : 0;
	return number_of(name_of_real((pid_t)real), caller);
}

/* The kernel's number for one of the caller's; NOBODY where it names nobody. 0 and what is negative is the caller's own affair. To kill(2), and
 * others that take a process or a group, a thread is as good as its process. */
int64_t to_real(const struct process *caller, enum kind kind, int64_t number)
{
	if (kind == PROCESS_OR_GROUP && number < -1 && number > INT32_MIN)
		return -(int64_t)real_seen(caller, GROUP, -number);
	if (kind == CLOCK && number < 0 && (number & 7) != CLOCK_OF_FILE) {
		int64_t of = ~(number >> CLOCK_BITS);
		return of ? (~(int64_t)real_task(caller, TASK, of) * (1 << CLOCK_BITS)) | (number & 7) : number;
	}
	if (number <= 0 || kind == CLOCK)
		return number;
	return kind == TASK || kind == PROCESS_OR_GROUP ? real_task(caller, kind, number) : real_seen(caller, kind, number);
}

/* The caller's number for one of the kernel's; 0 where the caller cannot see it. A signal may still name a process that is gone. */
int64_t to_number(const struct process *caller, enum kind kind, int64_t real)
{
	if (kind == PROCESS_OR_GROUP && real < -1)
		return -(int64_t)number_of(name_of_real((pid_t)-real), caller);
	if (real <= 0)
		return real;
	return kind == TASK ? number_of_task(caller, real) : number_of(name_of_real((pid_t)real), caller);
}

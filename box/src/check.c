/* check.c - what the kernel answered, beside what the table did. */
#define _GNU_SOURCE
#include "calls.h"

#include <errno.h>
#include <signal.h>
#include <stdlib.h>
#include <string.h>
#include <sys/syscall.h>
#include <sys/wait.h>

/* The kernel's processes run on meanwhile: a state differs where it does so as many times in a row. */
enum { SUSPECTS = 3 };

void compare(const char *what, int64_t kernel, int64_t table)
{
	checks++;
	if (kernel != table)
		report_difference(what, 0, kernel, table);
}

/* ---- waits ---- */

/* Which children a wait is for, as the table's call has it. */
struct wanted {
	enum pidtab_which which;
	uint32_t number;
	bool is_known; /* no wait that the table lacks */
};

static struct wanted wanted_of_wait4(int32_t pid, bool is_known)
{
	if (pid > 0)
		return (struct wanted){ PIDTAB_CHILD, (uint32_t)pid, is_known };
	if (pid == 0)
		return (struct wanted){ PIDTAB_OWN_GROUP, 0, is_known };
	if (pid < -1)
		return (struct wanted){ PIDTAB_GROUP, -(uint32_t)pid, is_known };
	return (struct wanted){ PIDTAB_ANY, 0, is_known };
}

/* A child whose end sends another signal than SIGCHLD is no child to a plain wait. The table has no such children. */
static bool is_unheard(const struct thread *thread, int32_t pid)
{
	const struct process *child = pid > 0 ? process_seen(thread->process, (uint32_t)pid) : NULL;
	uint64_t count;
	const uint32_t *children = table_list(SUPERVISOR, PIDTAB_CHILDREN, thread->process->root, &count);

	for (uint64_t i = 0; i < count && pid <= 0 && !(child && child->ends_unheard); i++)
		child = process_of_root(children[i]);
	return child && child->ends_unheard;
}

static struct wanted wanted_by(const struct thread *thread)
{
	int32_t first = (int32_t)call_argument(thread, 0), second = (int32_t)call_argument(thread, 1);
	int options = (int)call_argument(thread, registers_call(&thread->made) == SYS_wait4 ? 2 : 3);
	bool is_known = !(options & (__WCLONE | __WNOTHREAD));

	if (registers_call(&thread->made) == SYS_wait4)
		return wanted_of_wait4(first, is_known && !is_unheard(thread, first));
	is_known = is_known && options & WEXITED;
	if (first == P_PID)
		return (struct wanted){ PIDTAB_CHILD, (uint32_t)second, is_known };
	if (first == P_PGID)
		return (struct wanted){ second ? PIDTAB_GROUP : PIDTAB_OWN_GROUP, (uint32_t)second, is_known };
	return (struct wanted){ PIDTAB_ANY, 0, is_known };
}

static bool is_wanted(const struct wanted *wanted, const struct pidtab_task *task, uint32_t own_group)
{
	switch (wanted->which) {
	case PIDTAB_CHILD:
		return task->levels[0] == wanted->number;
	case PIDTAB_OWN_GROUP:
		return task->group == own_group;
	case PIDTAB_GROUP:
		return task->group == wanted->number;
	default:
		return true;
	}
}

/* The zombie of the table that the wait would reap, or 0: the one with the least number, of those that died before. */
static uint32_t least(const struct process *parent, const struct wanted *wanted, uint64_t before)
{
	uint32_t own_group = table_stat(parent->root, 0).group;
	uint64_t count;
	const uint32_t *children = table_list(parent->root, PIDTAB_CHILDREN, 0, &count);

	for (uint64_t i = 0; i < count; i++) {
		const struct process *child = process_seen(parent, children[i]);
		struct pidtab_task task = table_stat(parent->root, children[i]);

		if (child && child->ended && child->died <= before && is_wanted(wanted, &task, own_group))
			return children[i];
	}
	return 0;
}

/* The kernel is about to hand over the child. It chose when the child died, or when the call was made. */
void compare_wait(const struct thread *thread, const struct process *child)
{
	const struct process *parent = thread->process;
	uint64_t chosen = child->died > thread->entered ? child->died : thread->entered;
	struct wanted wanted = wanted_by(thread);

	if (!wanted.is_known || wanted.which == PIDTAB_CHILD)
		return;
	compare("order of waits", number_of(child->name, parent), least(parent, &wanted, chosen));
}

/* The kernel found none: no child, or none that has ended. The table is asked, unless one has ended meanwhile. */
void compare_no_child(const struct thread *thread, int64_t result)
{
	const struct process *parent = thread->process;
	struct wanted wanted = wanted_by(thread);
	uint32_t zombie;

	if (!wanted.is_known)
		return;
	zombie = least(parent, &wanted, events);
	if (!zombie)
		compare("wait for none", result, table_do(PIDTAB_WAIT, parent->root, wanted.number, wanted.which));
	else if (result != 0 && !(kill(process_seen(parent, zombie)->real, 0) && errno == ESRCH))
		/* Where it is gone, another thread's wait has reaped it, and the exit of that is about to be reported. */
		compare("wait without children", result, 0);
}

/* ---- parents, groups and sessions ---- */

bool read_state(pid_t real, struct state *state)
{
	char name[32], text[512], *end;
	FILE *file;
	size_t size;

	snprintf(name, sizeof name, "/proc/%d/stat", real);
	file = fopen(name, "re");
	if (!file)
		return false;
	size = fread(text, 1, sizeof text - 1, file);
	fclose(file);
	text[size] = 0;
	end = strrchr(text, ')');
	return end && sscanf(end + 1, " %*c %d %d %d", &state->parent, &state->group, &state->session) == 3;
}

/* A value of the status of a thread, by its line; false where it has none. */
bool read_status(pid_t process, pid_t thread, const char *format, void *value)
{
	char name[64], line[256];
	bool is_read = false;
	FILE *file;

	snprintf(name, sizeof name, "/proc/%d/task/%d/status", process, thread);
	file = fopen(name, "re");
	while (file && !is_read && fgets(line, sizeof line, file))
		is_read = sscanf(line, format, value) == 1;
	if (file)
		fclose(file);
	return is_read;
}

static uint32_t root_of(pid_t real)
{
	const struct name *name = name_of_real(real);

	return name ? name->root : real == 0 ? SUPERVISOR : 0; /* 0 is outside, to one in a PID namespace */
}

static void report_state(const struct process *process, const struct state *state, const struct pidtab_task *task)
{
	if (task->parent != root_of(state->parent))
		report_difference("parent", process->root, root_of(state->parent), task->parent);
	if (task->group != root_of(state->group))
		report_difference("group", process->root, root_of(state->group), task->group);
	if (task->session != root_of(state->session))
		report_difference("session", process->root, root_of(state->session), task->session);
}

/* Whether a call that changes the group or the session is under way: the table and the kernel make it one after the other. */
static bool is_changing(const struct process *process)
{
	const struct thread *thread = thread_of_real(process->real);
	bool is_in_call = thread && thread->phase == IN_CALL;

	return process->asked || (is_in_call && (thread->call->enter == enter_setsid || thread->call->enter == enter_setpgid));
}

/* Every process's parent, group and session, at a moment when nothing is reported. */
void compare_state(void)
{
	for (struct process *process = processes; process; process = process->next) {
		struct pidtab_task task;
		struct state state;

		if (process->ended || is_changing(process) || !read_state(process->real, &state))
			continue;
		task = table_stat(SUPERVISOR, process->root);
		checks++;
		if (task.parent == root_of(state.parent) && task.group == root_of(state.group) && task.session == root_of(state.session))
			process->suspect = 0;
		else if (++process->suspect == SUSPECTS)
			report_state(process, &state, &task);
	}
}

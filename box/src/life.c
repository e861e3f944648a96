/* life.c - how processes end, in the table and in the kernel. */
#define _GNU_SOURCE
#include "box.h"

#include <errno.h>
#include <signal.h>
#include <sys/ptrace.h>
#include <sys/wait.h>

/* The parent in the table, as each exit tells who takes its children, if it is not outside. */
struct process *parent_of(const struct process *child)
{
	uint32_t asked = checking ? table_stat(SUPERVISOR, child->root).parent : child->parent;

	if (asked != child->parent)
		report_difference("the kept parent", child->root, child->parent, asked);
	return process_of_root(child->parent);
}

/* The kernel says whose child it is: the ends of its former parents are fetched before. Whether there were some. */
bool settle_parent(const struct process *parent, const struct process *child)
{
	struct process *other;
	bool some = false;

	while ((other = parent_of(child)) && other != parent && !other->ended) {
		catch_up(other, WNOHANG);
		if (parent_of(child) == other)
			break;
		some = true;
	}
	return some;
}

/* The child has left the kernel: so it leaves the table. Its number to the parent. */
uint32_t reap(struct process *parent, struct process *child)
{
	uint32_t number;

	number = number_of(child->name, parent);
	compare("wait", number, table_do(PIDTAB_WAIT, parent->root, number, PIDTAB_CHILD));
	process_free(child);
	return number;
}

/* A wait of the parent did not tell whom it reaped: the zombies of the table that the kernel does not keep. */
void reap_vanished(struct process *parent)
{
	uint64_t count;
	const uint32_t *children = table_list(SUPERVISOR, PIDTAB_CHILDREN, parent->root, &count);

	for (uint64_t i = 0; i < count; i++) {
		struct process *child = process_of_root(children[i]);

		if (child && child->dead && child->ended && kill(child->real, 0) && errno == ESRCH)
			reap(parent, child);
	}
}

/* The kernel keeps no zombie whose parent wants none. */
static void reap_unwanted(struct process *child)
{
	struct process *parent = child->dead && child->ended ? parent_of(child) : NULL;

	if (parent && (parent->ignores_children || parent->wants_no_zombies))
		reap(parent, child);
}

/* ---- what an exit does to others ---- */

/* The table has killed a member of the init's namespace. */
static void fall(struct process *process, struct process *init)
{
	process->ended = true;
	if (process->dead || process->killer == init)
		return;
	process->killer = init;
	for (struct thread *thread = process->threads; thread; thread = thread->next)
		happen(thread, FALLS);
	kill(process->real, SIGKILL);
}

/* The table has no such task any more, but for the numbers that its group and session use. */
static void leave_table(struct process *process)
{
	process->gone = true;
	process->name->process = NULL;
	process->name = NULL;
	if (process->dead)
		process_free(process);
}

/* What the exit of a process did to another one. A group, a session or a namespace has no record here. */
static void take_effect(const struct pidtab_effect *effect, struct process *exiting)
{
	struct process *process = effect->what <= PIDTAB_TASK_GONE ? process_of_root(effect->number) : NULL;

	if (!process || process == exiting)
		return;
	if (effect->what == PIDTAB_TASK_ADOPTED) {
		process->parent = (uint32_t)effect->value;
		reap_unwanted(process);
		return;
	}
	fall(process, exiting);
	if (effect->what == PIDTAB_TASK_GONE)
		leave_table(process);
}

void process_ended(struct process *process, int status)
{
	int code = WIFSIGNALED(status) ? 128 + WTERMSIG(status) : WEXITSTATUS(status);
	const struct pidtab_effect *effects;
	uint64_t count;

	if (process->ended)
		return;
	if (process->spare) {
		table_do(PIDTAB_EXIT, process->spare_root, 0, 0);
		table_do(PIDTAB_WAIT, process->root, process->spare, PIDTAB_CHILD);
	}
	/* The table's status has eight bits: a signal is told as a shell tells it. */
	effects = table_exit(process->root, (uint32_t)code, process->is_init, &count);
	process->ended = true;
	for (uint64_t i = 0; i < count; i++)
		take_effect(&effects[i], process);
}

/* Whether some process that fell with the init is not dead yet. */
bool has_fallen_with(const struct process *init)
{
	for (const struct process *process = processes; process; process = process->next)
		if (process->killer == init && !process->dead)
			return true;
	return false;
}

/* An init goes on to its end once all that fell with it are dead. */
static void let_go(struct process *init)
{
	if (has_fallen_with(init))
		return;
	for (struct thread *thread = init->threads; thread; thread = thread->next)
		if (thread->stage == HELD)
			happen(thread, LET_GO);
}

/* The record of a nested init goes, and nobody waits for it any more. */
static void forget_killer(const struct process *init)
{
	for (struct process *process = processes; process; process = process->next)
		if (process->killer == init)
			process->killer = NULL;
}

void process_dead(struct process *process)
{
	struct process *killer = process->killer;

	process->dead = true;
	if (process->is_init)
		forget_killer(process);
	if (process->gone)
		process_free(process);
	else
		reap_unwanted(process);
	if (killer)
		let_go(killer);
}

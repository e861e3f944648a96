/* orders.c - all orders of the events of two forks, an end of their init and a kill, on the stages of box/src/stages.c alone. A small kernel is
 * played: its threads report stops and ends, and go on where they are let. In the end everybody has to be dead, and no fork left open. */
#define _GNU_SOURCE
#include "../src/box.h"

#include <assert.h>
#include <stdlib.h>
#include <string.h>
#include <sys/ptrace.h>

enum { FORKERS = 2, TASKS = 2 * FORKERS + 1, LONGEST = 64, INIT = 0 };

/* What a task of this kernel does. */
enum life { UNMADE, FRESH, WAITS_FOR_BEGIN, RUNS, AT_END, WAITS_FOR_END, ENDED, REAPED };

struct task {
	enum life life;
	bool was_killed, tells_end; /* it stops at its end, as an init's threads do */
	bool has_asked, has_made, has_been_told, has_been_delayed;
	bool is_thread;             /* of its parent's process */
	bool is_late;               /* others have reported since it was killed */
	int parent;
	struct thread *thread;
};

/* The init is task 0; 1 and 2 fork 3 and 4. */
static struct task tasks[TASKS];
static struct process made[TASKS];
static bool in_init;      /* the forkers are threads of the init */
static int thread_makers; /* how many of them, from the first, make threads */
static bool has_outsider; /* the last forker is in another namespace, which does not fall */
static bool has_killed, has_fallen;
static int open_forks;   /* children of the table without one of the kernel */

/* ---- what stages.c wants of others ---- */

struct process *processes;
bool checking = true;
static int wrong;

void report_difference(const char *what, uint32_t root, int64_t kernel, int64_t table)
{
	fprintf(stderr, "%s: stage %u, event %ld %ld\n", what, root, kernel, table);
	wrong++;
}

static bool is_outside(int number)
{
	return has_outsider && (number == FORKERS || number == 2 * FORKERS);
}

static struct task *task_of(const struct thread *thread)
{
	return &tasks[thread->tid];
}

void begin(struct thread *thread)
{
	struct task *task = task_of(thread);

	task->life = task->life == WAITS_FOR_BEGIN ? RUNS : task->life;
}

void robust_end(const struct thread *thread)
{
	(void)thread;
}

void trace(int request, pid_t tid, long data)
{
	struct task *task = &tasks[tid];

	assert(request == PTRACE_CONT && data == 0);
	task->life = task->life == WAITS_FOR_END ? ENDED : task->life;
}

static void kill_task(struct task *task)
{
	task->was_killed = true;
	if (task->life == FRESH || task->life == WAITS_FOR_BEGIN || task->life == RUNS)
		task->life = task->tells_end ? AT_END : ENDED;
}

void fork_undo(struct thread *thread)
{
	(void)thread;
	open_forks--;
}

void fork_keep(struct thread *thread)
{
	(void)thread;
	open_forks--;
}

/* That of a dead parent is the init by now. */
const struct process *stranger_parent(const struct thread *stranger)
{
	const struct task *parent = &tasks[task_of(stranger)->parent];

	return parent->life == REAPED || parent->life == ENDED ? tasks[INIT].thread ? &made[INIT] : NULL : parent->thread->process;
}

bool stranger_is_process(const struct thread *stranger)
{
	return !task_of(stranger)->is_thread;
}

void stranger_kill(const struct thread *stranger)
{
	kill_task(task_of(stranger));
}

void thread_free(struct thread *thread)
{
	task_of(thread)->thread = NULL;
	stage_delist(thread);
	free(thread);
}

/* ---- what tracer.c, forks.c and life.c do, without a table ---- */

static struct thread *new_thread(int task, struct process *process)
{
	struct thread *thread = calloc(1, sizeof *thread);

	thread->tid = task;
	thread->process = process;
	stage_enlist(thread);
	return tasks[task].thread = thread;
}

static struct process *new_process(int task)
{
	struct process *process = &made[task];

	*process = (struct process){ .real = task, .next = processes, .is_init = task == INIT };
	return processes = process;
}

static bool some_live(void)
{
	for (const struct process *process = processes; process; process = process->next)
		if (process->killer && !process->dead)
			return true;
	return false;
}

static void fall(void)
{
	has_fallen = made[INIT].ended = true;
	for (struct process *process = processes; process; process = process->next) {
		if (process->is_init || process->dead || is_outside(process->real))
			continue;
		process->ended = true;
		process->killer = &made[INIT];
		for (struct thread *thread = process->threads; thread; thread = thread->next) {
			open_forks -= thread->stage == ASKING; /* the table's child falls too */
			happen(thread, FALLS);
		}
		for (struct thread *thread = process->threads; thread; thread = thread->next)
			kill_task(task_of(thread));
	}
}

static void thread_over(struct thread *thread)
{
	struct process *process = thread->process;

	thread_free(thread);
	process->dead = threads_of(process) == 0;
	if (process->is_init && process->dead && !has_fallen)
		fall();
	if (has_fallen && !some_live())
		for (struct thread *held = made[INIT].threads; held; held = held->next)
			if (held->stage == HELD)
				happen(held, LET_GO);
}

static void claim(int forker)
{
	struct task *child = &tasks[forker + FORKERS];
	struct thread *thread = tasks[forker].thread;

	tasks[forker].has_been_told = true;
	if (thread->stage == FALLEN || (!child->thread && child->is_thread && child->life == REAPED))
		return;
	if (!child->thread)
		new_thread(forker + FORKERS, NULL);
	stage_delist(child->thread);
	open_forks -= thread->stage == ASKING;
	child->thread->process = child->is_thread ? thread->process : new_process(forker + FORKERS);
	stage_enlist(child->thread);
	if (happen(child->thread, CLAIMED) & END)
		thread_over(child->thread);
	happen(thread, TOLD);
}

/* A stop of the forker, in which the kernel says who is its child. */
static void tell(int forker)
{
	if (!(happen(tasks[forker].thread, STOPS) & SERVE))
		report_difference("a stop that is not served", 0, forker, 0);
	claim(forker);
}

/* ---- the events that may be next ---- */

enum choice { ASK, MAKE, FAIL, DELAY, TELL, RETURN, REPORT, EXIT, KILL, CHOICES };

static bool is_alive(const struct task *task)
{
	return task->life == RUNS && !task->was_killed;
}

/* The end of a process's first thread is the last one that is reported. */
static bool is_alone(void)
{
	for (int i = 1; i < TASKS; i++)
		if (tasks[i].is_thread && tasks[i].life != UNMADE && tasks[i].life != REAPED)
			return false;
	return true;
}

static bool may_be(int number, enum choice choice)
{
	const struct task *task = &tasks[number];
	bool is_forker = number >= 1 && number <= FORKERS;

	switch (choice) {
	case ASK:
		return is_forker && is_alive(task) && !task->has_asked;
	case MAKE: /* a call that is under way may still make it where the kill is not seen any more */
		return is_forker && task->has_asked && !task->has_made && task->life == RUNS;
	case FAIL:
		return is_forker && number > thread_makers && is_alive(task) && task->has_asked && !task->has_made;
	case DELAY:
		return is_forker && number > thread_makers && is_alive(task) && task->has_asked && !task->has_made && !task->has_been_delayed;
	/* A stop may be reported after the kill, and before that of the end; really, only if none of others is between. */
	case TELL:
		return is_forker && !(has_outsider && task->is_late) && task->has_made && !task->has_been_told &&
			(task->life == RUNS || task->life == (task->tells_end ? AT_END : ENDED));
	case RETURN:
		return is_forker && is_alive(task) && task->thread->stage == MADE;
	case REPORT:
		return task->life == FRESH || task->life == AT_END || (task->life == ENDED && (number != INIT || is_alone()));
	case EXIT:
		return (number == INIT || is_outside(number)) && is_alive(task);
	default: /* a forker, or a child that may not have begun */
		return (number == 1 || number == 1 + FORKERS) && !in_init && !has_killed && task->life >= FRESH && task->life <= RUNS && !task->was_killed;
	}
}

static void ask(int forker)
{
	tasks[forker].has_asked = true;
	if (forker <= thread_makers)
		return;
	open_forks++;
	happen(tasks[forker].thread, ASKS);
}

static void make_child(int forker)
{
	struct task *child = &tasks[forker + FORKERS];
	bool is_thread = forker <= thread_makers;

	tasks[forker].has_made = true;
	*child = (struct task){ .life = FRESH, .parent = forker, .is_thread = is_thread, .tells_end = in_init &&
		!is_outside(forker) };
	if (is_thread && tasks[forker].was_killed)
		kill_task(child);
}

static void leave(struct task *task)
{
	struct thread *thread = task->thread;
	struct process *process = thread->process;

	task->life = WAITS_FOR_END;
	happen(thread, LEAVES);
	if (thread->stage != LEAVING)
		return;
	if (process->at[LEAVING] == threads_of(process) && !process->ended) {
		fall();
		if (some_live())
			happen(thread, HOLDS);
	}
	if (thread->stage == LEAVING)
		happen(thread, LET_GO);
}

static void report(int number)
{
	struct task *task = &tasks[number];

	for (int i = 0; i < TASKS; i++)
		tasks[i].is_late |= tasks[i].was_killed;
	if (!task->thread)
		new_thread(number, NULL);
	if (task->life == FRESH) {
		task->life = WAITS_FOR_BEGIN;
		happen(task->thread, STOPS);
	} else if (task->life == AT_END) {
		leave(task);
	} else {
		task->life = REAPED;
		if (happen(task->thread, ENDS) & END)
			thread_over(task->thread);
	}
}

/* The init's threads end with it. */
static void leave_kernel(int number)
{
	if (number != INIT)
		kill_task(&tasks[number]);
	for (int i = 0; i < TASKS && number == INIT; i++)
		if (i == INIT || (tasks[i].life != UNMADE && tasks[i].is_thread))
			kill_task(&tasks[i]);
}

static void take(int number, enum choice choice)
{
	struct task *task = &tasks[number];

	switch (choice) {
	case ASK: ask(number); break;
	case MAKE: make_child(number); break;
	case FAIL: task->has_made = task->has_been_told = true; happen(task->thread, FAILS); break;
	case DELAY: task->has_asked = false; task->has_been_delayed = true; happen(task->thread, DELAYED); break;
	case TELL: tell(number); break;
	case RETURN: happen(task->thread, RETURNS); break;
	case REPORT: report(number); break;
	case EXIT: leave_kernel(number); break;
	default: has_killed = true; kill_task(task);
	}
	stages_settle();
}

/* ---- all orders ---- */

static int path[LONGEST], length;

static void start(void)
{
	for (int i = 0; i < TASKS; i++)
		if (tasks[i].thread)
			thread_free(tasks[i].thread);
	memset(tasks, 0, sizeof tasks);
	memset(made, 0, sizeof made);
	processes = NULL;
	stages_reset();
	has_killed = has_fallen = false;
	open_forks = 0;
	for (int i = 0; i <= FORKERS; i++) {
		tasks[i] = (struct task){ .life = RUNS, .tells_end = i == INIT || (in_init && !is_outside(i)),
			.is_thread = in_init && i != INIT && !is_outside(i) };
		new_thread(i, tasks[i].is_thread ? &made[INIT] : new_process(i));
		happen(tasks[i].thread, CLAIMED);
		happen(tasks[i].thread, STOPS);
	}
}

static int find_choices(int *found)
{
	int count = 0;

	for (int number = 0; number < TASKS; number++)
		for (int choice = 0; choice < CHOICES; choice++)
			if (may_be(number, (enum choice)choice))
				found[count++] = number * CHOICES + choice;
	return count;
}

static void explain(const char *what)
{
	static const char *const words[] = { "asks", "is made a child", "fails", "is delayed", "is told", "returns", "reports", "exits", "is killed" };

	printf("%s:", what);
	for (int i = 0; i < length; i++)
		printf(" %d %s,", path[i] / CHOICES, words[path[i] % CHOICES]);
	puts("");
	exit(1);
}

/* Between any two events: who is claimed begins, and who is nobody's is killed, once no thread of its process may claim it. */
static void check_children(void)
{
	for (int i = 1; i <= FORKERS; i++) {
		const struct task *child = &tasks[i + FORKERS];
		bool waits = child->life == WAITS_FOR_BEGIN && !child->is_thread;

		if (waits && child->thread->process)
			explain("a child does not begin");
		if (waits && !child->thread->process && tasks[i].life == REAPED && !made[INIT].at[ASKING])
			explain("nobody's child lives");
		if (child->thread && child->is_thread && child->thread->stage == DEAD)
			explain("a dead thread is kept, and another may get its number");
	}
}

static void check_end(void)
{
	for (int i = 0; i < TASKS; i++)
		if (tasks[i].life != UNMADE && tasks[i].life != REAPED)
			explain("somebody lives");
	if (open_forks)
		explain("a fork is open");
	for (int i = 0; i < TASKS; i++)
		if (tasks[i].thread)
			explain("a thread is left");
}

/* ---- states that were met: what follows one is the same however it was come to ---- */

enum { SLOTS = 1 << 20, STATE = TASKS * 4 + 2 };

static struct met {
	unsigned char state[STATE];
	double orders; /* 0 for a free slot */
} *met;

static int states;

static void write_state(unsigned char *state)
{
	for (int i = 0; i < TASKS; i++) {
		const struct task *task = &tasks[i];

		*state++ = (unsigned char)(task->life | task->was_killed << 3 | task->tells_end << 4 | task->has_asked << 5 | task->has_made << 6 | task->has_been_told << 7);
		*state++ = (unsigned char)(task->thread ? 1 + task->thread->stage : 0);
		*state++ = (unsigned char)(task->thread && task->thread->is_killed);
		*state++ = (unsigned char)(made[i].ended | made[i].dead << 1 | (made[i].killer != NULL) << 2);
	}
	*state++ = (unsigned char)(tasks[1].has_been_delayed | tasks[2].has_been_delayed << 1 | (has_outsider
		? tasks[1].is_late << 2 | tasks[2].is_late << 3 : 0));
	*state = (unsigned char)(has_killed | has_fallen << 1 | stages_lost() << 2 | (open_forks & 15) << 3);
}

static struct met *slot_of(const unsigned char *state)
{
	uint64_t hash = 14695981039346656037u;

	for (int i = 0; i < STATE; i++)
		hash = (hash ^ state[i]) * 1099511628211u;
	while (met[hash % SLOTS].orders != 0 && memcmp(met[hash % SLOTS].state, state, STATE))
		hash++;
	return &met[hash % SLOTS];
}

/* Plays the path from the start, and goes on by each event that may be next. How many orders there are from here. */
static double play(void)
{
	unsigned char state[STATE];
	int found[TASKS * CHOICES], count;
	struct met *slot;
	double orders = 0;

	start();
	for (int i = 0; i < length; i++)
		take(path[i] / CHOICES, (enum choice)(path[i] % CHOICES));
	if (wrong)
		explain("an event that cannot be");
	check_children();
	write_state(state);
	if (slot_of(state)->orders != 0)
		return slot_of(state)->orders;
	count = find_choices(found);
	if (count == 0)
		check_end();
	for (int i = 0; i < count && length < LONGEST; i++) {
		path[length++] = found[i];
		orders += play();
		length--;
	}
	slot = slot_of(state);
	memcpy(slot->state, state, STATE);
	states++;
	return slot->orders = count ? orders : 1;
}

static void play_all(const char *what)
{
	double orders;

	met = calloc(SLOTS, sizeof *met);
	states = 0;
	orders = play();
	printf("%s: %.0f orders, %d states\n", what, orders, states);
	free(met);
}

int main(void)
{
	play_all("forks");
	in_init = true;
	play_all("forks of an init's threads");
	thread_makers = 1;
	play_all("a thread and a fork of an init's threads");
	thread_makers = 2;
	play_all("threads of an init's threads");
	has_outsider = true;
	thread_makers = 0;
	play_all("a fork of an init's thread, and one in another namespace");
	in_init = false;
	play_all("a fork, and one in another namespace");
	return 0;
}

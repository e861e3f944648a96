/* stages.c - where each thread is from its first stop to its end, and with it where the fork is that it makes. One table says what each event
 * does in each stage. A child may stop before its parent can say whose it is: a stranger. It is claimed later, or is nobody's, since its parent
 * was killed within the fork; then it is killed before it has made a step. */
#define _GNU_SOURCE
#include "box.h"

#include <sys/ptrace.h>

/* What an event makes of a stage, and what is to be done. A step back to NEW cannot be. */
struct step {
	enum stage next;
	enum deed deeds;
};

static const struct step steps[STAGES][EVENTS] = {
	[NEW] = { [STOPS] = { STRANGER, JUDGE }, [CLAIMED] = { EXPECTED, NO_DEED }, [LEAVES] = { STRANGER, RUN }, [ENDS] = { DEAD, JUDGE } },
	[STRANGER] = { [STOPS] = { STRANGER, NO_DEED }, [CLAIMED] = { RUNNING, BEGIN }, [LEAVES] = { STRANGER, RUN }, [ENDS] = { DEAD, JUDGE } },
	[DEAD] = { [CLAIMED] = { OVER, END } },
	[EXPECTED] = { [STOPS] = { RUNNING, BEGIN }, [EXECUTES] = { RUNNING, NO_DEED }, [FALLS] = { FALLEN, NO_DEED }, [LEAVES] = { LEAVING, NO_DEED },
	               [ENDS] = { OVER, END } },
	[RUNNING] = { [STOPS] = { RUNNING, SERVE }, [ASKS] = { ASKING, NO_DEED }, [TOLD] = { RUNNING, NO_DEED }, [EXECUTES] = { RUNNING, NO_DEED },
	              [FALLS] = { FALLEN, NO_DEED }, [LEAVES] = { LEAVING, NO_DEED }, [ENDS] = { OVER, END } },
	[ASKING] = { [STOPS] = { ASKING, SERVE }, [TOLD] = { MADE, NO_DEED }, [FAILS] = { RUNNING, UNDO }, [DELAYED] = { RUNNING, KEEP },
	             [EXECUTES] = { RUNNING, UNDO | LOSE }, [FALLS] = { FALLEN, LOSE }, [LEAVES] = { LEAVING, UNDO | LOSE }, [ENDS] = { OVER, UNDO | LOSE | END } },
	[MADE] = { [STOPS] = { MADE, SERVE }, [RETURNS] = { RUNNING, NO_DEED }, [EXECUTES] = { RUNNING, NO_DEED }, [FALLS] = { FALLEN, NO_DEED },
	           [LEAVES] = { LEAVING, NO_DEED }, [ENDS] = { OVER, END } },
	[FALLEN] = { [STOPS] = { FALLEN, SERVE }, [TOLD] = { FALLEN, NO_DEED }, [FAILS] = { FALLEN, NO_DEED }, [DELAYED] = { FALLEN, NO_DEED },
	             [RETURNS] = { FALLEN, NO_DEED }, [EXECUTES] = { FALLEN, NO_DEED }, [FALLS] = { FALLEN, NO_DEED }, [LEAVES] = { FALLEN, RUN },
	             [ENDS] = { OVER, END } },
	/* A main one stops once more where another thread has executed, which has its number now. */
	[LEAVING] = { [STOPS] = { LEAVING, SERVE }, [EXECUTES] = { RUNNING, NO_DEED }, [HOLDS] = { HELD, NO_DEED }, [LET_GO] = { LEAVING, RUN }, [FALLS] = { LEAVING, NO_DEED },
	              [ENDS] = { OVER, END } },
	[HELD] = { [LET_GO] = { LEAVING, RUN }, [FALLS] = { HELD, NO_DEED }, [ENDS] = { OVER, END } },
};

static struct thread *strangers;
static int asking;     /* threads in that stage: those that may still claim a child */
static bool some_lost; /* one was lost: from then on a stranger is asked for its parent */
static bool must_judge;

/* ---- the lists: each thread is in that of its process, or among the strangers ---- */

static struct thread **list_of(const struct thread *thread)
{
	return thread->process ? &thread->process->threads : &strangers;
}

void stage_enlist(struct thread *thread)
{
	struct thread **list = list_of(thread);

	thread->previous = NULL;
	thread->next = *list;
	if (*list)
		(*list)->previous = thread;
	*list = thread;
	if (thread->process)
		thread->process->at[thread->stage]++;
}

void stage_delist(struct thread *thread)
{
	if (thread->previous)
		thread->previous->next = thread->next;
	else
		*list_of(thread) = thread->next;
	if (thread->next)
		thread->next->previous = thread->previous;
	if (thread->process)
		thread->process->at[thread->stage]--;
}

int threads_of(const struct process *process)
{
	int count = 0;

	for (int i = 0; i < STAGES; i++)
		count += process->at[i];
	return count;
}

#ifdef CHECKS_STAGES
#include <assert.h>

/* What holds between any two events. */
static void check_process(const struct process *process)
{
	int at[STAGES] = { 0 };

	for (const struct thread *thread = process->threads; thread; thread = thread->next) {
		assert(thread->process == process && thread->stage != STRANGER && thread->stage != DEAD);
		assert(!process->killer || thread->stage == FALLEN || thread->stage == LEAVING || thread->stage == HELD || thread->stage == OVER);
		at[thread->stage]++;
	}
	for (int i = 0; i < STAGES; i++)
		assert(at[i] == process->at[i]);
	assert(at[HELD] <= 1 && (!at[HELD] || (process->is_init && process->ended)));
}

static void check(void)
{
	int count = 0;

	for (const struct process *process = processes; process; process = process->next) {
		check_process(process);
		count += process->at[ASKING];
	}
	assert(count == asking);
	for (const struct thread *thread = strangers; thread; thread = thread->next)
		assert(!thread->process && (thread->stage == NEW || thread->stage == STRANGER || thread->stage == DEAD));
	for (const struct thread *thread = asking ? NULL : strangers; thread; thread = thread->next)
		assert(thread->is_killed || thread->stage == NEW || !stranger_is_process(thread));
}

/* As at the start. */
void stages_reset(void)
{
	strangers = NULL;
	asking = 0;
	some_lost = must_judge = false;
}
#else
static void check(void)
{
}
#endif

/* Whether the kernel may have made a child that the table has not. */
bool stages_lost(void)
{
	return some_lost;
}

/* ---- strangers ---- */

/* A stranger may be claimed by a thread of its parent that is within a fork. That of a parent that is dead has another one by now. */
static bool may_be_claimed(const struct thread *stranger)
{
	const struct process *parent;

	if (asking == 0 || !some_lost)
		return asking > 0;
	parent = stranger_parent(stranger);
	return parent && parent->at[ASKING] > 0;
}

/* A dead process keeps its number until its parent waits for it; a dead thread does not, so it is forgotten at once. */
static void judge(struct thread *stranger)
{
	if (stranger->stage == DEAD) {
		if (stranger->is_killed || !may_be_claimed(stranger) || !stranger_is_process(stranger))
			thread_free(stranger);
	} else if (!stranger->is_killed && !may_be_claimed(stranger) && stranger_is_process(stranger)) {
		stranger->is_killed = true;
		stranger_kill(stranger);
	}
}

/* After all that an event has led to. */
void stages_settle(void)
{
	for (struct thread *thread = must_judge ? strangers : NULL, *next; thread; thread = next) {
		next = thread->next;
		if (thread->stage != NEW)
			judge(thread);
	}
	must_judge = false;
	check();
}

/* ---- events ---- */

static void change(struct thread *thread, enum stage next)
{
	asking += (next == ASKING) - (thread->stage == ASKING);
	if (thread->process) {
		thread->process->at[thread->stage]--;
		thread->process->at[next]++;
	}
	thread->stage = next;
}

/* An event of a thread. What the caller has to do: to serve the stop, or to end the thread. */
enum deed happen(struct thread *thread, enum event event)
{
	const struct step step = steps[thread->stage][event];
	bool was_asking = thread->stage == ASKING;

	if (step.next == NEW) {
		report_difference("a stage that cannot be", (uint32_t)thread->stage, event, 0);
		return event == ENDS ? END : NO_DEED;
	}
	if (step.deeds & UNDO)
		fork_undo(thread);
	if (step.deeds & KEEP)
		fork_keep(thread);
	change(thread, step.next);
	some_lost |= (step.deeds & LOSE) != 0;
	if (step.deeds & BEGIN)
		begin(thread);
	if (step.deeds & RUN) {
		robust_end(thread);
		trace(PTRACE_CONT, thread->tid, 0);
	}
	must_judge |= (step.deeds & LOSE) || (was_asking && asking == 0);
	if (step.deeds & JUDGE)
		judge(thread);
	return step.deeds;
}

/* tracer.c - the stops and ends of the threads in the box, as ptrace(2) reports them. */
#define _GNU_SOURCE
#include "box.h"

#include <errno.h>
#include <signal.h>
#include <stdlib.h>
#include <sys/prctl.h>
#include <sys/ptrace.h>
#include <sys/syscall.h>
#include <sys/uio.h>
#include <sys/wait.h>
#include <time.h>
#include <unistd.h>

uint64_t events;

enum { SYSCALL_STOP = SIGTRAP | 0x80, CHECK_EVERY = 10000000 /* ns */ };

/* A fork is heard of by CLONE_PTRACE (forks.c), but where its parent sleeps in vfork(2). */
static const long options = PTRACE_O_TRACEVFORK | PTRACE_O_TRACECLONE | PTRACE_O_TRACEEXEC | PTRACE_O_TRACESECCOMP |
                            PTRACE_O_TRACESYSGOOD | PTRACE_O_EXITKILL;

/* A thread may have been killed since it stopped: its end is reported next, so a failure says nothing. */
void trace(int request, pid_t tid, long data)
{
	ptrace(request, tid, 0, data);
}

/* A program that may not be dumped hides its memory from all but root, from its tracer too: the numbers in it are
 * the kernel's then. */
static void is_hidden(pid_t tid)
{
	const struct thread *thread = errno == EPERM ? thread_of_real(tid) : NULL;

	if (!thread || !thread->process || thread->process->is_hidden)
		return;
	thread->process->is_hidden = true;
	report_hidden(tid);
}

bool read_memory(pid_t tid, uint64_t at, void *to, size_t size)
{
	struct iovec here = { to, size }, there = { (void *)at, size };
	ssize_t done = process_vm_readv(tid, &here, 1, &there, 1, 0);

	if (done < 0)
		is_hidden(tid);
	return done == (ssize_t)size;
}

bool write_memory(pid_t tid, uint64_t at, const void *from, size_t size)
{
	struct iovec here = { (void *)from, size }, there = { (void *)at, size };

	ssize_t done = process_vm_writev(tid, &here, 1, &there, 1, 0);

	if (done < 0)
		is_hidden(tid);
	return done == (ssize_t)size;
}

/* The thread is in a stop: it is to stop at its end too, or not any more. */
void set_options(struct thread *thread)
{
	bool is_seen = end_is_seen(thread->process);

	if (thread->sees_end != is_seen)
		trace(PTRACE_SETOPTIONS, thread->tid, options | (is_seen ? PTRACE_O_TRACEEXIT : 0));
	thread->sees_end = is_seen;
}

void trace_first(pid_t init, struct process *process)
{
	struct thread *thread = thread_new(init, process);

	if (ptrace(PTRACE_SEIZE, init, 0, options | PTRACE_O_TRACEEXIT))
		die("ptrace");
	thread->sees_end = true;
	thread->data = data_of_first();
	thread_number(thread);
	happen(thread_of_real(init), CLAIMED);
	happen(thread_of_real(init), STOPS);
}

/* Has the thread make a call of ours, and then go on as it was before. */
bool inject(struct thread *thread, enum injected what, int64_t call, const uint64_t words[4])
{
	struct registers registers = thread->behind;

	registers_repeat(&registers, call);
	for (int i = 0; i < 4; i++)
		registers_set_argument(&registers, i, words[i]);
	thread->phase = INJECTED;
	thread->injected = what;
	return registers_write(thread->tid, &registers);
}

/* An init takes the orphans of its namespace, in the kernel too: it is made a subreaper by a call that it does not know of. The box's own is
 * one before its exec. */
static bool make_subreaper(struct thread *thread)
{
	struct registers registers;

	if (!registers_read(thread->tid, &registers))
		return false;
	thread->behind = registers;
	return inject(thread, MAKE_SUBREAPER, SYS_prctl, (const uint64_t[4]){ PR_SET_CHILD_SUBREAPER, 1, 0, 0 });
}

/* The first stop of a process or a thread. Options are inherited, and those of an init are its own. */
void begin(struct thread *thread)
{
	const struct process *process = thread->process;
	bool is_nested = process->is_init && thread->tid == process->real;

	thread->seen = thread_seen(thread);
	set_options(thread);
	if (thread->has_call_of_parent)
		give_registers_back(thread);
	if (thread->tid_at)
		write_memory(thread->tid, thread->tid_at, &thread->seen, sizeof thread->seen);
	trace(is_nested && make_subreaper(thread) ? PTRACE_SYSCALL : PTRACE_CONT, thread->tid, 0);
}

/* What a thread tells with its event. One that was killed meanwhile may be in the stop of its end already, whose message is its status: a number that is
 * another process's, or 0, which is this program's group to kill(2). So the stop is looked at behind the message. */
static bool read_message(const struct thread *thread, int event, unsigned long *message)
{
	siginfo_t info;

	if (ptrace(PTRACE_GETEVENTMSG, thread->tid, 0, message))
		return false;
	return !thread->sees_end || (!ptrace(PTRACE_GETSIGINFO, thread->tid, 0, &info) && info.si_code >> 8 == event);
}

/* The thread that executes takes the number of the main one, and all others are over. */
static void executed(struct thread *thread)
{
	struct process *process = thread->process;
	unsigned long former = 0;

	if (!read_message(thread, PTRACE_EVENT_EXEC, &former))
		former = (unsigned long)thread->tid;
	if (former != (unsigned long)thread->tid && former < MOST_REAL && thread_of_real((pid_t)former)) {
		thread_free(thread_of_real((pid_t)former));
		if (!process->ended)
			setpgid_over(thread, -1); /* the main one may have been within a call */
	}
	happen(thread, EXECUTES);
	data_executed(thread->data);
	thread->phase = FREE;
	thread->has_no_exit = false;
	thread->lent_count = 0;
	room_give_back(thread);
	copy_done(thread);
	memory_leave(process->memory);
	process->memory = memory_new();
	process->wants_no_zombies = process->may_catch_end = process->had_threads = process->shares_memory = false;
	process->is_hidden = process->may_hide = false;
	set_options(thread);
	process->exec_waits = true;
	if (!process->asked)
		exec_told(process);
}

/* The table is told of an execve, and the process goes on. */
void exec_told(struct process *process)
{
	if (!process->exec_waits)
		return;
	process->exec_waits = false;
	if (!process->ended)
		table_do(PIDTAB_EXEC, process->root, 0, 0);
	trace(PTRACE_CONT, process->real, 0);
}

/* A thread is at its end. Of an init: with the last one its namespace falls, and it is held until all the others
 * are dead. */
static void leaving(struct thread *thread)
{
	struct process *process = thread->process;
	unsigned long status = 0;

	if (process && !process->is_init) {
		robust_end(thread);
		trace(PTRACE_CONT, thread->tid, 0); /* its end is reported next */
		return;
	}
	happen(thread, LEAVES);
	if (thread->stage != LEAVING)
		return;
	trace(PTRACE_GETEVENTMSG, thread->tid, (long)&status);
	if (process->at[LEAVING] == threads_of(process) && !process->ended) {
		process_ended(process, (int)status);
		if (has_fallen_with(process))
			happen(thread, HOLDS);
	}
	if (thread->stage == LEAVING)
		happen(thread, LET_GO);
}

void thread_ended(struct thread *thread, int status)
{
	struct process *process = thread->process;
	pid_t tid = thread->tid;

	if (!process->ended)
		setpgid_over(thread, -1);
	if (WIFSIGNALED(status))
		data_killed(thread->data);
	thread_free(thread);
	if (tid != process->real)
		return;
	process->dead = true;
	process->died = events;
	process_ended(process, status);
	if (process->root == BOX_INIT) {
		ending_of(0);
		compare("wait of the supervisor", BOX_INIT, table_do(PIDTAB_WAIT, SUPERVISOR, BOX_INIT, PIDTAB_CHILD));
		process->gone = true;
	}
	process_dead(process);
}

/* The filter stopped a call. What is injected is the program's business no more than its own. */
static void call_stopped(struct thread *thread)
{
	bool is_ours = thread->phase == INJECTED || thread->phase == IN_INJECTED;
	bool is_seen = is_ours || (!thread->process->ended && call_enter(thread) == SEE_EXIT);

	trace(is_seen ? PTRACE_SYSCALL : PTRACE_CONT, thread->tid, 0);
}

/* The signals that came while the registers were those of an injected call. */
static void send_put_off(struct thread *thread)
{
	for (int signal = 1; signal < 64; signal++)
		if (thread->put_off >> signal & 1)
			syscall(SYS_tgkill, thread->process->real, thread->tid, signal);
	thread->put_off = 0;
}

static void signal_stopped(struct thread *thread, int signal)
{
	if (thread->phase == INJECTED) {
		thread->put_off |= (uint64_t)1 << signal;
		trace(PTRACE_SYSCALL, thread->tid, 0);
	} else {
		trace(PTRACE_CONT, thread->tid, signal_arrives(thread, signal));
	}
}

/* The exit of an injected call. Whether another one follows. */
static bool injected_over(struct thread *thread)
{
	struct registers registers;
	int64_t result = registers_read(thread->tid, &registers) ? registers_result(&registers) : -ESRCH;
	bool goes_on = false;

	switch (thread->injected) {
	case MAKE_SUBREAPER:
		break;
	case MAP_ROOM:
		room_mapped(thread, result);
		break;
	case ADD_FILTER:
	case ADD_FILTER_TO_ALL:
		goes_on = filter_added(thread, result);
		break;
	default:
		goes_on = copy_goes_on(thread, result);
	}
	if (goes_on)
		return true;
	registers_write(thread->tid, &thread->behind);
	thread->phase = FREE;
	send_put_off(thread);
	return false;
}

/* A stop at the entry or the exit of a call that is watched. */
static void watched_stopped(struct thread *thread)
{
	int request = PTRACE_CONT;

	switch (thread->phase) {
	case INJECTED:
		thread->phase = IN_INJECTED;
		request = PTRACE_SYSCALL;
		break;
	case IN_INJECTED:
		if (injected_over(thread))
			request = PTRACE_SYSCALL;
		break;
	case IN_CALL:
		if (!thread->process->ended && call_leave(thread) == SEE_EXIT)
			request = PTRACE_SYSCALL;
		break;
	case FREE:
		break;
	}
	trace(request, thread->tid, 0);
}

static void event_stopped(struct thread *thread, int event, int signal)
{
	unsigned long real;

	switch (event) {
	case PTRACE_EVENT_SECCOMP:
		call_stopped(thread);
		break;
	case PTRACE_EVENT_VFORK:
	case PTRACE_EVENT_CLONE:
		if (!read_message(thread, event, &real))
			return; /* it was killed */
		forked(thread, (pid_t)real);
		trace(thread->phase == IN_CALL ? PTRACE_SYSCALL : PTRACE_CONT, thread->tid, 0);
		break;
	case PTRACE_EVENT_EXEC:
		executed(thread);
		break;
	default: /* PTRACE_EVENT_STOP: by SIGTRAP it is a new thread's, or its going on; by others that of a stopped process */
		thread->is_at_rest = signal != SIGTRAP;
		trace(thread->is_at_rest ? PTRACE_LISTEN : thread->phase == INJECTED ? PTRACE_SYSCALL : PTRACE_CONT, thread->tid, 0);
	}
}

static void stopped(struct thread *thread, int status)
{
	int event = status >> 16, signal = WSTOPSIG(status);

	stops++;
	if (thread->has_no_exit && event != PTRACE_EVENT_SECCOMP)
		wait_over(thread);
	if (event)
		event_stopped(thread, event, signal);
	else if (signal == SYSCALL_STOP)
		watched_stopped(thread);
	else
		signal_stopped(thread, signal);
}

static void has_stopped(struct thread *thread, int status)
{
	if (status >> 16 == PTRACE_EVENT_EXIT) {
		stops++;
		leaving(thread);
	} else if (happen(thread, STOPS) & SERVE) {
		stopped(thread, status);
	}
}

void wait_moment(void)
{
	nanosleep(&(struct timespec){ 0, 10000 }, NULL);
}

/* What a thread has reported. */
void handle(pid_t tid, int status)
{
	struct thread *thread = thread_of_real(tid);

	events++;
	if (!thread)
		thread = thread_new(tid, NULL);
	if (WIFSTOPPED(status)) {
		has_stopped(thread, status);
	} else {
		thread->status = status;
		if (happen(thread, ENDS) & END)
			thread_ended(thread, status);
	}
	stages_settle();
}

/* Stops a thread, and has its status, which is for `handle`. One that has stopped before, or sleeps in vfork(2), does not within this time. */
bool hold(pid_t tid, int *status)
{
	bool has_stopped = false;

	trace(PTRACE_INTERRUPT, tid, 0);
	for (int i = 0; i < MOMENTS && !has_stopped; i++) {
		has_stopped = waitpid(tid, status, __WALL | WNOHANG) == tid;
		if (!has_stopped)
			wait_moment();
	}
	return has_stopped;
}

/* The end of the process is fetched now, out of turn. */
void catch_up(const struct process *process, int flags)
{
	pid_t real = process->real;
	int status;

	if (!process->dead && waitpid(real, &status, __WALL | flags) == real)
		handle(real, status);
}

/* The same of the first of its threads that has something to report, but of none that is served now. Whether there was one. */
bool catch_up_threads(const struct process *process, const struct thread *served)
{
	int status;

	for (const struct thread *thread = process->threads; thread; thread = thread->next)
		if (thread != served && waitpid(thread->tid, &status, __WALL | WNOHANG) == thread->tid) {
			handle(thread->tid, status);
			return true;
		}
	return false;
}

/* Where the box runs beside the program, on another processor, the next report often comes within some microseconds: to look for it a few
 * times then takes less than to sleep and be woken. Where most looks are in vain they soon are rare: they keep a processor busy. */
static pid_t report_soon(int *status)
{
	enum { LOOKS = 10, MOST_CREDIT = 8, RARE = 64 };
	static int credit = MOST_CREDIT, waits;
	int most = credit > 0 || ++waits % RARE == 0 ? LOOKS : checking, looks = 0;
	pid_t tid = 0;

	while (tid == 0 && looks++ < most)
		tid = waitpid(-1, status, __WALL | WNOHANG);
	if (tid == 0 && credit > 0)
		credit--;
	if (tid > 0 && looks > 1 && credit < MOST_CREDIT)
		credit++;
	return tid;
}

/* In check mode the state is compared where nothing is reported, at most a hundred times a second. */
static pid_t next_report(int *status)
{
	static struct timespec last;
	struct timespec now;
	pid_t tid = report_soon(status);

	if (tid != 0)
		return tid;
	if (!checking)
		return waitpid(-1, status, __WALL);
	clock_gettime(CLOCK_MONOTONIC, &now);
	if ((now.tv_sec - last.tv_sec) * 1000000000L + now.tv_nsec - last.tv_nsec > CHECK_EVERY) {
		last = now;
		compare_state();
	}
	return waitpid(-1, status, __WALL);
}

/* Until nobody is left. The exit status of the init, as a shell has it. */
int supervise(pid_t init)
{
	int status, result = 1;
	pid_t tid;

	while ((tid = next_report(&status)) > 0 || errno == EINTR) {
		if (tid > 0)
			handle(tid, status);
		if (tid == init && !WIFSTOPPED(status))
			result = WIFSIGNALED(status) ? 128 + WTERMSIG(status) : WEXITSTATUS(status);
	}
	return result;
}

/* record.c - runs a program natively, and writes the sums of what its threads read and write, as `pidtab-box
 * --data` does. */
#define _GNU_SOURCE
#include "../src/data.h"

#include <errno.h>
#include <linux/filter.h>
#include <linux/seccomp.h>
#include <signal.h>
#include <stddef.h>
#include <stdlib.h>
#include <sys/prctl.h>
#include <sys/ptrace.h>
#include <sys/uio.h>
#include <sys/wait.h>
#include <unistd.h>

enum { MOST = 4194304, SYSCALL_STOP = SIGTRAP | 0x80, OWN_FAILURE = 125, MOST_CALLS = 512, MOST_CODE = 64 };

static struct data *datas[MOST];
static struct registers made[MOST / 64]; /* by a hash of the thread: numbers of one run are near each other */
static bool waits[MOST];                 /* it stopped before its parent was reported */

bool read_memory(pid_t tid, uint64_t at, void *to, size_t size)
{
	struct iovec here = { to, size }, there = { (void *)at, size };

	return process_vm_readv(tid, &here, 1, &there, 1, 0) == (ssize_t)size;
}

static struct registers *made_by(pid_t tid)
{
	return &made[tid % (MOST / 64)];
}

static bool in_call[MOST]; /* whose exit is to be seen */

static void go_on(pid_t tid, long signal)
{
	ptrace(in_call[tid] ? PTRACE_SYSCALL : PTRACE_CONT, tid, 0, signal);
}

/* The calls that carry bytes stop, and all others do not. */
static bool filter(void)
{
	struct sock_filter code[MOST_CODE] = { BPF_STMT(BPF_LD | BPF_W | BPF_ABS, offsetof(struct seccomp_data, nr)) };
	struct sock_fprog made = { .len = 1, .filter = code };

	for (int64_t call = 0; call < MOST_CALLS && made.len < MOST_CODE - 3; call++)
		if (data_is_carried(call)) {
			code[made.len++] = (struct sock_filter)BPF_JUMP(BPF_JMP | BPF_JEQ | BPF_K, (uint32_t)call, 0, 1);
			code[made.len++] = (struct sock_filter)BPF_STMT(BPF_RET | BPF_K, SECCOMP_RET_TRACE);
		}
	code[made.len++] = (struct sock_filter)BPF_STMT(BPF_RET | BPF_K, SECCOMP_RET_ALLOW);
	return !prctl(PR_SET_NO_NEW_PRIVS, 1, 0, 0, 0) && !prctl(PR_SET_SECCOMP, SECCOMP_MODE_FILTER, &made, 0, 0);
}

static void begun(pid_t parent)
{
	unsigned long child = 0;

	ptrace(PTRACE_GETEVENTMSG, parent, 0, &child);
	if (child >= MOST || datas[child])
		return;
	datas[child] = data_of_child(datas[parent]);
	in_call[child] = false;
	if (waits[child])
		go_on((pid_t)child, 0);
	waits[child] = false;
}

/* The thread that executes takes the place of the main one. */
static void executed(pid_t tid)
{
	unsigned long former = 0;

	ptrace(PTRACE_GETEVENTMSG, tid, 0, &former);
	if (former != (unsigned long)tid && former < MOST) {
		data_end(datas[former]);
		datas[former] = NULL;
	}
	data_executed(datas[tid]);
}

/* The exit of a call: what stops by the filter is seen before. */
static void call_stopped(pid_t tid)
{
	struct registers now;

	if (in_call[tid] && registers_read(tid, &now))
		data_add(datas[tid], tid, made_by(tid), registers_result(&now));
	in_call[tid] = false;
	go_on(tid, 0);
}

static void event_stopped(pid_t tid, int event, int signal)
{
	switch (event) {
	case PTRACE_EVENT_SECCOMP:
		in_call[tid] = registers_read(tid, made_by(tid));
		break;
	case PTRACE_EVENT_FORK:
	case PTRACE_EVENT_VFORK:
	case PTRACE_EVENT_CLONE:
		begun(tid);
		break;
	case PTRACE_EVENT_EXEC:
		executed(tid);
		break;
	case PTRACE_EVENT_STOP:
		if (signal != SIGTRAP) {
			ptrace(PTRACE_LISTEN, tid, 0, 0);
			return;
		}
		if (!datas[tid]) {
			waits[tid] = true;
			return;
		}
	}
	go_on(tid, 0);
}

static void stopped(pid_t tid, int status)
{
	int event = status >> 16, signal = WSTOPSIG(status);

	if (event)
		event_stopped(tid, event, signal);
	else if (signal == SYSCALL_STOP)
		call_stopped(tid);
	else
		go_on(tid, signal);
}

static int record(pid_t first)
{
	int status, result = OWN_FAILURE;
	pid_t tid;

	while ((tid = waitpid(-1, &status, __WALL)) > 0 || errno == EINTR) {
		if (tid <= 0 || tid >= MOST)
			continue;
		if (WIFSTOPPED(status)) {
			stopped(tid, status);
			continue;
		}
		if (WIFSIGNALED(status))
			data_killed(datas[tid]);
		data_end(datas[tid]);
		datas[tid] = NULL;
		in_call[tid] = false;
		if (tid == first)
			result = WIFSIGNALED(status) ? 128 + WTERMSIG(status) : WEXITSTATUS(status);
	}
	return result;
}

int main(int count, char **words)
{
	static const long options = PTRACE_O_TRACEFORK | PTRACE_O_TRACEVFORK | PTRACE_O_TRACECLONE |
	                            PTRACE_O_TRACEEXEC | PTRACE_O_TRACESECCOMP | PTRACE_O_TRACESYSGOOD | PTRACE_O_EXITKILL;
	pid_t first;
	int status;

	if (count < 3) {
		fputs("usage: record FILE PROGRAM [WORD ..]\n", stderr);
		return OWN_FAILURE;
	}
	data_open(words[1]);
	first = fork();
	if (first == 0) {
		if (raise(SIGSTOP) || !filter())
			_exit(OWN_FAILURE);
		execvp(words[2], words + 2);
		_exit(OWN_FAILURE);
	}
	waitpid(first, &status, WUNTRACED);
	if (ptrace(PTRACE_SEIZE, first, 0, options))
		return OWN_FAILURE;
	datas[first] = data_of_first();
	kill(first, SIGCONT);
	status = record(first);
	return data_close() ? status : OWN_FAILURE;
}

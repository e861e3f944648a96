/* filter.c - the seccomp filter, made of the table of calls: what carries an identifier stops for the supervisor or is refused, what is plain
 * runs at full speed, and a call that the table has not stops too, to be refused by name. */
#define _GNU_SOURCE
#include "calls.h"

#include <dirent.h>
#include <errno.h>
#include <linux/audit.h>
#include <linux/filter.h>
#include <linux/seccomp.h>
#include <stddef.h>
#include <stdio.h>
#include <stdlib.h>
#include <string.h>
#include <sys/prctl.h>
#include <sys/syscall.h>
#include <unistd.h>

enum { MOST_CODE = 4096, LONGEST_JUMP = 255 };

#define FIELD(name) (struct sock_filter)BPF_STMT(BPF_LD | BPF_W | BPF_ABS, offsetof(struct seccomp_data, name))
#define HIGH(argument) (uint32_t)(offsetof(struct seccomp_data, args[argument]) + sizeof(uint32_t))
#define GIVE(what) (struct sock_filter)BPF_STMT(BPF_RET | BPF_K, (what))
#define STEP(code, value, yes, no) (struct sock_filter)BPF_JUMP((code) | BPF_K, (value), (yes), (no))

/* The code grows from its end, so that each jump knows how far it is. */
struct program {
	struct sock_filter code[MOST_CODE];
	int first; /* the code begins here */
};

/* The calls from a number on, up to that of the next one, are treated alike. */
struct range {
	int64_t from;
	const struct call *call; /* none: unknown to the table */
};

static void put(struct program *program, struct sock_filter step)
{
	if (program->first == 0)
		die("the filter is too long");
	program->code[--program->first] = step;
}

/* A jump over more than a conditional one reaches. */
static void put_branch(struct program *program, uint16_t code, uint32_t value, int over)
{
	if (over <= LONGEST_JUMP) {
		put(program, STEP(BPF_JMP | code, value, (uint8_t)over, 0));
		return;
	}
	put(program, STEP(BPF_JMP | BPF_JA, (uint32_t)over, 0, 0));
	put(program, STEP(BPF_JMP | code, value, 0, 1));
}

/* Calls that are about what nobody is shown do not stop. */
static bool is_shown(const struct call *call)
{
	enum kind kind = call->in[0].kind;

	return kind == PATH || kind == DIRECTORY ? shows_proc : kind != CONTROL || shows_controls;
}

static uint32_t verdict(const struct call *call)
{
	switch (call ? call->decides : REFUSED) {
	case PLAIN:
		return SECCOMP_RET_ALLOW;
	default:
		return call && !is_shown(call) ? SECCOMP_RET_ALLOW : SECCOMP_RET_TRACE;
	}
}

/* Where the test does not hold, the code goes on at the place. */
static void put_test(struct program *program, const struct test *test, int otherwise)
{
	uint8_t over = (uint8_t)(otherwise - program->first);

	if (test->how == ALWAYS)
		return;
	if (test->how == GIVEN) {
		put(program, STEP(BPF_JMP | BPF_JEQ, 0, over, 0));
		put(program, (struct sock_filter)BPF_STMT(BPF_LD | BPF_W | BPF_ABS, HIGH(test->argument)));
		put(program, STEP(BPF_JMP | BPF_JEQ, 0, 0, 2));
		put(program, FIELD(args[test->argument]));
		return;
	}
	put(program, STEP(BPF_JMP | BPF_JEQ, test->value, test->how == WHEN ? 0 : over, test->how == WHEN ? over : 0));
	if (test->mask != UINT32_MAX)
		put(program, (struct sock_filter)BPF_STMT(BPF_ALU | BPF_AND | BPF_K, test->mask));
	put(program, FIELD(args[test->argument]));
}

/* What is done with one call: its rows in order, and where none fits it is plain. It is written from its last row to its first. */
static void put_call(struct program *program, const struct call *call)
{
	const struct call *last = call;
	int first;

	if (call && data_is_kept() && data_is_carried(call->number[MACHINE])) {
		put(program, GIVE(SECCOMP_RET_TRACE));
		return;
	}
	if (!call || call->test.how == ALWAYS) {
		put(program, GIVE(verdict(call)));
		return;
	}
	while (last + 1 < calls + call_count && last[1].number[MACHINE] == call->number[MACHINE])
		last++;
	if (last->test.how != ALWAYS)
		put(program, GIVE(SECCOMP_RET_ALLOW));
	for (; last >= call; last--) {
		const struct test *test = &last->test;

		if (test->how == NEVER)
			continue;
		first = program->first;
		put(program, GIVE(verdict(last)));
		put_test(program, &last->also, first);
		put_test(program, test, first);
	}
}

/* A tree of comparisons over the ranges. */
static void put_ranges(struct program *program, const struct range *ranges, int count)
{
	int half = count / 2, before;

	if (count == 1) {
		put_call(program, ranges->call);
		return;
	}
	put_ranges(program, ranges + half, count - half);
	before = program->first;
	put_ranges(program, ranges, half);
	put_branch(program, BPF_JGE, (uint32_t)ranges[half].from, before - program->first);
}

/* Calls beside each other that are plain, or unknown, are one range. */
static int make_ranges(struct range *ranges)
{
	int count = 0;

	for (int64_t number = 0; number <= MOST_CALLS; number++) {
		const struct call *call = number < MOST_CALLS ? call_first(number) : NULL;
		bool is_kept = call && data_is_kept() && data_is_carried(number);
		bool is_simple = !call || (call->decides == PLAIN && call->test.how == ALWAYS && !is_kept);

		if (count && is_simple) {
			const struct call *last = ranges[count - 1].call;
			if (call ? last && last->decides == PLAIN && last->test.how == ALWAYS : !last)
				continue;
		}
		ranges[count++] = (struct range){ number, call };
	}
	return count;
}

void filter_install(void)
{
	static struct program program = { .first = MOST_CODE };
	static struct range ranges[MOST_CALLS + 1];
	struct sock_fprog made;

	put_ranges(&program, ranges, make_ranges(ranges));
	put(&program, FIELD(nr));
	put(&program, GIVE(SECCOMP_RET_ERRNO | ENOSYS)); /* a 32-bit program's */
	put(&program, STEP(BPF_JMP | BPF_JEQ, MACHINE_AUDIT, 1, 0));
	put(&program, FIELD(arch));
	made = (struct sock_fprog){ .len = (unsigned short)(MOST_CODE - program.first), .filter = program.code + program.first };
	if (prctl(PR_SET_NO_NEW_PRIVS, 1, 0, 0, 0) || prctl(PR_SET_SECCOMP, SECCOMP_MODE_FILTER, &made, 0, 0))
		die("seccomp");
}

/* ---- reads of signalfds. A filter cannot be taken away, and outlives its descriptor: so there are few, and what they stop is looked at. ---- */

/* Whether reads of this number stop already. */
bool reads_stop(const struct process *process, int file)
{
	if (process->read_filters == MOST_READ_FILTERS)
		return true;
	for (int i = 0; i < process->read_filters; i++)
		if (process->filtered[i] == file)
			return true;
	return false;
}

/* How many filters a thread has, by what the kernel says of it; -1 if it does not say it. */
static int filters_of(pid_t process, pid_t thread)
{
	int count;

	return read_status(process, thread, "Seccomp_filters: %d", &count) ? count : -1;
}

/* Whether all threads have as many filters: then the program has given none of them one of its own, which all would get. */
static bool are_alike(const struct process *process)
{
	char name[64];
	struct dirent *entry;
	int first = -1;
	bool is_so = true;
	DIR *tasks;

	snprintf(name, sizeof name, "/proc/%d/task", process->real);
	tasks = opendir(name);
	while (is_so && tasks && (entry = readdir(tasks)))
		if (entry->d_name[0] != '.') {
			int count = filters_of(process->real, (pid_t)strtol(entry->d_name, NULL, 10));

			first = first < 0 ? count : first;
			is_so = count == first;
		}
	if (tasks)
		closedir(tasks);
	return tasks && is_so;
}

/* The call that adds the filter in the thread's room, for it alone or for all threads. */
static bool inject_filter(struct thread *thread, enum injected injected)
{
	uint64_t flags = injected == ADD_FILTER_TO_ALL ? SECCOMP_FILTER_FLAG_TSYNC : 0;

	return inject(thread, injected, SYS_seccomp, (const uint64_t[4]){ SECCOMP_SET_MODE_FILTER, flags, thread->room, 0 });
}

enum { MOST_ADDED = 16 };

/* Has the thread add a filter behind its call. */
static bool add_filter(struct thread *thread, const struct sock_filter *code, size_t size)
{
	struct { struct sock_fprog made; struct sock_filter code[MOST_ADDED]; } given;

	memcpy(given.code, code, size);
	given.made.len = (unsigned short)(size / sizeof *code);
	given.made.filter = (struct sock_filter *)(thread->room + offsetof(__typeof__(given), code));
	if (!write_memory(thread->tid, thread->room, &given, sizeof given))
		return false;
	return inject_filter(thread, are_alike(thread->process) ? ADD_FILTER_TO_ALL : ADD_FILTER);
}

/* Has the thread add a filter by which reads of the descriptor stop; with the last filter, those of all. */
bool filter_for_reads(struct thread *thread)
{
	struct process *process = thread->process;
	bool is_last = process->read_filters == MOST_READ_FILTERS - 1;
	int file = thread->behind_reads;
	const struct sock_filter code[] = {
		FIELD(nr),
		STEP(BPF_JMP | BPF_JEQ, SYS_read, 2, 0),
		STEP(BPF_JMP | BPF_JEQ, SYS_readv, 1, 0),
		STEP(BPF_JMP | BPF_JEQ, SYS_preadv2, 0, 3),
		FIELD(args[0]),
		is_last ? (struct sock_filter)BPF_JUMP(BPF_JMP | BPF_JA, 0, 0, 0) : STEP(BPF_JMP | BPF_JEQ, (uint32_t)file, 0, 1),
		GIVE(SECCOMP_RET_TRACE),
		GIVE(SECCOMP_RET_ALLOW)
	};

	thread->behind_reads = -1;
	if (!add_filter(thread, code, sizeof code))
		return false;
	process->filtered[process->read_filters++] = file;
	return true;
}

/* The same once the thread has descriptors of /proc. For calls that read a file from its beginning, or go back
 * there: its copy is written anew. And for those that ask for a descriptor or for a path from its folder: they are
 * fstat(3) in nearly all programs. */
static bool filter_for_proc(struct thread *thread)
{
	static const struct sock_filter code[] = {
		FIELD(nr),
		STEP(BPF_JMP | BPF_JEQ, SYS_newfstatat, 12, 0),
		STEP(BPF_JMP | BPF_JEQ, SYS_statx, 11, 0),
		STEP(BPF_JMP | BPF_JEQ, SYS_lseek, 4, 0),
		STEP(BPF_JMP | BPF_JEQ, SYS_pread64, 7, 0),
		STEP(BPF_JMP | BPF_JEQ, SYS_preadv, 6, 0),
		STEP(BPF_JMP | BPF_JEQ, SYS_preadv2, 5, 0),
		GIVE(SECCOMP_RET_ALLOW),
		FIELD(args[2]),
		STEP(BPF_JMP | BPF_JEQ, SEEK_SET, 0, 5),
		FIELD(args[1]),
		(struct sock_filter)BPF_JUMP(BPF_JMP | BPF_JA, 1, 0, 0),
		FIELD(args[3]),
		STEP(BPF_JMP | BPF_JEQ, 0, 0, 1),
		GIVE(SECCOMP_RET_TRACE),
		GIVE(SECCOMP_RET_ALLOW)
	};

	thread->wants_filter = false;
	thread->process->sees_proc = add_filter(thread, code, sizeof code);
	return thread->process->sees_proc;
}

/* The same once the thread has a file of a control group of the table that is open for writing: the shell moves its descriptor to another number, so
 * for all numbers. */
static bool filter_for_writes(struct thread *thread)
{
	static const struct sock_filter code[] = {
		FIELD(nr),
		STEP(BPF_JMP | BPF_JEQ, SYS_write, 7, 0),
		STEP(BPF_JMP | BPF_JEQ, SYS_writev, 6, 0),
		STEP(BPF_JMP | BPF_JEQ, SYS_pwrite64, 5, 0),
		STEP(BPF_JMP | BPF_JEQ, SYS_pwritev, 4, 0),
		STEP(BPF_JMP | BPF_JEQ, SYS_pwritev2, 3, 0),
		STEP(BPF_JMP | BPF_JEQ, SYS_sendfile, 2, 0),
		STEP(BPF_JMP | BPF_JEQ, SYS_splice, 1, 0),
		STEP(BPF_JMP | BPF_JEQ, SYS_copy_file_range, 0, 1),
		GIVE(SECCOMP_RET_TRACE),
		GIVE(SECCOMP_RET_ALLOW)
	};

	thread->wants_write_filter = false;
	thread->process->writes_groups = add_filter(thread, code, sizeof code);
	return thread->process->writes_groups;
}

/* Has the thread add the next filter that its open wants. */
bool filter_wanted(struct thread *thread)
{
	return (thread->wants_filter && filter_for_proc(thread)) || (thread->wants_write_filter && filter_for_writes(thread));
}

/* The filter was added, or was not. If the threads have different ones after all, the caller alone gets it. Returns whether that follows. */
bool filter_added(struct thread *thread, int64_t result)
{
	if (thread->injected == ADD_FILTER_TO_ALL && result != 0)
		return inject_filter(thread, ADD_FILTER);
	if (filter_wanted(thread))
		return true;
	room_give_back(thread);
	return false;
}

/* clone3.c - clone3(2) is made clone(2): the box reads its flags, which a filter cannot. */
#define _GNU_SOURCE
#include "calls.h"

#include <errno.h>
#include <sched.h>
#include <linux/sched.h>
#include <string.h>

enum { LARGEST = 4096, MOST_SIGNALS = 64, MOST_LEVELS = 32 };

/* What clone(2) has no word for; and what it would take for other things. */
static const uint64_t lacking = CLONE_CLEAR_SIGHAND | CLONE_INTO_CGROUP | CLONE_NEWTIME | CLONE_UNTRACED;
static const uint64_t known = 0xffffffffu | CLONE_CLEAR_SIGHAND | CLONE_INTO_CGROUP;

/* The structure, of any size that the kernel takes: what follows the known fields must be 0. An errno, or 0. Who hides
 * his memory is told that there is no such call: then C libraries make the older one. */
static int read_arguments(const struct thread *thread, struct clone_args *arguments)
{
	uint64_t at = registers_argument(&thread->made, 0), size = registers_argument(&thread->made, 1);
	unsigned char bytes[LARGEST] = { 0 };

	if (size > LARGEST)
		return E2BIG;
	if (size < CLONE_ARGS_SIZE_VER0)
		return EINVAL;
	if (!read_memory(thread->tid, at, bytes, size))
		return thread->process->is_hidden ? ENOSYS : EFAULT;
	memcpy(arguments, bytes, sizeof *arguments);
	for (size_t i = sizeof *arguments; i < size; i++)
		if (bytes[i])
			return E2BIG;
	return 0;
}

/* As the kernel has it, for what does not become clone(2)'s. */
static bool is_valid(const struct clone_args *arguments)
{
	bool has_own_signal = !(arguments->flags & (CLONE_THREAD | CLONE_PARENT));

	if (arguments->set_tid_size > MOST_LEVELS || !arguments->set_tid != !arguments->set_tid_size)
		return false;
	if (arguments->exit_signal > MOST_SIGNALS || (arguments->exit_signal && !has_own_signal))
		return false;
	if ((arguments->flags & ~known) || (arguments->flags & (CLONE_DETACHED | (CSIGNAL & ~(uint64_t)CLONE_NEWTIME))))
		return false;
	if ((arguments->flags & CLONE_SIGHAND) && (arguments->flags & CLONE_CLEAR_SIGHAND))
		return false;
	return !arguments->stack == !arguments->stack_size;
}

static bool has_words_in_clone(const struct clone_args *arguments)
{
	return !(arguments->flags & lacking) && !arguments->set_tid && (arguments->flags & (CLONE_THREAD | CLONE_PARENT)) != CLONE_PARENT;
}

/* clone(2) has one place for a pidfd and the child's number: the number is written by the box then. */
enum onward enter_clone3(struct thread *thread, struct registers *registers)
{
	struct clone_args arguments;
	int failure = read_arguments(thread, &arguments);
	struct clone_words words;

	if (failure || !is_valid(&arguments))
		return answer_with(thread, failure ? -failure : -EINVAL);
	if (!has_words_in_clone(&arguments))
		return refuse(thread);
	words = (struct clone_words){ .flags = arguments.flags | arguments.exit_signal, .stack = arguments.stack + arguments.stack_size,
		.parent_tid = arguments.parent_tid, .child_tid = arguments.child_tid, .thread_area = arguments.tls, .pidfd = arguments.pidfd };
	return make_by_clone(thread, registers, &words);
}

/* A new thread may be over by now: its number was told by its event. */
int64_t leave_clone3(struct thread *thread, int64_t result)
{
	if (!(thread->flags & CLONE_THREAD))
		return leave_fork(thread, result);
	return result > 0 && thread->told > 0 ? thread->told : result;
}

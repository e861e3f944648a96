/* translate.c - a call that stops: numbers of the table become the kernel's before it, and the kernel's become the table's behind it. */
#define _GNU_SOURCE
#include "calls.h"

#include <errno.h>
#include <stdlib.h>

int64_t call_argument(const struct thread *thread, int index)
{
	return (int32_t)registers_argument(&thread->made, index);
}

/* The kernel does not make the call. */
enum onward answer_with(const struct thread *thread, int64_t result)
{
	struct registers registers = thread->made;

	registers_set_result(&registers, result);
	registers_make_none(thread->tid, &registers);
	return GO;
}

enum onward refuse(struct thread *thread)
{
	report_refused(thread->call, registers_call(&thread->made));
	return answer_with(thread, -ENOSYS);
}

/* The kernel makes the call, perhaps with other arguments, and its exit is seen. */
enum onward watch(struct thread *thread, const struct registers *registers)
{
	registers_change(thread->tid, &thread->made, registers);
	thread->given = *registers;
	thread->knows_given = true;
	thread->phase = IN_CALL;
	thread->entered = events;
	return SEE_EXIT;
}

/* The table has the answer; the kernel is asked too where both are compared. */
enum onward answer_or_check(struct thread *thread, int64_t told, const struct registers *registers)
{
	thread->told = told;
	return checking ? watch(thread, registers) : answer_with(thread, told);
}

/* Puts the kernel's number in the place of one in the program's memory, until the call is over. */
void lend(struct thread *thread, uint64_t at, enum kind kind)
{
	int32_t number, real;

	for (int i = 0; i < thread->lent_count; i++)
		if (thread->lent[i].at == at)
			return; /* several messages may share it */
	if (!read_memory(thread->tid, at, &number, sizeof number))
		return;
	real = (int32_t)to_real(thread->process, kind, number);
	if (real == number || !write_memory(thread->tid, at, &real, sizeof real))
		return;
	if (thread->lent_count == thread->lent_room) {
		thread->lent_room = thread->lent_room * 2 + 1;
		thread->lent = need(realloc(thread->lent, (size_t)thread->lent_room * sizeof *thread->lent));
	}
	thread->lent[thread->lent_count++] = (struct lent){ at, number };
}

static void give_back(struct thread *thread)
{
	while (thread->lent_count > 0) {
		const struct lent *lent = &thread->lent[--thread->lent_count];
		write_memory(thread->tid, lent->at, &lent->number, sizeof lent->number);
	}
}

/* Translates a number that the kernel has put into the program's memory. */
void show(const struct thread *thread, uint64_t at, enum kind kind)
{
	int32_t real, number;

	if (!read_memory(thread->tid, at, &real, sizeof real))
		return;
	number = (int32_t)to_number(thread->process, kind, real);
	if (number != real)
		write_memory(thread->tid, at, &number, sizeof number);
}

/* Translates what the row says that the call carries. */
enum onward translate(struct thread *thread, struct registers *registers)
{
	const struct call *call = thread->call;

	for (int i = 0; i < CARRIED && call->in[i].kind; i++) {
		const struct carried *in = &call->in[i];
		uint64_t value = registers_argument(registers, in->argument);

		if (in->place == IN_MEMORY)
			lend(thread, value + (uint64_t)in->offset, in->kind);
		else
			registers_set_argument(registers, in->argument, (uint64_t)to_real(thread->process, in->kind, (int32_t)value));
	}
	return watch(thread, registers);
}

static int64_t translate_back(const struct thread *thread, int64_t result)
{
	const struct call *call = thread->call;

	for (int i = 0; i < CARRIED && call->out[i].kind && result >= 0; i++) {
		const struct carried *out = &call->out[i];

		if (out->place == IN_MEMORY)
			show(thread, registers_argument(&thread->made, out->argument) + (uint64_t)out->offset, out->kind);
	}
	if (call->out[0].kind && call->out[0].place == IN_RESULT && (result > 0 || call->out[0].kind == PROCESS_OR_GROUP))
		result = to_number(thread->process, call->out[0].kind, result);
	return result;
}

/* The kernel makes the same wait once more, as behind a freezer. */
static void wait_again(struct thread *thread, struct registers *registers)
{
	thread->has_no_exit = false;
	if (registers_call(registers) != registers_call(&thread->made)) {
		errno = 0;
		die("a wait has ended unseen");
	}
	registers_restore(registers, &thread->made);
	registers_write(thread->tid, registers);
}

/* The exit of a call that carries bytes is seen too where they are summed. */
static enum onward keep_data(struct thread *thread, enum onward onward)
{
	if (onward == SEE_EXIT || !thread->data || !data_is_carried(registers_call(&thread->made)))
		return onward;
	thread->knows_given = false;
	thread->phase = IN_CALL;
	thread->entered = events;
	return SEE_EXIT;
}

/* Most calls that stop have a path that leads elsewhere, and who has just made one is likely to make another. The call
 * and its arguments tell that: to read all registers would take longer. */
static bool is_elsewhere(struct thread *thread)
{
	if (!thread->call || thread->call->in[0].kind != PATH || !registers_read_call(thread->tid, &thread->made))
		return false;
	thread->call = call_row(&thread->made);
	return thread->call && thread->call->in[0].kind == PATH && path_is_elsewhere(thread);
}

enum onward call_enter(struct thread *thread)
{
	struct registers registers;

	if (is_elsewhere(thread) || !registers_read(thread->tid, &registers))
		return GO;
	if (thread->has_no_exit)
		wait_again(thread, &registers);
	thread->made = registers;
	thread->call = call_row(&registers);
	if (thread->call && thread->call->decides == PLAIN && thread->process->sees_proc)
		thread->call = call_row_translated(&registers);
	if (!thread->call || (thread->call->decides == REFUSED && !thread->call->enter))
		return refuse(thread);
	return keep_data(thread, thread->call->enter ? thread->call->enter(thread, &registers) : translate(thread,
		&registers));
}

/* Behind a wait whose exit is not seen. */
void wait_over(struct thread *thread)
{
	thread->has_no_exit = false;
	if (!thread->process->ended)
		call_leave(thread);
}

/* Whether calls of ours follow behind the call. */
static bool is_followed(struct thread *thread, const struct registers *registers)
{
	thread->behind = *registers;
	if (thread->wants_copy && copy_begin(thread))
		return true;
	if (thread->behind_reads >= 0 && filter_for_reads(thread))
		return true;
	return filter_wanted(thread);
}

/* The exit of a call. The program finds its arguments as it passed them. */
enum onward call_leave(struct thread *thread)
{
	struct registers registers = thread->given, present;
	int64_t result;

	thread->phase = FREE;
	if (!(thread->knows_given ? registers_read_result : registers_read)(thread->tid, &registers))
		return GO;
	present = registers;
	result = registers_result(&registers);
	give_back(thread);
	result = thread->call->leave ? thread->call->leave(thread, result) : translate_back(thread, result);
	data_add(thread->data, thread->tid, &thread->made, result);
	registers_restore(&registers, &thread->made);
	registers_set_result(&registers, result);
	if (thread->once_more)
		registers_repeat(&registers, registers_call(&thread->made));
	thread->once_more = false;
	if (is_followed(thread, &registers))
		return SEE_EXIT;
	room_give_back(thread);
	registers_change(thread->tid, &present, &registers);
	return GO;
}

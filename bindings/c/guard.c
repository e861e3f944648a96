/* The functions of pidtab.h that work on a table. Each marks the table, calls the proved function, and takes the mark away. Queries are
 * counted, and work side by side. A call works alone: while its mark is there, every other function is PIDTAB_BUSY, and while queries
 * are counted, it is PIDTAB_BUSY itself. A table with a bound or threads goes the slow way, whose functions stand apart: here nothing is kept in
 * registers for them. The proved functions have other names here, by renamed.syms. Written by tools/guard. */
#include "guard.h"

static __attribute__((noinline)) uint32_t slow_line(struct pidtab *table, const void *line, size_t length, void *answer, size_t room, size_t *size)
{
	struct pidtab *held;
	uint32_t status = begin_calls(table, 1, &held);
	uint64_t ordinal;

	if (status != PIDTAB_DONE)
		return status;
	return end_call(table, held, proved_line_by(held, 0, line, length, answer, room, size, &ordinal));
}

uint32_t pidtab_line(struct pidtab *table, const void *line, size_t length, void *answer, size_t room, size_t *size)
{
	uint64_t ordinal;

	if (way_of(table) != QUICK)
		return slow_line(table, line, length, answer, room, size);
	if (!enter(&table->in_use))
		return PIDTAB_BUSY;
	return leave(&table->in_use, proved_line_by(table, 0, line, length, answer, room, size, &ordinal));
}

static __attribute__((noinline)) uint32_t slow_list(const struct pidtab *table, void *bytes, size_t room, size_t *size)
{
	struct threads *threads = threads_of(table);
	struct pidtab held;

	copy_held(share_before_calls(threads), &held);
	return end_shared(threads, proved_list(&held, bytes, room, size));
}

uint32_t pidtab_list(const struct pidtab *table, void *bytes, size_t room, size_t *size)
{
	struct pidtab held;

	if (has_threads(table))
		return slow_list(table, bytes, room, size);
	if (!enter_query(&table->in_use))
		return PIDTAB_BUSY;
	copy_held(table, &held);
	return leave_query(&table->in_use, proved_list(&held, bytes, room, size));
}

static __attribute__((noinline)) uint32_t slow_dump(const struct pidtab *table, void *bytes, size_t room, size_t *size)
{
	struct threads *threads = threads_of(table);
	struct pidtab held;

	copy_held(share_before_calls(threads), &held);
	return end_shared(threads, proved_dump(&held, bytes, room, size));
}

uint32_t pidtab_dump(const struct pidtab *table, void *bytes, size_t room, size_t *size)
{
	struct pidtab held;

	if (has_threads(table))
		return slow_dump(table, bytes, room, size);
	if (!enter_query(&table->in_use))
		return PIDTAB_BUSY;
	copy_held(table, &held);
	return leave_query(&table->in_use, proved_dump(&held, bytes, room, size));
}

static __attribute__((noinline)) uint32_t slow_call(struct pidtab *table, const struct pidtab_call *call, struct pidtab_reply *reply)
{
	struct pidtab *held;
	uint32_t status = begin_calls(table, 1, &held);

	if (status != PIDTAB_DONE)
		return status;
	return end_call(table, held, proved_call(held, call, reply));
}

static __attribute__((noinline)) uint32_t keeping_call(struct pidtab *table, const struct pidtab_call *call, struct pidtab_reply *reply)
{
	uint64_t ordinal;

	if (!enter(&table->in_use))
		return PIDTAB_BUSY;
	return leave(&table->in_use, proved_call_keeping(table, 0, call, table->keep, reply, &ordinal));
}

static __attribute__((noinline)) uint32_t quick_call(struct pidtab *table, const struct pidtab_call *call, struct pidtab_reply *reply)
{
	if (!enter(&table->in_use))
		return PIDTAB_BUSY;
	return leave(&table->in_use, proved_call(table, call, reply));
}

uint32_t pidtab_call(struct pidtab *table, const struct pidtab_call *call, struct pidtab_reply *reply)
{
	const uint8_t way = way_of(table);

	if (way == QUICK)
		return quick_call(table, call, reply);
	return way == KEEPING ? keeping_call(table, call, reply) : slow_call(table, call, reply);
}

static __attribute__((noinline)) uint32_t slow_getpid_of(struct pidtab *table, uint32_t caller, uint64_t *number)
{
	struct pidtab *held;
	uint32_t status = begin_calls(table, 1, &held);

	if (status != PIDTAB_DONE)
		return status;
	return end_call(table, held, proved_getpid_of(held, caller, number));
}

uint32_t pidtab_getpid_of(struct pidtab *table, uint32_t caller, uint64_t *number)
{
	if (way_of(table) != QUICK)
		return slow_getpid_of(table, caller, number);
	if (!enter(&table->in_use))
		return PIDTAB_BUSY;
	return leave(&table->in_use, proved_getpid_of(table, caller, number));
}

static __attribute__((noinline)) uint32_t slow_getppid_of(struct pidtab *table, uint32_t caller, uint64_t *number)
{
	struct pidtab *held;
	uint32_t status = begin_calls(table, 1, &held);

	if (status != PIDTAB_DONE)
		return status;
	return end_call(table, held, proved_getppid_of(held, caller, number));
}

uint32_t pidtab_getppid_of(struct pidtab *table, uint32_t caller, uint64_t *number)
{
	if (way_of(table) != QUICK)
		return slow_getppid_of(table, caller, number);
	if (!enter(&table->in_use))
		return PIDTAB_BUSY;
	return leave(&table->in_use, proved_getppid_of(table, caller, number));
}

static __attribute__((noinline)) uint32_t slow_getpgid_of(struct pidtab *table, uint32_t caller, uint32_t pid, uint64_t *number)
{
	struct pidtab *held;
	uint32_t status = begin_calls(table, 1, &held);

	if (status != PIDTAB_DONE)
		return status;
	return end_call(table, held, proved_getpgid_of(held, caller, pid, number));
}

uint32_t pidtab_getpgid_of(struct pidtab *table, uint32_t caller, uint32_t pid, uint64_t *number)
{
	if (way_of(table) != QUICK)
		return slow_getpgid_of(table, caller, pid, number);
	if (!enter(&table->in_use))
		return PIDTAB_BUSY;
	return leave(&table->in_use, proved_getpgid_of(table, caller, pid, number));
}

static __attribute__((noinline)) uint32_t slow_getsid_of(struct pidtab *table, uint32_t caller, uint32_t pid, uint64_t *number)
{
	struct pidtab *held;
	uint32_t status = begin_calls(table, 1, &held);

	if (status != PIDTAB_DONE)
		return status;
	return end_call(table, held, proved_getsid_of(held, caller, pid, number));
}

uint32_t pidtab_getsid_of(struct pidtab *table, uint32_t caller, uint32_t pid, uint64_t *number)
{
	if (way_of(table) != QUICK)
		return slow_getsid_of(table, caller, pid, number);
	if (!enter(&table->in_use))
		return PIDTAB_BUSY;
	return leave(&table->in_use, proved_getsid_of(table, caller, pid, number));
}

static __attribute__((noinline)) uint32_t slow_next_of(struct pidtab *table, uint32_t caller, uint32_t kind, uint32_t from, uint64_t *number)
{
	struct pidtab *held;
	uint32_t status = begin_calls(table, 1, &held);

	if (status != PIDTAB_DONE)
		return status;
	return end_call(table, held, proved_next_of(held, caller, kind, from, number));
}

uint32_t pidtab_next_of(struct pidtab *table, uint32_t caller, uint32_t kind, uint32_t from, uint64_t *number)
{
	if (way_of(table) != QUICK)
		return slow_next_of(table, caller, kind, from, number);
	if (!enter(&table->in_use))
		return PIDTAB_BUSY;
	return leave(&table->in_use, proved_next_of(table, caller, kind, from, number));
}

static __attribute__((noinline)) uint32_t slow_count_of(struct pidtab *table, uint64_t id, uint64_t *number)
{
	struct pidtab *held;
	uint32_t status = begin_calls(table, 1, &held);

	if (status != PIDTAB_DONE)
		return status;
	return end_call(table, held, proved_count_of(held, id, number));
}

uint32_t pidtab_count_of(struct pidtab *table, uint64_t id, uint64_t *number)
{
	if (way_of(table) != QUICK)
		return slow_count_of(table, id, number);
	if (!enter(&table->in_use))
		return PIDTAB_BUSY;
	return leave(&table->in_use, proved_count_of(table, id, number));
}

static __attribute__((noinline)) uint32_t slow_ask(const struct pidtab *table, const struct pidtab_call *call, struct pidtab_reply *reply)
{
	struct threads *threads = threads_of(table);
	struct pidtab held;

	copy_held(share_as_call(threads), &held);
	return end_shared(threads, proved_ask(&held, call, reply));
}

uint32_t pidtab_ask(const struct pidtab *table, const struct pidtab_call *call, struct pidtab_reply *reply)
{
	struct pidtab held;

	if (has_threads(table))
		return slow_ask(table, call, reply);
	if (!enter_query(&table->in_use))
		return PIDTAB_BUSY;
	copy_held(table, &held);
	return leave_query(&table->in_use, proved_ask(&held, call, reply));
}

static __attribute__((noinline)) uint32_t slow_stat(const struct pidtab *table, uint32_t caller, uint32_t number, struct pidtab_task *task)
{
	struct threads *threads = threads_of(table);
	struct pidtab held;

	copy_held(share_as_call(threads), &held);
	return end_shared(threads, proved_stat(&held, caller, number, task));
}

uint32_t pidtab_stat(const struct pidtab *table, uint32_t caller, uint32_t number, struct pidtab_task *task)
{
	struct pidtab held;

	if (has_threads(table))
		return slow_stat(table, caller, number, task);
	if (!enter_query(&table->in_use))
		return PIDTAB_BUSY;
	copy_held(table, &held);
	return leave_query(&table->in_use, proved_stat(&held, caller, number, task));
}

static __attribute__((noinline)) uint32_t slow_page(const struct pidtab *table, uint32_t caller, uint32_t whom, uint32_t number, uint32_t from, uint32_t *numbers, size_t room, struct pidtab_reply *reply)
{
	struct threads *threads = threads_of(table);
	struct pidtab held;

	copy_held(share_as_call(threads), &held);
	return end_shared(threads, proved_page(&held, caller, whom, number, from, numbers, room, reply));
}

uint32_t pidtab_page(const struct pidtab *table, uint32_t caller, uint32_t whom, uint32_t number, uint32_t from, uint32_t *numbers, size_t room, struct pidtab_reply *reply)
{
	struct pidtab held;

	if (has_threads(table))
		return slow_page(table, caller, whom, number, from, numbers, room, reply);
	if (!enter_query(&table->in_use))
		return PIDTAB_BUSY;
	copy_held(table, &held);
	return leave_query(&table->in_use, proved_page(&held, caller, whom, number, from, numbers, room, reply));
}

static __attribute__((noinline)) uint32_t slow_space(const struct pidtab *table, uint64_t id, struct pidtab_space *space)
{
	struct threads *threads = threads_of(table);
	struct pidtab held;

	copy_held(share_as_call(threads), &held);
	return end_shared(threads, proved_space(&held, id, space));
}

uint32_t pidtab_space(const struct pidtab *table, uint64_t id, struct pidtab_space *space)
{
	struct pidtab held;

	if (has_threads(table))
		return slow_space(table, id, space);
	if (!enter_query(&table->in_use))
		return PIDTAB_BUSY;
	copy_held(table, &held);
	return leave_query(&table->in_use, proved_space(&held, id, space));
}

static __attribute__((noinline)) uint32_t slow_inside(const struct pidtab *table, uint32_t tree, uint64_t id, uint64_t from, uint64_t *ids, size_t room, uint64_t *count)
{
	struct threads *threads = threads_of(table);
	struct pidtab held;

	copy_held(share_as_call(threads), &held);
	return end_shared(threads, proved_inside(&held, tree, id, from, ids, room, count));
}

uint32_t pidtab_inside(const struct pidtab *table, uint32_t tree, uint64_t id, uint64_t from, uint64_t *ids, size_t room, uint64_t *count)
{
	struct pidtab held;

	if (has_threads(table))
		return slow_inside(table, tree, id, from, ids, room, count);
	if (!enter_query(&table->in_use))
		return PIDTAB_BUSY;
	copy_held(table, &held);
	return leave_query(&table->in_use, proved_inside(&held, tree, id, from, ids, room, count));
}

static __attribute__((noinline)) uint32_t slow_control_tasks(const struct pidtab *table, uint32_t caller, uint64_t control, uint32_t from, uint32_t *numbers, size_t room, struct pidtab_reply *reply)
{
	struct threads *threads = threads_of(table);
	struct pidtab held;

	copy_held(share_as_call(threads), &held);
	return end_shared(threads, proved_control_tasks(&held, caller, control, from, numbers, room, reply));
}

uint32_t pidtab_control_tasks(const struct pidtab *table, uint32_t caller, uint64_t control, uint32_t from, uint32_t *numbers, size_t room, struct pidtab_reply *reply)
{
	struct pidtab held;

	if (has_threads(table))
		return slow_control_tasks(table, caller, control, from, numbers, room, reply);
	if (!enter_query(&table->in_use))
		return PIDTAB_BUSY;
	copy_held(table, &held);
	return leave_query(&table->in_use, proved_control_tasks(&held, caller, control, from, numbers, room, reply));
}

static __attribute__((noinline)) uint32_t slow_would(const struct pidtab *table, const struct pidtab_call *call, struct pidtab_reply *reply)
{
	struct threads *threads = threads_of(table);
	struct pidtab held;

	copy_held(share_as_call(threads), &held);
	return end_shared(threads, proved_would(&held, call, reply));
}

uint32_t pidtab_would(const struct pidtab *table, const struct pidtab_call *call, struct pidtab_reply *reply)
{
	struct pidtab held;

	if (has_threads(table))
		return slow_would(table, call, reply);
	if (!enter_query(&table->in_use))
		return PIDTAB_BUSY;
	copy_held(table, &held);
	return leave_query(&table->in_use, proved_would(&held, call, reply));
}

static __attribute__((noinline)) uint32_t slow_fork_at(struct pidtab *table, uint32_t caller, uint32_t new_space, uint32_t child, uint32_t root, struct pidtab_reply *reply)
{
	struct pidtab *held;
	uint32_t status = begin_calls(table, 1, &held);
	uint64_t ordinal;

	if (status != PIDTAB_DONE)
		return status;
	return end_call(table, held, proved_fork_at_by(held, 0, caller, new_space, child, root, reply, &ordinal));
}

uint32_t pidtab_fork_at(struct pidtab *table, uint32_t caller, uint32_t new_space, uint32_t child, uint32_t root, struct pidtab_reply *reply)
{
	uint64_t ordinal;

	if (way_of(table) != QUICK)
		return slow_fork_at(table, caller, new_space, child, root, reply);
	if (!enter(&table->in_use))
		return PIDTAB_BUSY;
	return leave(&table->in_use, proved_fork_at_by(table, 0, caller, new_space, child, root, reply, &ordinal));
}

static __attribute__((noinline)) uint32_t slow_call_told(struct pidtab *table, const struct pidtab_call *call, struct pidtab_reply *reply, struct pidtab_effect *effects, size_t room, uint64_t *count)
{
	struct pidtab *held;
	uint32_t status = begin_calls(table, 1, &held);
	uint64_t ordinal;

	if (status != PIDTAB_DONE)
		return status;
	return end_call(table, held, proved_call_told_by(held, 0, call, reply, &ordinal, effects, room, count));
}

uint32_t pidtab_call_told(struct pidtab *table, const struct pidtab_call *call, struct pidtab_reply *reply, struct pidtab_effect *effects, size_t room, uint64_t *count)
{
	uint64_t ordinal;

	if (way_of(table) != QUICK)
		return slow_call_told(table, call, reply, effects, room, count);
	if (!enter(&table->in_use))
		return PIDTAB_BUSY;
	return leave(&table->in_use, proved_call_told_by(table, 0, call, reply, &ordinal, effects, room, count));
}

static __attribute__((noinline)) uint32_t slow_call_by(struct pidtab *table, uint32_t worker, const struct pidtab_call *call, struct pidtab_reply *reply, uint64_t *ordinal)
{
	struct pidtab *held;
	uint32_t status = begin_calls(table, 1, &held);

	if (status != PIDTAB_DONE)
		return status;
	return end_call(table, held, proved_call_by(held, worker, call, reply, ordinal));
}

static __attribute__((noinline)) uint32_t keeping_call_by(struct pidtab *table, uint32_t worker, const struct pidtab_call *call, struct pidtab_reply *reply, uint64_t *ordinal)
{
	if (!enter(&table->in_use))
		return PIDTAB_BUSY;
	return leave(&table->in_use, proved_call_keeping(table, worker, call, table->keep, reply, ordinal));
}

static __attribute__((noinline)) uint32_t quick_call_by(struct pidtab *table, uint32_t worker, const struct pidtab_call *call, struct pidtab_reply *reply, uint64_t *ordinal)
{
	if (!enter(&table->in_use))
		return PIDTAB_BUSY;
	return leave(&table->in_use, proved_call_by(table, worker, call, reply, ordinal));
}

uint32_t pidtab_call_by(struct pidtab *table, uint32_t worker, const struct pidtab_call *call, struct pidtab_reply *reply, uint64_t *ordinal)
{
	const uint8_t way = way_of(table);

	if (way == QUICK)
		return quick_call_by(table, worker, call, reply, ordinal);
	return way == KEEPING ? keeping_call_by(table, worker, call, reply, ordinal) : slow_call_by(table, worker, call, reply, ordinal);
}

static __attribute__((noinline)) uint32_t slow_calls(struct pidtab *table, uint32_t worker, const struct pidtab_call *calls, size_t count, struct pidtab_reply *replies, size_t room, size_t *made, uint64_t *ordinal)
{
	struct pidtab *held;
	uint32_t status = begin_calls(table, count, &held);

	*made = 0;
	if (status != PIDTAB_DONE)
		return status;
	return end_calls(table, held, proved_calls(held, worker, calls, count, replies, room, made, ordinal));
}

uint32_t pidtab_calls(struct pidtab *table, uint32_t worker, const struct pidtab_call *calls, size_t count, struct pidtab_reply *replies, size_t room, size_t *made, uint64_t *ordinal)
{
	*made = 0;
	if (way_of(table) != QUICK)
		return slow_calls(table, worker, calls, count, replies, room, made, ordinal);
	if (!enter(&table->in_use))
		return PIDTAB_BUSY;
	return leave(&table->in_use, proved_calls(table, worker, calls, count, replies, room, made, ordinal));
}

static __attribute__((noinline)) uint32_t slow_line_by(struct pidtab *table, uint32_t worker, const void *line, size_t length, void *answer, size_t room, size_t *size, uint64_t *ordinal)
{
	struct pidtab *held;
	uint32_t status = begin_calls(table, 1, &held);

	if (status != PIDTAB_DONE)
		return status;
	return end_call(table, held, proved_line_by(held, worker, line, length, answer, room, size, ordinal));
}

uint32_t pidtab_line_by(struct pidtab *table, uint32_t worker, const void *line, size_t length, void *answer, size_t room, size_t *size, uint64_t *ordinal)
{
	if (way_of(table) != QUICK)
		return slow_line_by(table, worker, line, length, answer, room, size, ordinal);
	if (!enter(&table->in_use))
		return PIDTAB_BUSY;
	return leave(&table->in_use, proved_line_by(table, worker, line, length, answer, room, size, ordinal));
}

static __attribute__((noinline)) uint32_t slow_fork_at_by(struct pidtab *table, uint32_t worker, uint32_t caller, uint32_t new_space, uint32_t child, uint32_t root, struct pidtab_reply *reply, uint64_t *ordinal)
{
	struct pidtab *held;
	uint32_t status = begin_calls(table, 1, &held);

	if (status != PIDTAB_DONE)
		return status;
	return end_call(table, held, proved_fork_at_by(held, worker, caller, new_space, child, root, reply, ordinal));
}

uint32_t pidtab_fork_at_by(struct pidtab *table, uint32_t worker, uint32_t caller, uint32_t new_space, uint32_t child, uint32_t root, struct pidtab_reply *reply, uint64_t *ordinal)
{
	if (way_of(table) != QUICK)
		return slow_fork_at_by(table, worker, caller, new_space, child, root, reply, ordinal);
	if (!enter(&table->in_use))
		return PIDTAB_BUSY;
	return leave(&table->in_use, proved_fork_at_by(table, worker, caller, new_space, child, root, reply, ordinal));
}

static __attribute__((noinline)) uint32_t slow_call_told_by(struct pidtab *table, uint32_t worker, const struct pidtab_call *call, struct pidtab_reply *reply, uint64_t *ordinal, struct pidtab_effect *effects, size_t room, uint64_t *count)
{
	struct pidtab *held;
	uint32_t status = begin_calls(table, 1, &held);

	if (status != PIDTAB_DONE)
		return status;
	return end_call(table, held, proved_call_told_by(held, worker, call, reply, ordinal, effects, room, count));
}

uint32_t pidtab_call_told_by(struct pidtab *table, uint32_t worker, const struct pidtab_call *call, struct pidtab_reply *reply, uint64_t *ordinal, struct pidtab_effect *effects, size_t room, uint64_t *count)
{
	if (way_of(table) != QUICK)
		return slow_call_told_by(table, worker, call, reply, ordinal, effects, room, count);
	if (!enter(&table->in_use))
		return PIDTAB_BUSY;
	return leave(&table->in_use, proved_call_told_by(table, worker, call, reply, ordinal, effects, room, count));
}

static __attribute__((noinline)) uint32_t slow_counts(const struct pidtab *table, uint64_t *first_kept, uint64_t *recorded)
{
	struct threads *threads = threads_of(table);
	struct pidtab held;

	copy_held(share_before_calls(threads), &held);
	return end_shared(threads, proved_counts(&held, first_kept, recorded));
}

uint32_t pidtab_counts(const struct pidtab *table, uint64_t *first_kept, uint64_t *recorded)
{
	struct pidtab held;

	if (has_threads(table))
		return slow_counts(table, first_kept, recorded);
	if (!enter_query(&table->in_use))
		return PIDTAB_BUSY;
	copy_held(table, &held);
	return leave_query(&table->in_use, proved_counts(&held, first_kept, recorded));
}

static __attribute__((noinline)) uint32_t slow_worker(const struct pidtab *table, uint32_t worker, uint64_t *calls)
{
	struct threads *threads = threads_of(table);
	struct pidtab held;

	copy_held(share_before_calls(threads), &held);
	return end_shared(threads, proved_worker(&held, worker, calls));
}

uint32_t pidtab_worker(const struct pidtab *table, uint32_t worker, uint64_t *calls)
{
	struct pidtab held;

	if (has_threads(table))
		return slow_worker(table, worker, calls);
	if (!enter_query(&table->in_use))
		return PIDTAB_BUSY;
	copy_held(table, &held);
	return leave_query(&table->in_use, proved_worker(&held, worker, calls));
}

static __attribute__((noinline)) uint32_t slow_entry(const struct pidtab *table, uint64_t ordinal, uint64_t *worker, struct pidtab_call *call, struct pidtab_reply *reply)
{
	struct threads *threads = threads_of(table);
	struct pidtab held;

	copy_held(share_before_calls(threads), &held);
	return end_shared(threads, proved_entry(&held, ordinal, worker, call, reply));
}

uint32_t pidtab_entry(const struct pidtab *table, uint64_t ordinal, uint64_t *worker, struct pidtab_call *call, struct pidtab_reply *reply)
{
	struct pidtab held;

	if (has_threads(table))
		return slow_entry(table, ordinal, worker, call, reply);
	if (!enter_query(&table->in_use))
		return PIDTAB_BUSY;
	copy_held(table, &held);
	return leave_query(&table->in_use, proved_entry(&held, ordinal, worker, call, reply));
}

static __attribute__((noinline)) uint32_t slow_read(const struct pidtab *table, uint64_t from, struct pidtab_entry *entries, size_t room, size_t *count)
{
	struct threads *threads = threads_of(table);
	struct pidtab held;

	copy_held(share_before_calls(threads), &held);
	return end_shared(threads, proved_read(&held, from, entries, room, count));
}

uint32_t pidtab_read(const struct pidtab *table, uint64_t from, struct pidtab_entry *entries, size_t room, size_t *count)
{
	struct pidtab held;

	if (has_threads(table))
		return slow_read(table, from, entries, room, count);
	if (!enter_query(&table->in_use))
		return PIDTAB_BUSY;
	copy_held(table, &held);
	return leave_query(&table->in_use, proved_read(&held, from, entries, room, count));
}

uint32_t pidtab_replay(struct pidtab *table, const struct pidtab_entry *saved, size_t count, size_t *place)
{
	struct pidtab *held;
	uint32_t status = begin_change(table, &held);

	if (status != PIDTAB_DONE)
		return status;
	return end_calls(table, held, proved_replay(held, saved, count, place));
}

uint32_t pidtab_keep(struct pidtab *table, uint64_t keep)
{
	struct pidtab *held;
	uint32_t status = begin_change(table, &held);

	if (status != PIDTAB_DONE)
		return status;
	return end_calls(table, held, proved_keep(held, keep));
}

uint32_t pidtab_checkpoint(struct pidtab *table)
{
	struct pidtab *held;
	uint32_t status = begin_change(table, &held);

	if (status != PIDTAB_DONE)
		return status;
	return end_calls(table, held, proved_checkpoint(held));
}

uint32_t pidtab_checkpoint_at(struct pidtab *table, uint64_t seen)
{
	struct pidtab *held;
	uint32_t status = begin_change(table, &held);

	if (status != PIDTAB_DONE)
		return status;
	return end_calls(table, held, proved_checkpoint_at(held, seen));
}

static __attribute__((noinline)) uint32_t slow_opening(const struct pidtab *table, void *bytes, size_t room, size_t *size)
{
	struct threads *threads = threads_of(table);
	struct pidtab held;

	copy_held(share_before_calls(threads), &held);
	return end_shared(threads, proved_opening(&held, bytes, room, size));
}

uint32_t pidtab_opening(const struct pidtab *table, void *bytes, size_t room, size_t *size)
{
	struct pidtab held;

	if (has_threads(table))
		return slow_opening(table, bytes, room, size);
	if (!enter_query(&table->in_use))
		return PIDTAB_BUSY;
	copy_held(table, &held);
	return leave_query(&table->in_use, proved_opening(&held, bytes, room, size));
}

/* A table is opened by its settings, and closed; its seats, and its bound after many calls. */
#include "guard.h"

struct pidtab_settings with_defaults(const struct pidtab_settings *settings)
{
	struct pidtab_settings filled = *settings;

	if (filled.pid_max == 0)
		filled.pid_max = 32768;
	if (filled.workers == 0)
		filled.workers = 1;
	if (filled.first_stamp == 0)
		filled.first_stamp = 1;
	return filled;
}

/* What is around a table that was opened: its lock, or its fields alone. */
static uint32_t settle(struct pidtab *table, struct pidtab *held, const struct pidtab_settings *settings)
{
	const uint64_t keep = settings->keep == PIDTAB_KEEP_ALL ? 0 : settings->keep;
	const struct pidtab settled = { held->at, true, 0, keep == 0 ? QUICK : KEEPING, (uint8_t)settings->workers, 0, keep, NULL };

	if (settings->threads)
		return begin_threads(table, &settled);
	copy_held(&settled, table);
	table->workers = settled.workers;
	table->seated = 0;
	table->keep = keep;
	__atomic_store_n(&table->way, settled.way, __ATOMIC_RELAXED);
	return PIDTAB_DONE;
}

/* The table that is held, if the status says that it was opened. */
static uint32_t opened(struct pidtab *table, struct pidtab *held, const struct pidtab_settings *settings, uint32_t status)
{
	if (status == PIDTAB_DONE) {
		status = settle(table, held, settings);
		if (status != PIDTAB_DONE)
			proved_close(held);
	}
	return leave(&table->in_use, status);
}

static uint32_t open_as(struct pidtab *table, const struct pidtab_settings *settings)
{
	struct pidtab held;

	if (!enter(&table->in_use))
		return PIDTAB_BUSY;
	copy_held(table, &held);
	return opened(table, &held, settings, has_threads(table) ? PIDTAB_BUSY : proved_open_with(&held, settings));
}

uint32_t pidtab_open(struct pidtab *table, uint32_t pid_max)
{
	const struct pidtab_settings settings = { .pid_max = pid_max, .workers = 1, .first_stamp = 1 };

	return open_as(table, &settings);
}

uint32_t pidtab_open_with(struct pidtab *table, const struct pidtab_settings *settings)
{
	const struct pidtab_settings filled = with_defaults(settings);

	return open_as(table, &filled);
}

uint32_t pidtab_load(struct pidtab *table, const void *text, size_t length, struct pidtab_fault *fault)
{
	const struct pidtab_settings settings = { .workers = 1 };
	const uint64_t none = 0;

	return pidtab_load_with(table, text, length, &settings, &none, fault);
}

/* The proved function has no workers where there is no history. */
static uint32_t load_held(struct pidtab *held, const void *text, size_t length, const struct pidtab_settings *settings, const uint64_t *counts, struct pidtab_fault *fault)
{
	if (settings->keep == 0 && settings->workers != 1 && !held->is_open)
		return PIDTAB_OUT_OF_RANGE;
	return proved_load_with(held, text, length, counts, settings->workers, settings->keep != 0, fault);
}

uint32_t pidtab_load_with(struct pidtab *table, const void *text, size_t length, const struct pidtab_settings *settings, const uint64_t *counts, struct pidtab_fault *fault)
{
	const struct pidtab_settings filled = with_defaults(settings);
	struct pidtab held;

	*fault = (struct pidtab_fault){ 0, 0 };
	if (!enter(&table->in_use))
		return PIDTAB_BUSY;
	copy_held(table, &held);
	return opened(table, &held, &filled, has_threads(table) ? PIDTAB_BUSY : load_held(&held, text, length, &filled, counts, fault));
}

/* Leaves zeroes, but the mark. */
static void forget(struct pidtab *table)
{
	__atomic_store_n(&table->threads, NULL, __ATOMIC_RELEASE);
	__atomic_store_n(&table->way, QUICK, __ATOMIC_RELAXED);
	table->at = NULL;
	table->is_open = false;
	table->workers = table->seated = 0;
	table->keep = 0;
}

uint32_t pidtab_close(struct pidtab *table)
{
	struct threads *threads = threads_of(table);
	struct pidtab held;

	if (!enter(&table->in_use))
		return PIDTAB_BUSY;
	if (threads != NULL) {
		end_threads(threads);
	} else {
		copy_held(table, &held);
		proved_close(&held);
	}
	forget(table);
	return leave(&table->in_use, PIDTAB_DONE);
}

static uint32_t next_seat(struct pidtab *held, uint32_t *worker)
{
	if (!held->is_open)
		return PIDTAB_CLOSED;
	if (held->seated == held->workers)
		return PIDTAB_OUT_OF_RANGE;
	*worker = held->seated++;
	return PIDTAB_DONE;
}

uint32_t pidtab_seat(struct pidtab *table, uint32_t *worker)
{
	struct pidtab *held;
	uint32_t status = begin_change(table, &held);

	return status != PIDTAB_DONE ? status : end_change(table, held, next_seat(held, worker));
}

/* Whether first entries are to be cut, and were cut since `first_kept`, which is told anew: a cut that finds no memory is left to later calls. */
static bool goes_on(struct pidtab *held, uint64_t *first_kept)
{
	uint64_t before = *first_kept, recorded;

	return proved_counts(held, first_kept, &recorded) == PIDTAB_DONE && recorded - *first_kept > held->keep && *first_kept != before;
}

uint32_t end_calls(struct pidtab *table, struct pidtab *held, uint32_t status)
{
	uint64_t first_kept = UINT64_MAX;

	while (held->keep != 0 && goes_on(held, &first_kept))
		proved_keep(held, held->keep);
	return end_change(table, held, status);
}

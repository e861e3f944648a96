/* A saved history in a file: begun, gone on with, and loaded into a fresh table. */
#define _POSIX_C_SOURCE 200809L
#define _FILE_OFFSET_BITS 64

#include "pidtab_saved.h"
#include "guard.h"

#include <errno.h>
#include <string.h>
#include <unistd.h>

/* A load has so many entries in hand at once, and the bytes of as many of the longest. */
#define AT_ONCE 16

/* An append reads so many under one lock: a thread that saves has to wait for it among all that make calls. It writes so many at once. */
#define A_TURN 512
#define A_WRITE 64

/* What a load that failed leaves, so that no append writes after a wrong byte. */
#define NO_FILE (-1)

static uint32_t failed(struct pidtab_saved *saved, int error)
{
	saved->error = error;
	return PIDTAB_DEVICE;
}

/* Writes what of the bytes is not in the file yet; `part` is how many are. A file that takes no byte is full. */
static uint32_t write_on(struct pidtab_saved *saved, const unsigned char *bytes, size_t size)
{
	while (saved->part < size) {
		ssize_t count = write(saved->file, bytes + saved->part, size - saved->part);
		if (count == 0)
			return failed(saved, ENOSPC);
		if (count < 0 && errno != EINTR)
			return failed(saved, errno);
		if (count > 0)
			saved->part += (size_t)count;
	}
	return PIDTAB_DONE;
}

/* So many bytes of the part are whole, and counted as such. */
static void count_whole(struct pidtab_saved *saved, size_t size)
{
	saved->part -= size;
	saved->bytes += size;
}

/* Goes to the beginning of an empty file, which is its end. A pipe and the like has none, and is taken for empty. There is no fstat here, which
 * would ask for another C library than all else does. */
static uint32_t go_to_beginning(struct pidtab_saved *saved)
{
	off_t end = lseek(saved->file, 0, SEEK_END);

	if (end < 0 && errno != ESPIPE)
		return failed(saved, errno);
	return end > 0 ? PIDTAB_NOT_EMPTY : PIDTAB_DONE;
}

uint32_t pidtab_saved_begin(struct pidtab_saved *saved, int file, const struct pidtab_saved_head *head)
{
	unsigned char block[PIDTAB_SAVED_BLOCK];
	struct pidtab_saved begun = { .head = *head, .file = file };
	size_t size;
	uint32_t status = pidtab_saved_put_head(head, block, sizeof block, &size, &begun.sum);

	if (status == PIDTAB_DONE)
		status = go_to_beginning(&begun);
	if (status == PIDTAB_DONE)
		status = write_on(&begun, block, size);
	if (status == PIDTAB_DONE)
		count_whole(&begun, size);
	*saved = begun;
	return status;
}

/* Entries as bytes: where each ends, and the checksum there. */
struct laid_out {
	size_t ends[A_WRITE];
	uint64_t sums[A_WRITE];
	unsigned char bytes[A_WRITE * PIDTAB_SAVED_LONGEST];
};

static uint32_t lay_out(const struct pidtab_entry *entries, size_t count, uint64_t sum, struct laid_out *out)
{
	size_t size, used = 0;

	for (size_t i = 0; i < count; i++) {
		uint32_t status = pidtab_saved_put(&entries[i], out->bytes + used, sizeof out->bytes - used, &size, &sum);
		if (status != PIDTAB_DONE)
			return status;
		used += size;
		out->ends[i] = used;
		out->sums[i] = sum;
	}
	return PIDTAB_DONE;
}

/* Saves the next entries, at most A_WRITE. After a write that failed, what is whole counts, and the rest is `part`: so the next write
 * is of the same entry, and perhaps more, and the same bytes come first. */
static uint32_t write_entries(struct pidtab_saved *saved, const struct pidtab_entry *entries, size_t count)
{
	struct laid_out out;
	size_t whole = 0;
	uint32_t status = lay_out(entries, count, saved->sum, &out);

	if (status != PIDTAB_DONE)
		return status;
	status = write_on(saved, out.bytes, out.ends[count - 1]);
	while (whole < count && out.ends[whole] <= saved->part)
		whole++;
	if (whole > 0) {
		count_whole(saved, out.ends[whole - 1]);
		saved->next += whole;
		saved->sum = out.sums[whole - 1];
	}
	return status;
}

/* Saves the entries of one turn. */
static uint32_t append_some(struct pidtab_saved *saved, const struct pidtab *table)
{
	struct pidtab_entry entries[A_TURN];
	size_t count = 0, most;
	uint32_t status = pidtab_read(table, saved->next, entries, A_TURN, &count);

	for (size_t at = 0; at < count && status == PIDTAB_DONE; at += most) {
		most = count - at < A_WRITE ? count - at : A_WRITE;
		status = write_entries(saved, entries + at, most);
	}
	return status;
}

/* Goes to the end of the file; a pipe is there. A file without a head, or with a torn end, is not gone on with. */
static uint32_t go_to_end(struct pidtab_saved *saved)
{
	saved->error = 0;
	if (saved->file == NO_FILE)
		return failed(saved, EBADF);
	if (saved->bytes == 0 || saved->is_torn)
		return PIDTAB_TORN;
	lseek(saved->file, 0, SEEK_END);
	return PIDTAB_DONE;
}

static uint32_t append_from(struct pidtab_saved *saved, const struct pidtab *table)
{
	uint64_t first_kept, recorded;
	uint32_t status = go_to_end(saved);

	if (status == PIDTAB_DONE)
		status = pidtab_counts(table, &first_kept, &recorded);
	if (status == PIDTAB_DONE && recorded < saved->next)
		status = PIDTAB_NOT_KEPT;
	while (status == PIDTAB_DONE && saved->next < recorded)
		status = append_some(saved, table);
	return status;
}

/* Has all that wait look again, and gives the lock back. */
static void wake_all(struct pidtab *table)
{
	pthread_cond_broadcast(&threads_of(table)->told);
	pidtab_unlock(table);
}

/* Tells all that wait how far the file is. What ended is not taken back. */
static uint32_t tell(const struct pidtab_saved *saved, struct pidtab *table, uint32_t status)
{
	struct threads *threads = threads_of(table);

	pidtab_lock(table);
	if (status == PIDTAB_DONE)
		threads->saved = saved->next;
	if (threads->saving != PIDTAB_ENDED)
		threads->saving = status;
	threads->error = saved->error;
	wake_all(table);
	return status;
}

uint32_t pidtab_saved_append(struct pidtab_saved *saved, struct pidtab *table)
{
	uint32_t status = append_from(saved, table);

	return has_threads(table) ? tell(saved, table, status) : status;
}

/* Cuts the history where it is long enough: all others wait while the last calls are written. Where there is no memory, it grows on. */
static uint32_t cut_saved(struct pidtab_saved *saved, struct pidtab *table, uint64_t keep)
{
	struct pidtab *held = pidtab_lock(table);
	uint64_t first_kept, recorded;
	uint32_t status = pidtab_counts(held, &first_kept, &recorded);

	if (status == PIDTAB_DONE && keep != 0 && recorded - first_kept >= keep) {
		status = append_from(saved, held);
		if (status == PIDTAB_DONE)
			pidtab_checkpoint(held);
	}
	pidtab_unlock(table);
	return status;
}

static uint32_t sync_file(struct pidtab_saved *saved)
{
	int done;

	do
		done = fdatasync(saved->file);
	while (done != 0 && errno == EINTR);
	return done == 0 ? PIDTAB_DONE : failed(saved, errno);
}

static uint32_t serve_once(struct pidtab_saved *saved, struct pidtab *table, uint64_t keep, bool to_disk)
{
	uint32_t status = append_from(saved, table);

	if (status == PIDTAB_DONE)
		status = cut_saved(saved, table, keep);
	if (status == PIDTAB_DONE && to_disk)
		status = sync_file(saved);
	return tell(saved, table, status);
}

/* Sleeps until a call is recorded that the file does not have. Whether the saver has ended. */
static bool sleep_until_call(const struct pidtab_saved *saved, struct pidtab *table)
{
	struct threads *threads = threads_of(table);
	const struct pidtab *held = pidtab_lock(table);
	uint64_t first_kept, recorded;
	bool has_ended;

	while (threads->saving != PIDTAB_ENDED && pidtab_counts(held, &first_kept, &recorded) == PIDTAB_DONE && recorded <= saved->next) {
		threads->sleeps = true;
		sleep_until_told(threads, &threads->recorded);
	}
	has_ended = threads->saving == PIDTAB_ENDED;
	pidtab_unlock(table);
	return has_ended;
}

uint32_t pidtab_saved_serve(struct pidtab_saved *saved, struct pidtab *table, uint64_t keep, bool to_disk)
{
	bool has_ended = false, is_last;
	uint32_t status = unless_threads(table);

	if (status != PIDTAB_DONE)
		return status;
	/* One turn more after the end, for what was recorded before it. */
	do {
		is_last = has_ended;
		status = serve_once(saved, table, keep, to_disk);
		has_ended = status == PIDTAB_DONE && sleep_until_call(saved, table);
	} while (status == PIDTAB_DONE && !is_last);
	return status;
}

/* The lock is held. */
static uint32_t wait_until_saved(struct threads *threads, uint64_t ordinal)
{
	while (threads->saved <= ordinal && threads->saving == PIDTAB_DONE)
		sleep_until_told(threads, &threads->told);
	return threads->saved <= ordinal ? threads->saving : (uint32_t)PIDTAB_DONE;
}

uint32_t pidtab_saved_wait(struct pidtab *table, uint64_t ordinal)
{
	struct threads *threads = threads_of(table);
	uint32_t status = unless_threads(table);

	if (status != PIDTAB_DONE)
		return status;
	pidtab_lock(table);
	status = wait_until_saved(threads, ordinal);
	if (status == PIDTAB_DEVICE)
		errno = threads->error;
	pidtab_unlock(table);
	return status;
}

uint32_t pidtab_saved_bound(struct pidtab *table, uint64_t most)
{
	struct threads *threads = threads_of(table);
	uint32_t status = unless_threads(table);

	if (status != PIDTAB_DONE)
		return status;
	pidtab_lock(table);
	threads->most = most;
	wake_all(table);
	return PIDTAB_DONE;
}

uint32_t pidtab_saved_end(struct pidtab *table)
{
	struct threads *threads = threads_of(table);
	uint32_t status = unless_threads(table);

	if (status != PIDTAB_DONE)
		return status;
	pidtab_lock(table);
	threads->saving = PIDTAB_ENDED;
	wake_all(table);
	return PIDTAB_DONE;
}

/* What was read of the file, and is not taken yet. */
struct input {
	size_t from, to;
	bool has_ended;
	uint64_t left_out; /* so many bytes after the last whole entry are passed */
	unsigned char bytes[AT_ONCE * PIDTAB_SAVED_LONGEST];
};

/* Reads until there is no more room, or the file ends. */
static uint32_t fill(struct pidtab_saved *saved, struct input *input)
{
	memmove(input->bytes, input->bytes + input->from, input->to - input->from);
	input->to -= input->from;
	input->from = 0;
	while (!input->has_ended && input->to < sizeof input->bytes) {
		ssize_t count = read(saved->file, input->bytes + input->to, sizeof input->bytes - input->to);
		if (count < 0 && errno != EINTR)
			return failed(saved, errno);
		if (count > 0)
			input->to += (size_t)count;
		input->has_ended = count == 0;
	}
	return PIDTAB_DONE;
}

/* What is after the last whole entry is left out. */
static uint32_t leave_out(struct pidtab_saved *saved, uint64_t count, uint32_t status)
{
	saved->left_out = count;
	saved->is_torn = count != 0;
	return status;
}

/* From the file's beginning; a pipe has none. */
static uint32_t load_head(struct pidtab_saved *saved, struct input *input)
{
	size_t size;
	uint32_t status;

	lseek(saved->file, 0, SEEK_SET);
	status = fill(saved, input);
	if (status == PIDTAB_DONE)
		status = pidtab_saved_take_head(input->bytes, input->to, &saved->head, &size, &saved->sum);
	if (status == PIDTAB_DONE)
		input->from = size;
	return status == PIDTAB_TORN ? leave_out(saved, input->to, status) : status;
}

/* Entries in hand, with their sizes. */
struct batch {
	struct pidtab_entry entries[AT_ONCE];
	size_t sizes[AT_ONCE];
	size_t count;
	bool is_last; /* nothing is after them but what is left out */
};

/* Takes entries until there are enough, or more bytes decide, or none follow, or one is wrong. */
static uint32_t take_some(struct pidtab_saved *saved, struct input *input, struct batch *batch)
{
	uint32_t status = PIDTAB_DONE;
	size_t size = 1;

	batch->count = 0;
	while (batch->count < AT_ONCE && status == PIDTAB_DONE && size != 0) {
		status = pidtab_saved_next(input->bytes + input->from, input->to - input->from, input->has_ended, &batch->entries[batch->count],
			&size, &saved->sum, &input->left_out);
		if (status != PIDTAB_WRONG_BYTE)
			input->from += size;
		if (status == PIDTAB_DONE && size != 0)
			batch->sizes[batch->count++] = size;
	}
	batch->is_last = status == PIDTAB_DONE && size == 0;
	return status == PIDTAB_TORN ? PIDTAB_DONE : status;
}

/* A cut that finds no memory is tried again after the next entries. */
static void cut_behind(struct pidtab *table, uint64_t keep)
{
	uint64_t first_kept, recorded;

	if (pidtab_counts(table, &first_kept, &recorded) == PIDTAB_DONE && recorded - first_kept >= keep)
		pidtab_checkpoint(table);
}

/* Makes the calls, and counts those that had the saved reply. */
static uint32_t replay(struct pidtab_saved *saved, struct pidtab *table, const struct batch *batch)
{
	size_t place = 0;
	uint32_t status = pidtab_replay(table, batch->entries, batch->count, &place);

	for (size_t i = 0; i < place; i++)
		saved->bytes += batch->sizes[i];
	saved->next += place;
	return status;
}

/* Replays the entries after the head to the end of the file. Those before a wrong byte are replayed first. */
static uint32_t replay_on(struct pidtab_saved *saved, struct input *input, struct pidtab *table, uint64_t keep)
{
	struct batch batch = { .is_last = false };
	uint32_t status = PIDTAB_DONE, taken = PIDTAB_DONE;

	saved->bytes = PIDTAB_SAVED_BLOCK;
	while (status == PIDTAB_DONE && taken == PIDTAB_DONE && !batch.is_last) {
		status = fill(saved, input);
		if (status != PIDTAB_DONE)
			return status;
		taken = take_some(saved, input, &batch);
		status = replay(saved, table, &batch);
		cut_behind(table, keep);
	}
	if (status == PIDTAB_DONE && taken == PIDTAB_DONE)
		return leave_out(saved, input->left_out, PIDTAB_DONE);
	return status != PIDTAB_DONE ? status : taken;
}

/* No other thread has the table yet, so its lock may be held for all of it. */
static uint32_t replay_all(struct pidtab_saved *saved, struct input *input, struct pidtab *table, uint64_t keep)
{
	uint32_t status;

	if (!has_threads(table))
		return replay_on(saved, input, table, keep);
	status = replay_on(saved, input, pidtab_lock(table), keep);
	threads_of(table)->saved = saved->next;
	pidtab_unlock(table);
	return status;
}

/* Closes the table where it is of no use. */
static uint32_t close_unless_done(struct pidtab_saved *saved, struct pidtab *table, uint32_t status)
{
	if (status == PIDTAB_DONE)
		return status;
	saved->file = NO_FILE;
	pidtab_close(table);
	return status;
}

/* Opens the table with what the file has to say, and without a bound: no call is cut that is not saved. */
static uint32_t open_by(struct pidtab *table, const struct pidtab_saved_head *head, bool threads)
{
	const struct pidtab_settings settings = { head->pid_max, head->workers, head->first_stamp, PIDTAB_KEEP_ALL, threads };

	return pidtab_open_with(table, &settings);
}

uint32_t pidtab_saved_load(struct pidtab_saved *saved, int file, struct pidtab *table, const struct pidtab_settings *settings)
{
	struct input input = { .has_ended = false };
	uint32_t status;

	*saved = (struct pidtab_saved){ .file = settings->keep == 0 ? NO_FILE : file };
	if (settings->keep == 0)
		return PIDTAB_NO_HISTORY;
	status = load_head(saved, &input);
	if (status == PIDTAB_DONE)
		status = open_by(table, &saved->head, settings->threads);
	if (status != PIDTAB_DONE)
		return status;
	return close_unless_done(saved, table, replay_all(saved, &input, table, settings->keep));
}

uint32_t pidtab_saved_trim(struct pidtab_saved *saved)
{
	off_t behind = (off_t)(saved->part + (saved->is_torn ? saved->left_out : 0)), end;
	int done;

	saved->error = 0;
	if (behind == 0)
		return PIDTAB_DONE;
	end = lseek(saved->file, -behind, SEEK_END);
	if (end < 0)
		return failed(saved, errno);
	do
		done = ftruncate(saved->file, end);
	while (done != 0 && errno == EINTR);
	if (done != 0)
		return failed(saved, errno);
	saved->is_torn = false;
	saved->part = 0;
	return PIDTAB_DONE;
}

/* Begins the file, which has nothing except the torn front of a head. */
static uint32_t begin_anew(struct pidtab_saved *saved, const struct pidtab_saved_head *fresh)
{
	uint64_t left_out = saved->left_out;
	uint32_t status = pidtab_saved_trim(saved);

	if (status == PIDTAB_DONE)
		status = pidtab_saved_begin(saved, saved->file, fresh);
	saved->left_out = left_out;
	return status;
}

uint32_t pidtab_saved_resume(struct pidtab_saved *saved, int file, struct pidtab *table, const struct pidtab_settings *settings)
{
	const struct pidtab_settings filled = with_defaults(settings);
	const struct pidtab_saved_head fresh = { filled.pid_max, filled.workers, filled.first_stamp };
	uint32_t status = pidtab_saved_load(saved, file, table, settings);

	if (status == PIDTAB_DONE)
		return close_unless_done(saved, table, pidtab_saved_trim(saved));
	if (status == PIDTAB_TORN) {
		status = open_by(table, &fresh, settings->threads);
		if (status == PIDTAB_DONE)
			return close_unless_done(saved, table, begin_anew(saved, &fresh));
	}
	return status;
}

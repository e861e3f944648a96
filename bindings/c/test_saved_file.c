/* Tests of a saved history in a file: cut and changed at every byte, with entries out of order, and on devices that fail. */
#include "test_saved.h"
#include "test_heap.h"

#include <errno.h>
#include <fcntl.h>
#include <signal.h>
#include <sys/wait.h>
#include <unistd.h>

/* The device that saved_file.c is built with here. It moves at most so many bytes at once, is interrupted every other time, and
 * after so many bytes fails with the errno; one of 0 is a write that takes nothing. */
static struct { size_t most, left; int fault; bool interrupts, turn; } device;

static void mend(void)
{
	device.most = device.left = SIZE_MAX;
	device.interrupts = false;
}

/* How many bytes may be moved; -1 with an errno where none. */
static ssize_t moved(size_t size)
{
	device.turn = !device.turn;
	if (device.interrupts && device.turn)
		return errno = EINTR, -1;
	if (size != 0 && device.left == 0)
		return errno = device.fault, device.fault ? -1 : 0;
	size = size < device.most ? size : device.most;
	return (ssize_t)(size < device.left ? size : device.left);
}

ssize_t test_write(int file, const void *bytes, size_t size)
{
	ssize_t count = moved(size);

	if (count > 0)
		count = write(file, bytes, (size_t)count);
	if (count > 0 && device.left != SIZE_MAX)
		device.left -= (size_t)count;
	return count;
}

ssize_t test_read(int file, void *bytes, size_t size)
{
	ssize_t count = moved(size);

	if (count > 0)
		count = read(file, bytes, (size_t)count);
	if (count > 0 && device.left != SIZE_MAX)
		device.left -= (size_t)count;
	return count;
}

#define MOST_CALLS 80
#define MOST_BYTES 16384

static const struct pidtab_saved_head head = { .pid_max = 32768, .workers = 3, .first_stamp = 1 };

/* A table of which all is saved, and its file's bytes. Entry i is at places[i], and the end at places[calls]. */
static struct pidtab whole = PIDTAB_INIT;
static struct pidtab_entry entries[MOST_CALLS];
static size_t calls, places[MOST_CALLS + 1];
static unsigned char bytes[MOST_BYTES];

/* A file with the bytes, at its beginning. */
static int file_of(const void *from, size_t size)
{
	int file = new_file();

	CHECK(pwrite(file, from, size, 0) == (ssize_t)size);
	return file;
}

static bool has(int file, const void *wanted, size_t size)
{
	static unsigned char found[MOST_BYTES + 1];

	return pread(file, found, sizeof found, 0) == (ssize_t)size && memcmp(found, wanted, size) == 0;
}

static void makes(struct pidtab *table, uint32_t worker, struct pidtab_call call)
{
	struct pidtab_reply reply;
	uint64_t ordinal;

	CHECK(pidtab_call_by(table, worker, &call, &reply, &ordinal) == PIDTAB_DONE);
}

/* A namespace in the other, down to the last level, and the numbers of the innermost task as each level sees them: 33 to 2. */
static void make_calls(struct pidtab *table)
{
	CHECK(open_history(table, head.pid_max, head.first_stamp, head.workers) == PIDTAB_DONE);
	for (uint32_t i = 1; i <= 32; i++)
		makes(table, i % 3, (struct pidtab_call){ .operation = PIDTAB_FORK, .caller = i, .choice = 1 });
	for (uint32_t i = 1; i <= 32; i++)
		makes(table, i % 2, (struct pidtab_call){ .operation = PIDTAB_NSPID, .caller = i, .number = 34 - i });
	makes(table, 2, (struct pidtab_call){ .operation = PIDTAB_SETPGID, .caller = 1, .pid = 0, .pgid = -1 });
	makes(table, 2, (struct pidtab_call){ .operation = PIDTAB_MK, .id = 0 });
}

/* What the bytes of the whole have to be, by the functions for bytes. */
static void reckon_bytes(void)
{
	uint64_t sum;
	size_t size, at;

	CHECK(pidtab_read(&whole, 0, entries, MOST_CALLS, &calls) == PIDTAB_DONE && calls == 66);
	CHECK(entries[32].reply.kind == PIDTAB_LEVELS && entries[32].reply.count == 33 && entries[63].reply.count == 2);
	CHECK(pidtab_saved_put_head(&head, bytes, sizeof bytes, &size, &sum) == PIDTAB_DONE);
	at = size;
	for (size_t i = 0; i < calls; i++, at += size) {
		places[i] = at;
		CHECK(pidtab_saved_put(&entries[i], bytes + at, sizeof bytes - at, &size, &sum) == PIDTAB_DONE);
	}
	places[calls] = at;
}

/* The table has the first so many entries of the whole. */
static void has_entries(struct pidtab *table, size_t wanted)
{
	static struct pidtab_entry found[MOST_CALLS];
	size_t count = 0;

	CHECK(pidtab_read(table, 0, found, MOST_CALLS, &count) == PIDTAB_DONE && count == wanted);
	for (size_t i = 0; i < count; i++)
		CHECK(same_entry(&found[i], &entries[i]));
}

static bool is_closed(struct pidtab *table)
{
	uint64_t first_kept, recorded;

	return pidtab_counts(table, &first_kept, &recorded) == PIDTAB_CLOSED;
}

/* How many entries are whole in so many bytes. */
static size_t whole_in(size_t size)
{
	size_t count = 0;

	while (count < calls && places[count + 1] <= size)
		count++;
	return count;
}

/* Loads what is in the file: the status, with what the load says of the place, and the table closed. */
static uint32_t load_status(int file, struct pidtab_saved *saved)
{
	struct pidtab table = PIDTAB_INIT;
	uint32_t status = pidtab_saved_load(saved, file, &table, &of_one);

	CHECK(status == PIDTAB_DONE || is_closed(&table));
	CHECK(pidtab_close(&table) == PIDTAB_DONE);
	return status;
}

/* The same of bytes. */
static uint32_t status_of(const void *from, size_t size, struct pidtab_saved *saved)
{
	int file = file_of(from, size);
	uint32_t status = load_status(file, saved);

	CHECK(has(file, from, size) && close(file) == 0);
	return status;
}

static void saved_and_loaded(void)
{
	struct pidtab again = PIDTAB_INIT;
	struct pidtab_saved saved;
	int file = new_file();

	CHECK(pidtab_saved_begin(&saved, file, &head) == PIDTAB_DONE && saved.next == 0 && saved.bytes == 48 && has(file, bytes, 48));
	CHECK(pidtab_saved_append(&saved, &whole) == PIDTAB_DONE && saved.next == calls && saved.bytes == places[calls] && saved.error == 0);
	CHECK(has(file, bytes, places[calls]) && pidtab_saved_append(&saved, &whole) == PIDTAB_DONE && has(file, bytes, places[calls]));
	CHECK(pidtab_saved_load(&saved, file, &again, &of_one) == PIDTAB_DONE);
	CHECK(saved.next == calls && saved.bytes == places[calls] && saved.left_out == 0);
	has_entries(&again, calls);
	same_lists(&whole, &again);
	/* Both go on. */
	makes(&again, 0, (struct pidtab_call){ .operation = PIDTAB_FORK, .caller = 1 });
	CHECK(pidtab_saved_trim(&saved) == PIDTAB_DONE && pidtab_saved_append(&saved, &again) == PIDTAB_DONE && saved.next == calls + 1);
	CHECK(load_status(file, &saved) == PIDTAB_DONE && saved.next == calls + 1);
	CHECK(pidtab_close(&again) == PIDTAB_DONE && close(file) == 0);
}

/* The entries that were whole are loaded, and the file is gone on with as if nothing had been. */
static void cut_at(size_t size)
{
	struct pidtab again = PIDTAB_INIT;
	struct pidtab_saved saved;
	size_t count = whole_in(size);
	int file = file_of(bytes, size);

	CHECK(pidtab_saved_load(&saved, file, &again, &of_one) == PIDTAB_DONE && saved.next == count && saved.bytes == places[count]);
	CHECK(saved.left_out == size - places[count] && has(file, bytes, size));
	CHECK(saved.head.pid_max == head.pid_max && saved.head.workers == head.workers && saved.head.first_stamp == head.first_stamp);
	has_entries(&again, count);
	/* Wherever its descriptor is. */
	CHECK(lseek(file, 0, SEEK_SET) == 0 && pidtab_saved_append(&saved, &whole) == (saved.left_out ? (uint32_t)PIDTAB_TORN : PIDTAB_DONE));
	CHECK(lseek(file, 0, SEEK_SET) == 0 && pidtab_saved_trim(&saved) == PIDTAB_DONE && saved.left_out == size - places[count]);
	CHECK(pidtab_saved_append(&saved, &whole) == PIDTAB_DONE && pidtab_saved_trim(&saved) == PIDTAB_DONE && has(file, bytes, places[calls]));
	CHECK(pidtab_close(&again) == PIDTAB_DONE && close(file) == 0);
}

/* A file that ends within its head is begun anew. */
static void cut_in_the_head_at(size_t size)
{
	struct pidtab again = PIDTAB_INIT;
	struct pidtab_saved saved;
	int file = file_of(bytes, size);

	CHECK(pidtab_saved_load(&saved, file, &again, &of_one) == PIDTAB_TORN && is_closed(&again));
	CHECK(saved.next == 0 && saved.bytes == 0 && saved.left_out == size && pidtab_saved_append(&saved, &whole) == PIDTAB_TORN);
	CHECK(size == 0 || pidtab_saved_begin(&(struct pidtab_saved){ 0 }, file, &head) == PIDTAB_NOT_EMPTY);
	CHECK(pidtab_saved_trim(&saved) == PIDTAB_DONE && has(file, "", 0) && pidtab_saved_append(&saved, &whole) == PIDTAB_TORN);
	CHECK(pidtab_saved_begin(&saved, file, &head) == PIDTAB_DONE && pidtab_saved_append(&saved, &whole) == PIDTAB_DONE);
	CHECK(has(file, bytes, places[calls]) && close(file) == 0);
}

/* The same in one go: the calls that are lost are made again, and the file is the whole. */
static void resumed_at(size_t size)
{
	struct pidtab again = PIDTAB_INIT;
	const struct pidtab_settings settings = settings_of(&head, PIDTAB_KEEP_ALL, false);
	struct pidtab_saved saved;
	size_t count = whole_in(size);
	int file = file_of(bytes, size);

	CHECK(pidtab_saved_resume(&saved, file, &again, &settings) == PIDTAB_DONE && saved.next == count);
	CHECK(saved.left_out == size - (size < 48 ? 0 : places[count]) && has(file, bytes, places[count]) && saved.head.workers == head.workers);
	for (size_t i = count; i < calls; i++)
		makes(&again, (uint32_t)entries[i].worker, entries[i].call);
	CHECK(pidtab_saved_append(&saved, &again) == PIDTAB_DONE && has(file, bytes, places[calls]));
	CHECK(pidtab_close(&again) == PIDTAB_DONE && close(file) == 0);
}

static void cut_at_every_byte(void)
{
	for (size_t size = 0; size <= places[calls]; size++) {
		if (size < 48)
			cut_in_the_head_at(size);
		else
			cut_at(size);
		resumed_at(size);
	}
}

static uint32_t resume_status(int file, const struct pidtab_saved_head *fresh)
{
	struct pidtab again = PIDTAB_INIT;
	const struct pidtab_settings settings = settings_of(fresh, PIDTAB_KEEP_ALL, false);
	struct pidtab_saved saved;
	uint32_t status = pidtab_saved_resume(&saved, file, &again, &settings);

	CHECK(status != PIDTAB_DONE && is_closed(&again) && pidtab_saved_append(&saved, &again) != PIDTAB_DONE);
	return status;
}

/* What no file is resumed of: it stays as it is, except for a torn front of a head. */
static void not_resumed(void)
{
	const struct pidtab_saved_head many_workers = { .pid_max = 32768, .workers = PIDTAB_MOST_WORKERS + 1, .first_stamp = 1 };
	int torn = file_of(bytes, 7), other = file_of("fork 1\n", 7);
	int pipes[2];

	CHECK(resume_status(torn, &many_workers) == PIDTAB_OUT_OF_RANGE && has(torn, bytes, 7));
	CHECK(resume_status(other, &head) == PIDTAB_NOT_SAVED && has(other, "fork 1\n", 7));
	CHECK(resume_status(-1, &head) == PIDTAB_DEVICE);
	device.left = 20;
	device.fault = ENOSPC;
	CHECK(resume_status(torn, &head) == PIDTAB_DEVICE && has(torn, bytes, 13));
	mend();
	CHECK(pipe(pipes) == 0 && write(pipes[1], bytes, 49) == 49 && close(pipes[1]) == 0);
	CHECK(resume_status(pipes[0], &head) == PIDTAB_DEVICE && close(pipes[0]) == 0 && close(torn) == 0 && close(other) == 0);
}

/* The settings of the file are those that count, and an open table stays as it is. */
static void resumed_with_other_settings(void)
{
	const struct pidtab_settings others = { 301, 1, 9, PIDTAB_KEEP_ALL, true };
	static struct pidtab shared;
	struct pidtab_saved saved;
	int file = file_of(bytes, places[calls] - 1), empty = new_file();

	CHECK(pidtab_saved_resume(&saved, file, &shared, &others) == PIDTAB_DONE && saved.next == calls - 1 && saved.left_out == 47);
	CHECK(saved.head.pid_max == 32768 && saved.head.workers == 3 && saved.head.first_stamp == 1 && has(file, bytes, places[calls - 1]));
	pidtab_close(&shared);
	CHECK(pidtab_saved_resume(&saved, empty, &shared, &others) == PIDTAB_DONE && saved.head.pid_max == 301 && saved.bytes == 48);
	CHECK(pidtab_saved_append(&saved, &shared) == PIDTAB_DONE);
	pidtab_close(&shared);
	CHECK(ftruncate(empty, 0) == 0 && pidtab_saved_resume(&saved, empty, &whole, &others) == PIDTAB_BUSY && has(empty, "", 0));
	CHECK(close(file) == 0 && close(empty) == 0);
}

static void change_is_found(size_t at, unsigned change)
{
	static const uint32_t of_head[3] = { PIDTAB_NOT_SAVED, PIDTAB_OTHER_VERSION, PIDTAB_WRONG_BYTE };
	size_t count = whole_in(at);
	struct pidtab_saved saved;
	uint32_t status;

	bytes[at] ^= (unsigned char)change;
	status = status_of(bytes, places[calls], &saved);
	bytes[at] ^= (unsigned char)change;
	CHECK(status == (at < 48 ? of_head[at < 8 ? 0 : at < 12 ? 1 : 2] : PIDTAB_WRONG_BYTE));
	CHECK(saved.next == count && saved.bytes == (at < 48 ? 0 : places[count]) && saved.left_out == 0);
	CHECK(at < 48 || pidtab_saved_append(&saved, &whole) == PIDTAB_DEVICE);
}

static void every_byte_changed(void)
{
	for (size_t at = 0; at < places[calls]; at++) {
		change_is_found(at, 0x01);
		change_is_found(at, 0x80);
		if (bytes[at] != 0)
			change_is_found(at, bytes[at]);
	}
}

/* What is put in the place of two entries, of which the second is the last one in some turns: status, and at which entry. */
static void mixed(size_t i, const size_t *order, size_t count, size_t wrong)
{
	static unsigned char others[2 * MOST_BYTES];
	struct pidtab_saved saved;
	size_t size = places[i];

	memcpy(others, bytes, size);
	for (size_t k = 0; k < count; k++) {
		memcpy(others + size, bytes + places[order[k]], places[order[k] + 1] - places[order[k]]);
		size += places[order[k] + 1] - places[order[k]];
	}
	memcpy(others + size, bytes + places[i + 2], places[calls] - places[i + 2]);
	size += places[calls] - places[i + 2];
	CHECK(status_of(others, size, &saved) == PIDTAB_WRONG_BYTE && saved.next == wrong);
}

static void swapped_doubled_and_dropped(void)
{
	for (size_t i = 0; i + 1 < calls; i++) {
		mixed(i, (size_t[]){ i + 1, i }, 2, i);
		mixed(i, (size_t[]){ i, i, i + 1 }, 3, i + 1);
		mixed(i, (size_t[]){ i + 1 }, 1, i);
	}
}

/* What a file system may leave: the length of the whole, and zeroes for the last bytes. Its sectors begin at multiples of 16 in a block. */
static void zeroes_at_the_end(void)
{
	static unsigned char others[MOST_BYTES];
	struct pidtab again = PIDTAB_INIT;
	struct pidtab_saved saved;

	for (size_t at = 48; at < places[calls]; at += 16) {
		size_t count = whole_in(at);
		memset(others, 0, sizeof others);
		memcpy(others, bytes, at);
		for (size_t size = places[calls]; size <= sizeof others; size += 5003) {
			int file = file_of(others, size);
			CHECK(pidtab_saved_load(&saved, file, &again, &of_one) == PIDTAB_DONE && saved.next == count && saved.left_out == size - places[count]);
			CHECK(pidtab_saved_trim(&saved) == PIDTAB_DONE && pidtab_saved_append(&saved, &whole) == PIDTAB_DONE);
			CHECK(has(file, bytes, places[calls]) && pidtab_close(&again) == PIDTAB_DONE && close(file) == 0);
		}
		/* A byte after them is none that was cut off. */
		others[sizeof others - 1] = 1;
		CHECK(status_of(others, sizeof others, &saved) == PIDTAB_WRONG_BYTE && saved.bytes == places[count]);
	}
}

static void files_of_other_kinds(void)
{
	struct pidtab_saved saved;
	const char *script = "fork 1 new\nfork 2\nnspid 1 3\nfork 1 new\nfork 2\nnspid 1 3\n";
	unsigned char later[48];
	int folder = open("/", O_RDONLY | O_DIRECTORY);

	CHECK(status_of(script, strlen(script), &saved) == PIDTAB_NOT_SAVED && saved.bytes == 0 && saved.left_out == 0);
	memcpy(later, bytes, sizeof later);
	later[8] = 2;
	CHECK(status_of(later, sizeof later, &saved) == PIDTAB_OTHER_VERSION && saved.bytes == 0);
	CHECK(folder >= 0 && load_status(folder, &saved) == PIDTAB_DEVICE && saved.error == EISDIR && close(folder) == 0);
	CHECK(load_status(-1, &saved) == PIDTAB_DEVICE && saved.error == EBADF && saved.bytes == 0);
	CHECK(pidtab_saved_begin(&saved, -1, &head) == PIDTAB_DEVICE && saved.error == EBADF);
}

static void begun_wrongly(void)
{
	struct pidtab_saved saved, none = { 0 };
	struct pidtab_saved_head no_workers = { .pid_max = 32768, .first_stamp = 1 };
	int file = file_of("x", 1), empty = new_file();

	CHECK(pidtab_saved_begin(&saved, file, &head) == PIDTAB_NOT_EMPTY && has(file, "x", 1));
	CHECK(pidtab_saved_append(&saved, &whole) == PIDTAB_TORN && has(file, "x", 1));
	CHECK(pidtab_saved_begin(&saved, empty, &no_workers) == PIDTAB_OUT_OF_RANGE && has(empty, "", 0));
	CHECK(pidtab_saved_append(&none, &whole) == PIDTAB_TORN);
	/* An empty file whose descriptor is elsewhere. */
	CHECK(lseek(empty, 1000, SEEK_SET) == 1000 && pidtab_saved_begin(&saved, empty, &head) == PIDTAB_DONE && has(empty, bytes, 48));
	CHECK(close(file) == 0 && close(empty) == 0);
}

static void short_and_interrupted(void)
{
	struct pidtab_saved saved;

	for (size_t most = 1; most < 100; most += 7) {
		int file = new_file();
		device.most = most;
		device.interrupts = true;
		CHECK(pidtab_saved_begin(&saved, file, &head) == PIDTAB_DONE && pidtab_saved_append(&saved, &whole) == PIDTAB_DONE);
		CHECK(has(file, bytes, places[calls]));
		CHECK(load_status(file, &saved) == PIDTAB_DONE && saved.next == calls);
		mend();
		CHECK(close(file) == 0);
	}
}

/* The device is full after each byte in turn; then there is room again, and the file is what it would have been. */
static void full_after(size_t size, int fault)
{
	struct pidtab_saved saved;
	int file = new_file(), told = fault ? fault : ENOSPC;

	device.left = size;
	device.fault = fault;
	uint32_t status = pidtab_saved_begin(&saved, file, &head);
	CHECK(status == (size < 48 ? (uint32_t)PIDTAB_DEVICE : PIDTAB_DONE));
	if (status == PIDTAB_DEVICE) {
		CHECK(saved.error == told && has(file, bytes, size) && pidtab_saved_append(&saved, &whole) == PIDTAB_TORN);
		CHECK(pidtab_saved_trim(&saved) == PIDTAB_DONE && has(file, "", 0));
		device.left = 48;
		CHECK(pidtab_saved_begin(&saved, file, &head) == PIDTAB_DONE);
		size = 48;
	}
	for (int again = 0; again < 2; again++) {
		CHECK(pidtab_saved_append(&saved, &whole) == PIDTAB_DEVICE && saved.error == told);
		CHECK(saved.next == whole_in(size));
		CHECK(saved.bytes == places[saved.next] && saved.bytes + saved.part == size && has(file, bytes, size));
	}
	mend();
	CHECK(pidtab_saved_append(&saved, &whole) == PIDTAB_DONE && saved.error == 0 && saved.next == calls && has(file, bytes, places[calls]));
	CHECK(close(file) == 0);
}

/* What a write that failed has left is trimmed too, and read as a torn end. */
static void given_up(void)
{
	struct pidtab_saved saved, read;
	int file = new_file();

	CHECK(pidtab_saved_begin(&saved, file, &head) == PIDTAB_DONE);
	device.left = places[20] + 5 - 48;
	device.fault = EIO;
	CHECK(pidtab_saved_append(&saved, &whole) == PIDTAB_DEVICE && saved.next == 20 && saved.part == 5);
	mend();
	CHECK(load_status(file, &read) == PIDTAB_DONE && read.next == 20 && read.left_out == 5);
	CHECK(pidtab_saved_trim(&saved) == PIDTAB_DONE && has(file, bytes, places[20]));
	CHECK(pidtab_saved_append(&saved, &whole) == PIDTAB_DONE && has(file, bytes, places[calls]) && close(file) == 0);
}

static void writes_that_fail(void)
{
	for (size_t size = 0; size < places[calls]; size++)
		full_after(size, size % 2 ? EIO : 0);
	given_up();
}

static void reads_that_fail(void)
{
	struct pidtab_saved saved;
	int file = file_of(bytes, places[calls]);

	for (size_t size = 0; size < places[calls]; size++) {
		device.left = size;
		device.fault = EIO;
		CHECK(load_status(file, &saved) == PIDTAB_DEVICE && saved.error == EIO && saved.next <= whole_in(size));
		mend();
	}
	CHECK(close(file) == 0);
}

/* Pipes have an end, and no place in them. */
static void pipes(void)
{
	struct pidtab_saved saved, torn;
	int ends[2];

	CHECK(pipe(ends) == 0 && pidtab_saved_begin(&saved, ends[1], &head) == PIDTAB_DONE && pidtab_saved_append(&saved, &whole) == PIDTAB_DONE);
	CHECK(write(ends[1], "x", 1) == 1 && close(ends[1]) == 0);
	CHECK(load_status(ends[0], &torn) == PIDTAB_DONE && torn.next == calls && torn.left_out == 1);
	CHECK(pidtab_saved_trim(&torn) == PIDTAB_DEVICE && torn.error == ESPIPE && torn.left_out == 1 && close(ends[0]) == 0);
	CHECK(pipe(ends) == 0 && pidtab_saved_begin(&saved, ends[1], &head) == PIDTAB_DONE && close(ends[0]) == 0);
	CHECK(pidtab_saved_append(&saved, &whole) == PIDTAB_DEVICE && saved.error == EPIPE && saved.next == 0 && saved.part == 0);
	CHECK(close(ends[1]) == 0);
}

static void a_full_disk(void)
{
	struct pidtab_saved saved;
	int file = open("/dev/full", O_RDWR);

	CHECK(file >= 0 && pidtab_saved_begin(&saved, file, &head) == PIDTAB_DEVICE && saved.error == ENOSPC && saved.part == 0);
	CHECK(close(file) == 0);
}

/* Saves the entries, of which one is another, with the right checksums. */
static size_t forge(const struct pidtab_entry *other, size_t at, unsigned char *forged)
{
	uint64_t sum;
	size_t size, used;

	CHECK(pidtab_saved_put_head(&head, forged, MOST_BYTES, &used, &sum) == PIDTAB_DONE);
	for (size_t i = 0; i < calls; i++, used += size)
		CHECK(pidtab_saved_put(i == at ? other : &entries[i], forged + used, MOST_BYTES - used, &size, &sum) == PIDTAB_DONE);
	return used;
}

static void other_replies(void)
{
	static unsigned char forged[MOST_BYTES];
	struct pidtab_saved saved;

	for (size_t at = 0; at < calls; at++) {
		struct pidtab_entry other = entries[at];
		if (other.reply.kind == PIDTAB_LEVELS)
			other.reply.levels[other.reply.count - 1]++;
		else
			other.reply.first++;
		CHECK(status_of(forged, forge(&other, at, forged), &saved) == PIDTAB_DIFFERS && saved.next == at && saved.bytes == places[at]);
		/* Cut there, it loads as what comes before. */
		CHECK(status_of(forged, saved.bytes, &saved) == PIDTAB_DONE && saved.next == at && saved.left_out == 0);
	}
}

/* After a load that failed nothing is appended, also where there is nothing to append. */
static void not_gone_on_with(void)
{
	static unsigned char forged[MOST_BYTES];
	struct pidtab empty = PIDTAB_INIT;
	struct pidtab_saved saved;
	struct pidtab_entry other = entries[0];

	other.reply.first++;
	CHECK(status_of(forged, forge(&other, 0, forged), &saved) == PIDTAB_DIFFERS && saved.next == 0);
	CHECK(open_history(&empty, head.pid_max, head.first_stamp, head.workers) == PIDTAB_DONE);
	CHECK(pidtab_saved_append(&saved, &empty) == PIDTAB_DEVICE && saved.error == EBADF && pidtab_close(&empty) == PIDTAB_DONE);
}

static void calls_that_cannot_be_made(void)
{
	static unsigned char forged[MOST_BYTES];
	struct pidtab_saved saved;
	struct pidtab_entry other = entries[40];

	other.call.operation = 19;
	CHECK(status_of(forged, forge(&other, 40, forged), &saved) == PIDTAB_OUT_OF_RANGE && saved.next == 40 && saved.bytes == places[40]);
	other = entries[40];
	other.worker = head.workers;
	CHECK(status_of(forged, forge(&other, 40, forged), &saved) == PIDTAB_OUT_OF_RANGE && saved.next == 40 && saved.bytes == places[40]);
}

/* The last stamp is used up by the first of two calls. */
static void stamps_that_are_used_up(void)
{
	const struct pidtab_saved_head last = { .pid_max = 301, .workers = 1, .first_stamp = UINT64_MAX - 1 };
	const struct pidtab_entry query = { .call = { .operation = PIDTAB_GETPID, .caller = 1 }, .reply = { .kind = PIDTAB_NUMBER, .first = 1 } };
	unsigned char forged[3 * 48];
	struct pidtab_saved saved;
	uint64_t sum;
	size_t size;

	CHECK(pidtab_saved_put_head(&last, forged, 48, &size, &sum) == PIDTAB_DONE);
	CHECK(pidtab_saved_put(&query, forged + 48, 48, &size, &sum) == PIDTAB_DONE && pidtab_saved_put(&query, forged + 96, 48, &size, &sum) == PIDTAB_DONE);
	CHECK(status_of(forged, sizeof forged, &saved) == PIDTAB_SPENT && saved.next == 1 && saved.bytes == 96);
	CHECK(status_of(forged, 96, &saved) == PIDTAB_DONE && saved.next == 1);
}

/* A process that goes on with the file, and says of each call that it is saved, until it is killed. */
static _Noreturn void lives(int file, int tells)
{
	const struct pidtab_settings settings = settings_of(&head, 64, false);
	struct pidtab table = PIDTAB_INIT;
	struct pidtab_saved saved;

	CHECK(pidtab_saved_resume(&saved, file, &table, &settings) == PIDTAB_DONE);
	for (uint64_t i = saved.next;; i++) {
		makes(&table, i % 3, (struct pidtab_call){ .operation = i % 2 ? PIDTAB_SETSID : PIDTAB_NEXT, .caller = 1, .number = (uint32_t)i });
		CHECK(pidtab_saved_append(&saved, &table) == PIDTAB_DONE && write(tells, &saved.next, sizeof saved.next) == sizeof saved.next);
	}
}

/* How many calls were saved, as the process said before it was killed. */
static uint64_t told_till_killed(int file)
{
	uint64_t told = 0;
	int ends[2];

	CHECK(pipe(ends) == 0);
	pid_t life = fork();
	CHECK(life >= 0);
	if (life == 0)
		lives(file, ends[1]);
	CHECK(close(ends[1]) == 0);
	for (int i = 0; i < 200; i++)
		CHECK(read(ends[0], &told, sizeof told) == sizeof told);
	CHECK(kill(life, SIGKILL) == 0 && waitpid(life, NULL, 0) == life);
	while (read(ends[0], &told, sizeof told) == sizeof told)
		continue;
	CHECK(close(ends[0]) == 0);
	return told;
}

static void killed_again_and_again(void)
{
	struct pidtab_saved saved;
	int file = new_file();

	for (uint64_t before = 0, turn = 0; turn < 20; turn++) {
		uint64_t told = told_till_killed(file);
		CHECK(told >= before + 200 && load_status(file, &saved) == PIDTAB_DONE);
		CHECK(saved.next >= told && saved.next <= told + 1);
		before = saved.next;
	}
	CHECK(close(file) == 0);
}

/* What is cut away unsaved is told; what is saved may be cut. */
static void histories_that_are_cut(void)
{
	struct pidtab table = PIDTAB_INIT;
	struct pidtab_saved saved, late;
	int file = new_file(), other = new_file();

	make_calls(&table);
	CHECK(pidtab_saved_begin(&saved, file, &head) == PIDTAB_DONE && pidtab_saved_append(&saved, &table) == PIDTAB_DONE);
	CHECK(pidtab_checkpoint_at(&table, saved.next) == PIDTAB_DONE);
	makes(&table, 1, (struct pidtab_call){ .operation = PIDTAB_FORK, .caller = 1 });
	CHECK(pidtab_saved_append(&saved, &table) == PIDTAB_DONE && saved.next == calls + 1);
	CHECK(pidtab_saved_begin(&late, other, &head) == PIDTAB_DONE && pidtab_saved_append(&late, &table) == PIDTAB_NOT_KEPT && has(other, bytes, 48));
	CHECK(pidtab_saved_append(&saved, &whole) == PIDTAB_NOT_KEPT && saved.next == calls + 1);
	CHECK(load_status(file, &saved) == PIDTAB_DONE && saved.next == calls + 1);
	CHECK(pidtab_close(&table) == PIDTAB_DONE && pidtab_saved_append(&late, &table) == PIDTAB_CLOSED);
	CHECK(close(file) == 0 && close(other) == 0);
}

/* A load that keeps few entries, of the same calls. It takes sixteen at a time. */
static void loaded_with_cuts(void)
{
	struct pidtab again = PIDTAB_INIT;
	struct pidtab_saved saved;
	uint64_t first_kept, recorded;
	int file = file_of(bytes, places[calls]);

	CHECK(pidtab_saved_load(&saved, file, &again, &(struct pidtab_settings){ .keep = 33 }) == PIDTAB_DONE && saved.next == calls);
	CHECK(pidtab_counts(&again, &first_kept, &recorded) == PIDTAB_DONE && first_kept == 48 && recorded == calls);
	CHECK(pidtab_close(&again) == PIDTAB_DONE && pidtab_saved_load(&saved, file, &again, &(struct pidtab_settings){ .keep = 16 }) == PIDTAB_DONE && saved.next == calls);
	CHECK(pidtab_counts(&again, &first_kept, &recorded) == PIDTAB_DONE && first_kept == 64 && recorded == calls);
	same_lists(&whole, &again);
	makes(&again, 0, (struct pidtab_call){ .operation = PIDTAB_GETPID, .caller = 1 });
	CHECK(pidtab_saved_append(&saved, &again) == PIDTAB_DONE && saved.next == calls + 1);
	/* A table that is open already stays as it is. */
	CHECK(pidtab_saved_load(&saved, file, &again, &of_one) == PIDTAB_BUSY && saved.bytes == 0);
	CHECK(pidtab_counts(&again, &first_kept, &recorded) == PIDTAB_DONE && recorded == calls + 1);
	CHECK(pidtab_close(&again) == PIDTAB_DONE && close(file) == 0);
}

/* Each allocation of a load is refused in turn, till it finds all that it asks for. */
static void want_of_memory(void)
{
	struct pidtab again = PIDTAB_INIT;
	struct pidtab_saved saved;
	int at = 0, file = file_of(bytes, places[calls]);
	bool opened = false, made = false;
	uint32_t status;

	do {
		refuse_at = ++at;
		status = pidtab_saved_load(&saved, file, &again, &of_one);
		refuse_at = 0;
		CHECK(status == PIDTAB_DONE || (status == PIDTAB_NO_MEMORY && is_closed(&again)));
		opened |= status != PIDTAB_DONE && saved.bytes == 0;
		made |= status != PIDTAB_DONE && saved.bytes == places[saved.next] && saved.bytes != 0;
	} while (status != PIDTAB_DONE);
	CHECK(at > 3 && opened && made && saved.next == calls);
	CHECK(pidtab_close(&again) == PIDTAB_DONE && close(file) == 0);
}

/* A table with threads that is not loaded is not open. */
static void not_loaded_for_threads(void)
{
	struct pidtab shared = PIDTAB_INIT;
	static unsigned char forged[MOST_BYTES];
	struct pidtab_saved saved;
	struct pidtab_entry other = entries[1];
	int file = file_of("fork 1\n", 7);

	CHECK(pidtab_saved_load(&saved, file, &shared, &of_many) == PIDTAB_NOT_SAVED && is_closed(&shared) && close(file) == 0);
	other.reply.first++;
	file = file_of(forged, forge(&other, 1, forged));
	CHECK(pidtab_saved_load(&saved, file, &shared, &of_many) == PIDTAB_DIFFERS && saved.next == 1 && is_closed(&shared) && close(file) == 0);
}

int main(void)
{
	CHECK(signal(SIGPIPE, SIG_IGN) != SIG_ERR);
	mend();
	make_calls(&whole);
	reckon_bytes();
	saved_and_loaded();
	cut_at_every_byte();
	not_resumed();
	resumed_with_other_settings();
	every_byte_changed();
	swapped_doubled_and_dropped();
	zeroes_at_the_end();
	files_of_other_kinds();
	begun_wrongly();
	short_and_interrupted();
	writes_that_fail();
	reads_that_fail();
	pipes();
	a_full_disk();
	other_replies();
	not_gone_on_with();
	calls_that_cannot_be_made();
	stamps_that_are_used_up();
	killed_again_and_again();
	histories_that_are_cut();
	loaded_with_cuts();
	want_of_memory();
	not_loaded_for_threads();
	CHECK(pidtab_close(&whole) == PIDTAB_DONE);
	return 0;
}

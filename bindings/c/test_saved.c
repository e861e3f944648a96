/* Tests of a saved history as bytes in memory, and of calls as lines. The checksums of the example are those of liblzma; the lines are
 * those of docs/SCRIPT.md, and are read back. */
#include "test_saved.h"

#include <errno.h>

_Static_assert(PIDTAB_DEVICE == EIO && PIDTAB_NOT_SAVED == ENOEXEC && PIDTAB_NOT_EMPTY == EEXIST && PIDTAB_TORN == ENOMSG, "status");
_Static_assert(sizeof(struct pidtab_saved_head) == 16 && offsetof(struct pidtab_saved_head, first_stamp) == 8, "pidtab_saved_head");
_Static_assert(offsetof(struct pidtab_saved, next) == 16 && offsetof(struct pidtab_saved, left_out) == 32, "pidtab_saved");
_Static_assert(offsetof(struct pidtab_saved, part) == 48 && offsetof(struct pidtab_saved, is_torn) == 56, "pidtab_saved");
_Static_assert(offsetof(struct pidtab_saved, file) == 60 && sizeof(struct pidtab_saved) == 72, "pidtab_saved");
_Static_assert(PIDTAB_WRONG_BYTE == EILSEQ && PIDTAB_OTHER_VERSION == EPROTONOSUPPORT, "status");

/* The example of docs/SAVED.md. */
static const unsigned char example[4][PIDTAB_SAVED_BLOCK] = {
	{
		0x89, 0x70, 0x69, 0x64, 0x74, 0x61, 0x62, 0x0a, 0x01, 0x00, 0x00, 0x00, 0x00, 0x80, 0x00, 0x00,
		0x01, 0x00, 0x00, 0x00, 0x00, 0x00, 0x00, 0x00, 0x02, 0x00, 0x00, 0x00, 0x00, 0x00, 0x00, 0x00,
		0x00, 0x00, 0x00, 0x00, 0x00, 0x00, 0x00, 0x00, 0xa8, 0xe4, 0x45, 0xc4, 0xdf, 0x20, 0xf5, 0x36,
	}, {
		0x00, 0x01, 0x00, 0x00, 0x00, 0x00, 0x00, 0x00, 0x01, 0x00, 0x00, 0x00, 0x00, 0x00, 0x00, 0x00,
		0x00, 0x00, 0x00, 0x00, 0x00, 0x00, 0x00, 0x00, 0x02, 0x00, 0x00, 0x00, 0x00, 0x00, 0x00, 0x00,
		0x02, 0x00, 0x00, 0x00, 0x00, 0x00, 0x00, 0x00, 0xa8, 0xa5, 0x0f, 0xf3, 0xad, 0x53, 0x91, 0x3a,
	}, {
		0x02, 0x00, 0x01, 0x03, 0x00, 0x00, 0x02, 0x00, 0x01, 0x00, 0x00, 0x00, 0x02, 0x00, 0x00, 0x00,
		0x00, 0x00, 0x00, 0x00, 0x00, 0x00, 0x00, 0x00, 0x02, 0x00, 0x00, 0x00, 0x01, 0x00, 0x00, 0x00,
		0x00, 0x00, 0x00, 0x00, 0x00, 0x00, 0x00, 0x00, 0x47, 0x65, 0x60, 0xd9, 0x4e, 0x6d, 0xe3, 0x3b,
	}, {
		0x07, 0x00, 0x01, 0x09, 0x16, 0x09, 0x00, 0x00, 0x01, 0x00, 0x00, 0x00, 0x00, 0x00, 0x00, 0x00,
		0x00, 0x00, 0x00, 0x00, 0xff, 0xff, 0xff, 0xff, 0x00, 0x00, 0x00, 0x00, 0x00, 0x00, 0x00, 0x00,
		0x00, 0x00, 0x00, 0x00, 0x00, 0x00, 0x00, 0x00, 0x9d, 0xe0, 0xf7, 0x5d, 0x8a, 0xf7, 0x20, 0xe0,
	},
};

static const struct pidtab_saved_head head = { .pid_max = 32768, .workers = 2, .first_stamp = 1 };

static const struct pidtab_entry entries[3] = {
	{ 0, { .operation = PIDTAB_FORK, .caller = 1, .choice = 1 }, { .kind = PIDTAB_FORKED, .first = 2, .second = 2 } },
	{ 1, { .operation = PIDTAB_NSPID, .caller = 1, .number = 2 }, { .kind = PIDTAB_LEVELS, .count = 2, .levels = { 2, 1 } } },
	{ 1, { .operation = PIDTAB_SETPGID, .caller = 1, .pgid = -1 }, { .kind = PIDTAB_REFUSED, .error = EINVAL, .refusal = PIDTAB_BAD_GROUP } },
};

/* The same checksum a bit at a time, as the polynomial says: that of ECMA-182 with its bits reflected. */
static uint64_t sum_by_bits(uint64_t sum, const unsigned char *bytes, size_t length)
{
	sum = ~sum;
	for (size_t i = 0; i < 8 * length; i++) {
		bool odd = (sum ^ bytes[i / 8] >> i % 8) & 1;
		sum = odd ? sum >> 1 ^ 0xc96c5795d7870f42 : sum >> 1;
	}
	return ~sum;
}

/* Writes a block's checksum by that, after those whose checksum is given. */
static uint64_t seal_block(unsigned char *block, uint64_t before)
{
	uint64_t sum = sum_by_bits(before, block, 40);

	for (size_t i = 0; i < 8; i++)
		block[40 + i] = (unsigned char)(sum >> 8 * i);
	return sum;
}

static uint64_t next_random(uint64_t *seed)
{
	*seed ^= *seed << 13;
	*seed ^= *seed >> 7;
	return *seed ^= *seed << 17;
}

/* The check value is that of the catalogue of CRC algorithms, and of the XZ Utils. */
static void the_checksum_is_the_published_one(void)
{
	unsigned char all[256];
	uint64_t sum = pidtab_saved_sum(0, "12345", 5);

	CHECK(pidtab_saved_sum(0, "123456789", 9) == 0x995dc9bbdf1939fa && pidtab_saved_sum(sum, "6789", 4) == 0x995dc9bbdf1939fa);
	CHECK(pidtab_saved_sum(0, "", 0) == 0 && pidtab_saved_sum(sum, "", 0) == sum);
	for (size_t i = 0; i < sizeof all; i++)
		all[i] = (unsigned char)i;
	for (size_t i = 0; i <= sizeof all; i++)
		CHECK(pidtab_saved_sum(7, all, i) == sum_by_bits(7, all, i));
}

static void the_example_is_written(void)
{
	unsigned char bytes[sizeof example + 1];
	uint64_t sum = 77;
	size_t size = 77, at = PIDTAB_SAVED_BLOCK;

	memset(bytes, 0x55, sizeof bytes);
	CHECK(pidtab_saved_put_head(&head, bytes, sizeof bytes, &size, &sum) == PIDTAB_DONE && size == PIDTAB_SAVED_BLOCK);
	for (size_t i = 0; i < 3; i++, at += size)
		CHECK(pidtab_saved_put(&entries[i], bytes + at, sizeof bytes - at, &size, &sum) == PIDTAB_DONE && size == PIDTAB_SAVED_BLOCK);
	CHECK(at == sizeof example && memcmp(bytes, example, sizeof example) == 0 && bytes[at] == 0x55);
}

static void the_example_is_read(void)
{
	const unsigned char *bytes = example[0];
	struct pidtab_saved_head found = { .pid_max = 77 };
	uint64_t sum = 77;
	size_t size = 77, at;

	CHECK(pidtab_saved_take_head(bytes, sizeof example, &found, &size, &sum) == PIDTAB_DONE);
	CHECK(size == PIDTAB_SAVED_BLOCK && found.pid_max == 32768 && found.workers == 2 && found.first_stamp == 1);
	at = size;
	for (size_t i = 0; i < 3; i++, at += size) {
		struct pidtab_entry entry;
		memset(&entry, 0x55, sizeof entry);
		CHECK(pidtab_saved_take(bytes + at, sizeof example - at, &entry, &size, &sum) == PIDTAB_DONE && size == PIDTAB_SAVED_BLOCK);
		CHECK(same_entry(&entry, &entries[i]));
	}
}

/* The entries after the example's head, with what may be after them, read in pieces of one length. */
struct piecewise {
	unsigned char bytes[sizeof example + 100];
	size_t length;
};

/* Reads to the end; the status of that, with how many entries there were and how many bytes are left out. */
static uint32_t read_in_pieces(const struct piecewise *of, size_t piece, size_t *count, uint64_t *left_out)
{
	struct pidtab_saved_head found;
	struct pidtab_entry entry;
	uint64_t sum;
	size_t from, to, size = 0;
	uint32_t status = pidtab_saved_take_head(of->bytes, of->length, &found, &from, &sum);

	CHECK(status == PIDTAB_DONE);
	to = from;
	*count = 0;
	*left_out = 0;
	do {
		status = pidtab_saved_next(of->bytes + from, to - from, to == of->length, &entry, &size, &sum, left_out);
		if (status == PIDTAB_WRONG_BYTE)
			return status;
		CHECK(status != PIDTAB_TORN || to < of->length);
		CHECK(status != PIDTAB_TORN || size == (*left_out == 0 ? 0 : to - from));
		if (status == PIDTAB_DONE && size != 0)
			CHECK(*count < 3 && size == PIDTAB_SAVED_BLOCK && same_entry(&entry, &entries[(*count)++]));
		from += size;
		if (status == PIDTAB_TORN)
			to = of->length - to < piece ? of->length : to + piece;
	} while (status == PIDTAB_TORN || size != 0);
	return status;
}

/* However it is cut into pieces, the end is of this status, after so many entries, and so many bytes are left out. */
static void ends_as(const struct piecewise *of, uint32_t status, size_t count, uint64_t left_out)
{
	for (size_t piece = 1; piece <= of->length; piece += piece < 60 ? 1 : 37) {
		size_t found;
		uint64_t behind;
		CHECK(read_in_pieces(of, piece, &found, &behind) == status && found == count);
		CHECK(status != PIDTAB_DONE || behind == left_out);
	}
}

/* A file that ends within its last entry; one that has its length, and zeroes in place of its bytes; and one with another byte after them. */
static void ends_in_pieces(void)
{
	struct piecewise whole = { .length = sizeof example }, of;
	size_t last = sizeof example - PIDTAB_SAVED_BLOCK;

	memcpy(whole.bytes, example, sizeof example);
	ends_as(&whole, PIDTAB_DONE, 3, 0);
	for (size_t cut = last; cut < sizeof example; cut++) {
		of = whole;
		of.length = cut;
		ends_as(&of, PIDTAB_DONE, 2, cut - last);
	}
	for (size_t behind = 0; behind < 100; behind += 9) {
		of = whole;
		of.length = sizeof example + behind;
		memset(of.bytes + last + 16, 0, PIDTAB_SAVED_BLOCK - 16);
		ends_as(&of, PIDTAB_DONE, 2, PIDTAB_SAVED_BLOCK + behind);
		of.bytes[of.length - 1] = 1;
		ends_as(&of, PIDTAB_WRONG_BYTE, 2, 0);
	}
	of = whole;
	of.bytes[last + 20] ^= 1;
	ends_as(&of, PIDTAB_WRONG_BYTE, 2, 0);
}

/* An entry and its bytes are one another's. */
static size_t there_and_back(const struct pidtab_entry *entry, unsigned char *bytes)
{
	struct pidtab_entry found;
	uint64_t sum = 99, again = 99;
	size_t size = 0, read = 0;

	CHECK(pidtab_saved_put(entry, bytes, PIDTAB_SAVED_LONGEST, &size, &sum) == PIDTAB_DONE);
	CHECK(pidtab_saved_take(bytes, size, &found, &read, &again) == PIDTAB_DONE && read == size && again == sum);
	CHECK(same_entry(entry, &found));
	return size;
}

static void levels(void)
{
	static const struct { uint32_t count; size_t size; } sizes[] = {
		{ 0, 48 }, { 1, 48 }, { 4, 48 }, { 5, 96 }, { 14, 96 }, { 15, 144 }, { 24, 144 }, { 25, 192 }, { 33, 192 }
	};
	struct pidtab_entry entry = { .call = { .operation = PIDTAB_NSPID, .caller = 1, .number = 9 }, .reply = { .kind = PIDTAB_LEVELS } };
	unsigned char bytes[PIDTAB_SAVED_LONGEST];

	for (uint32_t i = 0; i < 33; i++) {
		entry.reply.levels[i] = 0x41000000 + i;
		entry.reply.count = i + 1;
		there_and_back(&entry, bytes);
	}
	for (size_t i = 0; i < sizeof sizes / sizeof sizes[0]; i++) {
		entry.reply.count = sizes[i].count;
		for (uint32_t k = 0; k < 33; k++)
			entry.reply.levels[k] = k < sizes[i].count ? 0x41000000 + k : 0;
		CHECK(there_and_back(&entry, bytes) == sizes[i].size);
	}
	/* The low bytes of the first and the last level of each block. */
	CHECK(bytes[24] == 0 && bytes[36] == 3 && bytes[48] == 4 && bytes[84] == 13 && bytes[96] == 14 && bytes[132] == 23);
	CHECK(bytes[144] == 24 && bytes[176] == 32 && bytes[179] == 0x41 && bytes[180] == 0);
}

static void greatest_numbers(void)
{
	struct pidtab_entry entry = { 255, { 255, UINT32_MAX, UINT64_MAX, UINT32_MAX, 255, 0, 0 }, { 255, 255, 255, 0, UINT64_MAX, UINT64_MAX, { 0 } } };
	unsigned char bytes[PIDTAB_SAVED_LONGEST];

	there_and_back(&entry, bytes);
	entry.call = (struct pidtab_call){ PIDTAB_SETPGID, UINT32_MAX, 0, UINT32_MAX, 255, INT32_MIN, INT32_MAX };
	there_and_back(&entry, bytes);
	CHECK(bytes[16] == 0 && bytes[19] == 0x80 && bytes[20] == 0xff && bytes[23] == 0x7f);
}

/* Neither bytes nor the checksum are written. */
static void is_refused(struct pidtab_entry entry)
{
	unsigned char bytes[PIDTAB_SAVED_LONGEST] = { 0x55 };
	uint64_t sum = 99;
	size_t size = 77;

	CHECK(pidtab_saved_put(&entry, bytes, sizeof bytes, &size, &sum) == PIDTAB_OUT_OF_RANGE);
	CHECK(sum == 99 && size == 77 && bytes[0] == 0x55);
}

static void entries_that_no_record_has(void)
{
	const struct pidtab_call call = { .operation = PIDTAB_NSPID }, group = { .operation = PIDTAB_SETPGID, .id = 1 };
	const struct pidtab_reply none = { .kind = PIDTAB_OK };

	is_refused((struct pidtab_entry){ .worker = 256, .call = call, .reply = none });
	is_refused((struct pidtab_entry){ .call = { .operation = 256 }, .reply = none });
	is_refused((struct pidtab_entry){ .call = { .choice = 256 }, .reply = none });
	is_refused((struct pidtab_entry){ .call = { .pid = 1 }, .reply = none });
	is_refused((struct pidtab_entry){ .call = { .pgid = -1 }, .reply = none });
	is_refused((struct pidtab_entry){ .call = group, .reply = none });
	is_refused((struct pidtab_entry){ .call = call, .reply = { .kind = 256 } });
	is_refused((struct pidtab_entry){ .call = call, .reply = { .kind = PIDTAB_REFUSED, .error = 256 } });
	is_refused((struct pidtab_entry){ .call = call, .reply = { .kind = PIDTAB_REFUSED, .refusal = 256 } });
	is_refused((struct pidtab_entry){ .call = call, .reply = { .kind = PIDTAB_OK, .count = 1 } });
	is_refused((struct pidtab_entry){ .call = call, .reply = { .kind = PIDTAB_OK, .levels = { 1 } } });
	is_refused((struct pidtab_entry){ .call = call, .reply = { .kind = PIDTAB_LEVELS, .count = 34 } });
	is_refused((struct pidtab_entry){ .call = call, .reply = { .kind = PIDTAB_LEVELS, .count = UINT32_MAX } });
	is_refused((struct pidtab_entry){ .call = call, .reply = { .kind = PIDTAB_LEVELS, .count = 1, .levels = { 1, 1 } } });
	is_refused((struct pidtab_entry){ .call = call, .reply = { .kind = PIDTAB_LEVELS, .first = 1 } });
	is_refused((struct pidtab_entry){ .call = call, .reply = { .kind = PIDTAB_LEVELS, .second = 1 } });
}

static void too_little_room(void)
{
	struct pidtab_entry entry = { .call = { .operation = PIDTAB_NSPID }, .reply = { .kind = PIDTAB_LEVELS, .count = 33 } };
	unsigned char bytes[PIDTAB_SAVED_LONGEST] = { 0x55 };
	uint64_t sum = 99;
	size_t size = 77;

	CHECK(pidtab_saved_put(&entry, bytes, 191, &size, &sum) == PIDTAB_NO_ROOM && size == 192);
	CHECK(pidtab_saved_put(&entries[0], bytes, 47, &size, &sum) == PIDTAB_NO_ROOM && size == 48);
	size = 77;
	CHECK(pidtab_saved_put_head(&head, bytes, 47, &size, &sum) == PIDTAB_NO_ROOM && size == 48 && sum == 99 && bytes[0] == 0x55);
}

/* Each front of an entry is torn, and each changed byte is found in its block. */
static void a_long_entry_is_cut_and_changed(void)
{
	struct pidtab_entry entry = { .call = { .operation = PIDTAB_NSPID }, .reply = { .kind = PIDTAB_LEVELS, .count = 33, .levels = { 9 } } }, found = { .worker = 77 };
	unsigned char bytes[PIDTAB_SAVED_LONGEST];
	uint64_t sum = 99;
	size_t size = there_and_back(&entry, bytes), told = 77;

	for (size_t i = 0; i < size; i++) {
		CHECK(pidtab_saved_take(bytes, i, &found, &told, &sum) == PIDTAB_TORN && told == (i < 48 ? 48 : size));
		for (unsigned change = 1; change < 256; change++) {
			bytes[i] ^= (unsigned char)change;
			CHECK(pidtab_saved_take(bytes, size, &found, &told, &sum) == PIDTAB_WRONG_BYTE && told == i - i % 48);
			CHECK(pidtab_saved_take(bytes, i - i % 48 + 48, &found, &told, &sum) == PIDTAB_WRONG_BYTE && told == i - i % 48);
			bytes[i] ^= (unsigned char)change;
		}
	}
	CHECK(found.worker == 77 && sum == 99 && pidtab_saved_take(bytes, size, &found, &told, &sum) == PIDTAB_DONE);
}

/* Right checksums over other bytes: what is taken is what would be written, and all else is refused. */
static void bytes_that_nobody_wrote(void)
{
	unsigned char bytes[PIDTAB_SAVED_LONGEST], again[PIDTAB_SAVED_LONGEST];
	uint64_t seed = 20, taken = 0, refused = 0;

	for (int turn = 0; turn < 20000; turn++) {
		struct pidtab_entry entry;
		uint64_t sum = 0, written = 0, running = 0;
		size_t size = 77;
		memset(bytes, 0, sizeof bytes);
		for (int k = 0; k < 6; k++)
			bytes[next_random(&seed) % 40] = (unsigned char)next_random(&seed);
		bytes[3] = next_random(&seed) % 2 ? PIDTAB_LEVELS : bytes[3];
		for (size_t at = 0; at < sizeof bytes; at += 48)
			running = seal_block(bytes + at, running);
		uint32_t status = pidtab_saved_take(bytes, sizeof bytes, &entry, &size, &sum);
		if (status != PIDTAB_DONE) {
			CHECK(status == PIDTAB_WRONG_BYTE && ++refused);
			continue;
		}
		taken++;
		CHECK(pidtab_saved_put(&entry, again, sizeof again, &size, &written) == PIDTAB_DONE && written == sum && memcmp(bytes, again, size) == 0);
	}
	CHECK(taken > 1000 && refused > 1000);
}

static uint32_t head_status(const unsigned char *block, size_t length)
{
	struct pidtab_saved_head found = { .pid_max = 77 };
	uint64_t sum = 99;
	size_t size;
	uint32_t status = pidtab_saved_take_head(block, length, &found, &size, &sum);

	CHECK(status == PIDTAB_DONE || (found.pid_max == 77 && sum == 99));
	return status;
}

static void heads(void)
{
	static const uint32_t of_bytes[3] = { PIDTAB_NOT_SAVED, PIDTAB_OTHER_VERSION, PIDTAB_WRONG_BYTE };
	unsigned char block[PIDTAB_SAVED_BLOCK];

	memcpy(block, example[0], sizeof block);
	for (size_t i = 0; i < sizeof block; i++) {
		CHECK(head_status(block, i) == PIDTAB_TORN);
		block[i] ^= 0x10;
		CHECK(head_status(block, sizeof block) == of_bytes[i < 8 ? 0 : i < 12 ? 1 : 2]);
		CHECK(i >= 8 || head_status(block, i + 1) == PIDTAB_NOT_SAVED);
		block[i] ^= 0x10;
	}
	CHECK(head_status(block, sizeof block) == PIDTAB_DONE);
	/* A byte that is kept 0, with the right checksum. */
	block[39] = 1;
	seal_block(block, 0);
	CHECK(head_status(block, sizeof block) == PIDTAB_WRONG_BYTE);
	CHECK(head_status((const unsigned char *)"fork 1\n", 7) == PIDTAB_NOT_SAVED);
}

static void settings(void)
{
	static const struct pidtab_saved_head bad[] = { { 300, 1, 1 }, { 4194305, 1, 1 }, { 301, 0, 1 }, { 301, 17, 1 }, { 301, 1, 0 } };
	static const struct pidtab_saved_head good[] = { { 301, 1, 1 }, { 4194304, 16, UINT64_MAX } };
	unsigned char block[PIDTAB_SAVED_BLOCK];
	uint64_t sum = 99;
	size_t size;

	for (size_t i = 0; i < 5; i++) {
		CHECK(pidtab_saved_put_head(&bad[i], block, sizeof block, &size, &sum) == PIDTAB_OUT_OF_RANGE && sum == 99);
		memcpy(block, example[0], sizeof block);
		for (size_t k = 0; k < 4; k++) {
			block[12 + k] = (unsigned char)(bad[i].pid_max >> 8 * k);
			block[24 + k] = (unsigned char)(bad[i].workers >> 8 * k);
		}
		block[16] = (unsigned char)bad[i].first_stamp;
		seal_block(block, 0);
		CHECK(head_status(block, sizeof block) == PIDTAB_OUT_OF_RANGE);
	}
	for (size_t i = 0; i < 2; i++)
		CHECK(pidtab_saved_put_head(&good[i], block, sizeof block, &size, &sum) == PIDTAB_DONE && head_status(block, sizeof block) == PIDTAB_DONE);
}

static const struct { struct pidtab_call call; const char *line; } lines[] = {
	{ { .operation = PIDTAB_FORK, .caller = 1 }, "fork 1" },
	{ { .operation = PIDTAB_FORK, .caller = 1, .choice = 1 }, "fork 1 new" },
	{ { .operation = PIDTAB_GETPID, .caller = UINT32_MAX }, "getpid 4294967295" },
	{ { .operation = PIDTAB_NSPID, .caller = 1, .number = 3 }, "nspid 1 3" },
	{ { .operation = PIDTAB_EXEC, .caller = 2 }, "exec 2" },
	{ { .operation = PIDTAB_SETPGID, .caller = 1, .pid = 2, .pgid = 0 }, "setpgid 1 2 0" },
	{ { .operation = PIDTAB_SETPGID, .caller = UINT32_MAX, .pid = INT32_MIN, .pgid = INT32_MIN }, "setpgid 4294967295 -2147483648 -2147483648" },
	{ { .operation = PIDTAB_SETPGID, .pid = INT32_MAX, .pgid = -1 }, "setpgid 0 2147483647 -1" },
	{ { .operation = PIDTAB_SETSID, .caller = 2 }, "setsid 2" },
	{ { .operation = PIDTAB_GETPPID, .caller = 2 }, "getppid 2" },
	{ { .operation = PIDTAB_GETPGID, .caller = 1, .number = 0 }, "getpgid 1 0" },
	{ { .operation = PIDTAB_GETSID, .caller = 1, .number = UINT32_MAX }, "getsid 1 4294967295" },
	{ { .operation = PIDTAB_NEXT, .caller = 1, .choice = PIDTAB_TASKS, .number = 2 }, "next 1 task 2" },
	{ { .operation = PIDTAB_NEXT, .caller = 1, .choice = PIDTAB_GROUPS }, "next 1 group 0" },
	{ { .operation = PIDTAB_NEXT, .caller = 1, .choice = PIDTAB_SESSIONS, .number = UINT32_MAX }, "next 1 session 4294967295" },
	{ { .operation = PIDTAB_JOIN, .caller = 1, .number = 3 }, "join 1 3" },
	{ { .operation = PIDTAB_SUBREAPER, .caller = 1, .choice = 1 }, "subreaper 1 on" },
	{ { .operation = PIDTAB_SUBREAPER, .caller = 1 }, "subreaper 1 off" },
	{ { .operation = PIDTAB_MK }, "mk 0" },
	{ { .operation = PIDTAB_MK, .id = UINT64_MAX }, "mk 18446744073709551615" },
	{ { .operation = PIDTAB_LIMIT, .id = UINT64_MAX, .choice = 1, .number = UINT32_MAX }, "limit 18446744073709551615 4294967295" },
	{ { .operation = PIDTAB_LIMIT, .id = 19, .choice = 1 }, "limit 19 0" },
	{ { .operation = PIDTAB_LIMIT, .id = 19 }, "limit 19 max" },
	{ { .operation = PIDTAB_MOVE, .caller = UINT32_MAX, .id = UINT64_MAX }, "move 4294967295 18446744073709551615" },
	{ { .operation = PIDTAB_COUNT, .id = 19 }, "count 19" },
	{ { .operation = PIDTAB_RM, .id = 19 }, "rm 19" },
	{ { .operation = PIDTAB_EXIT, .caller = 2, .number = 255 }, "exit 2 255" },
	{ { .operation = PIDTAB_WAIT, .caller = 1, .choice = PIDTAB_CHILD, .number = 2 }, "wait 1 pid 2" },
	{ { .operation = PIDTAB_WAIT, .caller = 1 }, "wait 1 any" },
	{ { .operation = PIDTAB_WAIT, .caller = 1, .choice = PIDTAB_OWN_GROUP }, "wait 1 own" },
	{ { .operation = PIDTAB_WAIT, .caller = UINT32_MAX, .choice = PIDTAB_GROUP, .number = UINT32_MAX }, "wait 4294967295 group 4294967295" },
};

#define LINES (sizeof lines / sizeof lines[0])

/* A line makes the same call as the numbers that it is of, with the same reply: on two records, whose entries are compared. */
static void lines_are_read_back(void)
{
	struct pidtab numbers = PIDTAB_INIT, words = PIDTAB_INIT;
	char line[PIDTAB_LONGEST_CALL + 1], answer[PIDTAB_LONGEST_ANSWER];
	struct pidtab_entry made = { .worker = 7 }, read = { .worker = 8 };
	uint64_t ordinal;
	size_t size, count, longest = 0;

	CHECK(open_history(&numbers, 32768, 1, 1) == PIDTAB_DONE && open_history(&words, 32768, 1, 1) == PIDTAB_DONE);
	for (uint64_t i = 0; i < LINES; i++) {
		memset(line, 'x', sizeof line);
		CHECK(pidtab_call_line(&lines[i].call, line, sizeof line - 1, &size) == PIDTAB_DONE);
		CHECK(size == strlen(lines[i].line) && memcmp(line, lines[i].line, size) == 0 && line[size] == 'x');
		longest = size > longest ? size : longest;
		CHECK(pidtab_call_by(&numbers, 0, &lines[i].call, &made.reply, &ordinal) == PIDTAB_DONE && ordinal == i);
		CHECK(pidtab_line_by(&words, 0, line, size, answer, sizeof answer, &size, &ordinal) == PIDTAB_DONE && ordinal == i);
		CHECK(pidtab_read(&numbers, i, &made, 1, &count) == PIDTAB_DONE && pidtab_read(&words, i, &read, 1, &count) == PIDTAB_DONE);
		CHECK(same_entry(&made, &read) && same_call(&made.call, &lines[i].call));
	}
	CHECK(longest == PIDTAB_LONGEST_CALL);
	pidtab_close(&numbers);
	pidtab_close(&words);
}

static void is_no_line(struct pidtab_call call)
{
	char line[PIDTAB_LONGEST_CALL] = "kept";
	size_t size = 77;

	CHECK(pidtab_call_line(&call, line, sizeof line, &size) == PIDTAB_OUT_OF_RANGE && size == 77 && strcmp(line, "kept") == 0);
}

static void what_is_no_call(void)
{
	char line[8] = "kept";
	size_t size = 77;

	is_no_line((struct pidtab_call){ .operation = 19 });
	is_no_line((struct pidtab_call){ .operation = UINT32_MAX });
	is_no_line((struct pidtab_call){ .operation = PIDTAB_FORK, .choice = 2 });
	is_no_line((struct pidtab_call){ .operation = PIDTAB_WAIT, .choice = 4 });
	is_no_line((struct pidtab_call){ .operation = PIDTAB_LIMIT, .choice = 2 });
	is_no_line((struct pidtab_call){ .operation = PIDTAB_NEXT, .choice = 3 });
	is_no_line((struct pidtab_call){ .operation = PIDTAB_SUBREAPER, .choice = 2 });
	is_no_line((struct pidtab_call){ .operation = PIDTAB_EXIT, .number = 256 });
	CHECK(pidtab_call_line(&lines[1].call, line, 7, &size) == PIDTAB_NO_ROOM && size == 10 && strcmp(line, "kept") == 0);
	CHECK(pidtab_call_line(&lines[0].call, line, 6, &size) == PIDTAB_DONE && size == 6);
}

/* Each status has a sentence of its own, and the others those of pidtab.h. */
static void sentences(void)
{
	static const uint32_t own[] = { PIDTAB_DEVICE, PIDTAB_NOT_SAVED, PIDTAB_NOT_EMPTY, PIDTAB_TORN, PIDTAB_WRONG_BYTE, PIDTAB_OTHER_VERSION };

	for (size_t i = 0; i < 6; i++) {
		CHECK(strcmp(pidtab_text(own[i]), "no such status") == 0 && strcmp(pidtab_saved_text(own[i]), "no such status") != 0);
		for (size_t k = 0; k < i; k++)
			CHECK(strcmp(pidtab_saved_text(own[i]), pidtab_saved_text(own[k])) != 0);
	}
	CHECK(strcmp(pidtab_saved_text(PIDTAB_DIFFERS), "a reply is not the given one") == 0 && strcmp(pidtab_saved_text(4), "no such status") == 0);
}

int main(void)
{
	the_checksum_is_the_published_one();
	the_example_is_written();
	the_example_is_read();
	ends_in_pieces();
	levels();
	greatest_numbers();
	entries_that_no_record_has();
	too_little_room();
	a_long_entry_is_cut_and_changed();
	bytes_that_nobody_wrote();
	heads();
	settings();
	lines_are_read_back();
	what_is_no_call();
	sentences();
	return 0;
}

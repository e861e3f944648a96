/* Tests of tables that are saved as texts and loaded again: each status, texts that are changed or cut at each byte, and want of memory at
 * each allocation in turn. Each fault is in interface/cases. */
#include "test_dump.h"
#include "test_heap.h"

#include <errno.h>

_Static_assert(PIDTAB_BAD_TEXT == EUCLEAN && PIDTAB_FAULT_BAD_LINE == 1 && PIDTAB_FAULT_IMPOSSIBLE == 12, "faults");
_Static_assert(sizeof(struct pidtab_fault) == 16 && offsetof(struct pidtab_fault, kind) == 8, "pidtab_fault");

/* A fault that nothing has written. */
#define UNTOLD (struct pidtab_fault){ 77, 77 }

static bool fault_is(struct pidtab_fault fault, uint32_t kind, uint64_t line)
{
	return fault.kind == kind && fault.line == line;
}

static void each_status(void)
{
	struct pidtab table = PIDTAB_INIT;
	struct pidtab_fault fault = UNTOLD;
	char room[512] = "kept";
	size_t size = 7;

	CHECK(pidtab_dump(&table, room, sizeof room, &size) == PIDTAB_CLOSED && size == 7 && strcmp(room, "kept") == 0);
	CHECK(pidtab_load(&table, room, 0, &fault) == PIDTAB_BAD_TEXT && fault_is(fault, PIDTAB_FAULT_BAD_LINE, 1) && !table.is_open);
	CHECK(pidtab_open(&table, 32768) == PIDTAB_DONE);
	CHECK(pidtab_dump(&table, room, 3, &size) == PIDTAB_NO_ROOM && size > 7 && strcmp(room, "kept") == 0);

	/* What is after the text stays. */
	size_t length = size;
	memset(room, 'x', sizeof room);
	CHECK(pidtab_dump(&table, room, length - 1, &size) == PIDTAB_NO_ROOM && size == length && room[0] == 'x');
	CHECK(pidtab_dump(&table, room, sizeof room, &size) == PIDTAB_DONE && size == length && room[size - 1] == '\n' && room[size] == 'x');

	/* An open table is not looked past, whatever the text. */
	CHECK(answers(&table, "fork 1", "child 2 root 2"));
	fault = UNTOLD;
	CHECK(pidtab_load(&table, room, size, &fault) == PIDTAB_BUSY && fault_is(fault, 0, 0));
	fault = UNTOLD;
	CHECK(pidtab_load(&table, "", 0, &fault) == PIDTAB_BUSY && fault_is(fault, 0, 0) && pidtab_count(&table, 0) == 2);
	CHECK(pidtab_close(&table) == PIDTAB_DONE);
	fault = UNTOLD;
	CHECK(pidtab_load(&table, room, size, &fault) == PIDTAB_DONE && fault_is(fault, 0, 0) && pidtab_count(&table, 0) == 1);
	CHECK(pidtab_load(&table, room, size, &fault) == PIDTAB_BUSY && pidtab_open(&table, 32768) == PIDTAB_BUSY);
	CHECK(pidtab_close(&table) == PIDTAB_DONE && table.at == NULL && !table.is_open && !table.in_use);
	CHECK(strcmp(pidtab_text(PIDTAB_BAD_TEXT), "the text is that of no table") == 0);
	CHECK(strcmp(pidtab_fault_text(0), "no fault") == 0 && strcmp(pidtab_fault_text(13), "no fault") == 0);
}

/* The root init alone, before a call with the stamp 2^63. The digest is that of sha256sum(1). */
static const char GREAT_STAMP[] =
	"pidtab table 1 pid-max 32768 stamp 9223372036854775808\n"
	"task 1@0 parent - group 1@0 session 1@0 control 0 children 0 live\n"
	"space 0 parent - cursor 2\n"
	"control 0 parent - limit max\n"
	"end sha256 e81e30cff33e8f53b1eeec4e07ffdc63b6466761b73d73453335b04d9987910c\n";

/* An id that an int64_t has no place for is no errno: the call says so, and leaves no group. */
static void great_ids(void)
{
	struct pidtab table = PIDTAB_INIT;
	struct pidtab_fault fault = UNTOLD;
	uint64_t ids[2] = { 7, 7 }, count = 7;

	CHECK(pidtab_load(&table, GREAT_STAMP, sizeof GREAT_STAMP - 1, &fault) == PIDTAB_DONE);
	CHECK(pidtab_mk(&table, 0) == -PIDTAB_SPENT);
	CHECK(pidtab_inside(&table, PIDTAB_CONTROLS, 0, 0, ids, 2, &count) == PIDTAB_DONE && count == 0);
	CHECK(pidtab_count(&table, 0) == 1 && pidtab_fork(&table, 1, 0, NULL) == 2);
	CHECK(answers(&table, "mk 0", "control 9223372036854775810"));
	CHECK(pidtab_close(&table) == PIDTAB_DONE);
}

/* Saves the table and loads it again, in place. The text stays as it is. */
static void save_and_load(struct pidtab *table)
{
	struct text text = dumped(table), again;
	struct pidtab_fault fault = UNTOLD;

	CHECK(pidtab_close(table) == PIDTAB_DONE);
	CHECK(pidtab_load(table, text.bytes, text.size, &fault) == PIDTAB_DONE && fault_is(fault, 0, 0));
	again = dumped(table);
	CHECK(same_text(text, again));
	free(text.bytes);
	free(again.bytes);
}

/* A table that is saved and loaded now and then, beside one that never was: they answer each call alike. */
static void calls_go_on(uint64_t seed, uint32_t pid_max, int calls, int each)
{
	struct pidtab table = PIDTAB_INIT, never = PIDTAB_INIT;
	struct pidtab_reply one, other;
	int refused = 0;

	CHECK(pidtab_open(&table, pid_max) == PIDTAB_DONE && pidtab_open(&never, pid_max) == PIDTAB_DONE);
	for (int i = 0; i < calls; i++) {
		struct pidtab_call call = drawn_call(&seed);
		uint32_t status = pidtab_call(&never, &call, &other);
		CHECK(pidtab_call(&table, &call, &one) == status);
		CHECK(status == PIDTAB_OUT_OF_RANGE || (status == PIDTAB_DONE && same_reply(&one, &other)));
		refused += status == PIDTAB_DONE && one.kind == PIDTAB_REFUSED;
		if (i % each == each - 1)
			save_and_load(&table);
	}
	CHECK(same_tables(&table, &never) && refused > calls / 10 && refused < calls - calls / 10);
	pidtab_close(&table);
	pidtab_close(&never);
}

/* What the text of a table with cgroups, a fallen namespace and zombies says. */
static const char busy[] =
	"pidtab table 1 pid-max 301 stamp 9\n"
	"task 1@0 parent - group 1@0 session 1@0 control 2 children 0 live\n"
	"task 2@0 parent 1@0 group 2@0 session 2@0 control 0 children 3 live executed subreaper\n"
	"task 3,1@3 parent 2@0 group 2@0 session 2@0 control 0 children 3 exit 0\n"
	"task 5,3@3 parent 2@0 group 4@0 session 2@0 control 0 children 3 killed\n"
	"space 0 parent - cursor 6\n"
	"space 3 parent 0 cursor 4 fallen\n"
	"control 0 parent - limit max\n"
	"control 2 parent 0 limit 7\n";

/* Loads a text: whether there is a table of it, which then has just this text. */
static bool loads_or_refuses(const char *bytes, size_t size)
{
	struct pidtab table = PIDTAB_INIT;
	struct pidtab_fault fault = UNTOLD;
	uint32_t status = pidtab_load(&table, bytes, size, &fault);

	if (status != PIDTAB_DONE) {
		CHECK(status == PIDTAB_BAD_TEXT && fault.line >= 1 && fault.kind >= 1 && fault.kind <= 12 && !table.is_open && !table.at);
		return false;
	}
	struct text again = dumped(&table);
	CHECK(again.size == size && memcmp(again.bytes, bytes, size) == 0);
	free(again.bytes);
	pidtab_close(&table);
	return true;
}

static void cut_at_each_byte(void)
{
	struct text text = sealed(busy, sizeof busy - 1);

	CHECK(loads_or_refuses(text.bytes, text.size));
	for (size_t i = 0; i < text.size; i++) {
		/* Of just so many bytes, so that a read after them is seen. */
		char *part = malloc(i ? i : 1);
		memcpy(part, text.bytes, i);
		CHECK(!loads_or_refuses(part, i));
		free(part);
	}
	free(text.bytes);
}

/* By its old digest a changed text is none; by a new one it is refused, or it is the text of the table that is loaded. */
static void changed_at_each_byte(void)
{
	static const unsigned char changes[] = { 1, 2, 4, 16, 0x40, 0x80 };
	struct text text = sealed(busy, sizeof busy - 1);
	int loaded = 0, refused = 0;

	for (size_t i = 0; i < text.size; i++) {
		for (size_t j = 0; j < sizeof changes; j++) {
			text.bytes[i] ^= (char)changes[j];
			CHECK(!loads_or_refuses(text.bytes, text.size));
			if (i < sizeof busy - 1) {
				struct text other = sealed(text.bytes, sizeof busy - 1);
				*(loads_or_refuses(other.bytes, other.size) ? &loaded : &refused) += 1;
				free(other.bytes);
			}
			text.bytes[i] ^= (char)changes[j];
		}
	}
	CHECK(loaded > 10 && refused > 1000);
	free(text.bytes);
}

/* A table in which nothing is left out that a text has. */
static void fill(struct pidtab *table)
{
	uint64_t seed = 7;
	struct pidtab_reply reply;

	CHECK(pidtab_open(table, 4194304) == PIDTAB_DONE);
	for (int i = 0; i < 300; i++) {
		struct pidtab_call call = drawn_call(&seed);
		uint32_t status = pidtab_call(table, &call, &reply);
		CHECK(status == PIDTAB_DONE || status == PIDTAB_OUT_OF_RANGE);
	}
}

static void want_of_memory(void)
{
	struct pidtab table = PIDTAB_INIT, other = PIDTAB_INIT;
	struct pidtab_fault fault = UNTOLD;
	size_t size = 7;
	int at;

	fill(&table);
	struct text text = dumped(&table), again = { calloc(1, text.size), text.size };
	for (at = 1; refuse(at), pidtab_dump(&table, again.bytes, again.size, &size) == PIDTAB_NO_MEMORY; at++)
		CHECK(size == 7 && again.bytes[0] == 0);
	refuse_at = 0;
	CHECK(at > 5 && size == text.size && same_text(text, again));
	for (at = 1; refuse(at), pidtab_load(&other, text.bytes, text.size, &fault) == PIDTAB_NO_MEMORY; at++) {
		CHECK(fault_is(fault, 0, 0) && other.at == NULL && !other.is_open && !other.in_use);
		fault = UNTOLD;
	}
	refuse_at = 0;
	CHECK(at > 20 && other.is_open && same_tables(&table, &other));
	/* A text that is refused is refused as soon as there is memory to see why. */
	for (at = 1, pidtab_close(&other); refuse(at), pidtab_load(&other, text.bytes, text.size - 1, &fault) == PIDTAB_NO_MEMORY; at++)
		CHECK(fault_is(fault, 0, 0));
	refuse_at = 0;
	CHECK(at > 1 && fault.kind == PIDTAB_FAULT_BAD_LINE && !other.is_open);
	pidtab_close(&table);
	free(text.bytes);
	free(again.bytes);
}

int main(void)
{
	each_status();
	great_ids();
	for (uint64_t seed = 1; seed <= 8; seed++)
		calls_go_on(seed, seed % 2 ? 301 : 32768, 2000, 20 + (int)seed);
	calls_go_on(9, 32768, 600, 1);
	cut_at_each_byte();
	changed_at_each_byte();
	want_of_memory();
	return 0;
}

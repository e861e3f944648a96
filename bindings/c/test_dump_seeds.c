/* 2,000 tables that seeded calls leave: each is saved, loaded and saved again, and answers 200 calls more as the one that never was saved.
 * Texts of them with a byte changed are refused, or are those of other tables. */
#include "test_dump.h"

#define TABLES 2000
#define CALLS_BEHIND 200
#define BYTES_CHANGED 8

/* What the texts had in them, each counted once a text; and what became of texts with a changed byte and a right digest. */
static struct {
	int zombies, killed, fallen, limits, executed, subreapers, bare_groups, deep, refused_calls, made_calls, loaded, refused;
} seen;

/* Calls by which tables grow: forks more than ends, and groups, cgroups and namespaces that come and go. */
static const uint32_t often[] = {
	PIDTAB_FORK, PIDTAB_FORK, PIDTAB_FORK, PIDTAB_FORK, PIDTAB_FORK, PIDTAB_FORK, PIDTAB_EXEC, PIDTAB_EXIT, PIDTAB_EXIT, PIDTAB_WAIT,
	PIDTAB_SETPGID, PIDTAB_SETPGID, PIDTAB_SETSID, PIDTAB_MK, PIDTAB_LIMIT, PIDTAB_MOVE, PIDTAB_JOIN, PIDTAB_SUBREAPER,
};

/* A call on a table that has some so many tasks. */
static struct pidtab_call next_call(uint64_t *seed, uint32_t tasks)
{
	struct pidtab_call call = { .operation = often[drawn(seed, sizeof often / sizeof *often)], .caller = drawn(seed, tasks) + 1 };

	call.number = call.operation == PIDTAB_JOIN ? drawn(seed, tasks) + 1 : drawn(seed, 6);
	call.choice = drawn(seed, 5) == 0;
	if (call.operation == PIDTAB_LIMIT)
		call.choice = drawn(seed, 3) > 0;
	call.pid = (int32_t)(drawn(seed, 2) ? 0 : drawn(seed, tasks));
	call.pgid = (int32_t)(drawn(seed, 2) ? 0 : drawn(seed, tasks));
	call.id = drawn(seed, 2) ? 0 : drawn(seed, 200);
	return call;
}

/* Makes the same call on one table or on both: the replies are the same. */
static void make_alike(struct pidtab *table, struct pidtab *other, struct pidtab_call call)
{
	struct pidtab_reply one, two;
	uint32_t status = pidtab_call(table, &call, &one);

	CHECK(status == PIDTAB_DONE || status == PIDTAB_OUT_OF_RANGE);
	if (status == PIDTAB_DONE)
		*(one.kind == PIDTAB_REFUSED ? &seen.refused_calls : &seen.made_calls) += 1;
	if (other) {
		CHECK(pidtab_call(other, &call, &two) == status);
		CHECK(status != PIDTAB_DONE || same_reply(&one, &two));
	}
}

static struct text listed(struct pidtab *table)
{
	struct text text = { NULL, 0 };
	char none[1];
	size_t size = 0;

	CHECK(pidtab_list(table, none, 0, &text.size) == PIDTAB_NO_ROOM);
	text.bytes = malloc(text.size);
	CHECK(text.bytes && pidtab_list(table, text.bytes, text.size, &size) == PIDTAB_DONE && size == text.size);
	return text;
}

static void check_same(struct pidtab *one, struct pidtab *other)
{
	struct text a = listed(one), b = listed(other);

	CHECK(same_tables(one, other) && same_text(a, b));
	free(a.bytes);
	free(b.bytes);
}

/* Whether the word stands in the text. */
static bool has(struct text text, const char *word)
{
	return memmem(text.bytes, text.size, word, strlen(word)) != NULL;
}

/* Whether a task's group has no line of its own: its leader is gone. */
static bool has_bare_group(struct text text)
{
	const char *end = text.bytes + text.size, *at = text.bytes;
	char line[64];

	while ((at = memmem(at, (size_t)(end - at), " group ", 7)) != NULL) {
		int length = (int)strcspn(at += 7, " ");
		snprintf(line, sizeof line, "\ntask %.*s ", length, at);
		if (length < 50 && !has(text, line))
			return true;
	}
	return false;
}

static void count_parts(struct text text)
{
	seen.zombies += has(text, " exit ");
	seen.killed += has(text, " killed");
	seen.fallen += has(text, " fallen\n");
	seen.limits += has(text, " limit 0\n") || has(text, " limit 1\n") || has(text, " limit 2\n") || has(text, " limit 3\n");
	seen.executed += has(text, " executed");
	seen.subreapers += has(text, " subreaper");
	seen.bare_groups += has_bare_group(text);
	seen.deep += has(text, ",1@");
}

/* Loads a text that is changed: where there is a table of it, that has just this text. */
static bool loads(struct text text)
{
	struct pidtab table = PIDTAB_INIT;
	struct pidtab_fault fault = { 0, 0 };
	uint32_t status = pidtab_load(&table, text.bytes, text.size, &fault);

	if (status != PIDTAB_DONE) {
		CHECK(status == PIDTAB_BAD_TEXT && fault.line >= 1 && fault.kind >= 1 && fault.kind <= 12 && !table.is_open);
		return false;
	}
	struct text again = dumped(&table);
	CHECK(same_text(text, again));
	free(again.bytes);
	pidtab_close(&table);
	return true;
}

/* Some bytes of the text are changed, one at a time: under the old digest there is no table of it. */
static void change_bytes(struct text text, uint64_t *seed)
{
	for (int i = 0; i < BYTES_CHANGED; i++) {
		uint32_t at = drawn(seed, (uint32_t)text.size);
		char was = text.bytes[at];

		text.bytes[at] = i % 2 ? (char)('0' + drawn(seed, 10)) : (char)(was ^ (1 << drawn(seed, 8)));
		if (text.bytes[at] != was) {
			CHECK(!loads(text));
			if (at < text.size - 76) {
				struct text other = sealed(text.bytes, text.size - 76);
				*(loads(other) ? &seen.loaded : &seen.refused) += 1;
				free(other.bytes);
			}
		}
		text.bytes[at] = was;
	}
}

static void try_table(uint64_t seed)
{
	static const uint32_t bounds[] = { 301, 302, 32768, 4194304 };
	struct pidtab never = PIDTAB_INIT, table = PIDTAB_INIT;
	struct pidtab_fault fault = { 77, 77 };

	CHECK(pidtab_open(&never, bounds[seed % 4]) == PIDTAB_DONE);
	uint32_t calls = drawn(&seed, 400);
	for (uint32_t i = 0; i < calls; i++)
		make_alike(&never, NULL, next_call(&seed, i / 4 + 2));
	struct text text = dumped(&never);
	count_parts(text);
	CHECK(pidtab_load(&table, text.bytes, text.size, &fault) == PIDTAB_DONE && fault.line == 0 && fault.kind == 0);
	check_same(&table, &never);
	for (int i = 0; i < CALLS_BEHIND; i++)
		make_alike(&table, &never, next_call(&seed, calls / 4 + 2));
	check_same(&table, &never);
	change_bytes(text, &seed);
	free(text.bytes);
	pidtab_close(&table);
	pidtab_close(&never);
}

int main(void)
{
	for (uint64_t seed = 1; seed <= TABLES; seed++)
		try_table(seed);
	/* The tables were not all alike. */
	CHECK(seen.zombies > 1000 && seen.killed > 50 && seen.fallen > 500 && seen.limits > 50 && seen.executed > 1000);
	CHECK(seen.subreapers > 500 && seen.bare_groups > 50 && seen.deep > 1000 && seen.made_calls > 100000 && seen.refused_calls > 100000);
	CHECK(seen.loaded > 100 && seen.refused > 5000);
	printf("%d tables: zombies %d, killed %d, fallen %d, limits %d, executed %d, subreapers %d, groups without a leader %d, deep %d; "
	       "calls made %d, refused %d; changed texts loaded %d, refused %d\n",
	       TABLES, seen.zombies, seen.killed, seen.fallen, seen.limits, seen.executed, seen.subreapers, seen.bare_groups, seen.deep,
	       seen.made_calls, seen.refused_calls, seen.loaded, seen.refused);
	return 0;
}
